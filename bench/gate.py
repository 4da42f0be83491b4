#!/usr/bin/env python3
"""Prints what the proofs of CI cost: bench/gate.py [WORD..]

Runs `rt ci` with a check on each processor, as `.ci/run` does, and prints for each crate the CPU seconds that its
proofs, its tests and its must-fail edits took, the most memory that one of its checks held, and the sums; then the longest
chain of proofs wall-clock, and the minutes from the start to the end. The words are handed on to `rt ci`.

The seconds are read from /proc, of each process of the prover and of those that it started, five times a second: what
one of them took after it was last read is left out.
"""
import contextlib
import os
import subprocess
import sys
import time
from collections import Counter, defaultdict
from collections.abc import Iterable
from dataclasses import dataclass
from pathlib import Path

ROOT = Path(__file__).resolve().parent.parent
TICKS = os.sysconf("SC_CLK_TCK")
KINDS = ("proofs", "tests", "edits")


@dataclass
class Check:
    """A process of the prover: what it checks, its CPU seconds, its most KiB of memory, and when it ran."""

    crate: str
    kind: str
    began: float
    ended: float = 0
    seconds: float = 0
    memory: int = 0


def kind_of(words: list[str], folder: str) -> str:
    """What a process of the prover does: an edit is checked in a copy of its crate."""
    if Path(folder).name.startswith("rt-edit-"):
        return "edits"
    return "tests" if "--test" in words else "proofs"


def read_processes() -> dict[int, tuple[int, float]]:
    """By its number, of each process: the number of the one that started it, and its seconds with those of ended children."""
    found = {}
    for folder in Path("/proc").glob("[0-9]*"):
        with contextlib.suppress(OSError):
            fields = (folder / "stat").read_text().rpartition(")")[2].split()
            found[int(folder.name)] = (int(fields[1]), sum(int(field) for field in fields[11:15]) / TICKS)
    return found


def read_check(number: int, now: float) -> Check | None:
    """The check that a process of the prover makes, or None for any other process."""
    folder = Path("/proc", str(number))
    try:
        words = (folder / "cmdline").read_text(errors="replace").split("\0")
        place = os.readlink(folder / "cwd")
    except OSError:
        return None
    return (
        Check(words[words.index("--crate-name") + 1], kind_of(words, place), now) if "--crate-name" in words else None
    )


def read_memory(number: int) -> int:
    """The most KiB that a process has held."""
    with contextlib.suppress(OSError):
        for line in Path("/proc", str(number), "status").read_text().splitlines():
            if line.startswith("VmHWM"):
                return int(line.split()[1])
    return 0


def read_provers(gate: int, checks: dict[int, Check], now: float) -> None:
    """Notes what each process of the prover took so far, with its children."""
    running = read_processes()
    children = defaultdict(list)
    for number, (parent, _) in running.items():
        children[parent].append(number)

    def seconds_below(number: int) -> float:
        return running[number][1] + sum(seconds_below(child) for child in children[number])

    for number in children[gate]:
        check = checks.get(number) or read_check(number, now)
        if check:
            checks[number] = check
            check.ended = now
            check.seconds = max(check.seconds, seconds_below(number))
            check.memory = max(check.memory, read_memory(number))


def print_table(checks: Iterable[Check]) -> None:
    """Prints the seconds of each crate, the costliest first, and their sums."""
    sums: dict[tuple[str, str], float] = defaultdict(float)
    memory: Counter[str] = Counter()
    for check in checks:
        sums[check.crate, check.kind] += check.seconds
        memory[check.crate] = max(memory[check.crate], check.memory)
    crates = sorted(memory, key=lambda it: -sum(sums[it, kind] for kind in KINDS))
    rows = [(crate, [sums[crate, kind] for kind in KINDS]) for crate in crates]
    rows.append(("all", [sum(column) for column in zip(*(seconds for _, seconds in rows))]))
    memory["all"] = max(memory.values(), default=0)
    print(f"\n{'crate':20}{'proofs':>9}{'tests':>9}{'edits':>9}{'all':>9}{'MiB':>9}")
    for crate, seconds in rows:
        print(f"{crate:20}" + "".join(f"{it:9.0f}" for it in (*seconds, sum(seconds), memory[crate] / 1024)))


def read_crates() -> dict[str, list[str]]:
    """What crates.txt says: for each crate those that it depends on."""
    rows = (line.partition("#")[0].partition(":") for line in (ROOT / "crates.txt").read_text().splitlines())
    return {name.split()[0]: below.split() for name, colon, below in rows if colon}


def print_chain(checks: Iterable[Check]) -> None:
    """Prints the chain of proofs that ended last: each crate after the one that it waited for."""
    proofs, below, chain = {it.crate: it for it in checks if it.kind == "proofs"}, read_crates(), []

    def last(crates: Iterable[str]) -> str | None:
        return max(((proofs[it].ended, it) for it in crates if it in proofs), default=(0, None))[1]

    at = last(proofs)
    while at:
        chain.append(f"{at} {proofs[at].began / 60:.1f} to {proofs[at].ended / 60:.1f}")
        at = last(below[at])
    print("\nthe chain of proofs that ended last, in minutes from the start: " + ", ".join(reversed(chain)))


def main() -> int:
    checks: dict[int, Check] = {}
    began = time.monotonic()
    jobs = {"RT_JOBS": str(os.cpu_count()), **os.environ}
    gate = subprocess.Popen(["rt", "ci", *sys.argv[1:]], cwd=ROOT, env=jobs)
    while gate.poll() is None:
        read_provers(gate.pid, checks, time.monotonic() - began)
        time.sleep(0.2)
    print_table(checks.values())
    print_chain(checks.values())
    print(f"\n{(time.monotonic() - began) / 60:.1f} minutes from the start to the end")
    return gate.returncode


if __name__ == "__main__":
    sys.exit(main())
