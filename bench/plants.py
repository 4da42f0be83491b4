#!/usr/bin/env python3
"""Compares the mechanical mutants that contracts accept with bench/plants.tsv: bench/plants.py [--list] [--minutes N] [CRATE ..]

Without names it tries every crate of bench/planted.tsv, which has the counts of the last run. In each crate it runs `rt plant`, which replaces the
bodies of public functions and prints those that their contracts accept. Each needs a row in bench/plants.tsv, with the reason why it may stay. A
theorem, a function whose own body is empty, gets no mutants and needs no row. The status is 1 if a survivor has no row, or if the mutant of a row is
killed by now. `rt plant` proves the crate first, so this takes as long as the crate's proof, and a few seconds for each function.

With `--list` it tries none, and prints the calls of which no mutant could be judged, with the reason and the wrong bodies by hand that test each.
"""
import argparse
import re
import subprocess
import sys
from collections.abc import Iterator
from pathlib import Path

from bugs import BUGS, call_of

ROOT = Path(__file__).resolve().parent.parent
SURVIVORS = ROOT / "bench" / "plants.tsv"
TRIED = ROOT / "bench" / "planted.tsv"
MUTANTS = ROOT / "bench" / "mutants.tsv"
LINE = re.compile(r"(proves|no-ensures|untested)\s+(src/\S+):(\d+) (.*)")
OWN = re.compile(r"<.* as (\w+)(?:<.*>)?>(::\w+)")
REASON = re.compile(r"  \((?:and in \d+ more impls|[^(){}]*)\)$")


def read_rows(path: Path) -> list[list[str]]:
    """The rows of a table of cells that are separated by tabs."""
    lines = path.read_text(encoding="utf-8").splitlines()
    return [line.split("\t") for line in lines if line and not line.startswith("#")]


def read_known() -> dict[str, set[tuple[str, str]]]:
    """The survivors that have a reason, for each crate that was tried: the calls with the bodies that they may have."""
    known: dict[str, set[tuple[str, str]]] = {row[0]: set() for row in read_rows(TRIED)}
    for crate, call, body, _ in read_rows(SURVIVORS):
        known.setdefault(crate, set()).add((call, body))
    return known


def is_law(file: Path, line: int) -> bool:
    """Whether the function at this line has an empty body."""
    rest = map(str.strip, file.read_text(encoding="utf-8").splitlines()[line:])
    return next((it for it in rest if it.startswith("{")), "") == "{}"


def survivors(crate: str, minutes: int) -> set[tuple[str, str]]:
    """The wrong bodies that the crate's contracts let through: the call, and the body or what else is said of it."""
    words = ["rt", "plant", "--max", "100000", "--minutes", str(minutes)]
    ran = subprocess.run(words, cwd=ROOT / "crates" / crate, capture_output=True, text=True, check=False)
    print(ran.stdout, end="")
    if ran.returncode or f"plants crate={crate} " not in ran.stdout:
        sys.exit(f"bench/plants.py: {crate} could not be planted: {ran.stderr.strip()[-400:]}")
    found = set()
    for kind, file, line, text in (match.groups() for match in map(LINE.fullmatch, ran.stdout.splitlines()) if match):
        call, _, body = REASON.sub("", text).partition(": ")
        if kind != "untested" or not is_law(ROOT / "crates" / crate / file, int(line)):
            found.add((call.removesuffix("()"), body if kind == "proves" else kind))
    return found


def plain(call: str) -> str:
    """The call as wrong bodies name it: without its modules, and by the trait of an impl."""
    return OWN.sub(r"\1\2", re.sub(r"^(?:[a-z_]+::)+", "", call))


def bodies_of(crate: str) -> Iterator[tuple[str, str]]:
    """The wrong bodies by hand that test calls of a crate: the call and the body, by the bodies' files and by bench/mutants.tsv."""
    for file in sorted((BUGS / crate).glob("*.edit")):
        if call := call_of(file):
            yield call, f"{crate}/{file.stem}"
    for body, calls, *_ in read_rows(MUTANTS):
        for words in map(str.split, calls.split(";")):
            if words and words[0] == crate:
                yield words[1], body


def list_untested(crates: list[str]) -> int:
    """Prints the calls of which no mutant could be judged."""
    counts = {row[0]: row for row in read_rows(TRIED)}
    for crate in crates or counts:
        calls = [row for row in read_rows(SURVIVORS) if row[0] == crate and row[2] == "untested"]
        if calls:
            print(f"{crate}: {len(calls)} calls untested, {counts[crate][5]} of {counts[crate][2]} mutants not judged")
        by_hand = list(bodies_of(crate))
        for _, call, _, reason in calls:
            bodies = sorted({body for tested, body in by_hand if tested == plain(call)})
            print(f"  {call}: {reason} By hand: {', '.join(bodies) or 'none'}.")
    return 0


def main() -> int:
    words = argparse.ArgumentParser(description=__doc__, formatter_class=argparse.RawDescriptionHelpFormatter)
    words.add_argument("--list", action="store_true", help="print the calls of which no mutant could be judged")
    words.add_argument("--minutes", type=int, default=120, help="at most this many minutes for each crate")
    words.add_argument("crates", nargs="*", metavar="CRATE")
    given = words.parse_args()
    if given.list:
        return list_untested(given.crates)
    rows, wrong = read_known(), 0
    for crate in given.crates or rows:
        found, known = survivors(crate, given.minutes), rows.get(crate, set())
        for call, body in sorted(found - known):
            print(f"{crate}: {call} may have another body, and bench/plants.tsv doesn't say why: {body}")
        for call, body in sorted(known - found):
            print(f"{crate}: {call} has a row in bench/plants.tsv for a body that is killed, or is gone: {body}")
        wrong += len(found ^ known)
    print(f"{wrong} bodies without a row, and rows without a body")
    return bool(wrong)


if __name__ == "__main__":
    sys.exit(main())
