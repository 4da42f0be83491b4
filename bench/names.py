#!/usr/bin/env python3
"""Whether names can be chosen that make a page dear: instructions by callgrind, over pages with names that a stranger would choose.

Usage: bench/names.py [--million N ..] [--seconds N] [--clock] [--part PART ..] [PROGRAM]   (PROGRAM is crates/hedit/out/hedit unless given)
Valgrind is needed, or with --clock, which measures CPU seconds instead of instructions, nothing else.

Three parts: one tag with as many attributes as fit, under `check`; one style with as many declarations, under `run` with a command
that sets a property of that style; and as many marks, of which a session sets one and takes it out after the other. Each at 1 MB and at
4 MB, in these forms:

- plain: names that are drawn at random, of the same length and number;
- hash: names whose places in a hash table come to lie in its first sixteenth. That is the table that held names before: it has a
  power of two of groups with twelve places, a name begins at the group that the lowest bits of its hash say, and where a group is
  full it goes on to the next, so these names walk over all of the sixteenth;
- sorted, reversed: names in their order, and from the last to the first;
- prefix: names with a common prefix that differ in the last characters only, short ones and long ones.

A form may take 1.5 times as many instructions as the plain page of the same lengths. The status is 1 where one takes more, or
more seconds than are given.
"""
import argparse
import random
import resource
import subprocess
import sys
import tempfile
from collections.abc import Iterable, Iterator
from pathlib import Path

LETTERS = "abcdefghijklmnopqrstuvwxyz"
MASK = 2**64 - 1
START = 0x243F6A8885A308D3
FACTOR = 0x9E3779B97F4A7C15
MOST = 1.5


def joined(a: int, b: int) -> int:
    """The halves of a product of 128 bits, joined by exclusive or."""
    product = a * b
    return (product & MASK) ^ (product >> 64)


def spread(state: int, number: int, width: int) -> int:
    """The state after a number of 1, 4 or 8 bytes."""
    copies = {1: 0x010101, 4: 0x100000001, 8: 1}[width]
    return joined(state ^ (number * copies & MASK), FACTOR ^ 2 * width)


def taken_in(state: int, text: str, width: int) -> int:
    """The state after each character of a text."""
    for character in text:
        state = spread(state, ord(character), width)
    return state


def groups_for(count: int) -> int:
    """The groups of a table that has grown to so many names: nine to a group."""
    groups = 1
    while 9 * groups < count:
        groups *= 2
    return groups


def drawn(rng: random.Random, count: int, length: int) -> list[str]:
    """Names that are drawn at random, each once."""
    names = dict.fromkeys(word(rng, length) for _ in range(count))
    while len(names) < count:
        names[word(rng, length)] = None
    return list(names)


def word(rng: random.Random, length: int) -> str:
    return "".join(rng.choices(LETTERS, k=length))


def colliding(rng: random.Random, count: int, length: int, width: int) -> list[str]:
    """Names whose search begins in the first sixteenth of the table: their length and then each character are taken into the hash, and
    its lowest bits say where."""
    groups = groups_for(count)
    begun = spread(START, length, 8)
    names: dict[str, None] = {}
    while len(names) < count:
        head = word(rng, length - 2)
        state = taken_in(begun, head, width)
        for a in LETTERS:
            further = taken_in(state, a, width)
            for b in LETTERS:
                last = taken_in(further, b, width)
                if (last ^ last >> 32) & (groups - 1) < groups // 16:
                    names[head + a + b] = None
    return list(names)[:count]


def counted(count: int, length: int, fill: str = "a") -> list[str]:
    """Names in their order: letters for the digits of a number, after as many of one letter as are needed."""
    names = []
    for number in range(count):
        digits = ""
        while number or not digits:
            number, digit = divmod(number, 26)
            digits = LETTERS[digit] + digits
        names.append(digits.rjust(length, fill))
    return names


def forms(rng: random.Random, size: int, extra: int, width: int) -> Iterator[tuple[str, int, list[str], int]]:
    """Each form with its names, after the length of its names. `extra` is what separates two names."""
    short, long = 8, 200
    count, few = size // (short + extra), size // (long + extra)
    yield "hash", short, colliding(rng, count, short, width), count
    order = counted(count, short)
    yield "sorted", short, order, count
    yield "reversed", short, order[::-1], count
    shuffled = order[:]
    rng.shuffle(shuffled)
    yield "prefix, short", short, shuffled, count
    alike = counted(few, long)
    rng.shuffle(alike)
    yield "prefix, long", long, alike, few


def attributes(names: Iterable[str]) -> str:
    """A page of one tag with these attributes, as the input of `check`."""
    return f'<div contenteditable="true"><p {" ".join(names)}>foobar</p></div>'


def style(names: Iterable[str]) -> str:
    """A session that takes bold out of a style with these declarations."""
    declared = ";".join(name + ":1" for name in names)
    page = f'<div contenteditable="true"><p><span style="{declared};font-weight:bold">foobar</span></p></div>'
    acts = ["select 0/0/0/0:0 0/0/0/0:6", "exec styleWithCSS true", "exec bold"]
    return "\n".join(["page <<END", page, "END", *acts, ""])


def marks(names: Iterable[str]) -> str:
    """A session that sets a mark of each name and takes it out again, so that one is there at a time."""
    acts = [f"mark {name} 0:0 0:0\nunmark {name}" for name in names]
    return "\n".join(["page <<END", '<div contenteditable="true"><p>foobar</p></div>', "END", *acts, ""])


def measured(command: list[str | Path], text: str, seconds: int, work: Path) -> float | None:
    """The CPU seconds that a command takes with this input, or None where it takes longer than is given."""
    (work / "input").write_text(text)
    before = resource.getrusage(resource.RUSAGE_CHILDREN)
    with open(work / "input", "rb") as given, open(work / "output", "wb") as output, open(work / "told", "wb") as told:
        try:
            subprocess.run(command, stdin=given, stdout=output, stderr=told, timeout=seconds)
        except subprocess.TimeoutExpired:
            return None
    after = resource.getrusage(resource.RUSAGE_CHILDREN)
    return after.ru_utime - before.ru_utime


def cost(program: Path, act: str, text: str, given: argparse.Namespace, work: Path) -> float | None:
    """What a page costs, or None where it takes longer than is given."""
    if given.clock:
        return measured([program, act], text, given.seconds, work)
    callgrind: list[str | Path] = ["valgrind", "--tool=callgrind", "--callgrind-out-file=/dev/null", program, act]
    if measured(callgrind, text, given.seconds, work) is None:
        return None
    for line in (work / "told").read_text(errors="replace").splitlines():
        if "Collected" in line:
            return int(line.split()[-1])
    sys.exit(f"valgrind counted nothing of {program} {act}")


def shown(taken: float | None) -> str:
    if taken is None:
        return "too long"
    return f"{taken:.2f} seconds" if isinstance(taken, float) else f"{taken} instructions"


def main() -> int:
    parser = argparse.ArgumentParser(description=__doc__, formatter_class=argparse.RawDescriptionHelpFormatter)
    parser.add_argument("--million", type=float, nargs="+", default=[1, 4], help="the millions of bytes of a page")
    parser.add_argument("--seconds", type=int, default=600, help="the most that one page may take")
    parser.add_argument("--clock", action="store_true", help="take seconds of processor in place of instructions")
    parser.add_argument("--part", nargs="+", choices=["attributes", "declarations", "marks"], help="these parts alone")
    parser.add_argument("program", nargs="?", default=Path(__file__).resolve().parent.parent / "crates/hedit/out/hedit")
    given = parser.parse_args()
    rng = random.Random(1)
    missed = False
    parts = [
        ("attributes", "check", attributes, 1, 1),
        ("declarations", "run", style, 3, 4),
        ("marks", "run", marks, 30, 1),
    ]
    with tempfile.TemporaryDirectory() as folder:
        for part, act, written, extra, width in parts:
            if given.part and part not in given.part:
                continue
            for millions in given.million:
                plain = {}
                for form, length, names, count in forms(rng, int(millions * 1_000_000), extra, width):
                    if length not in plain:
                        text = written(drawn(rng, count, length))
                        plain[length] = cost(given.program, act, text, given, Path(folder))
                        print(
                            f"{part}, {millions:g} MB, {count} names of {length} characters: {shown(plain[length])}",
                            flush=True,
                        )
                    taken = cost(given.program, act, written(names), given, Path(folder))
                    usual = plain[length]
                    if taken is None or usual is None:
                        told, bad = f"more than {given.seconds} seconds", True
                    else:
                        told, bad = f"{taken / usual:.2f} times as many", taken > MOST * usual
                    missed |= bad
                    print(f"  {form:14} {told}, at most {MOST}{'  MISSED' if bad else ''}", flush=True)
    return 1 if missed else 0


if __name__ == "__main__":
    sys.exit(main())
