#!/usr/bin/env python3
"""Tries the wrong bodies of bench/bugs, which were written by hand: bench/bugs.py [--list] [CRATE | CRATE/BODY ..]

Without names it tries all. Each is a must-fail edit that CI doesn't try. In a copy of the crates they take the place of the edits of
their crate, and `rt must-fail` tries them there. It prints a line for each, which begins with what came of it:

    refused      the prover refuses it, as it should
    at a limit   the prover gives up at one of its limits, which says less of the contract
    let through  the crate is proved with it: the contract lacks something, or the body means the same as before
    bad          it can't be applied, or doesn't compile: mend it
    not tried    its check didn't end

The status is 1 where one is let through, bad or not tried. bench/mutants.tsv says what each violates. It takes as long as the proofs
of the crates, and up to a minute for each body.

With `--list` it tries none, and prints them, each with the public call that it makes wrong where its first line names one. The status is 1
where one can't be applied, since a line that it changes isn't in its file exactly once.
"""
import argparse
import re
import shutil
import subprocess
import sys
from collections import Counter
from pathlib import Path
from tempfile import TemporaryDirectory

ROOT = Path(__file__).resolve().parent.parent
BUGS = ROOT / "bench" / "bugs"
TRIED = re.compile(r"(?:rt: )?must-fail (\w+/\w+)\.edit: (.*)")
# What rt says of an edit, and the word for it here. The first that fits counts.
WORDS = {
    "refused, as it must be (only by a limit": "at a limit",
    "refused, as it must be": "refused",
    "NOT REFUSED": "let through",
    "BAD EDIT": "bad",
    "NOT TRIED": "not tried",
}


def bodies(names: list[str]) -> dict[str, list[Path]]:
    """The files that the names stand for, by crate."""
    found: dict[str, list[Path]] = {}
    for name in names or sorted(it.name for it in BUGS.iterdir()):
        crate, _, body = name.partition("/")
        files = sorted((BUGS / crate).glob(f"{body or '*'}.edit"))
        if not files:
            sys.exit(f"bench/bugs.py: bench/bugs has no wrong body {name}")
        found.setdefault(crate, []).extend(files)
    return found


def copy_with(found: dict[str, list[Path]], room: str) -> None:
    """Copies the crates to a folder, with these bodies in place of the edits of their crates."""
    for name in ("crates.txt", "HANDLES"):
        shutil.copy(ROOT / name, room)
    shutil.copytree(ROOT / "crates", f"{room}/crates", ignore=shutil.ignore_patterns("out"))
    for crate, files in found.items():
        folder = Path(room, "crates", crate, "must-fail")
        shutil.rmtree(folder, ignore_errors=True)
        folder.mkdir()
        for file in files:
            shutil.copy(file, folder)


def call_of(file: Path) -> str:
    """The public call that a body makes wrong, or nothing where its first line names none."""
    first = file.read_text(encoding="utf-8").splitlines()[0]
    return first.removeprefix("call: ") if first.startswith("call: ") else ""


def applies(file: Path) -> bool:
    """Whether each line that a body changes is in its file exactly once, after the changes before it."""
    text = ""
    for line in file.read_text(encoding="utf-8").splitlines():
        word, _, rest = line.partition(": ")
        if word == "file":
            text = (ROOT / "crates" / file.parent.name / rest).read_text(encoding="utf-8")
        elif word == "old":
            old = rest
        elif line.startswith("new:"):
            if text.count(old) != 1:
                return False
            text = text.replace(old, rest)
    return True


def list_all(found: dict[str, list[Path]]) -> int:
    """Prints the bodies. The status is 1 where one can't be applied."""
    lost = 0
    for crate, files in found.items():
        for file in files:
            fits = applies(file)
            lost += not fits
            print(f"{crate}/{file.stem} {call_of(file)}".rstrip() + ("" if fits else " (can't be applied)"))
    return 1 if lost else 0


def verdict(text: str) -> str:
    """The word for what rt says of an edit."""
    return next(word for said, word in WORDS.items() if text.startswith(said))


def main() -> int:
    words = argparse.ArgumentParser(description=__doc__, formatter_class=argparse.RawDescriptionHelpFormatter)
    words.add_argument("--list", action="store_true", help="print the bodies and the calls that they make wrong")
    words.add_argument("names", nargs="*", metavar="CRATE | CRATE/BODY")
    given = words.parse_args()
    found = bodies(given.names)
    return list_all(found) if given.list else try_all(found)


def try_all(found: dict[str, list[Path]]) -> int:
    """Tries the bodies, and prints what came of each. The status is 1 where one isn't refused."""
    told: Counter[str] = Counter()
    with TemporaryDirectory() as room:
        copy_with(found, room)
        words = ["rt", "must-fail", *found]
        with subprocess.Popen(words, cwd=room, stdout=subprocess.PIPE, stderr=subprocess.STDOUT, text=True) as ran:
            for line in ran.stdout or ():
                if tried := TRIED.match(line):
                    word = verdict(tried[2])
                    told[word] += 1
                    print(f"{word:<12} {tried[1]}: {tried[2]}", flush=True)
                else:
                    print(line, end="", flush=True)
    missing = sum(map(len, found.values())) - told.total()
    print(
        ", ".join(f"{count} {word}" for word, count in told.items()) + (f", {missing} not told of" if missing else "")
    )
    return 1 if missing or set(told) - {"refused", "at a limit"} else 0


if __name__ == "__main__":
    sys.exit(main())
