#!/usr/bin/env python3
"""Lists short functions that are called from one place: bench/called_once.py [--lines N] [--totals] [CRATE ..]

Without names it reads the crates of algorithms: those that crates.txt lists under "What commands share" and "The commands". A function is short if
its body has fewer than four lines, or N. Its calls are sought in the code of all crates but those of the last layer, which test and measure. A method
counts as called wherever a method of its name is called; methods of traits are left out. A function that is passed as a value isn't seen as called.

It prints a line for each such function, with its lines and its caller, and then the counts of each crate. `--totals` prints the counts alone.
"""
import argparse
import re
from collections import Counter, defaultdict
from collections.abc import Iterator
from dataclasses import dataclass, field
from pathlib import Path

ROOT = Path(__file__).resolve().parent.parent
ALGORITHMS = ("What commands share", "The commands")
TESTS = "Tests, measures and an example"
FUNCTION = re.compile(r"( *)(?:pub(?:\(\w+\))? )?(?:const )?fn (\w+)")
OWNER = re.compile(r"(?:pub )?(?:impl(?:<.*?>)? (?P<trait>[^{]* for )?(?P<type>\w+)|trait (?P<name>\w+))")
IMPORT = re.compile(r"^(?:pub(?:\(\w+\))? )?use ([^;]+);", re.M)
# Comments, texts, characters, attributes and imports of definitions: none of them calls.
SILENT = re.compile(r"//[^\n]*|b?\"(?:\\.|[^\"\\])*\"|b?'(?:\\.|[^'\\])'|#!?\[[^\]\n]*\]|^ *ghost [^;]*;", re.M)
CALL = re.compile(r"(?P<dot>\.)?(?<!\w)(?P<path>(?:\w+::)*[a-z_]\w*)(?:::<[^>]*>)?\(")
# A path of names, as in an import; and the crate, the path in it and the name of a function.
Names = tuple[str, ...]
Key = tuple[str, Names, str]


@dataclass
class Function:
    """A function: its name, its type if it is a method, and the lines of its body."""

    name: str
    owner: str
    is_of_trait: bool
    body: list[str] = field(default_factory=list)


@dataclass
class Module:
    """A source file: its crate, its place there, what it imports under which name, and its functions."""

    crate: str
    place: Names
    imports: dict[str, Names]
    functions: list[Function]


def layers() -> dict[str, list[str]]:
    """The crates of crates.txt under each heading."""
    found: dict[str, list[str]] = defaultdict(list)
    heading = ""
    for line in (ROOT / "crates.txt").read_text().splitlines():
        if line.startswith("# "):
            heading = line[2:]
        elif ":" in line:
            found[heading].append(line.split(":")[0].split()[0])
    return found


def imported(tree: str, start: Names = ()) -> Iterator[tuple[str, Names]]:
    """The names that the tree of a `use` brings in, each with its path."""
    tree = tree.strip()
    head, brace, rest = tree.partition("{")
    if brace:
        start += tuple(filter(None, head.strip().split("::")))
        for part in re.findall(r"[^,{]*\{[^{}]*\}|[^,{}]+", rest.rstrip("} \n")):
            yield from imported(part, start)
    elif tree:
        path, _, name = tree.partition(" as ")
        names = start + tuple(path.split("::"))
        names = names[:-1] if names[-1] == "self" else names
        yield name or names[-1], names


def read_functions(lines: list[str]) -> list[Function]:
    """The functions of a source file, whose layout is that of `rt fmt`."""
    functions: list[Function] = []
    owner: re.Match[str] | None = None
    indent, is_inside, is_body = "", False, False
    for line in lines:
        if not is_inside:
            owner = OWNER.match(line) or (None if line.startswith("}") else owner)
            found = FUNCTION.match(line)
            if not found:
                continue
            indent, name = found.groups()
            kind = (owner["type"] or owner["name"]) if owner and indent else ""
            functions.append(Function(name, kind, bool(kind and owner and (owner["trait"] or owner["name"]))))
            is_inside, is_body = True, False
        if is_body and line == indent + "}":
            is_inside = False
        elif is_body and line.strip():
            functions[-1].body.append(line)
        elif not is_body:
            is_inside = not line.endswith((";", "{}"))
            is_body = line.endswith("{") and not line.startswith(indent + " ")
    return functions


def read_module(crate: str, path: Path) -> Module:
    place = path.relative_to(ROOT / "crates" / crate / "src").with_suffix("").parts
    text = SILENT.sub("", path.read_text())
    imports = dict(pair for tree in IMPORT.findall(text) for pair in imported(tree))
    return Module(crate, () if place in (("lib",), ("main",)) else place, imports, read_functions(text.splitlines()))


class Sources:
    """The modules of crates, and which function a name means in one of them."""

    def __init__(self, crates: list[str]) -> None:
        paths = [(crate, path) for crate in crates for path in sorted((ROOT / "crates" / crate / "src").rglob("*.rt"))]
        modules = [read_module(crate, path) for crate, path in paths if "tests" not in path.with_suffix("").parts]
        self.modules = {(module.crate, module.place): module for module in modules}

    def resolve(self, module: Module, names: Names, depth: int = 0) -> Key | None:
        """The function without a type that a path means in a module."""
        first, rest = names[0], names[1:]
        if depth > 20:
            return None
        if not rest and any(function.name == first and not function.owner for function in module.functions):
            return module.crate, module.place, first
        if first in module.imports:
            return self.resolve_import(module, module.imports[first] + rest, depth)
        return self.resolve_import(module, names, depth) if rest else None

    def resolve_import(self, module: Module, names: Names, depth: int) -> Key | None:
        """The function that a path means which begins with a crate or a module."""
        first, rest = names[0], names[1:]
        nearest = {
            "crate": (module.crate, ()),
            "super": (module.crate, module.place[:-1]),
            "self": (module.crate, module.place),
        }
        inner = (module.crate, (*module.place, first))
        target = nearest.get(first) or (inner if inner in self.modules else (first, ()))
        while rest and (target[0], (*target[1], rest[0])) in self.modules:
            target, rest = (target[0], (*target[1], rest[0])), rest[1:]
        found = self.modules.get(target)
        return self.resolve(found, rest, depth + 1) if found and rest else None

    def functions(self, crate: str) -> Iterator[tuple[Names, Function]]:
        """The functions of a crate, each with its module."""
        for module in self.modules.values():
            if module.crate == crate:
                yield from ((module.place, function) for function in module.functions)

    def calls(self) -> Iterator[tuple[Key | str, str]]:
        """Each call: the function, or the name alone if it is a method, and the caller's name."""
        for module in self.modules.values():
            for caller in module.functions:
                for found in CALL.finditer("\n".join(caller.body)):
                    names = tuple(found["path"].split("::"))
                    if found["dot"] or (len(names) > 1 and names[-2][0].isupper()):
                        yield names[-1], caller.name
                        continue
                    key = self.resolve(module, names)
                    if key:
                        yield key, caller.name


def main() -> None:
    words = argparse.ArgumentParser(description=__doc__, formatter_class=argparse.RawDescriptionHelpFormatter)
    words.add_argument("--lines", type=int, default=4, help="a body with fewer lines is short")
    words.add_argument("--totals", action="store_true", help="print the counts alone")
    words.add_argument("crates", nargs="*", metavar="CRATE")
    given = words.parse_args()
    crates = layers()
    sources = Sources([crate for layer, names in crates.items() if layer != TESTS for crate in names])
    callers: dict[Key | str, list[str]] = defaultdict(list)
    for key, caller in sources.calls():
        callers[key].append(caller)
    counts: dict[str, Counter[str]] = {}
    for crate in given.crates or [crate for layer in ALGORITHMS for crate in crates[layer]]:
        counts[crate] = Counter()
        for place, function in sources.functions(crate):
            known = callers[function.name if function.owner else (crate, place, function.name)]
            is_single = len(known) == 1 and not function.is_of_trait
            is_short = is_single and len(function.body) < given.lines
            counts[crate].update({"functions": 1, "called once": is_single, "short": is_short})
            if is_short and not given.totals:
                path = "/".join((crate, "src", *(place or ("lib",))))
                print(f"{path}: {function.name}, {len(function.body)} lines, called by {known[0]}")
    heads = ("functions", "called once", "short")
    print(f"{'crate':20}" + "".join(f"{head:>13}" for head in heads))
    for name, count in [*counts.items(), ("total", sum(counts.values(), Counter[str]()))]:
        print(f"{name:20}" + "".join(f"{count[head]:13}" for head in heads))


if __name__ == "__main__":
    main()
