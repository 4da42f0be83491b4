"""sessions.py [FOLDER..]: runs stored sessions through the library, by default those of tests/sessions.

Each goes through hedit_session_with_words, which has to give what is stored. Those of `run` also go
through an Editor, call by call: the lines that are acts for which it has calls, which the library
has to answer as a session of these lines alone. Beside it a tree follows what each call changed, and
has to come to the same HTML after each."""
import re
import sys
from collections.abc import Callable
from pathlib import Path
from typing import Any

from follow import Tree
from hedit import BadPlace, Editor, HeditError, PageFull, Place, TooDeep, TooManyMarks, session

sys.path.append(str(Path(__file__).resolve().parents[2] / "tests"))
import session_form

FAULTS: dict[type[HeditError], str] = {
    BadPlace: "! 4 bad place",
    TooManyMarks: "! 5 too many marks",
    PageFull: "! 6 full",
    TooDeep: "! 7 deep",
}

ESCAPE = re.compile(r"\\(?:([nt\\])|u\{([0-9A-Fa-f]{1,6})\})")

ESCAPES = {"n": "\n", "t": "\t", "\\": "\\"}

PRINTED = {"\n": "\\n", "\t": "\\t", "\\": "\\\\", '"': '\\"', "\r": "\\r", "\xa0": "\\u{a0}"}

NAME = r"[A-Za-z0-9-]{1,64}"

POINT = r"(\.|\d{1,9}(?:/\d{1,9})*):(\d{1,9})"

LINE = re.compile(
    rf"(?P<select>select {POINT} {POINT})|(?P<unselect>unselect)"
    rf"|(?P<mark>mark ({NAME}) {POINT} {POINT})|(?P<unmark>unmark ({NAME}))"
    rf"|(?P<exec>exec ({NAME})(?: (?P<value>.*))?)"
    rf"|(?P<query>query (enabled|indeterm|state|supported|value) ({NAME}))"
    r"|(?P<undo>undo ([1-9]\d{0,8}))|(?P<redo>redo ([1-9]\d{0,8}))"
    r"|(?P<html>html)|(?P<tree>tree)|(?P<points>points)|(?P<stat>stat)",
    re.ASCII | re.DOTALL,
)


class FollowedEditor(Editor):
    """An editor with a tree that follows what each call changed."""

    def __init__(self, page: str, **options: int) -> None:
        super().__init__(page, **options)
        self.own_tree, self.seen, self.is_followed = Tree(self), self.revision(), True
        # The labels of what the tree has forgotten, which no change may name.
        self.forgotten: set[int] = set()

    def _follow(self) -> None:
        if self.revision() != self.seen:
            self.is_followed &= self.revision() == self.seen + 1
            self.own_tree.follow(self.changes())
            self._forget()
            self.seen = self.revision()
        self.is_followed &= self.own_tree.html() == self.html()

    def _forget(self) -> None:
        held = set(self.own_tree.gone)
        self.own_tree.forget(self)
        self.forgotten |= held - set(self.own_tree.gone)
        self.is_followed &= self.forgotten.isdisjoint(self.own_tree.items)
        self.is_followed &= all(map(self.is_kept, self.own_tree.items))

    def exec(self, *words: Any, **options: Any) -> bool:
        try:
            return super().exec(*words, **options)
        finally:
            self._follow()

    def undo(self) -> bool:
        taken = super().undo()
        self._follow()
        return taken

    def redo(self) -> bool:
        taken = super().redo()
        self._follow()
        return taken


def place(path: str, offset: str) -> Place:
    return [] if path == "." else [int(step) for step in path.split("/")], int(offset)


def value_of(text: str) -> str:
    """A value, whose escapes are \\n, \\t, \\\\ and \\u{h}."""
    return ESCAPE.sub(lambda found: ESCAPES.get(found[1]) or chr(int(found[2], 16)), text)


def is_value(text: str) -> bool:
    """Whether each backslash of the text begins an escape of a value."""
    points = [int(found[2], 16) for found in ESCAPE.finditer(text) if found[2]]
    scalars = all(point < 0xD800 or 0xDFFF < point < 0x110000 for point in points)
    return scalars and "\\" not in ESCAPE.sub("", text)


def words(flag: bool) -> str:
    return "true" if flag else "false"


def turns(turn: Callable[[], bool], word: str, count: int) -> str:
    taken = 0
    while taken < count and turn():
        taken += 1
    return f"{word} {taken}"


def read_line(line: str) -> re.Match[str] | None:
    """The match of a line that an Editor has a call for, and else None."""
    try:
        fits = len(line.encode()) <= 8192
    except UnicodeEncodeError:
        return None
    found = LINE.fullmatch(line) if fits else None
    return found if found and is_value(found["value"] or "") else None


def answer(editor: Editor, found: re.Match[str], denied: list[str]) -> str:
    """What a session answers to a line, by calls of an Editor."""
    act = found.lastgroup or ""
    parts = found.groups()[found.re.groupindex[act] :]
    if act == "select":
        editor.select(place(*parts[:2]), place(*parts[2:4]))
        return "ok\n"
    if act == "unselect":
        editor.unselect()
        return "ok\n"
    if act == "mark":
        editor.mark(parts[0], place(*parts[1:3]), place(*parts[3:5]))
        return "ok\n"
    if act == "unmark":
        return words(editor.unmark(parts[0])) + "\n"
    if act == "exec":
        return words(editor.exec(parts[0], value_of(parts[1] or ""), denied)) + "\n"
    if act == "query":
        reply = getattr(editor, parts[0])(parts[1])
        if parts[0] == "value":
            return "= " + "".join(PRINTED.get(c, c) for c in reply) + "\n"
        return words(reply) + "\n"
    if act in ("undo", "redo"):
        return turns(getattr(editor, act), act, int(parts[0])) + "\n"
    if act == "stat":
        return editor.numbers()
    return {"html": editor.html, "tree": editor.tree, "points": editor.points}[act]()


def reply(editor: Editor, found: re.Match[str], denied: list[str]) -> str:
    try:
        return answer(editor, found, denied)
    except tuple(FAULTS) as error:
        return FAULTS[type(error)] + "\n"


def parts_of(text: str) -> tuple[str, list[str], str, list[str]]:
    """The opening line, the page and the closing line of a session, and its acts, a line each."""
    opening, _, rest = text.partition("\n")
    lines = rest.split("\n")
    end = lines.index(opening.removeprefix("page <<"))
    return opening, lines[:end], lines[end], [line for line in lines[end + 1 :] if line]


def by_calls(text: str, options: dict[str, int], denied: list[str]) -> tuple[str, str, bool]:
    """The transcript of the acts that an Editor has calls for, by these calls, the session that has
    these acts alone, and whether a tree could follow them."""
    opening, page, closing, acts = parts_of(text)
    known = [(line, found) for line in acts if (found := read_line(line))]
    with FollowedEditor("\n".join(page), **options) as editor:
        transcript = "".join(reply(editor, found, denied) for _, found in known)
        is_followed = editor.is_followed
    return transcript, "\n".join([opening, *page, closing, *(line for line, _ in known), ""]), is_followed


def options_of(arguments: tuple[str, ...]) -> tuple[dict[str, int], list[str]] | None:
    """The limits that the words ask for, and the names that they deny; None where they ask for
    something else."""
    if not arguments or arguments[0] != "run":
        return None
    words = " ".join(arguments[1:]).replace("=", " ").split()
    options: dict[str, int] = {}
    denied: list[str] = []
    names = {"--cap": "label_cap", "--undo": "undo_depth"}
    while len(words) > 1:
        if words[0] == "--deny":
            denied = words[1].split(",")
        elif words[0] in names and words[1].isdecimal():
            options[names[words[0]]] = int(words[1])
        else:
            return None
        words = words[2:]
    return None if words else (options, denied)


def main(folders: list[str]) -> int:
    whole, calls, bad = 0, 0, []
    for path in session_form.files(folders):
        stored = session_form.read(path)
        whole += 1
        if session(stored.input, stored.arguments) != (stored.status, stored.reply):
            bad.append(f"{path} as a session")
        options = options_of(stored.arguments)
        if options is None or stored.status != 0:
            continue
        calls += 1
        text = stored.input.decode(errors="surrogateescape")
        transcript, known, is_followed = by_calls(text, *options)
        if session(known, stored.arguments) != (0, transcript.encode()):
            bad.append(f"{path} call by call")
        if not is_followed:
            bad.append(f"{path} followed")
    print(f"hosts: {whole} stored sessions as sessions, {calls} call by call and followed; {len(bad)} differ")
    for name in bad[:20]:
        print(name)
    return 1 if bad else 0


if __name__ == "__main__":
    sys.exit(main(sys.argv[1:]))
