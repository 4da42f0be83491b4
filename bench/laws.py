#!/usr/bin/env python3
"""Tries laws over stored sessions: bench/laws.py PROGRAM FOLDER..

A folder has sessions as NAME.stdin, with the program's words a line each in NAME.args. Each session is played with its
views printed after each act, and what they show is held against the laws below, each of which has a name. No law here is
proved by that: a law that a session breaks needs a premise before anybody states it. Prints how many times each law was
tried, the first sessions that break it, and ends with status 1 where one does.
"""
import re
import subprocess
import sys
from collections import Counter, defaultdict
from collections.abc import Iterator
from concurrent.futures import ThreadPoolExecutor
from dataclasses import dataclass
from functools import cache
from html import unescape
from html.parser import HTMLParser
from os import cpu_count
from pathlib import Path

VIEWS = ("html", "tree", "points", "stat")
# No act has this name, so that its reply parts the replies of two acts.
PART = "part"
PARTED = "! 2 unknown act\n"
VOID = {"area", "base", "br", "col", "embed", "hr", "img", "input", "link", "meta", "param", "source", "track", "wbr"}
MADE_NAMES = set(
    "a address b blockquote br dd div dl dt font h1 h2 h3 h4 h5 h6 hr i img li ol p pre s span sub sup u ul".split()
)
MADE_ATTRIBUTES = {"href", "src", "style", "color", "face", "size"}
BLANKS = "\t\n\r \u00a0"
FLAGS = {"stylewithcss", "usecss", "defaultparagraphseparator"}
INSERTING = {"insertparagraph": None, "insertlinebreak": None, "insertimage": "img", "inserthorizontalrule": "hr"}


@dataclass
class Session:
    """A session: its name, the program's words, its page block and its acts."""

    name: str
    words: list[str]
    block: str
    acts: list[str]


@dataclass
class Step:
    """An act with its reply, and what the views print after it."""

    act: str
    reply: str
    html: str
    tree: str
    points: str
    stat: str

    @property
    def numbers(self) -> dict[str, int]:
        words = self.stat.split()
        return dict(zip(words[::2], map(int, words[1::2])))

    @property
    def seen(self) -> tuple[str, str, str]:
        return self.html, self.tree, self.points


class Content(HTMLParser):
    """What a page has: its elements with their attributes, the characters of texts and comments, and what editing keeps, in order."""

    def __init__(self, html: str) -> None:
        super().__init__(convert_charrefs=True)
        self.names: set[str] = set()
        self.attributes: set[tuple[str, str | None]] = set()
        self.chars: set[str] = set()
        self.kept: list[str] = []
        self.feed(html.removesuffix("\n"))
        self.close()

    def handle_starttag(self, tag: str, attrs: list[tuple[str, str | None]]) -> None:
        self.names.add(tag)
        self.attributes |= set(attrs)
        if tag in ("img", "hr"):
            self.kept.append(tag)

    def handle_data(self, data: str) -> None:
        self.chars |= set(data)
        self.kept += [char for char in data if char not in BLANKS]

    def handle_comment(self, data: str) -> None:
        self.chars |= set(data)


content = cache(Content)


def read_session(path: Path) -> Session | None:
    """The session of a file, or None where it has no page, or is none of `run`."""
    words = path.with_suffix(".args").read_text().splitlines()
    first, *lines = path.read_bytes().decode(errors="replace").split("\n")
    opening = re.fullmatch(r"page <<([A-Za-z0-9]{1,32})", first)
    if words[:1] != ["run"] or not opening or opening[1] not in lines:
        return None
    end = lines.index(opening[1])
    return Session(
        f"{path.parent.name}/{path.stem}",
        words,
        "\n".join([first, *lines[: end + 1], ""]),
        [line for line in lines[end + 1 :] if line],
    )


def answer(program: str, words: list[str], text: str) -> str | None:
    """What the program answers to a session; None where it doesn't end well."""
    ran = subprocess.run([program, *words], input=text.encode(), capture_output=True)
    return ran.stdout.decode(errors="replace") if ran.returncode == 0 else None


def replies(program: str, words: list[str], block: str, acts: list[str]) -> list[str] | None:
    """The reply of each act."""
    text = answer(program, words, block + "".join(f"{act}\n{PART}\n" for act in acts))
    return None if text is None else text.split(PARTED)[:-1]


def play(
    program: str, session: Session, acts: list[str] | None = None, words: list[str] | None = None
) -> list[Step] | None:
    """The steps of a session, the first with no act; None where it can't be played."""
    acts = session.acts if acts is None else acts
    told = replies(
        program, words or session.words, session.block, [*VIEWS, *(each for act in acts for each in (act, *VIEWS))]
    )
    if told is None or len(told) != 4 + 5 * len(acts):
        return None
    return [Step("", "", *told[:4]), *(Step(act, *told[4 + 5 * i : 9 + 5 * i]) for i, act in enumerate(acts))]


def commands(steps: list[Step]) -> Iterator[tuple[Step, Step, str, str]]:
    """Each step that executed a command and answered true, with the one before it, its name in lower case and its value."""
    for before, step in zip(steps, steps[1:]):
        words = step.act.split(" ", 2)
        if words[0] == "exec" and step.reply == "true\n":
            yield before, step, words[1].lower(), words[2] if len(words) > 2 else ""


def is_caret(points: str) -> bool:
    lines = points.splitlines()
    return len(lines) > 1 and lines[0].removeprefix("anchor ") == lines[1].removeprefix("focus ")


def unescaped(value: str) -> str:
    return re.sub(
        r"\\(n|t|\\|u\{([0-9a-fA-F]{1,6})\})",
        lambda found: {"n": "\n", "t": "\t", "\\": "\\"}.get(found[1]) or chr(int(found[2], 16)),
        value,
    )


def hosts(tree: str) -> list[str]:
    """The paths of the elements with `contenteditable` in a listing."""
    path: list[int] = []
    found = []
    for line in tree.splitlines():
        level = (len(line) - len(line.lstrip(" "))) // 2
        path = [*path[:level], path[level] + 1] if level < len(path) else [*path, 0]
        if re.match(r" *<[a-z0-9]+ (.* )?contenteditable=", line):
            found.append("/".join(map(str, path)))
    return found


def outside(html: str) -> tuple[str, str] | None:
    """What is printed before and after the children of the one editable element; None where there isn't just one."""
    tags = list(re.finditer(r"<!--.*?-->|<(/?)([a-z0-9-]+)([^>\"]|\"[^\"]*\")*>", html, re.S))
    starts = [tag for tag in tags if tag[2] and not tag[1] and re.search(r"\scontenteditable=\"", tag[0])]
    if len(starts) != 1 or starts[0][2] in VOID:
        return None
    depth = 0
    for tag in tags[tags.index(starts[0]) :]:
        if tag[2] and tag[2] not in VOID:
            depth += -1 if tag[1] else 1
        if depth == 0:
            return html[: starts[0].end()], html[tag.start() :]
    return None


def joined(tree: str) -> list[str]:
    """A listing with texts side by side joined, and empty ones gone."""
    lines: list[str] = []
    for line in tree.splitlines():
        text = re.fullmatch(r"( *)\"(.*)\"", line)
        if text and not text[2]:
            continue
        last = re.fullmatch(r"( *)\"(.*)\"", lines[-1]) if lines else None
        if text and last and text[1] == last[1]:
            lines[-1] = f'{text[1]}"{last[2]}{text[2]}"'
        else:
            lines.append(line)
    return lines


def reads_back(tree: str) -> bool:
    """Whether no void element has a child, and the page is at most 200 levels deep."""
    lines = tree.splitlines()
    levels = [(len(line) - len(line.lstrip(" "))) // 2 for line in lines]
    bad = any(
        re.match(r" *<(" + "|".join(VOID) + r")[ >]", line) and after > level
        for line, level, after in zip(lines, levels, levels[1:])
    )
    return not bad and max(levels, default=0) < 200


def made(program: str, session: Session, steps: list[Step]) -> Iterator[bool]:
    """What a command brings in: names and attributes of elements, and characters."""
    for before, step, name, value in commands(steps):
        old, new = content(before.html), content(step.html)
        attributes = {pair for pair in new.attributes - old.attributes if pair[0] not in MADE_ATTRIBUTES}
        yield not (new.names - old.names - MADE_NAMES) and not attributes
        typed = set(unescaped(value)) if name == "inserttext" else set()
        yield new.chars <= old.chars | typed | set(" \u00a0")


def round_trip(program: str, session: Session, steps: list[Step]) -> Iterator[bool]:
    """The page, and the page at the end, printed and read again: the same tree, with its texts joined."""
    for step in (steps[0], steps[-1]):
        if reads_back(step.tree):
            again = replies(program, ["run"], f"page <<END\n{step.html}END\n", ["tree"])
            yield again is not None and again[0].splitlines() == joined(step.tree)


def outside_stays(program: str, session: Session, steps: list[Step]) -> Iterator[bool]:
    """What is printed outside the children of the editable element stays; a void element has nothing printed after them."""
    for before, step, *_ in commands(steps):
        around = outside(before.html)
        if around:
            yield outside(step.html) == around


def labels_last(program: str, session: Session, steps: list[Step]) -> Iterator[bool]:
    """The next label never falls but by undo's act, and a label keeps its element's name in the log."""
    yield all(before.numbers["next"] <= step.numbers["next"] for before, step in zip(steps, steps[1:]))
    told = replies(program, session.words, session.block, [*session.acts, "log"])
    names: dict[str, str] = {}
    for line in told[-1].splitlines() if told else ():
        found = re.match(r"(make|tag) (\d+) <([a-z0-9-]+)", line)
        if found:
            yield names.setdefault(found[2], found[3]) == found[3]


def undo_gives_back(program: str, session: Session, steps: list[Step]) -> Iterator[bool]:
    """After a command that made an entry of its own, undo prints what was printed before it; and all undone and redone is
    the tree that it was."""
    for place, (before, step) in enumerate(zip(steps, steps[1:]), 1):
        is_new = step.numbers["undo"] == before.numbers["undo"] + 1 and step.act.startswith("exec ")
        if is_new:
            undone = play(program, session, [*session.acts[:place], "undo 1"])
            yield undone is not None and undone[-1].seen == before.seen
    turned = play(program, session, [*session.acts, "redo 999", "undo 999", "redo 999"])
    yield turned is None or turned[-3].tree == turned[-1].tree


def independent(program: str, session: Session, steps: list[Step]) -> Iterator[bool]:
    """What commands make doesn't depend on marks, on the history, or on the cap where nothing was full."""
    trees = [step.tree for step in steps]
    marked = play(program, session, ["mark zzz .:0 .:0", *session.acts])
    if marked and not any("too many" in step.reply for step in marked):
        yield [step.tree for step in marked[1:]] == trees
    if not any("full" in step.reply for step in steps):
        plain = [word for word in session.words if not word.startswith("--cap")]
        if plain == session.words:
            capped = play(program, session, words=[*session.words, "--cap=2000000"])
            yield capped is None or [step.tree for step in capped] == trees
    if not any(act.startswith(("undo", "redo")) for act in session.acts) and not any(
        "--undo" in word for word in session.words
    ):
        short = play(program, session, words=[*session.words, "--undo=1"])
        yield short is not None and [step.tree for step in short] == trees


def inserts_only(program: str, session: Session, steps: list[Step]) -> Iterator[bool]:
    """At a caret, the commands that insert lose nothing, keep the order, and put in what they say."""
    for before, step, name, value in commands(steps):
        if not is_caret(before.points):
            continue
        old, new = content(before.html).kept, content(step.html).kept
        if name in INSERTING:
            put = [INSERTING[name]] if INSERTING[name] else []
        elif name == "inserttext":
            put = [char for char in unescaped(value) if char not in BLANKS]
        else:
            continue
        yield any(old[:at] + put + old[at:] == new for at in range(len(old) + 1))


def selection_stays(program: str, session: Session, steps: list[Step]) -> Iterator[bool]:
    """No command but those that set flags loses the selection, and both points are in the editable element."""
    for before, step, name, _ in commands(steps):
        if before.points.startswith("none") or name in FLAGS:
            continue
        yield not step.points.startswith("none")
        found = hosts(before.tree)
        if len(found) == 1 and outside(before.html):
            places = re.findall(r"^(?:anchor|focus) (\S+):", step.points, re.M)
            yield all(f"{place}/".startswith(f"{found[0]}/") for place in places)


def prefixes(program: str, session: Session, steps: list[Step]) -> Iterator[bool]:
    """The transcript of fewer acts is a beginning of that of more."""
    whole = answer(program, session.words, session.block + "".join(f"{act}\n" for act in session.acts))
    for count in {0, len(session.acts) // 2, max(len(session.acts) - 1, 0)}:
        part = answer(program, session.words, session.block + "".join(f"{act}\n" for act in session.acts[:count]))
        yield whole is None or part is None or whole.startswith(part)


def views_change_nothing(program: str, session: Session, steps: list[Step]) -> Iterator[bool]:
    """The replies are the same where views are printed between the acts."""
    told = replies(program, session.words, session.block, session.acts)
    yield told == [step.reply for step in steps[1:]]


LAWS = (
    made,
    round_trip,
    outside_stays,
    labels_last,
    undo_gives_back,
    independent,
    inserts_only,
    selection_stays,
    prefixes,
    views_change_nothing,
)


def try_session(program: str, path: Path) -> tuple[str, dict[str, Counter[bool]]] | None:
    """How often each law held, and which were broken."""
    session = read_session(path)
    steps = play(program, session) if session else None
    if not session or not steps:
        return None
    return session.name, {law.__name__: Counter(law(program, session, steps)) for law in LAWS}


def main(program: str, *folders: str) -> int:
    paths = sorted(path for folder in folders for path in Path(folder).glob("*.stdin"))
    tried: Counter[str] = Counter()
    broken: dict[str, list[str]] = defaultdict(list)
    played = 0
    with ThreadPoolExecutor(cpu_count()) as pool:
        for found in pool.map(lambda path: try_session(program, path), paths):
            if not found:
                continue
            played += 1
            for name, counts in found[1].items():
                tried[name] += counts.total()
                if counts[False]:
                    broken[name].append(f"{found[0]} ({counts[False]})")
    print(f"{len(paths)} sessions, {played} of them with a page that is edited")
    for law in LAWS:
        name = law.__name__
        print(f"{name}: tried {tried[name]}, broken in {len(broken[name])} sessions", *broken[name][:5], sep="\n  ")
    return 1 if broken else 0


if __name__ == "__main__":
    if len(sys.argv) < 3:
        sys.exit(__doc__)
    sys.exit(main(*sys.argv[1:]))
