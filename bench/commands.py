#!/usr/bin/env python3
"""What commands cost, by callgrind's instructions, and what it grows with.

Usage: bench/commands.py [--program PROGRAM] [--part PART..] [--shape SHAPE..] [--command COMMAND..]

It needs valgrind and GNU time. PROGRAM is crates/hedit/out/hedit unless given. It measures all parts, shapes and commands,
or those alone that the options name. The parts:

  shapes    each command and each question over N, 2N and 4N paragraphs, items, lines and so on, and the commands of one
            place at a caret between them
  pages     whether the size of the page shows at one place
  siblings  what each sibling before the place costs
  depth     each command and each question below 10 elements and below 160, and a key in three deep chains side by side
  nothing   a key between empty spans, spans of whitespace, inputs and hidden spans
  styles    each command and each question on an element whose style has 10,000 declarations, in CPU seconds
  stack     all commands and questions on the deepest pages, in a stack of 128 kB
  typing    many characters that are typed into one text, with their memory, and a key before a long text
  log       the line `log`, and `replay` of what it prints
  moves     a line of `replay` that moves a tree, or takes it out and puts it back
  bulk      `bulk 5000`, and its memory
  long      what a key between 16,000 lines or words takes, in CPU seconds

A figure is what callgrind counts from one reply of a session to the next, or the difference of two sessions, so reading the
page doesn't count. Each command's undo and redo have figures of their own.

What a command may take over a shape follows from what it has to do: it makes its edits, and looks at each of the N parts.
So from 2N to 4N its instructions may grow as edits + N do, and by an eighth more:

  (edits at 4N + 4N) / (edits at 2N + 2N) * 1.125

The edits are those of the undo step that the command leaves, as `stat` reports them. The algorithms ask for them, so no
program with the same log makes fewer. If they grow with N, the command may take 2.25 times as many instructions, and if they
grow with the square of N, 4.5 times. The eighth is a margin for what isn't quite even, such as a list that has more capacity
than it needs. A cost that has a part with the square of N in it, which the edits haven't, is found once
this part is 7 percent of the rest at 2N.

It ends with status 1 if a figure misses its target, and names these figures at the end.
"""
import argparse
import re
import subprocess
import sys
import time
from pathlib import Path
from tempfile import TemporaryDirectory
from collections.abc import Callable, Iterable, Iterator, Sequence
from typing import NamedTuple

ROOT = Path(__file__).resolve().parent.parent

# The commands: each with its value, what is executed before it so that it has work, and a plain engine's instructions for
# each paragraph, if they are known. A plain engine has the same algorithms and no proofs; the target is 1.3 times as many.
Row = tuple[str, str | None, int | None]
COMMANDS: list[Row] = [
    ("bold", None, 15900),
    ("bold", "bold", None),
    ("bold", "styleWithCSS true", None),
    ("italic", None, 15900),
    ("underline", None, 18200),
    ("strikethrough", None, 18200),
    ("subscript", None, 21400),
    ("superscript", None, 21400),
    ("createLink u", None, 15200),
    ("unlink", "createLink u", None),
    ("fontName Arial", None, 15000),
    ("fontSize 5", None, 18800),
    ("foreColor red", None, 24500),
    ("backColor red", None, 24500),
    ("hiliteColor red", None, 24500),
    ("removeFormat", None, 70300),
    ("removeFormat", "bold", None),
    ("formatBlock h1", None, 79300),
    ("justifyLeft", "justifyRight", None),
    ("justifyCenter", None, 2700),
    ("justifyRight", None, 2700),
    ("justifyFull", None, 2700),
    ("indent", None, 1060),
    ("outdent", None, 2020),
    ("outdent", "indent", None),
    ("delete", None, 11800),
    ("insertText x", None, 11800),
    ("insertParagraph", None, 11800),
    ("insertLineBreak", None, 11800),
    ("insertHorizontalRule", None, 11800),
    ("insertImage u", None, 11800),
    ("insertOrderedList", None, 4700),
    ("insertOrderedList", "insertOrderedList", None),
    ("insertUnorderedList", None, 4700),
    ("insertUnorderedList", "insertOrderedList", None),
]
FLAGS = ["styleWithCSS true", "useCSS true", "defaultParagraphSeparator div"]
QUESTIONS = [
    "state bold",
    "indeterm bold",
    "value foreColor",
    "value fontSize",
    "value formatBlock",
    "value justifyLeft",
    "state insertOrderedList",
    "enabled bold",
    "supported bold",
]
# The commands that work at one place.
OF_PLACE = [row for row in COMMANDS if re.match("delete|insert(Text|Paragraph|LineBreak|HorizontalRule|Image)", row[0])]
# The commands that don't look at the block around a line.
OF_LINES = [
    row
    for row in COMMANDS
    if not re.match("formatBlock|justify|indent|outdent|insert(Ordered|Unordered|Paragraph|Horizontal)", row[0])
]

program = ROOT / "crates/hedit/out/hedit"
chosen: list[str] | None = None
missed: list[str] = []


# ---- sessions, and what callgrind counts of them


def session_of(page: str, acts: Iterable[str]) -> str:
    """The text of a session."""
    return "\n".join(["page <<END", page, "END", *acts, ""])


def callgrind(text: str, words: Iterable[str], *options: str) -> tuple[str, list[int]]:
    """Runs the program on a text. Gives what it wrote, and the instructions in the order of callgrind's parts."""
    with TemporaryDirectory() as room:
        ran = subprocess.run(
            ["valgrind", "--tool=callgrind", f"--callgrind-out-file={room}/parts", *options, program, *words],
            input=text.encode(),
            capture_output=True,
        )
        if ran.returncode != 0:
            sys.exit(f"bench/commands.py: {' '.join(words)} ends with {ran.returncode}:\n{ran.stderr.decode()}")
        parts = sorted(Path(room).iterdir(), key=lambda part: int(part.suffix[1:] or "999999999"))
        counts = [int(re.findall(r"^totals: (\d+)", part.read_text(), re.M)[0]) for part in parts]
    return ran.stdout.decode(), counts


def counted(text: str, *words: str) -> tuple[str, int]:
    """What the program writes for a text, and the instructions of it all."""
    written, counts = callgrind(text, words)
    return written, sum(counts)


class Use(NamedTuple):
    """The CPU seconds and the kilobytes of memory that a run took, and what it wrote."""

    seconds: float
    kilobytes: int
    written: str


def used(text: str, *words: str) -> Use:
    """Runs the program on a text, without callgrind."""
    ran = subprocess.run(["/usr/bin/time", "-f", "%U %S %M", program, *words], input=text.encode(), capture_output=True)
    if ran.returncode != 0:
        sys.exit(f"bench/commands.py: {' '.join(words)} ends with {ran.returncode}")
    user, system, kilobytes = ran.stderr.split()
    return Use(float(user) + float(system), int(kilobytes), ran.stdout.decode())


# ---- single acts


class Trial(NamedTuple):
    """An act to measure, under a name, and the acts that go before it."""

    name: str
    before: list[str]
    act: str


class Cost(NamedTuple):
    """The instructions of a line; those of its undo and redo, if it left an undo step; its edits."""

    done: int
    undone: int | None
    redone: int | None
    edits: int


def costs(page: str, caret: str, trials: list[Trial]) -> dict[str, Cost]:
    """The cost of each trial on a page, by its name, all in one session, where an act selects a caret in a text.

    Callgrind parts its counts where a reply is written. The first act has the reading of the page in its count. After each
    trial the page is as it was, and a character is typed at the caret: so what was left to be redone is dropped before the
    next one.
    """
    cleanup = ["undo 9", caret, "exec insertText x", "undo 1", "exec styleWithCSS false"]
    acts, places = ["unselect"], []
    for trial in trials:
        acts += [*trial.before, "stat"]
        places.append(len(acts))
        acts += [trial.act, "stat", "undo 1", "redo 1", *cleanup]
    written, counts = callgrind(session_of(page, acts), ["run"], "--dump-before=write")
    replies = written.splitlines()
    for act, reply in zip(acts, replies, strict=True):
        if reply.startswith("!") or act.startswith("exec") and reply == "false":
            sys.exit(f"bench/commands.py: {act} has the reply {reply}")
    found = {}
    for trial, place in zip(trials, places):
        _, entries = last_entry(replies[place - 1])
        edits, entries_after = last_entry(replies[place + 1])
        if entries_after > entries:
            found[trial.name] = Cost(counts[place], counts[place + 2], counts[place + 3], edits)
        else:
            found[trial.name] = Cost(counts[place], None, None, 0)
    return found


def last_entry(stat: str) -> tuple[int, int]:
    """By a reply to `stat`, the edits of the entry that undo would take, and how many entries there are."""
    edits, entries = re.findall(r"edits (\d+) undo (\d+)", stat)[0]
    return int(edits), int(entries)


def is_chosen(command: str) -> bool:
    """Whether a command, or the command of a question, is to be measured."""
    return chosen is None or command.split()[0] in chosen


def trials_of(commands: list[Row], selecting: str, where: str = "") -> Iterator[Trial]:
    """The trials of commands on what an act selects."""
    for command, before, _ in commands:
        if is_chosen(command) and before:
            yield Trial(f"{command} after {before}{where}", [selecting, f"exec {before}"], f"exec {command}")
        elif is_chosen(command):
            yield Trial(command + where, [selecting], f"exec {command}")


def every_trial(selecting: str, where: str = "") -> Iterator[Trial]:
    """The trials of all commands, questions and flags on what an act selects."""
    yield from trials_of(COMMANDS, selecting, where)
    for question in QUESTIONS:
        if is_chosen(question.split()[1]):
            yield Trial(f"query {question}{where}", [selecting], f"query {question}")
    for flag in filter(is_chosen, FLAGS):
        yield Trial(flag + where, [selecting], f"exec {flag}")


# ---- tables


def told(words: str, figure: float, most: float) -> None:
    """Prints a figure, and the most that it should be."""
    over = figure > most
    print(f"  {words:<56} {figure:>13,.2f}  (at most {most:,.2f}){'  MISSED' if over else ''}", flush=True)
    if over:
        missed.append(f"{words}: {figure:,.2f}, and at most {most:,.2f}")


def table(
    place: str,
    words: str,
    heads: list[str],
    rows: dict[str, list[Cost]],
    figure_of: Callable[[Sequence[int]], float],
    most_of: Callable[[list[Cost]], float],
) -> dict[str, str]:
    """Prints a row for each name, of its costs in order, and gives each row's figure as Markdown.

    A command, its undo and its redo have a figure each, made of the counts in order.
    """
    print(f"{place}, {words}:")
    print(
        f"  {'':<44}{'edits':>9}"
        + "".join(f"{head:>15}" for head in heads)
        + f"{'figure':>10}{'undone':>9}{'redone':>9}{'at most':>9}"
    )
    figures = {}
    for name, row in rows.items():
        most = most_of(row)
        shown = [None if None in counts else figure_of(counts) for counts in list(zip(*row))[:3]]
        over = [figure is not None and figure > most for figure in shown]
        for ending, figure, is_over in zip(("", ", undone", ", redone"), shown, over):
            if is_over:
                missed.append(f"{place}: {name}{ending}: {figure:.2f}, and at most {most:.2f}")
        figures[name] = f"**{shown[0]:.2f}**" if over[0] else f"{shown[0]:.2f}"
        print(
            f"  {name:<44}{row[-1].edits:>9,}"
            + "".join(f"{cost.done:>15,}" for cost in row)
            + f"{shown[0]:>10.2f}"
            + "".join(f"{'-' if figure is None else format(figure, '.2f'):>9}" for figure in shown[1:])
            + f"{most:>9.2f}{'  MISSED' if any(over) else ''}",
            flush=True,
        )
    return figures


def in_rows(columns: list[dict[str, Cost]]) -> dict[str, list[Cost]]:
    """The costs by name, each in the order of the columns."""
    return {name: [column[name] for column in columns] for name in columns[0]}


# ---- shapes


class Shape(NamedTuple):
    """A page of so many parts; the lines that select all of it, a place inside it, and the start of a part."""

    page: Callable[[int], str]
    whole: Callable[[int], str]
    amid: Callable[[int], str]
    start: Callable[[int], str]
    sizes: tuple[int, ...]


def host(inside: str) -> str:
    return f'<div contenteditable="true">{inside}</div>'


def select(from_: str, to: str | None = None) -> str:
    return f"select {from_} {to or from_}"


def beside(part: str, path: Callable[[int], str], opened: str = "", closed: str = "", between: str = "") -> Shape:
    """A shape of parts side by side. A part has a text in place of {} in `part`, at `path` of its index."""

    def word(index: int) -> str:
        return f"item {index}"

    def page(count: int) -> str:
        return host(opened + between.join(part.format(word(index)) for index in range(count)) + closed)

    def whole(count: int) -> str:
        return select(f"{path(0)}:0", f"{path(count - 1)}:{len(word(count - 1))}")

    return Shape(
        page,
        whole,
        lambda count: select(f"{path(count // 2)}:2"),
        lambda count: select(f"{path(count // 2)}:0"),
        (250, 500, 1000),
    )


def chain(name: str, around: str) -> Shape:
    """A shape of one word in a p, and below so many elements of a name, which {} stands for."""

    def page(count: int) -> str:
        return host(around.format(f"<{name}>" * count, f"</{name}>" * count))

    def place(count: int) -> str:
        return "0" + "/0" * (count + 2)

    return Shape(
        page,
        lambda count: select(f"{place(count)}:1", f"{place(count)}:3"),
        lambda count: select(f"{place(count)}:2"),
        lambda count: select(f"{place(count)}:0"),
        (45, 90, 180),
    )


SHAPES = {
    "paragraphs": beside("<p>{}</p>", "0/{}/0".format),
    "items": beside("<li>{}</li>", "0/0/{}/0".format, "<ul>", "</ul>"),
    "nested lists": beside("<li>{}<ul><li>inner</li></ul></li>", "0/0/{}/0".format, "<ul>", "</ul>"),
    "lines": beside("{}", lambda index: f"0/0/{2 * index}", "<p>", "</p>", "<br>"),
    "words": beside("{} <b>bold</b> <i>italic</i>", lambda index: f"0/0/{4 * index}", "<p>", "</p>"),
    "cells": beside("<tr><td>{}</td><td>more</td></tr>", "0/0/0/{}/0/0".format, "<table><tbody>", "</tbody></table>"),
    "quoted": beside("<p>{}</p>", "0/0/{}/0".format, "<blockquote>", "</blockquote>"),
    "div in div": chain("div", "{}<p>foobar</p>{}"),
    "b in b": chain("b", "<p>{}foobar{}</p>"),
}


def trials_over(shape: Shape, count: int) -> Iterator[Trial]:
    """The trials of a shape: all of it selected, and commands of one place inside it."""
    yield from every_trial(shape.whole(count))
    yield from trials_of(OF_PLACE, shape.amid(count), ", caret amid")
    yield from trials_of(OF_PLACE, shape.start(count), ", caret at a start")


def most_over(sizes: Sequence[int]) -> Callable[[list[Cost]], float]:
    """What the instructions of a command may grow by over a shape, from its edits."""

    def most(row: list[Cost]) -> float:
        fewer, more = (cost.edits + size for cost, size in zip(row[-2:], sizes[-2:]))
        return more / fewer * 1.125

    return most


def shapes(names: list[str]) -> None:
    summary: dict[str, dict[str, str]] = {}
    for name in names:
        shape = SHAPES[name]
        columns = [costs(shape.page(size), shape.amid(size), list(trials_over(shape, size))) for size in shape.sizes]
        rows = in_rows(columns)
        figures = table(
            name,
            "growth from the second to the third",
            [f"{size:,}" for size in shape.sizes],
            rows,
            lambda counts: counts[-1] / counts[-2],
            most_over(shape.sizes),
        )
        for command, figure in figures.items():
            summary.setdefault(command, {})[name] = figure
        if name == "paragraphs":
            print("instructions for each of 1,000 paragraphs:")
            for command, before, plain in COMMANDS:
                if plain and command in rows:
                    told(f"{command}, a paragraph", rows[command][-1].done / 1000, plain * 1.3)
    print(f"\n| Growth from 2N to 4N | {' | '.join(names)} |\n|{'---|' * (len(names) + 1)}")
    for command, row in summary.items():
        print(f"| {command} | {' | '.join(row[name] for name in names)} |")
    print()


# ---- one place in large pages

TYPED = ["exec insertText x"] * 200


def at_places() -> Iterator[Trial]:
    """The trials at a caret and on a part of a text, near the start of a page of paragraphs."""
    yield from every_trial(select("0/3/0:1"), ", caret")
    yield from every_trial(select("0/3/0:1", "0/3/0:3"), ", part of a text")
    if is_chosen("insertParagraph"):
        yield Trial("insertParagraph, caret at an end", [select("0/3/0:6")], "exec insertParagraph")
    if is_chosen("insertText"):
        yield Trial(f"{len(TYPED)} typed characters, undone", [select("0/5/0:6"), *TYPED], "undo 1")


def pages() -> None:
    sizes = (500, 15000, 150000)
    columns = [costs(SHAPES["paragraphs"].page(size), select("0/3/0:1"), list(at_places())) for size in sizes]
    table(
        "one place in a page of so many nodes",
        "growth from the first to the third",
        [f"{size * 2:,}" for size in sizes],
        in_rows(columns),
        lambda counts: counts[-1] / counts[0],
        lambda row: 1.3,
    )


# ---- one place next to many siblings


def siblings() -> None:
    paragraphs, lines = SHAPES["paragraphs"].page(100001), SHAPES["lines"].page(50001)
    each_before(
        paragraphs,
        "beside 100,000 paragraphs",
        "0/0/0:1",
        3,
        100000,
        lambda index: every_trial(select(f"0/{index}/0:1")),
    )
    each_before(
        lines,
        "in a paragraph beside 50,000 lines",
        "0/0/0:1",
        4,
        100000,
        lambda index: trials_of(OF_LINES, select(f"0/0/{index}:1", f"0/0/{index}:3")),
    )


def each_before(
    page: str, place: str, caret: str, near: int, far: int, trials: Callable[[int], Iterable[Trial]]
) -> None:
    """Prints what each sibling before a place costs, by two places that differ in their index alone."""
    columns = [costs(page, select(caret), list(trials(index))) for index in (near, far)]
    table(
        place,
        "instructions for each sibling before",
        ["near", "far"],
        in_rows(columns),
        lambda counts: (counts[1] - counts[0]) / (far - near),
        lambda row: 15,
    )


# ---- one place below many elements


def depth() -> None:
    shape = SHAPES["div in div"]
    columns = [costs(shape.page(size), shape.amid(size), list(trials_over(shape, size))) for size in (10, 160)]
    table(
        "below so many elements",
        "growth from the first to the second",
        ["10", "160"],
        in_rows(columns),
        lambda counts: counts[1] / counts[0],
        lambda row: 16,
    )
    if is_chosen("insertText"):
        key_in_chains()


def key_in_chains() -> None:
    """A key in the middle one of three chains of b, which are side by side."""
    seconds = []
    for count in (48, 96, 192):
        page = host("<p>" + ("<b>" * count + "foo" + "</b>" * count) * 3 + "</p>")
        select_it = select("0/0/1" + "/0" * count + ":2")
        without = used(session_of(page, [select_it]), "run").seconds
        seconds.append(used(session_of(page, [select_it, "exec insertText x"]), "run").seconds - without)
    print("CPU seconds of a key in three chains of b, of 48, 96 and 192:", *(f"{each:.2f}" for each in seconds))
    told("insertText in three chains of 192 b, seconds", seconds[-1], 0.02)


# ---- one place between nodes that show nothing

NOTHING = {
    "empty spans": "<span></span>",
    "blank spans": "<span> </span>",
    "inputs": "<input>",
    "hidden spans": '<span style="display: none">x</span>',
}


def nothing() -> None:
    keys = [row for row in OF_PLACE if row[0] in ("delete", "insertText x")]
    for name, node in NOTHING.items():

        def page(count: int) -> str:
            return host(f"<p>ab{node * count}cd{node * count}ef</p>")

        def caret(count: int) -> str:
            return select(f"0/0/{count + 1}:1")

        sizes = (50, 100, 200)
        columns = [costs(page(size), caret(size), list(trials_of(keys, caret(size)))) for size in sizes]
        table(
            f"between so many {name} on both sides",
            "growth from the second to the third",
            [f"{size}" for size in sizes],
            in_rows(columns),
            lambda counts: counts[-1] / counts[-2],
            lambda row: 2.5,
        )
        if is_chosen("insertText"):
            without = used(session_of(page(500), [caret(500)]), "run").seconds
            key = used(session_of(page(500), [caret(500), "exec insertText x"]), "run").seconds
            told(f"insertText amid 1,000 {name}, seconds", key - without, 0.01)


# ---- one element with a long style


def styles() -> None:
    style = " ".join(f"p{number}: v;" for number in range(10000))
    page = host(f'<p style="{style}">foobar</p>')
    for trial in every_trial(select("0/0/0:1", "0/0/0:3"), " at a style of 10,000 declarations"):
        without = used(session_of(page, trial.before), "run").seconds
        told(f"{trial.name}, seconds", used(session_of(page, [*trial.before, trial.act]), "run").seconds - without, 0.1)


# ---- a small stack

STACK = 128


def stack() -> None:
    """Which of the commands and questions, on the deepest pages that are read, end well in a small stack."""
    limit = ["bash", "-c", f'ulimit -s {STACK} && exec "$0" "$@"', str(program), "run"]
    failed = []
    for name in ("div", "b", "a", "span", "blockquote"):
        around = '<a href="u">' if name == "a" else f"<{name}>"
        count = 196
        page = host(around * count + "foobar" + f"</{name}>" * count)
        path = "0" + "/0" * (count + 1)
        for trial in every_trial(select(f"{path}:1", f"{path}:3"), f" below {count} {name}"):
            text = session_of(page, [*trial.before, trial.act, "undo 1", "html"])
            ran = subprocess.run(limit, input=text.encode(), capture_output=True)
            if ran.returncode != 0:
                failed.append(trial.name)
    print(f"in a stack of {STACK} kB {len(failed)} don't end well", *failed, sep="\n  ")
    told(f"commands and questions that a stack of {STACK} kB isn't enough for", len(failed), 0)


# ---- many keys


def typing() -> None:
    """Many keys in one text, and a key before so many characters of one."""
    page, caret = SHAPES["paragraphs"].page(10), select("0/3/0:1")

    def session(count: int, act: str) -> str:
        return session_of(page, [caret] + [act] * count)

    nothing, few, many = (counted(session(count, TYPED[0]), "run")[1] for count in (0, 2500, 10000))
    print(f"typing in one text: {few - nothing:,} instructions for 2,500 characters, {many - nothing:,} for 10,000")
    told("typing: growth at four times as many characters", (many - nothing) / (few - nothing), 4.2)
    # A session is read before its lines are answered. The comparison with as many queries leaves that out.
    asked, typed = (used(session(10000, act), "run").kilobytes for act in ("query state bold", TYPED[0]))
    print(f"  peak of memory: {asked:,} kB with 10,000 questions, {typed:,} kB with 10,000 characters")
    told("typing: bytes for each of 10,000 characters", (typed - asked) * 1024 / 10000, 100)
    for length in (10000, 100000):
        few, many = (key_at_front(length, count) for count in (100, 300))
        print(f"  a key before {length:,} characters: {(many - few) / 200:,.0f} instructions")


def key_at_front(length: int, count: int) -> int:
    """The instructions of a session that types so many characters before a long text."""
    page = host(f"<p>{'some words ' * (length // 11)}</p>")
    return counted(session_of(page, [select("0/0/0:0")] + TYPED[:1] * count), "run")[1]


def log() -> None:
    page = SHAPES["paragraphs"].page(10)
    of_log, of_replay = [], []
    for lines in (100, 400):
        acts = ["select 0/3/0:6 0/3/0:6"]
        for _ in range(lines):
            acts += [*(f"exec insertText {letter}" for letter in "abcde"), "exec insertParagraph"]
        without = counted(session_of(page, acts), "run", "--undo", "1000")[1]
        written, with_log = counted(session_of(page, [*acts, "log"]), "run", "--undo", "1000")
        of_log.append(with_log - without)
        replayed, instructions = counted(session_of(page, written.splitlines()[len(acts) :]), "replay")
        if not re.match("replayed [1-9]", replayed):
            sys.exit(f"bench/commands.py: replay says {replayed[:80]}")
        of_replay.append(instructions)
    for words, (few, many) in (("log", of_log), ("replay", of_replay)):
        print(f"{words} of 100 typed lines and of 400: {few:,} and {many:,} instructions")
        told(f"{words}: growth at four times as many lines", many / few, 4.5)


# The lines that move the tree of label 2 to and fro between the nodes of two labels.
MOVES = {
    "moves a tree at its level": ["move 2 {there} -", "move 2 1 -"],
    "moves a tree four levels down and up": ["move 2 {below} -", "move 2 1 -"],
    "takes a tree out or puts it back": ["remove 2", "insert 2 {there} -", "remove 2", "insert 2 1 -"],
}


def moves() -> None:
    """A line costs the ways up, and every so many lines a walk."""
    for words, lines in MOVES.items():
        figures = []
        for nodes in (1000, 10000):
            pairs = (nodes - 2) // 2
            page = f"<div><div>{'<p>x</p>' * pairs}</div></div><div><div><div><div><div></div></div></div></div></div>"
            there = 3 + 2 * pairs
            shown = [line.format(there=there, below=there + 4) for line in lines]
            few, many = (
                counted(session_of(page, ["entry", *shown * (count // len(shown))]), "replay")[1]
                for count in (2000, 4000)
            )
            figures.append((many - few) / 2000)
        print(
            f"replay: a line that {words}, of 1,000 nodes and of 10,000: {figures[0]:,.0f} and {figures[1]:,.0f} instructions"
        )
        told(f"{words}: growth at ten times as many nodes", figures[1] / figures[0], 4.5)


# 5,000 paragraphs made bold, plain and indented, undone and redone: the nodes of the page, and with those that bold makes.
READ_NODES = 10002
ALL_NODES = 15002


def bulk() -> None:
    empty, peak = (used("", "bulk", paragraphs).kilobytes for paragraphs in ("1", "5000"))
    page = used(session_of(SHAPES["paragraphs"].page(5000), ["stat"]), "run").kilobytes
    print("bulk 5000:")
    told("bulk: millions of instructions", counted("", "bulk", "5000")[1] / 1e6, 300)
    told(
        "bulk: bytes for each node beyond those of a page's node",
        ((peak - empty) / ALL_NODES - (page - empty) / READ_NODES) * 1024,
        60,
    )


def long() -> None:
    """What a user waits for a key in a long paragraph."""
    print("seconds of processor of a key at a caret amid so many:")
    for name in ("lines", "words"):
        page, caret = SHAPES[name].page(16000), SHAPES[name].amid(16000)
        without = used(session_of(page, [caret]), "run").seconds
        for trial in trials_of(OF_PLACE, caret, f" amid 16,000 {name}"):
            run = used(session_of(page, [*trial.before, trial.act]), "run")
            if not run.written.endswith("\ntrue\n"):
                sys.exit(f"bench/commands.py: {trial.name} has the reply {run.written[-80:]}")
            told(trial.name, run.seconds - without, 0.1)


# Those that don't choose shapes.
PARTS: dict[str, Callable[[], None]] = {
    "pages": pages,
    "siblings": siblings,
    "depth": depth,
    "nothing": nothing,
    "styles": styles,
    "stack": stack,
    "typing": typing,
    "log": log,
    "moves": moves,
    "bulk": bulk,
    "long": long,
}


def main() -> int:
    global program, chosen
    names = {row[0].split()[0] for row in COMMANDS} | {flag.split()[0] for flag in FLAGS}
    reader = argparse.ArgumentParser(description=__doc__, formatter_class=argparse.RawDescriptionHelpFormatter)
    reader.add_argument("--program", type=Path, default=program)
    reader.add_argument("--part", nargs="+", choices=["shapes", *PARTS], default=["shapes", *PARTS])
    reader.add_argument("--shape", nargs="+", choices=SHAPES, default=list(SHAPES))
    reader.add_argument("--command", nargs="+", choices=sorted(names))
    words = reader.parse_args()
    program, chosen = words.program.resolve(), words.command
    began = time.monotonic()
    for part in words.part:
        if part == "shapes":
            shapes(words.shape)
        else:
            PARTS[part]()
    print(f"aims missed: {len(missed)}, after {(time.monotonic() - began) / 60:.1f} minutes")
    for line in missed:
        print(f"  {line}")
    return 1 if missed else 0


if __name__ == "__main__":
    sys.exit(main())
