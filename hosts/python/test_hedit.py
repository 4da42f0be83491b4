"""Tests of the Python package: what it adds to the calls of the library."""
import copy
import gc
import os
import pickle
import re
import subprocess
import sys
import threading
import unittest
import warnings
from bisect import bisect_right
from collections.abc import Callable, Iterator
from itertools import accumulate
from pathlib import Path
from typing import Any

import hedit
from hedit import _editor, _library
from hedit import (
    AttributesSet,
    Change,
    Editor,
    Inserted,
    Mark,
    Moved,
    NodeKind,
    Point,
    Question,
    Removed,
    Replaced,
    Selection,
    Status,
    TreeNode,
    View,
)
from hedit._changes import read_changes

PAGE = "<p contenteditable>Call Ann</p>"

NAME = ((0, 0), 5), ((0, 0), 8)

NODES = '<!--n--><p contenteditable><i class="x&amp;y" lang>\u00e9</i>b</p>'


def in_another_thread(call: Callable[[], object]) -> BaseException | None:
    """What a call raises in a thread of its own."""
    raised: list[BaseException] = []

    def run() -> None:
        try:
            call()
        except BaseException as error:
            raised.append(error)

    thread = threading.Thread(target=run)
    thread.start()
    thread.join()
    return raised[0] if raised else None


def run_python(program: str, **environment: str) -> "subprocess.CompletedProcess[str]":
    """A program in a Python of its own, which says each warning."""
    path = str(Path(hedit.__file__).parents[1])
    return subprocess.run(
        [sys.executable, "-W", "always", "-c", program],
        env={**os.environ, "PYTHONPATH": path, **environment},
        capture_output=True,
        text=True,
    )


class CountedLibrary:
    """The library, with a count of its calls by name."""

    def __init__(self, under: Any) -> None:
        self.under = under
        self.counts: dict[str, int] = {}

    def __getattr__(self, name: str) -> Any:
        self.counts[name] = self.counts.get(name, 0) + 1
        return getattr(self.under, name)


class Package(unittest.TestCase):
    def test_all_names_are_there(self) -> None:
        for name in hedit.__all__:
            self.assertTrue(hasattr(hedit, name), name)

    def test_has_the_version_of_the_library_that_it_asks_for(self) -> None:
        self.assertRegex(hedit.__version__, r"^\d+\.\d+\.\d+$")
        self.assertEqual(hedit.version(), hedit.__version__)

    def test_loads_the_library_at_the_first_use_alone(self) -> None:
        ran = run_python("import hedit; print(hedit.View.TREE.value)", HEDIT_LIBRARY="/nowhere")
        self.assertEqual((ran.stdout, ran.stderr), ("1\n", ""))
        ran = run_python("import hedit; hedit.Editor('<p>x</p>')", HEDIT_LIBRARY="/nowhere")
        self.assertIn("OSError: /nowhere", ran.stderr)

    def test_calls_are_those_of_the_header(self) -> None:
        repository = Path(__file__).resolve().parent.parent.parent
        header = repository / "include" / "hedit.h"
        if not header.is_file():
            self.skipTest("the header does not stand beside the package")
        names = set(re.findall(r"^\w+ (hedit_\w+)\(", header.read_text(), re.M))
        self.assertEqual(set(_library.CALLS), names - {"hedit_session"})


class Arguments(unittest.TestCase):
    def setUp(self) -> None:
        self.editor = Editor(PAGE)
        self.addCleanup(self.editor.close)

    def test_an_offset_is_not_wrapped(self) -> None:
        for offset in (2**32 + 1, 2**64, -1, 9):
            with self.subTest(offset=offset), self.assertRaises(hedit.BadPlace):
                self.editor.select(((0, 0), offset))
        self.assertEqual(self.editor.points(), "none\n")

    def test_a_path_is_not_wrapped(self) -> None:
        for step in (2**32, -1, 7):
            with self.subTest(step=step), self.assertRaises(hedit.BadPlace):
                self.editor.mark("note", ((0, step), 0), ((0, 0), 1))

    def test_limits_are_not_wrapped(self) -> None:
        for limits in ({"label_cap": -1}, {"label_cap": 0}, {"label_cap": 2**32 + 9}):
            with self.subTest(**limits), self.assertRaises(hedit.BadArgument):
                Editor(PAGE, **limits)
        for limits in ({"undo_depth": -1}, {"undo_depth": 0}, {"undo_depth": 2**64 + 9}):
            with self.subTest(**limits), self.assertRaises(hedit.BadArgument):
                Editor(PAGE, **limits)

    def test_a_number_is_an_integer(self) -> None:
        bad: Any
        for bad in (1.0, "1", None):
            with self.subTest(bad=bad), self.assertRaises(TypeError):
                self.editor.select(((0, bad), 0))
            with self.subTest(bad=bad), self.assertRaises(TypeError):
                Editor(PAGE, undo_depth=bad)

    def test_a_text_is_str_or_bytes(self) -> None:
        editor = self.editor
        calls: list[Callable[[Any], object]] = [Editor, editor.exec, editor.state, hedit.session]
        for call in calls:
            for bad in (bytearray(b"bold"), None, 1):
                with self.subTest(bad=bad, call=call), self.assertRaises(TypeError):
                    call(bad)
        self.assertTrue(self.editor.supported(b"bold"))

    def test_questions_and_views_are_enumerations(self) -> None:
        self.editor.select(*NAME)
        self.assertIs(self.editor.ask(Question.ENABLED, "bold"), True)
        self.assertEqual(self.editor.ask(Question.VALUE, "defaultParagraphSeparator"), "div")
        self.assertEqual(self.editor.view(View.HTML), self.editor.html())
        bad: Any
        for bad in (9, 2**32, -1):
            with self.subTest(bad=bad), self.assertRaises(ValueError):
                self.editor.view(bad)
            with self.subTest(bad=bad), self.assertRaises(ValueError):
                self.editor.ask(bad, "bold")

    def test_a_point_is_not_wrapped(self) -> None:
        calls: list[Callable[[Point], object]] = [
            self.editor.select,
            lambda point: self.editor.select(point, ((0,), 0)),
            lambda point: self.editor.mark("note", ((0, 0), 1), point),
        ]
        wrong = (2**32, 0), (2**32 + 1, 0), (-1, 0), (9, 0), (1, 2**32), (1, -1), (1, 2)
        for call in calls:
            for label, offset in wrong:
                with self.subTest(label=label, offset=offset), self.assertRaises(hedit.BadPlace):
                    call(Point(label, offset))
        self.assertEqual(self.editor.points(), "none\n")

    def test_a_label_is_not_wrapped(self) -> None:
        editor = self.editor
        calls: list[Callable[[Any], object]] = [
            editor.node,
            editor.children,
            editor.node_name,
            editor.node_value,
            editor.attributes,
            editor.path_of,
            editor.node_html,
            editor.node_text,
            lambda label: editor.find("x", label),
        ]
        bad: Any
        for call in calls:
            for wrong in (2**32, 2**32 - 1, -1, 3):
                with self.subTest(call=call, wrong=wrong), self.assertRaises(hedit.BadPlace):
                    call(wrong)
            for bad in (1.0, "1", None):
                with self.subTest(call=call, bad=bad), self.assertRaises(TypeError):
                    call(bad)
        for path in ((7,), (0, 2**32), (-1,), (0, 0, 0)):
            with self.subTest(path=path), self.assertRaises(hedit.BadPlace):
                editor.label_at(path)
        for wrong in (2**32, -1):
            with self.subTest(wrong=wrong), self.assertRaises(hedit.BadPlace):
                editor.is_kept(wrong)
        for bad in (1.0, "1", None):
            with self.subTest(bad=bad), self.assertRaises(TypeError):
                editor.is_kept(bad)


class Denials(unittest.TestCase):
    def setUp(self) -> None:
        self.editor = Editor(PAGE)
        self.addCleanup(self.editor.close)
        self.editor.select(*NAME)

    def test_a_denied_command_does_nothing(self) -> None:
        for denied in (["bold"], ("italic", "BOLD"), {"Bold": 1}, iter(["bold"])):
            with self.subTest(denied=denied):
                self.assertFalse(self.editor.exec("bold", denied=denied))
        self.assertEqual(self.editor.html(), '<p contenteditable="">Call Ann</p>\n')

    def test_another_command_is_done(self) -> None:
        self.assertTrue(self.editor.exec("bold", denied=["italic", "insertImage"]))
        self.assertTrue(self.editor.undo())
        self.assertTrue(self.editor.exec("createLink", "tel:1", ()))

    def test_names_that_are_none_are_refused(self) -> None:
        numbers = [f"n{number}" for number in range(17)]
        for denied in ([""], ["bold", ""], ["a b"], ["a_b"], ["\u00e9"], ["x" * 65], numbers):
            with self.subTest(denied=denied), self.assertRaises(hedit.BadArgument):
                self.editor.exec("bold", denied=denied)
        self.assertTrue(self.editor.exec("bold", denied=numbers[:16] + ["N0"]))

    def test_one_text_is_no_list_of_names(self) -> None:
        bad: Any
        for bad in ("bold", b"bold", [b"bold"], [1], 1):
            with self.subTest(bad=bad), self.assertRaises(TypeError):
                self.editor.exec("italic", denied=bad)


class Steps(unittest.TestCase):
    """Several commands as one step of undo."""

    def setUp(self) -> None:
        self.editor = Editor(PAGE)
        self.addCleanup(self.editor.close)
        self.text = self.editor.label_at((0, 0))

    def test_a_joined_command_is_one_step_with_the_last(self) -> None:
        self.editor.select(*NAME)
        self.assertTrue(self.editor.exec("bold"))
        self.assertTrue(self.editor.exec_joined("createLink", "tel:1"))
        self.assertFalse(self.editor.exec_joined("createLink"))
        self.assertEqual(self.editor.counts().undo, 1)
        self.assertTrue(self.editor.undo())
        self.assertEqual(self.editor.html(), '<p contenteditable="">Call Ann</p>\n')

    def test_what_comes_between_parts_them(self) -> None:
        self.editor.select(*NAME)
        self.editor.exec("bold")
        self.editor.select(((0, 1, 0), 0), ((0, 1, 0), 3))
        self.editor.exec_joined("italic")
        self.assertEqual(self.editor.counts().undo, 2)

    def test_a_range_is_formatted_within_a_step(self) -> None:
        self.assertTrue(self.editor.exec("bold", range=(Point(self.text, 0), Point(self.text, 4))))
        self.assertTrue(self.editor.exec("italic", range=(((0, 1), 0), ((0, 1), 1)), joined=True))
        self.assertEqual(self.editor.counts().undo, 1)
        self.assertFalse(self.editor.exec("bold", denied=["bold"], range=(((0,), 0), ((0,), 1))))
        with self.assertRaises(hedit.BadPlace):
            self.editor.exec("bold", range=(Point(self.text, 0), Point(self.text, 99)))
        self.assertTrue(self.editor.undo())
        self.assertEqual(self.editor.html(), '<p contenteditable="">Call Ann</p>\n')

    def test_a_replacement_goes_on_with_what_is_typed(self) -> None:
        self.editor.select(Point(self.text, 8))
        self.editor.exec("insertText", " teh")
        self.assertTrue(self.editor.replace(Point(self.text, 9), Point(self.text, 12), "the"))
        self.editor.exec("insertText", " \U0001f600")
        self.assertEqual(self.editor.html(), '<p contenteditable="">Call Ann the \U0001f600</p>\n')
        self.assertEqual(self.editor.counts().undo, 1)

    def test_places_are_replaced_too(self) -> None:
        self.assertTrue(self.editor.replace(*NAME, "Bob"))
        self.assertEqual(self.editor.html(), '<p contenteditable="">Call Bob</p>\n')
        self.assertTrue(self.editor.undo())
        self.assertIsNone(self.editor.selection())

    def test_a_refused_replacement_leaves_the_selection(self) -> None:
        self.editor.select(*NAME)
        before = self.editor.selection()
        self.assertFalse(self.editor.replace(Point(0, 0), Point(0, 0), "x"))
        with self.assertRaises(hedit.BadPlace):
            self.editor.replace(Point(self.text, 0), Point(self.text, 9), "x")
        self.assertEqual(self.editor.selection(), before)


def parts_of(editor: Editor, label: int) -> Iterator[tuple[int, str]]:
    """Yields the text nodes and line breaks of a node, in tree order: their labels and characters."""
    is_break = editor.node_name(label) == "br"
    if is_break or editor.node(label).kind is NodeKind.TEXT:
        yield label, "\n" if is_break else editor.node_value(label)
    for child in editor.children(label):
        yield from parts_of(editor, child)


def find_across(editor: Editor, wanted: str, block: int) -> list[tuple[Point, Point]]:
    """Returns the ranges of a text of one line in a block, without overlap."""
    parts = list(parts_of(editor, block))
    starts = list(accumulate((len(part) for _, part in parts), initial=0))

    def point(at: int, last: int) -> Point:
        place = bisect_right(starts, last) - 1
        return Point(parts[place][0], at - starts[place])

    found = re.finditer(re.escape(wanted), "".join(part for _, part in parts))
    return [(point(at.start(), at.start()), point(at.end(), at.end() - 1)) for at in found]


class Nodes(unittest.TestCase):
    def setUp(self) -> None:
        self.editor = Editor(NODES)
        self.addCleanup(self.editor.close)

    def told(self, label: int) -> list[object]:
        """A node and what is below it, as nested lists."""
        editor, node = self.editor, self.editor.node(label)
        children = list(editor.children(label))
        self.assertEqual(node.label, label)
        self.assertEqual(node.first_child, children[0] if children else None)
        self.assertEqual(node.last_child, children[-1] if children else None)
        for before, child in zip([None, *children], children):
            self.assertEqual(editor.node(child).parent, label)
            self.assertEqual(editor.node(child).previous, before)
        texts = editor.node_name(label), editor.node_value(label), editor.attributes(label)
        return [node.kind, node.length, *texts, *map(self.told, children)]

    def test_a_walk_finds_the_whole_page(self) -> None:
        text = [NodeKind.TEXT, 1, "", "\u00e9", {}]
        italic = [NodeKind.ELEMENT, 1, "i", "", {"class": "x&y", "lang": ""}, text]
        last = [NodeKind.TEXT, 1, "", "b", {}]
        paragraph = [NodeKind.ELEMENT, 2, "p", "", {"contenteditable": ""}, italic, last]
        comment = [NodeKind.COMMENT, 1, "", "n", {}]
        self.assertEqual(self.told(0), [NodeKind.DOCUMENT, 2, "", "", {}, comment, paragraph])
        attributes = self.editor.attributes(self.editor.label_at((1, 0)))
        self.assertEqual(list(attributes), ["class", "lang"])

    def test_the_document_has_the_label_0_and_nothing_beside_it(self) -> None:
        document = self.editor.node(0)
        self.assertEqual(self.editor.label_at(()), 0)
        self.assertIs(document.kind, NodeKind.DOCUMENT)
        self.assertEqual((document.parent, document.previous, document.next), (None, None, None))
        with self.assertRaises(AttributeError):
            document.length = 7  # type: ignore[misc]

    def test_a_label_stays_with_its_node(self) -> None:
        editor = self.editor
        text = editor.label_at((1, 1))
        selected = Selection(Point(text, 0), Point(text, 1))
        editor.select(*selected)
        self.assertTrue(editor.exec("bold"))
        bold = editor.label_at((1, 1))
        self.assertEqual((editor.node_name(bold), editor.node(bold).first_child), ("b", text))
        self.assertEqual((editor.label_at((1, 1, 0)), editor.selection()), (text, selected))
        self.assertTrue(editor.undo())
        self.assertEqual(editor.label_at((1, 1)), text)
        with self.assertRaises(hedit.BadPlace):
            editor.node(bold)
        self.assertTrue(editor.redo())
        self.assertEqual(editor.label_at((1, 1)), bold)
        self.assertEqual(editor.node(text).parent, bold)

    def test_children_are_refused_at_once_and_may_go_meanwhile(self) -> None:
        with self.assertRaises(hedit.BadPlace):
            self.editor.children(99)
        self.assertEqual(list(self.editor.children(self.editor.label_at((0,)))), [])
        with Editor("<p contenteditable>a<i>b</i></p>") as editor:
            editor.select(((0, 0), 0), ((0, 0), 1))
            editor.exec("bold")
            children = editor.children(editor.label_at((0,)))
            bold = next(children)
            self.assertTrue(editor.undo())
            with self.assertRaises(hedit.BadPlace):
                editor.node(bold)
            self.assertEqual(list(children), [editor.label_at((0, 1))])

    def test_long_texts_are_whole(self) -> None:
        page = f"<p title='{'t' * 5_000}'>{'x' * 20_000}</p>"
        with Editor(page) as editor:
            paragraph, text = editor.label_at((0,)), editor.label_at((0, 0))
            self.assertEqual(editor.node_value(text), "x" * 20_000)
            self.assertEqual(editor.attributes(paragraph), {"title": "t" * 5_000})
            self.assertEqual(editor.node_text(0), "x" * 20_000)
            self.assertEqual(editor.node_html(0) + "\n", editor.html())
            self.assertEqual(editor.find("x"), [Point(text, offset) for offset in range(20_000)])

    def test_a_node_has_a_path(self) -> None:
        editor = self.editor
        paths: list[list[int]] = [[], [0], [1], [1, 0], [1, 0, 0], [1, 1]]
        for path in paths:
            self.assertEqual(editor.path_of(editor.label_at(path)), path)
        deep = "<div>" * 150 + "x" + "</div>" * 150
        with Editor(deep) as nested:
            path = [0] * 151
            self.assertEqual(nested.path_of(nested.label_at(path)), path)

    def test_a_node_has_html_and_plain_text(self) -> None:
        page = "<p title=a&amp;b>a&lt;<b>b</b><br>c</p><!--n--><ul><li>d<li>e</ul>f"
        page = page.replace("<li>e", "</li><li>e</li>").replace("title=a&amp;b", 'title="a&amp;b"')
        with Editor(page) as editor:
            self.assertEqual(editor.node_html(0), page)
            paragraph, words = editor.label_at((0,)), editor.label_at((0, 0))
            self.assertEqual(editor.node_html(paragraph), page[: page.index("<!")])
            self.assertEqual(editor.node_html(words), "a&lt;")
            self.assertEqual(editor.node_html(editor.label_at((1,))), "<!--n-->")
            self.assertEqual(editor.node_text(0), "a<b\nc\nd\ne\nf")
            self.assertEqual(editor.node_text(paragraph), "a<b\nc")
            self.assertEqual(editor.node_text(words), "a<")
            self.assertEqual(editor.node_text(editor.label_at((1,))), "")
        with Editor("<p>a</p><p><br></p><p>b</p><div><div>c</div></div>") as editor:
            self.assertEqual(editor.node_text(0), "a\n\nb\nc")

    def test_what_is_selected_has_html_and_plain_text(self) -> None:
        page = "<p>one <b>two</b></p><ul><li>three</li><li>four</li></ul>"
        with Editor(page) as editor:
            self.assertIsNone(editor.selection_html())
            self.assertIsNone(editor.selection_text())
            last = ((1, 1, 0), 2)
            for points in ((((0, 1, 0), 1), last), (last, ((0, 1, 0), 1))):
                editor.select(*points)
                html = "<p><b>wo</b></p><ul><li>three</li><li>fo</li></ul>"
                self.assertEqual(editor.selection_html(), html)
                self.assertEqual(editor.selection_text(), "wo\nthree\nfo")
            editor.select(((0, 0), 1), ((0, 0), 3))
            self.assertEqual((editor.selection_html(), editor.selection_text()), ("ne", "ne"))
            editor.select(((1,), 0), ((1,), 1))
            self.assertEqual(editor.selection_html(), "<li>three</li>")
            editor.select(((), 0), ((1,), 1))
            whole = "<p>one <b>two</b></p><ul><li>three</li></ul>"
            self.assertEqual(editor.selection_html(), whole)
            self.assertEqual(editor.selection_text(), "one two\nthree")
            editor.select(((0, 1, 0), 3), ((1, 0), 0))
            self.assertEqual(editor.selection_html(), "<p><b></b></p><ul><li></li></ul>")
            for caret in (((0, 0), 1), ((0,), 1), ((), 2)):
                editor.select(caret)
                self.assertEqual((editor.selection_html(), editor.selection_text()), ("", ""))

    def test_a_text_is_found(self) -> None:
        with Editor("<p>aaaa\u00e9a<b>aa</b></p><!--aa-->") as editor:
            first, second = editor.label_at((0, 0)), editor.label_at((0, 1, 0))
            twice = [Point(first, 0), Point(first, 2), Point(second, 0)]
            self.assertEqual(editor.find("aa"), twice)
            self.assertEqual(editor.find("aa", second), [Point(second, 0)])
            self.assertEqual(editor.find("\u00e9a".encode()), [Point(first, 4)])
            for text in ("", "A", "aaaaa", "aaa\u00e9aa"):
                self.assertEqual(editor.find(text), [])
            self.assertRaises(hedit.BadArgument, editor.find, b"\xff")
            # Found and replaced, from the last one on.
            with Editor("<p contenteditable>one two one</p>") as mail:
                for point in reversed(mail.find("one")):
                    mail.select(point, Point(point.label, point.offset + 3))
                    self.assertTrue(mail.exec("insertText", "three"))
                self.assertEqual(mail.node_text(0), "three two three")

    def test_a_text_is_found_over_several(self) -> None:
        with Editor("<p contenteditable>\u00e9one <b>tw</b>o<i>two</i> t<br>wo</p>") as editor:
            block = editor.label_at((0,))
            paths = (0, 1, 0), (0, 2), (0, 3, 0)
            bold, after, italic = map(editor.label_at, paths)
            across = (Point(bold, 0), Point(after, 1)), (Point(italic, 0), Point(italic, 3))
            self.assertEqual(find_across(editor, "two", block), list(across))
            self.assertEqual(find_across(editor, "otwo t", block)[0][0], Point(after, 0))
            self.assertEqual(find_across(editor, "three", block), [])
            for anchor, focus in reversed(across):
                self.assertTrue(editor.replace(anchor, focus, "2"))
            self.assertEqual(editor.node_text(block), "\u00e9one 22 t\nwo")

    def test_calls_are_refused_after_the_end_and_in_another_thread(self) -> None:
        editor = Editor(PAGE)
        calls: list[Callable[[], object]] = [
            lambda: editor.exec("bold", denied=["italic"]),
            lambda: editor.select(Point(0, 0)),
            lambda: editor.mark("note", Point(0, 0), Point(0, 0)),
            lambda: editor.node(0),
            lambda: editor.children(0),
            lambda: editor.label_at(()),
            lambda: editor.node_name(0),
            lambda: editor.node_value(0),
            lambda: editor.attributes(0),
            lambda: editor.path_of(0),
            lambda: editor.node_html(0),
            lambda: editor.node_text(0),
            lambda: editor.find("x"),
            editor.selection,
            editor.selection_html,
            editor.selection_text,
            editor.counts,
            editor.marks,
            editor.revision,
            editor.changes,
            lambda: editor.is_kept(0),
        ]
        for call in calls:
            self.assertIsInstance(in_another_thread(call), hedit.WrongThread)
        editor.close()
        for call in calls:
            self.assertRaises(hedit.EditorClosed, call)


class Points(unittest.TestCase):
    def setUp(self) -> None:
        self.editor = Editor(PAGE)
        self.addCleanup(self.editor.close)
        self.text = self.editor.label_at((0, 0))

    def test_a_selection_goes_from_point_to_point(self) -> None:
        self.assertIsNone(self.editor.selection())
        self.editor.select(Point(self.text, 8), Point(self.text, 5))
        self.assertEqual(self.editor.points(), "anchor 0/0:8\nfocus 0/0:5\n")
        selection = self.editor.selection()
        self.assertEqual(selection, Selection(Point(self.text, 8), Point(self.text, 5)))
        self.editor.unselect()
        self.assertIsNone(self.editor.selection())

    def test_one_point_is_a_caret(self) -> None:
        self.editor.select(Point(self.text, 4))
        self.assertEqual(self.editor.points(), "anchor 0/0:4\nfocus 0/0:4\n")

    def test_a_point_stands_beside_a_place(self) -> None:
        self.editor.select(((0,), 0), Point(self.text, 4))
        self.assertEqual(self.editor.points(), "anchor 0:0\nfocus 0/0:4\n")
        self.editor.select(Point(self.text, 4), ((), 1))
        self.assertEqual(self.editor.points(), "anchor 0/0:4\nfocus .:1\n")
        with self.assertRaises(hedit.BadPlace):
            self.editor.select(((7,), 0), Point(self.text, 4))

    def test_points_are_marked(self) -> None:
        self.editor.mark("note", Point(self.text, 0), Point(self.text, 4))
        self.editor.mark("all", ((), 0), Point(self.text, 8))
        self.assertEqual(self.editor.points(), "none\nmark note 0/0:0 0/0:4\nmark all .:0 0/0:8\n")
        for number in range(14):
            self.editor.mark(f"m{number}", *NAME)
        with self.assertRaises(hedit.TooManyMarks):
            self.editor.mark("m14", Point(self.text, 0), Point(self.text, 4))

    def test_marks_are_records(self) -> None:
        editor, text = self.editor, self.text
        self.assertEqual(editor.marks(), [])
        editor.mark("note", Point(text, 8), Point(text, 5))
        editor.mark("\u00e9" * 50, ((), 0), Point(text, 0))
        editor.mark(b"\xff", Point(text, 1), Point(text, 1))
        end = Mark(b"\xff", Point(text, 1), Point(text, 1))
        name, anchor, focus = editor.marks()[0]
        self.assertEqual((name, anchor, focus), ("note", Point(text, 8), Point(text, 5)))
        self.assertEqual(editor.marks()[1:], [Mark("\u00e9" * 50, Point(0, 0), Point(text, 0)), end])
        editor.mark("note", Point(text, 5), Point(text, 8))
        editor.replace(Point(text, 4), Point(text, 4), "xy")
        self.assertEqual(editor.marks()[0], Mark("note", Point(text, 7), Point(text, 10)))
        for mark in editor.marks():
            self.assertTrue(editor.unmark(mark.name))
        self.assertEqual(editor.marks(), [])

    def test_counts_are_those_of_the_line(self) -> None:
        self.editor.select(*NAME)
        calls: list[Callable[[], bool]] = [
            lambda: True,
            lambda: self.editor.exec("bold"),
            self.editor.undo,
        ]
        for call in calls:
            self.assertTrue(call())
            names = ("nodes", "chars", "next", "edits", "undo", "redo")
            counts = self.editor.counts()
            told = (*counts[:1], counts.chars, counts.next_label, *counts[3:])
            line = " ".join(f"{name} {number}" for name, number in zip(names, told))
            self.assertEqual(self.editor.numbers(), f"{line}\n")
        self.assertEqual((counts.nodes, counts.chars, counts.undo, counts.redo), (3, 8, 0, 1))


def element(label: int, name: str, level: int = 0, **attributes: str) -> TreeNode:
    return TreeNode(level, label, NodeKind.ELEMENT, name, attributes, "")


def characters(label: int, value: str, level: int = 0, kind: NodeKind = NodeKind.TEXT) -> TreeNode:
    return TreeNode(level, label, kind, "", {}, value)


class Changes(unittest.TestCase):
    def setUp(self) -> None:
        self.editor = Editor("<p contenteditable>ab</p>")
        self.addCleanup(self.editor.close)

    def assert_tells(self, revision: int, changes: list[Change]) -> None:
        """The page was changed so often, and each query of the last change returns this."""
        self.assertEqual(self.editor.revision(), revision)
        self.assertEqual(self.editor.changes(), changes)
        self.assertEqual(self.editor.changes(), changes)

    def test_the_last_call_that_changed_something_is_told(self) -> None:
        editor = self.editor
        came: list[Change] = [Inserted((element(3, "b"),), 1, 2), Moved(2, 3, None)]
        went: list[Change] = [Moved(2, 1, None), Removed(3)]
        editor.select(Point(2, 0), Point(2, 2))
        editor.mark("note", Point(2, 0), Point(2, 1))
        self.assertFalse(editor.exec("bold", denied=["bold"]))
        self.assertFalse(editor.exec("createLink"))
        self.assert_tells(0, [])
        self.assertTrue(editor.exec("bold"))
        self.assert_tells(1, came)
        self.assertFalse(editor.redo())
        self.assert_tells(1, came)
        self.assertTrue(editor.undo())
        self.assertFalse(editor.undo())
        self.assert_tells(2, went)
        self.assertTrue(editor.redo())
        self.assertTrue(editor.exec("styleWithCSS", "true"))
        editor.unselect()
        self.assert_tells(3, came)

    def test_a_refused_call_changes_nothing(self) -> None:
        editor = self.editor
        with self.assertRaises(hedit.BadArgument):
            editor.exec("bold", b"\xff")
        with self.assertRaises(hedit.BadPlace):
            editor.select(Point(9, 0))
        self.assert_tells(0, [])
        with Editor("<p contenteditable>ab</p>", label_cap=3) as full:
            full.select(Point(2, 0), Point(2, 1))
            self.assertRaises(hedit.PageFull, full.exec, "bold")
            self.assertEqual((full.revision(), full.changes()), (0, []))

    def test_characters_are_told_and_not_bytes(self) -> None:
        editor = self.editor
        editor.select(Point(2, 2))
        editor.exec("insertText", "\ufeff\U0001f600")
        self.assert_tells(1, [Replaced(2, 2, 0, "\ufeff"), Replaced(2, 3, 0, "\U0001f600")])
        editor.exec("insertText", "\u00e9")
        self.assert_tells(2, [Replaced(2, 4, 0, "\u00e9")])
        editor.undo()
        self.assert_tells(3, [Replaced(2, at, 1, "") for at in (4, 3, 2)])

    def test_attributes_are_told(self) -> None:
        editor = self.editor
        editor.select(Point(2, 0), Point(2, 2))
        editor.exec("styleWithCSS", "true")
        editor.exec("foreColor", "red")
        span = Inserted((element(3, "span"),), 1, 2)
        self.assert_tells(1, [span, AttributesSet(3, {"style": "color: red;"}), Moved(2, 3, None)])
        editor.undo()
        self.assert_tells(2, [Moved(2, 1, None), AttributesSet(3, {}), Removed(3)])

    def test_a_tree_comes_back_whole(self) -> None:
        self.editor = Editor('<p contenteditable>a<b lang id="x"><!--n-->\u00e9</b>c</p>')
        self.addCleanup(self.editor.close)
        self.editor.select(Point(2, 0), Point(6, 1))
        self.editor.exec("delete")
        self.editor.undo()
        tree = (
            element(3, "b", lang="", id="x"),
            characters(4, "n", 1, NodeKind.COMMENT),
            characters(5, "\u00e9", 1),
        )
        last = Inserted((characters(6, "c"),), 1, None)
        first = Inserted((characters(2, "a"),), 1, 3)
        self.assert_tells(2, [Removed(7), last, Inserted(tree, 1, 6), first])
        inserted = self.editor.changes()[2]
        assert isinstance(inserted, Inserted)
        self.assertEqual(list(inserted.tree[0].attributes), ["lang", "id"])

    def test_what_went_is_kept_as_long_as_it_may_come_back(self) -> None:
        editor = self.editor
        self.assertEqual([label for label in range(9) if editor.is_kept(label)], [0, 1, 2])
        self.assertFalse(editor.is_kept(2**32 - 1))
        editor.select(Point(2, 0), Point(2, 2))
        editor.exec("bold")
        editor.undo()
        self.assert_tells(2, [Moved(2, 1, None), Removed(3)])
        self.assertTrue(editor.is_kept(3))
        editor.exec("styleWithCSS", "true")
        self.assertTrue(editor.is_kept(3))
        editor.exec("insertText", "c")
        self.assertFalse(editor.is_kept(3))
        self.assertTrue(editor.is_kept(2))

    def test_the_oldest_step_goes_with_what_it_needs(self) -> None:
        with Editor("<p contenteditable>ab</p>", undo_depth=1) as editor:
            editor.select(Point(2, 0), Point(2, 2))
            editor.exec("delete")
            self.assertTrue(editor.is_kept(2))
            editor.exec("insertText", "c")
            self.assertFalse(editor.is_kept(2))

    def test_changes_longer_than_the_room_are_whole(self) -> None:
        address = "\u00fc" * 5_000
        self.editor.select(Point(2, 1))
        self.editor.exec("insertImage", address)
        image = Inserted((element(3, "img", src=address),), 1, 4)
        self.assert_tells(1, [Inserted((characters(4, "b"),), 1, None), Replaced(2, 1, 1, ""), image])

    def test_changes_are_read_as_they_are_packed(self) -> None:
        def packed(*numbers: int) -> bytes:
            return b"".join(number.to_bytes(8, "little") for number in numbers)

        self.assertEqual(read_changes(b""), [])
        self.assertEqual(read_changes(packed(4, 2, 5, 2**40, 0)), [Replaced(2, 5, 2**40, "")])
        document = TreeNode(0, 0, NodeKind.DOCUMENT, "", {}, "")
        inserted = Inserted((document,), 1, None)
        self.assertEqual(read_changes(packed(2, 1, 2**32 - 1, 1, 0, 0, 9)), [inserted])
        with self.assertRaises(ValueError):
            read_changes(packed(6, 1))


class Causes(unittest.TestCase):
    def test_a_refused_page_has_a_place_and_a_kind(self) -> None:
        with self.assertRaises(hedit.PageRefused) as caught:
            Editor("<p>x</b>")
        error = caught.exception
        self.assertEqual((error.at, error.kind), (6, hedit.PageKind.STRAY_END))
        self.assertEqual(str(error), "the page is refused: stray-end at 6")
        self.assertEqual(str(pickle.loads(pickle.dumps(error))), str(error))

    def test_each_cause_has_a_class_below_one(self) -> None:
        deep = "<div contenteditable>" + "<div>" * 190 + "x" + "</div>" * 191
        with Editor(PAGE, label_cap=3) as full, Editor(deep) as editor:
            full.select(*NAME)
            self.assert_refused(hedit.PageFull, Status.FULL, lambda: full.exec("bold"))
            editor.select(((0,) * 192, 0))
            self.assert_refused(hedit.TooDeep, Status.DEEP, lambda: self.indent(editor))
            self.assert_refused(hedit.BadPlace, Status.BAD_PLACE, lambda: full.select(((7,), 0)))
            for number in range(16):
                full.mark(f"m{number}", *NAME)
            self.assert_refused(hedit.TooManyMarks, Status.TOO_MANY_MARKS, lambda: full.mark("m16", *NAME))
            self.assert_refused(hedit.BadArgument, Status.BAD_ARGUMENT, lambda: full.exec(b"\xff"))
        self.assert_refused(hedit.EditorClosed, Status.CLOSED, full.undo)
        self.assertTrue(issubclass(hedit.OutOfMemory, MemoryError))

    def assert_refused(self, cause: type[hedit.HeditError], status: Status, call: Callable[[], object]) -> None:
        with self.assertRaises(cause) as caught:
            call()
        self.assertIsInstance(caught.exception, hedit.HeditError)
        self.assertEqual(caught.exception.status, status)
        self.assertTrue(str(caught.exception))

    @staticmethod
    def indent(editor: Editor) -> None:
        for _ in range(99):
            editor.exec("indent")


class Lifetimes(unittest.TestCase):
    def test_a_closed_editor_is_refused_by_with(self) -> None:
        editor = Editor(PAGE)
        editor.close()
        editor.close()
        with self.assertRaises(hedit.EditorClosed), editor:
            self.fail("a closed editor was taken")

    def test_an_editor_is_neither_copied_nor_pickled(self) -> None:
        with Editor(PAGE) as editor:
            ways: list[Callable[[Any], object]] = [copy.copy, copy.deepcopy, pickle.dumps]
            for copies in ways:
                with self.subTest(copies=copies), self.assertRaises(TypeError):
                    copies(editor)
            gc.collect()
            self.assertEqual(editor.numbers(), "nodes 3 chars 8 next 3 edits 0 undo 0 redo 0\n")

    def test_another_thread_is_refused(self) -> None:
        with Editor(PAGE) as editor:
            for call in (editor.undo, editor.html, editor.close):
                self.assertIsInstance(in_another_thread(call), hedit.WrongThread)
            self.assertFalse(editor.undo())
        self.assertIsNone(in_another_thread(lambda: Editor(PAGE).close()))

    def test_an_editor_is_closed_by_its_collector_in_its_own_thread(self) -> None:
        with self.assertWarns(ResourceWarning):
            Editor(PAGE)

    def test_an_editor_found_by_another_thread_is_closed_by_its_own(self) -> None:
        held = [Editor(PAGE)]
        with warnings.catch_warnings(record=True) as said:
            warnings.simplefilter("always")
            self.assertIsNone(in_another_thread(held.clear))
        self.assertEqual([warning.category for warning in said], [ResourceWarning])
        self.assertEqual(_editor.OWN.found.qsize(), 1)
        Editor(PAGE).close()
        self.assertEqual(_editor.OWN.found.qsize(), 0)

    def test_the_end_of_python_closes_an_editor(self) -> None:
        ran = run_python(f"import hedit; editor = hedit.Editor({PAGE!r}); editor.loop = editor")
        self.assertEqual((ran.returncode, ran.stdout), (0, ""))
        self.assertNotIn("Traceback", ran.stderr)

    def test_a_refused_page_leaves_nothing_open(self) -> None:
        with warnings.catch_warnings():
            warnings.simplefilter("error")
            with self.assertRaises(hedit.PageRefused):
                Editor("<p>")
            with self.assertRaises(TypeError):
                Editor(None)  # type: ignore[arg-type]


class Texts(unittest.TestCase):
    def test_a_long_page_is_printed_once(self) -> None:
        page = f"<div contenteditable>{'<p>Call Ann</p>' * 1000}</div>"
        with Editor(page) as editor:
            counted = CountedLibrary(editor._library)
            editor._library = counted  # type: ignore[assignment]
            self.assertEqual(len(editor.html()), len(page) + len('=""') + 1)
            self.assertEqual(counted.counts, {"hedit_view": 1})
            editor.tree()
            counted.counts.clear()
            editor.tree()
            self.assertEqual(counted.counts, {"hedit_view": 1})

    def test_a_text_longer_than_the_room_is_whole(self) -> None:
        with Editor(PAGE) as editor:
            editor.select(*NAME)
            editor.exec("insertText", "x" * 20_000)
            self.assertIn("x" * 20_000, editor.html())
            editor.select(((0, 0), 0), ((0, 0), 4))
            editor.exec("createLink", "y" * 5_000)
            self.assertEqual(editor.value("createLink"), "y" * 5_000)

    def test_a_session_has_the_status_and_the_transcript_of_the_program(self) -> None:
        text = f"page <<END\n{PAGE}\nEND\nhtml\n"
        wanted = Status.DONE, b'<p contenteditable="">Call Ann</p>\n'
        self.assertEqual(hedit.session(text), wanted)
        self.assertEqual(hedit.session("", ["walk"]), (Status.USAGE, b""))


if __name__ == "__main__":
    unittest.main()
