"""Runs the code of the documents: python3 hosts/python/test_documents.py

Each block of Python code in the documents is executed, with the names that its page takes for granted. Blocks of C++ are
compiled if there is a compiler. It needs the repository, and the library as test_hedit.py does.
"""
import contextlib
import io
import re
import shutil
import subprocess
import textwrap
import unittest
from bisect import bisect_right
from collections.abc import Iterator
from itertools import accumulate
from pathlib import Path
from typing import Any

import hedit
from hedit import Editor, NodeKind, Point

ROOT = Path(__file__).resolve().parent.parent.parent
MAIL = '<div contenteditable="true"><h1>Plan</h1><p>Call Ann &amp; Bob.</p></div>'
PAGES = ("README.md", "docs/NATIVE.md", "docs/SYNC.md", "hosts/python/README.md")


def blocks(page: str, language: str) -> list[str]:
    """Returns the blocks of code of a page in a language."""
    text = (ROOT / page).read_text()
    return re.findall(rf"^```{language}\n(.*?)^```$", text, re.M | re.S)


def run(code: str, **names: object) -> tuple[dict[str, Any], str]:
    """Executes code with names that it takes for granted, and returns its names and what it prints."""
    given = {
        "Editor": Editor,
        "NodeKind": NodeKind,
        "Point": Point,
        "Iterator": Iterator,
        "MAIL": MAIL,
        "re": re,
        "accumulate": accumulate,
        "bisect_right": bisect_right,
        **names,
    }
    with contextlib.redirect_stdout(io.StringIO()) as printed:
        exec(compile(code, "document", "exec", dont_inherit=True), given)
    return given, printed.getvalue()


def one_with(page: str, words: str) -> str:
    """Returns the only block of Python code of a page that has certain words."""
    (found,) = [block for block in blocks(page, "python") if words in block]
    return found


class Documents(unittest.TestCase):
    def test_whole_programs_run(self) -> None:
        for page in PAGES:
            for code in blocks(page, "python"):
                if code.startswith("from hedit import"):
                    with self.subTest(page=page, code=code):
                        run(code)

    def test_each_other_block_has_a_test(self) -> None:
        parts = [code for page in PAGES for code in blocks(page, "python")]
        parts = [code for code in parts if not code.startswith("from hedit import")]
        self.assertEqual(len(parts), 8)

    def test_the_example_prints_what_it_says(self) -> None:
        (code,) = blocks("README.md", "python")
        said = re.search(r"# (<p.*)$", code, re.M)
        assert said
        self.assertEqual(run(code)[1].strip(), said[1])


class Sync(unittest.TestCase):
    page = "docs/SYNC.md"

    def setUp(self) -> None:
        self.editor = Editor(MAIL)
        self.addCleanup(self.editor.close)
        self.text = self.editor.label_at((0, 1, 0))

    def test_show_walks_the_tree(self) -> None:
        names, _ = run(one_with(self.page, "def show("))
        with contextlib.redirect_stdout(io.StringIO()) as printed:
            names["show"](self.editor)
        self.assertIn(f"{self.text} Call Ann & Bob.", printed.getvalue().splitlines())

    def test_changes_are_followed(self) -> None:
        followed: list[object] = []
        names = {"show": lambda editor: [], "follow": lambda tree, change: followed.append(change)}
        run(one_with(self.page, "tree, seen = show(editor)"), page=MAIL, text=self.text, **names)
        self.assertIsInstance(followed[0], hedit.Inserted)

    def test_removed_nodes_are_forgotten(self) -> None:
        names, _ = run(one_with(self.page, "def forget("))

        class Host:
            gone, asked = {self.text: "text", 99: "other"}, 0

        names["forget"](Host, self.editor)
        self.assertEqual((Host.gone, Host.asked), ({self.text: "text"}, 1))

    def test_a_step_is_undone_at_once(self) -> None:
        names, _ = run(one_with(self.page, "def step("))
        self.editor.select(Point(self.text, 5), Point(self.text, 8))
        before = self.editor.html()
        names["step"](self.editor, ("bold", ""), ("italic", ""))
        self.assertIn("<i>", self.editor.html())
        self.editor.undo()
        self.assertEqual(self.editor.html(), before)

    def test_ranges_are_formatted_within_a_step(self) -> None:
        with Editor("<p contenteditable>Call Ann</p>") as editor:
            run(one_with(self.page, '"foreColor"'), editor=editor)
            self.assertIn('color="#cc0000"', editor.html())
            self.assertEqual(editor.counts().undo, 1)

    def test_a_replacement_continues_typing(self) -> None:
        with Editor("<p contenteditable>Call Ann</p>") as editor:
            text = editor.label_at((0, 0))
            editor.select(Point(text, 8))
            code = one_with(self.page, '" teh"')
            middle, _, end = code.rpartition("editor.undo()")
            run(middle, editor=editor, text=text)
            self.assertEqual(editor.node_value(text), "Call Ann the end")
            run(f"editor.undo(){end}", editor=editor)
            self.assertEqual(editor.node_value(text), "Call Ann")

    def test_a_text_is_replaced_everywhere(self) -> None:
        names, _ = run(one_with(self.page, "def replace("))
        names["replace"](self.editor, "n", "mm")
        self.assertIn("<h1>Plamm</h1><p>Call Ammmm", self.editor.html())

    def test_a_text_is_found_across_texts(self) -> None:
        names, _ = run(one_with(self.page, "def find_across("))
        self.editor.select(Point(self.text, 6), Point(self.text, 8))
        self.editor.exec("bold")
        ((start, end),) = names["find_across"](self.editor, "Ann", self.editor.label_at((0, 1)))
        self.editor.select(start, end)
        self.assertEqual(self.editor.selection_text(), "Ann")


@unittest.skipUnless(shutil.which("c++"), "there is no c++")
class Cpp(unittest.TestCase):
    def test_blocks_compile(self) -> None:
        for code in blocks("docs/NATIVE.md", "cpp"):
            body = textwrap.indent(code, "    ")
            source = f'#include <hedit.hpp>\nstatic const char MAIL[] = "";\nint main() {{\n{body}}}\n'
            words = ["c++", "-std=c++17", "-fsyntax-only", f"-I{ROOT}/include", "-x", "c++", "-"]
            ran = subprocess.run(words, input=source.encode(), capture_output=True)
            self.assertEqual(ran.returncode, 0, ran.stderr.decode())


if __name__ == "__main__":
    unittest.main()
