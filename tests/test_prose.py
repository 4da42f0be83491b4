"""Tests of .ci/prose on a small repository: python3 -m unittest discover tests"""
import tempfile
import unittest
from pathlib import Path

from scripts import load_script

C = """\
/* Takes a text that stands here. */
void hedit_take(const char *stands); /* "beside" */

/*
 * So it is
 * with room.
 */
"""

PYTHON = """\
#!/usr/bin/env python3
\"\"\"What stands here.\"\"\"
room = "is no list"  # a gate


def take(room: str) -> str:
    \"\"\"Tells what `stands` means.\"\"\"
    return [
        "beside",
        f"amid {room}",
    ]
"""

SHELL = """\
#!/bin/sh
# Where it stands.
echo "told $# times"
"""


class Prose(unittest.TestCase):
    def setUp(self) -> None:
        room = tempfile.TemporaryDirectory()
        self.addCleanup(room.cleanup)
        self.root = Path(room.name)
        self.prose = load_script(".ci/prose", self.root)

    def write(self, name: str, text: str) -> None:
        path = self.root / name
        path.parent.mkdir(parents=True, exist_ok=True)
        path.write_text(text)

    def found(self) -> list[tuple[str, int, str]]:
        """The name of each file with a fault, the line, and what is quoted of the phrase or the count of words."""
        parts = [(file.name, line, fault) for file, line, fault in self.prose.faults()]
        return sorted((name, line, fault.split('"')[1] if '"' in fault else fault[:8]) for name, line, fault in parts)

    def test_finds_phrases_of_documents(self) -> None:
        self.write(
            "docs/A.md",
            "Nodes stand here.\nIt is no list. Of the list. No longer is no longer hard.\n\nWhere nothing is, it stands for that.\n",
        )
        self.write("docs/B.md", "It takes minutes\nof processor, amid others.\n")
        self.assertEqual(
            [
                ("A.md", 1, "stand"),
                ("A.md", 2, "Of the"),
                ("A.md", 2, "is no list"),
                ("A.md", 4, "Where"),
                ("B.md", 2, "amid"),
                ("B.md", 2, "of processor"),
            ],
            self.found(),
        )

    def test_passes_over_code_quotes_and_targets_of_links(self) -> None:
        self.write("docs/A.md", '`is no list` "who shows" [a](stands.md)\n\n```\nstands\n```\n')
        self.assertEqual([], self.found())

    def test_finds_long_sentences_but_not_enumerations(self) -> None:
        words = " ".join(["word"] * 25)
        self.write(
            "docs/A.md",
            f"{words}. `code of many words` {words}.\n\n- {words}:\n- {words}, \n  word.\n\n{'name, ' * 30}.\n\n|{words} {words}|\n",
        )
        self.write("docs/ALGORITHMS.md", f"{words} {words}\n")
        self.assertEqual([("A.md", 1, "26 words"), ("A.md", 4, "26 words")], self.found())

    def test_finds_phrases_of_comments_alone(self) -> None:
        self.write("include/a.h", C)
        self.write("hosts/python/b.py", PYTHON)
        self.write("bin/c", SHELL)
        self.assertEqual(
            [
                ("a.h", 1, "stands"),
                ("a.h", 5, "So it is"),
                ("a.h", 6, "room"),
                ("b.py", 2, "What stands"),
                ("b.py", 2, "stands"),
                ("b.py", 3, "gate"),
                ("b.py", 7, "Tells"),
                ("c", 2, "stands"),
            ],
            self.found(),
        )


if __name__ == "__main__":
    unittest.main()
