"""Tests of ./check, .ci/examples, .ci/manual and bin/try-library on small repositories:
python3 -m unittest discover tests"""
import contextlib
import io
import shutil
import subprocess
import sys
import tempfile
import unittest
from pathlib import Path

from scripts import load_script

ROOT = Path(__file__).resolve().parent.parent
SESSION = "```session\npage\n```\n\n```answer\npage\n```\n"


class Small(unittest.TestCase):
    def setUp(self) -> None:
        sys.dont_write_bytecode = True
        self.room = Path(self.enterContext(tempfile.TemporaryDirectory()))

    def write(self, **files: str) -> None:
        """Writes files; in their names `__` stands for `/` and `_` before an ending for `.`."""
        for name, text in files.items():
            *folders, file = name.split("__")
            target = self.room.joinpath(*folders, ".".join(file.rsplit("_", 1)))
            target.parent.mkdir(parents=True, exist_ok=True)
            target.write_text(text)


class Examples(Small):
    def setUp(self) -> None:
        super().setUp()
        self.write(
            examples__one_session="page\n",
            examples__one_answer="page\n",
            README_md="",
            docs__FOR_MAKERS_md=SESSION,
            crates__mail_host__src__main_rt="fn main() {}\n",
        )
        (self.room / ".ci").mkdir()
        shutil.copy(ROOT / ".ci" / "examples", self.room / ".ci")

    def run_examples(self) -> tuple[int, str]:
        program = self.room / "program"
        program.write_text("#!/bin/sh\ncat\n")
        program.chmod(0o755)
        ran = subprocess.run([self.room / ".ci" / "examples", program], capture_output=True, text=True)
        return ran.returncode, ran.stdout + ran.stderr

    def test_right_answers_pass(self) -> None:
        status, said = self.run_examples()
        self.assertEqual(status, 0, said)
        self.assertIn("examples: 2 sessions, 0 wrong", said)

    def test_another_answer_fails(self) -> None:
        self.write(examples__one_answer="other\n")
        status, said = self.run_examples()
        self.assertEqual(status, 1)
        self.assertIn("examples/one.session: answered\npage\n", said)

    def test_another_answer_in_a_document_fails(self) -> None:
        self.write(docs__FOR_MAKERS_md=SESSION.replace("```answer\npage", "```answer\nother"))
        self.assertEqual(self.run_examples()[0], 1)

    def test_a_session_without_an_answer_fails(self) -> None:
        self.write(docs__FOR_MAKERS_md=SESSION + "```session\npage\n```\n")
        status, said = self.run_examples()
        self.assertEqual(status, 1)
        self.assertIn("a session has no answer", said)

    def test_code_that_the_host_does_not_have_fails(self) -> None:
        self.write(docs__FOR_MAKERS_md="```rust\nfn main() {}\n```\n")
        self.assertEqual(self.run_examples()[0], 0)
        self.write(docs__FOR_MAKERS_md="```rust\nfn other() {}\n```\n")
        status, said = self.run_examples()
        self.assertEqual(status, 1)
        self.assertIn("not in crates/mail_host/src/main.rt", said)


class Manual(Small):
    def setUp(self) -> None:
        super().setUp()
        self.manual = load_script(".ci/manual", self.room)
        sections = self.manual.SECTIONS
        page = "".join(f"\n.SH {section}\n.TP\n.B first\nIs the first.\n" for section in sections)
        heads = ("Status" if head.endswith("tatus") else head for head in sections.values())
        table = "\n".join(f"| {head} | Does |\n|---|---|\n| `first` | it |\n" for head in heads)
        self.write(docs__hedit_1=page, docs__FORMATS_md=table)

    def main(self) -> tuple[int, str]:
        said = io.StringIO()
        with contextlib.redirect_stdout(said):
            return self.manual.main(), said.getvalue()

    def test_a_page_like_the_tables_passes(self) -> None:
        self.assertEqual(self.main(), (0, ""))

    def test_a_row_that_the_page_lacks_fails(self) -> None:
        text = (self.room / "docs" / "FORMATS.md").read_text()
        self.write(docs__FORMATS_md=text.replace("| `first` | it |\n", "| `first` | it |\n| `second` | it |\n", 1))
        status, said = self.main()
        self.assertEqual(status, 1)
        self.assertIn("second", said)

    def test_an_item_that_the_tables_lack_fails(self) -> None:
        text = (self.room / "docs" / "hedit.1").read_text()
        self.write(docs__hedit_1=text + ".TP\n.B third\nIs none.\n")
        self.assertEqual(self.main()[0], 1)

    def test_a_section_without_items_fails(self) -> None:
        self.write(docs__hedit_1="")
        self.assertEqual(self.main()[0], 1)


class Check(Small):
    def setUp(self) -> None:
        super().setUp()
        self.check = load_script("check", self.room)

    def main(self, *words: str) -> tuple[int, str]:
        said, sys.argv = io.StringIO(), ["check", *words]
        with contextlib.redirect_stdout(said):
            return self.check.main(), said.getvalue()

    def test_help_names_each_part(self) -> None:
        status, said = self.main("help")
        self.assertEqual(status, 0)
        for part in self.check.PARTS:
            if part not in ("quick", "built"):
                self.assertIn(f"./check {part} ", said)

    def test_a_part_that_is_not_there_is_refused(self) -> None:
        status, said = self.main("docs", "nothing")
        self.assertEqual(status, 2)
        self.assertIn("there is no part nothing", said)

    def test_the_status_is_that_of_the_parts(self) -> None:
        self.check.PARTS = {"quick": lambda: True, "docs": lambda: False}
        self.assertEqual(self.main()[0], 0)
        status, said = self.main("quick", "docs")
        self.assertEqual(status, 1)
        self.assertIn("check: docs FAILED", said)

    def test_what_is_missing_is_told_and_not_run(self) -> None:
        self.check.PACKAGES = {"no-such-command": "no-such-package"}
        self.check.WANTED = self.check.NEEDED = {"web": ["no-such-command"]}
        self.check.PARTS = {"web": lambda: self.fail("it ran")}
        self.check.install = lambda commands: None
        status, said = self.main("web")
        self.assertEqual(status, 0)
        self.assertIn("web is skipped; not there: no-such-command (apt-get install no-such-package)", said)

    def test_a_part_runs_without_what_it_does_not_need(self) -> None:
        self.check.PACKAGES = {"no-such-command": "no-such-package"}
        self.check.WANTED, self.check.NEEDED = {"web": ["no-such-command"]}, {}
        self.check.install = lambda commands: None
        self.check.PARTS = {"web": lambda: True}
        self.assertIn("check: not there: no-such-command", self.main("web")[1])

    def test_each_command_has_a_package(self) -> None:
        for commands in (*self.check.WANTED.values(), *self.check.NEEDED.values()):
            self.assertLessEqual({*commands}, {*self.check.PACKAGES})


class Builds(Small):
    def setUp(self) -> None:
        super().setUp()
        self.build = load_script("bin/try-library", self.room)

    def test_arguments_of_all_kinds_are_made(self) -> None:
        structs = {"Facts": "\n    pub kind: u32,\n    pub ends: Pair,", "Pair": "\n    pub first: usize,"}
        call = self.build.call_of(
            "go",
            "alloc: Global, handle: &mut Handle, page: &[u8], facts: &mut Facts, count: u32, all: &mut [Pair]",
            structs,
        )
        for line in (
            "let mut value1 = Handle::closed(alloc);",
            "let value2 = [0u8, 0u8];",
            "let mut value3 = Facts { kind: 0u32, ends: Pair { first: 0usize } };",
            "let value4 = 0u32;",
            "let mut value5 = [Pair { first: 0usize }, Pair { first: 0usize }];",
            "go(alloc, &mut value1, &value2[..], &mut value3, value4, &mut value5[..])",
        ):
            self.assertIn(line, call)

    def test_exports_get_their_own_names(self) -> None:
        text = 'define internal i32 @"hedit_c::editor::go"(i32 %0) {\n}\ndefine i32 @main() {\n}\n'
        self.assertEqual(
            self.build.exported(text, {"hedit_c::editor::go": "go"}),
            "define i32 @go(i32 %0) {\n}\ndefine internal i32 @main() {\n}\n",
        )

    def test_an_export_that_the_module_lacks_is_told(self) -> None:
        with self.assertRaisesRegex(SystemExit, "the module has no go"):
            self.build.exported("define i32 @main() {\n}\n", {"hedit_c::editor::go": "go"})


if __name__ == "__main__":
    unittest.main()
