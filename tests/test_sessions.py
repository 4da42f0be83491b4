"""Tests of the form of stored sessions and of tests/run-sessions: python3 -m unittest discover tests"""
import json
import shutil
import subprocess
import sys
import tempfile
import unittest
from pathlib import Path

TESTS = Path(__file__).resolve().parent
sys.path.insert(0, str(TESTS))
import session_form
from session_form import Session, parsed, written

# Answers as hedit would where the arguments are `run`, and repeats its input.
PROGRAM = """\
#!/bin/sh
[ "$1" = run ] || exit 2
cat
"""


class Form(unittest.TestCase):
    def round_trip(self, *parts: bytes) -> bytes:
        """The file of a session with this input and reply, which has to give them back."""
        session = Session(("run",), parts[0], 0, parts[-1])
        file = written(session)
        self.assertEqual(parsed(file), session)
        self.assertTrue(all(line.isprintable() for line in file.decode().split("\n")))
        return file

    def test_a_session_is_written_as_it_reads(self) -> None:
        session = Session(("run", "--cap=3"), b"page <<E\nE\nhtml\n", 0, b"\n", "An empty page.")
        self.assertEqual(
            written(session), b"# An empty page.\n$ hedit run --cap=3\npage <<E\nE\nhtml\n--- reply, status 0\n\n"
        )
        self.assertEqual(parsed(written(session)), session)

    def test_each_byte_is_kept(self) -> None:
        self.round_trip(bytes(range(256)))
        self.round_trip(bytes(range(255, -1, -1)) + b"\n")
        for byte in range(256):
            self.round_trip(bytes([byte]), b"a" + bytes([byte]) + b"\n")

    def test_what_does_not_show_is_escaped(self) -> None:
        for content, shown in (
            (b"a\rb\n", "a⟨0D⟩b"),
            (b"a\tb\n", "a⟨09⟩b"),
            (b"a \n", "a⟨20⟩"),
            (b"\xff\xfe\n", "⟨FF FE⟩"),
            ("a\xa0b\n".encode(), "a⟨C2 A0⟩b"),
            ("⟨end⟩\n".encode(), "⟨E2 9F A8⟩end⟩"),
            (b"ab", "ab⟨end⟩"),
            ("\u200b\n".encode(), "⟨E2 80 8B⟩"),
            ("é😀\n".encode(), "é😀"),
            (b"a\\n\n", "a\\n"),
        ):
            self.assertIn(f"\n{shown}\n", self.round_trip(content).decode(), content)

    def test_ends_of_parts_are_kept(self) -> None:
        for content in (b"", b"\n", b"\n\n", b"a", b"a\n", b"a\n\n", b" ", b" \n ", "⟨".encode()):
            self.round_trip(content, content)

    def test_lines_that_look_like_the_form_are_kept(self) -> None:
        for line in (b"--- reply, status 0", b"--- ", b"---", b"$ hedit run", b"# a remark"):
            self.round_trip(line + b"\n", line)

    def test_arguments_are_quoted_as_in_a_shell(self) -> None:
        for arguments in ((), ("",), ("run ", "a b"), ("--", "'", '"', "$x", "\\", "é")):
            session = Session(arguments, b"", 2, b"")
            self.assertEqual(parsed(written(session)), session)

    def test_faults_of_files_are_told(self) -> None:
        for file, fault in (
            (b"", "no line `"),
            (b"# only a title\n", "no line `"),
            (b"page\n--- reply, status 0\n", "no line `"),
            (b"$ hedit run\nhtml\n", "ends the input"),
            (b"$ hedit run\n--- reply, status 0\nok", "no line feed"),
        ):
            with self.assertRaisesRegex(ValueError, fault):
                parsed(file)

    def test_the_readers_agree(self) -> None:
        if not shutil.which("node"):
            self.skipTest("there is no node")
        script = """
            import { readSession } from %r;
            const { words, input, status, reply } = readSession(process.argv[1]);
            console.log(JSON.stringify([words, input.toString("hex"), status, reply.toString("hex")]));
        """ % str(
            TESTS / "session_form.mjs"
        )
        session = Session(("run ", "", "it's"), bytes(range(256)), 8, b" \r\n--- \n")
        with tempfile.TemporaryDirectory() as room:
            file = Path(room) / "a.txt"
            file.write_bytes(written(session))
            ran = subprocess.run(
                ["node", "--input-type=module", "-e", script, str(file)], capture_output=True, text=True
            )
        told = json.loads(ran.stdout or "null")
        self.assertEqual(told, [list(session.arguments), session.input.hex(), 8, session.reply.hex()], ran.stderr)


class Runs(unittest.TestCase):
    def setUp(self) -> None:
        self.room = Path(self.enterContext(tempfile.TemporaryDirectory()))
        self.program = self.room / "program"
        self.program.write_text(PROGRAM)
        self.program.chmod(0o755)
        self.file = self.room / "sessions" / "a.txt"
        self.file.parent.mkdir()

    def run_over(self, *sessions: Session, words: tuple[str, ...] = ()) -> tuple[int, str]:
        for number, session in enumerate(sessions):
            self.file.with_stem("abcdef"[number]).write_bytes(written(session))
        ran = subprocess.run(
            [TESTS / "run-sessions", *words, self.program, self.file.parent], capture_output=True, text=True
        )
        return ran.returncode, ran.stdout + ran.stderr

    def test_right_answers_pass(self) -> None:
        status, said = self.run_over(Session(("run",), b"a", 0, b"a"), Session(("x",), b"", 2, b""))
        self.assertEqual(status, 0, said)
        self.assertIn(": 2 of 2\n", said)

    def test_another_reply_fails_and_is_shown(self) -> None:
        status, said = self.run_over(Session(("run",), b"a\n", 0, b"b\n"))
        self.assertEqual(status, 1)
        self.assertIn("-b\n+a\n", said)
        self.assertIn(": 0 of 1\n", said)

    def test_another_status_fails(self) -> None:
        status, said = self.run_over(Session(("run",), b"", 6, b""))
        self.assertEqual(status, 1)
        self.assertIn("---- reply, status 6\n+--- reply, status 0\n", said)

    def test_standard_error_and_a_program_that_is_not_there_fail(self) -> None:
        self.program.write_text("#!/bin/sh\ncat\necho no >&2\n")
        status, said = self.run_over(Session(("run",), b"", 0, b""))
        self.assertEqual(status, 1)
        self.assertIn("standard error: b'no", said)
        self.program.unlink()
        self.assertEqual(self.run_over()[0], 1)

    def test_no_session_and_no_folder_fail(self) -> None:
        self.assertEqual(self.run_over()[0], 1)
        shutil.rmtree(self.file.parent)
        status, said = self.run_over()
        self.assertEqual(status, 1)
        self.assertIn("there is no ", said)

    def test_a_file_outside_the_form_fails(self) -> None:
        self.file.write_text("html\n")
        status, said = self.run_over()
        self.assertEqual(status, 1)
        self.assertIn("a.txt: no line `$ hedit ..`", said)

    def test_rewriting_puts_the_answer_into_the_file(self) -> None:
        right = Session(("run",), b"a\n", 0, b"a\n", "Repeats.")
        status, _ = self.run_over(Session(("run",), b"a\n", 0, b"b\n", "Repeats."), words=("--rewrite",))
        self.assertEqual((status, parsed(self.file.read_bytes())), (1, right))
        self.assertEqual(self.run_over()[0], 0)


class Stored(unittest.TestCase):
    def test_each_stored_session_is_in_the_form(self) -> None:
        for path in session_form.files([]):
            self.assertEqual(written(session_form.read(path)), path.read_bytes(), path)


if __name__ == "__main__":
    unittest.main()
