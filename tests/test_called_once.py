"""Tests of bench/called_once.py on a small repository: python3 -m unittest discover tests"""
import contextlib
import io
import tempfile
import unittest
from pathlib import Path
from unittest import mock

from scripts import load_script

ROWS = """# What commands share
low:

# The commands
high: low

# Tests, measures and an example
trials: low
"""
LOW = """//! Calls once(), which nobody counts.
mod inner;

pub use inner::{called_across as taken, once};

pub fn twice(at: u32) -> u32
    ensures { result ≡ once at }
{
    inner::once(at) + kept(at)
}

fn kept(at: u32) -> u32 {
    at
}

struct Turn(u32);

impl Turn {
    pub fn step(&self) -> u32 {
        kept(self.0)
    }
}
"""
INNER = """pub fn once(at: u32) -> u32
    requires { at < 9 }
{
    // a comment
    at
}

pub fn called_across(
    at: u32,
) -> u32
{
    let one = at;
    let two = one;
    let three = two;
    three
}
"""
HIGH = "use low::{taken, twice};\n\npub fn act(turn: &Turn) -> u32 {\n    twice(taken(turn.step())) + twice(1)\n}\n"


class CalledOnce(unittest.TestCase):
    def printed(self, *words: str) -> list[list[str]]:
        """The words of the lines that the script prints."""
        room = Path(self.enterContext(tempfile.TemporaryDirectory()))
        sources = {"low/src/lib.rt": LOW, "low/src/inner.rt": INNER, "high/src/lib.rt": HIGH}
        sources["trials/src/main.rt"] = "fn main() {\n    low::once(1);\n    low::once(2);\n}\n"
        (room / "crates.txt").write_text(ROWS)
        for name, text in sources.items():
            path = room / "crates" / name
            path.parent.mkdir(parents=True, exist_ok=True)
            path.write_text(text)
        script = load_script("bench/called_once.py", room)
        with contextlib.redirect_stdout(io.StringIO()) as said, mock.patch("sys.argv", ["called_once.py", *words]):
            script.main()
        return [line.split() for line in said.getvalue().splitlines()]

    def test_lists_short_functions_with_one_caller(self) -> None:
        *lines, _, low, high, total = self.printed()
        self.assertEqual(
            [
                ["low/src/inner:", "once,", "1", "lines,", "called", "by", "twice"],
                ["low/src/lib:", "step,", "1", "lines,", "called", "by", "act"],
            ],
            lines,
        )
        self.assertEqual(
            [["low", "5", "3", "2"], ["high", "1", "0", "0"], ["total", "6", "3", "2"]], [low, high, total]
        )

    def test_takes_crates_and_a_number_of_lines(self) -> None:
        self.assertEqual(
            [["low", "5", "3", "3"], ["total", "5", "3", "3"]], self.printed("--totals", "--lines", "5", "low")[1:]
        )


if __name__ == "__main__":
    unittest.main()
