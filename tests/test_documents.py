"""Tests of .ci/claims and .ci/documents on small repositories: python3 -m unittest discover tests"""
import tempfile
import unittest
from pathlib import Path

from scripts import load_script

SOURCE = """\
/// Adds one.
pub fn add(value: u32) -> u32
    requires small { value < 9 }
    ensures more { result ≡ value + 1 }
    ensures { result ≢ 0 }
{
    value + 1
}

/// A counter.
pub struct Counter(u32);

impl Counter {
    /// Counts up,
    /// by one.
    #[inline]
    pub fn step(&mut self)
        ensures gives { Gives self.old self.new count_up }
    {
        self.0 = add(self.0);
    }

    pub fn quiet(&self) {}
}
"""

DEFINITIONS = """\
-- What counting is.
unfoldable pub count_up : ℕ → ℕ
count_up n = n + 1

unfoldable pub idle : ℕ → ℕ
idle n = n
"""


class SmallRepository(unittest.TestCase):
    def setUp(self) -> None:
        room = tempfile.TemporaryDirectory()
        self.addCleanup(room.cleanup)
        self.root = Path(room.name)
        self.write(
            "crates/low/src/lib.rt",
            "//! Counting. It has more to say.\npub use counting::{Counter, add};\nmod counting;\n",
        )
        self.write("crates/low/src/counting.rt", SOURCE)
        self.write("crates/low/specs/Counting.antt", DEFINITIONS)
        self.write("crates/low/must-fail/counts_two.edit", "file: src/counting.rt\nold: 1\nnew: 2\n")

    def write(self, name: str, text: str) -> Path:
        path = self.root / name
        path.parent.mkdir(parents=True, exist_ok=True)
        path.write_text(text)
        return path


class Claims(SmallRepository):
    def setUp(self) -> None:
        super().setUp()
        self.claims = load_script(".ci/claims", self.root)
        self.claims.CLAIMS = self.root / "docs" / "CLAIMS.md"
        self.claims.MUTANTS = self.write(
            "bench/mutants.tsv", "# mutant\tcalls\nlow/counts_two\tlow add more; low Counter::step gives\n"
        )
        self.claims.STEPS = self.write(
            ".ci/steps", "counting\t1\tlow/specs/Counting: count_up\tlow/src/counting: step\n"
        )
        self.crates = self.claims.read_crates()

    def test_reads_calls_with_their_clauses_and_comments(self) -> None:
        calls = {call.name: call for call in self.crates["low"].public}
        self.assertEqual(["Counter::quiet", "Counter::step", "add"], sorted(calls))
        self.assertEqual(["more", "ensures"], calls["add"].clauses)
        self.assertEqual("Counts up, by one.", calls["Counter::step"].comment)
        self.assertEqual("", calls["Counter::quiet"].comment)

    def test_finds_what_a_row_names_and_nobody_has(self) -> None:
        self.write(
            "docs/CLAIMS.md", "## `low`\n\n|Call|Clauses|\n|---|---|\n|`add`|`more`, `less`|\n|`sub`|`ensures`|\n"
        )
        claimed, faults, rows = self.claims.faults_of_claims(self.crates)
        self.assertEqual({("low", "add"), ("low", "sub")}, claimed)
        self.assertEqual(
            [
                "docs/CLAIMS.md:5: add has no clause less",
                "docs/CLAIMS.md:6: low has no call sub",
                "docs/CLAIMS.md:6: sub has no clause ensures",
            ],
            faults,
        )
        self.assertEqual(2, rows)

    def test_finds_theorems_that_are_missing(self) -> None:
        self.write("docs/CLAIMS.md", "## Theorems\n\n### `low`\n\nNumbers grow (`numbers_grow`, `add`).\n")
        self.assertEqual(
            ["docs/CLAIMS.md: `low`: there is no theorem numbers_grow"],
            list(self.claims.faults_of_theorems(self.crates)),
        )

    def test_takes_mutants_that_are_listed(self) -> None:
        self.assertEqual(([], 1), self.claims.faults_of_mutants(self.crates))

    def test_takes_mutants_that_name_their_call(self) -> None:
        self.write("bench/bugs/low/forgets.edit", "call: add\nfile: src/counting.rt\n")
        self.assertEqual(([], 2), self.claims.faults_of_mutants(self.crates))
        self.write("bench/bugs/low/forgets.edit", "call: sub\n")
        self.assertEqual(["bench/mutants.tsv: low has no call sub"], self.claims.faults_of_mutants(self.crates)[0])

    def test_finds_mutants_that_are_missing_or_not_listed(self) -> None:
        self.write("bench/bugs/low/forgets.edit", "")
        self.claims.MUTANTS.write_text("low/counts_three\tlow add fewer; high add more\n")
        faults, mutants = self.claims.faults_of_mutants(self.crates)
        self.assertEqual(2, mutants)
        self.assertEqual(
            [
                "low add has no clause fewer",
                "there is no crate high",
                "there is no mutant low/counts_three",
                "low/counts_two names no call, and isn't listed",
                "low/forgets names no call, and isn't listed",
            ],
            [fault.removeprefix("bench/mutants.tsv: ") for fault in faults],
        )

    def test_writes_the_index(self) -> None:
        self.claims.write_index(self.crates, self.root / "out.md")
        text = (self.root / "out.md").read_text()
        self.assertIn("|`src/lib.rt`|Counting.|", text)
        self.assertIn("|`specs/Counting.antt`|What counting is.|", text)
        self.assertIn("|`add`|`more`, `ensures`|`low/counts_two`|Adds one.|", text)
        self.assertIn("|counting|1|low/specs/Counting: count_up|low/src/counting: step|", text)


class Documents(SmallRepository):
    def setUp(self) -> None:
        super().setUp()
        self.documents = load_script(".ci/documents", self.root)
        self.documents.CRATES = {"low"}

    def faults(self, page: Path) -> list[str | None]:
        return [fault for _, fault in self.documents.found_in(page) if fault]

    def test_follows_links_and_anchors(self) -> None:
        page = self.write(
            "docs/A.md", "# A page\n\n## Two words\n\n[a](#two-words) [b](#three) [c](B.md) [d](https://example.org)\n"
        )
        self.assertEqual(["#three has no such heading", "B.md leads nowhere"], self.faults(page))

    def test_finds_paths_and_the_names_after_them(self) -> None:
        page = self.write(
            "docs/A.md",
            "`low/specs/Counting: count_up, count_down` `low/src/none` `crates/CRATE/src` `docs/A.md` `low/must-fail/counts_two`\n",
        )
        self.assertEqual(["low/specs/Counting has no count_down", "there is no low/src/none"], self.faults(page))

    def test_counts_words(self) -> None:
        page = self.write("docs/A.md", "one two three\n")
        other = self.write("docs/B.md", "one\n")
        self.documents.BUDGETS = {"docs/A.md": 2}
        self.assertEqual(
            ["docs/A.md: 3 words, and may have 2", "docs/B.md has no budget"],
            list(self.documents.faults_of_words([page, other], False)),
        )

    def test_counts_neither_numbers_of_items_nor_places_in_sources(self) -> None:
        page = self.write("docs/A.md", "`low/specs/Counting: count_up`; `low`.\n\n1. One\n   - a. two\n- a three 4.\n")
        self.assertEqual(6, self.documents.count([page]))

    def test_finds_long_decisions(self) -> None:
        page = self.write("docs/DECISIONS.md", f"# Decisions\n\n### Short\n\nYes.\n\n### Long\n\n{'word ' * 81}\n")
        self.assertEqual(
            ['the decision "Long" has 81 words, and may have 80'], list(self.documents.faults_of_decisions(page))
        )

    def test_compares_a_crate_with_its_readme(self) -> None:
        page = self.write("crates/low/README.md", "# low\n\nCounts.\n\nDefinitions, in reading order: `Counted`.\n")
        self.assertEqual(["no definitions Counting", "there is no Counted"], list(self.documents.faults_of_crate(page)))

    def test_compares_layers(self) -> None:
        self.write("crates.txt", "# Low\nlow: std\nmid: low\n")
        page = self.write("docs/ARCHITECTURE.md", "### Low\n\n|Crate|\n|---|\n|`low`|\n")
        self.assertEqual(
            ["mid is in the layer Low in only one of this page and crates.txt"],
            list(self.documents.faults_of_layers(page)),
        )

    def test_ties_steps_to_definitions_and_functions(self) -> None:
        self.write(
            ".ci/steps",
            "counting\t1\tlow/specs/Counting: count_up\tlow/src/counting: step\n"
            "counting\t2\tlow/specs/Counting: idle\tlow/src/counting: add\n",
        )
        page = self.write(
            "docs/ALGORITHMS.md",
            "# A\n\n## Counting\n\n`low/specs/Counting: count_up`; `low/src/counting: step`.\n\n1. Add one.\n\n"
            "## Idling\n\n`low/specs/Counting: idle`; `low/src/counting: step`.\n\n1. Wait.\n",
        )
        self.assertEqual(
            [
                (9, "idling: no function that is named has a definition that is named in its contract"),
                (1, ".ci/steps, counting 2: has no step 2"),
                (1, ".ci/steps, counting 2: the contract of add has none of idle"),
                (1, ".ci/steps, counting 2: no function has idle in its contract"),
            ],
            list(self.documents.faults_of_algorithms(page)),
        )

    def test_finds_quotes_that_no_source_has(self) -> None:
        page = self.write("docs/PROOFS.md", "# P\n\n```\ncount_up n = n + 1\ncount_up n = n\n```\n")
        self.assertEqual([(3, "no source has the line count_up n = n")], list(self.documents.faults_of_quotes(page)))


if __name__ == "__main__":
    unittest.main()
