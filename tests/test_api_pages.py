"""Tests of bin/api-pages on small declarations: python3 -m unittest discover tests"""
import ast
import unittest

from scripts import load_script

api_pages = load_script("bin/api-pages")

CPP = """\
    /* Takes a step back. False where there is
     * none. */
    bool undo() { return answer(hedit_undo(&handle_)); }
    bool redo() { return answer(hedit_redo(&handle_)); }

    explicit Editor(Editor &&other) noexcept
        : handle_(other.handle_) {}

    /* Opens a page. */
    explicit Editor(std::string_view page,
                    std::size_t undo_depth = 100) {
"""

TYPES = """\
/** @typedef {import("./errors.js").Place} Place */
/**
 * Loads the engine.
 * @param {string} source
 * @throws {NotLoaded} There is no file.
 */
export function load(source?: string): Promise<import("./errors.js").Engine>;
/** An editor. */
export class Editor {
    /**
     * @private
     */
    private constructor();
    /**
     * Selects from a place to another.
     * @param {Place} anchor
     */
    select(anchor: Place): {
        ok: boolean;
        missing: string[];
    };
    #private;
}
export type Place = import("./errors.js").Place;
export type Other = import("./region.js").Other;
/**
 * What a page may come to.
 */
export type Limits = Depth & {
    /**
     * So many commands.
     */
    undo?: ((count: number) => void) | undefined;
};
/**
 * What is wanted.
 */
export type Wanted = import("./errors.js").More & Least;
export type Least = {
    /**
     * So many at least.
     */
    readonly least: number | null;
};
export { NotLoaded } from "./errors.js";
import { Depth } from "./errors.js";
"""

ERRORS = """\
/** There is no file. */
export class NotLoaded extends Error {
    constructor(message?: string);
}
/** Where something is. */
export type Place = {
    readonly path: readonly number[];
    readonly offset: number;
};
export type More = {
    /** So many at most. */
    most?: number | undefined;
};
"""


class Items(unittest.TestCase):
    def test_a_comment_belongs_to_the_code_after_it(self) -> None:
        (words, code), (other, _) = api_pages.items(CPP, "    ")
        self.assertEqual(words, "Takes a step back. False where there is\nnone.")
        self.assertEqual(list(api_pages.heads(code, "    ")), ["bool undo()", "bool redo()"])
        self.assertEqual(other, "Opens a page.")

    def test_a_declaration_has_no_body(self) -> None:
        *_, (head, words) = api_pages.members(CPP, "    ")
        self.assertEqual(head, "`explicit Editor(std::string_view page, std::size_t undo_depth = 100)`")
        self.assertEqual(words, "Opens a page.")


class Pages(unittest.TestCase):
    def test_a_module_has_its_classes_and_its_calls(self) -> None:
        modules = api_pages.Modules({"hedit.js": TYPES, "errors.js": ERRORS})
        text = modules.part("hedit.js")
        self.assertIn("| `load(source?: string): Promise<Engine>` | Loads the engine. Throws NotLoaded: There", text)
        self.assertIn("| `select(anchor: Place): { ok: boolean; missing: string[] }` | Selects from a place", text)
        self.assertNotIn("constructor", text)
        self.assertNotIn("private", text)

    def test_a_module_has_what_it_exports_of_others(self) -> None:
        modules = api_pages.Modules({"hedit.js": TYPES, "errors.js": ERRORS})
        text = modules.part("hedit.js")
        self.assertIn("| `NotLoaded` | There is no file. |", text)
        self.assertIn("| `Place`: `path`, `offset` | Where something is. |", text)
        self.assertNotIn("Other`", text)

    def test_a_type_has_its_members(self) -> None:
        modules = api_pages.Modules({"hedit.js": TYPES, "errors.js": ERRORS})
        text = modules.part("hedit.js")
        self.assertIn("### Wanted\n\nWhat is wanted.\n", text)
        self.assertIn("| `most?: number` | So many at most. |", text)
        self.assertIn("| `readonly least: number \\| null` | So many at least. |", text)
        self.assertIn("| `Limits`: `undo` | What a page may come to. |", text)

    def test_indented_lines_are_code(self) -> None:
        text = api_pages.paragraphs("First\nline:\n\n    a\n\n    b\n\n- one\n  more\n- two")
        self.assertEqual(text, "First line:\n\n```text\na\n\nb\n```\n- one more\n- two")

    def test_a_call_is_shown_without_self(self) -> None:
        (call,) = ast.parse("def find(self, text: str, label: int = 0) -> list[int]: ...").body
        self.assertEqual(api_pages.signature(call, "find"), "`find(text: str, label: int=0) -> list[int]`")
        (call,) = ast.parse("def close(self) -> None: ...").body
        self.assertEqual(api_pages.signature(call, "close"), "`close()`")

    def test_the_pages_are_current(self) -> None:
        for name, text in api_pages.pages().items():
            self.assertEqual((api_pages.FOLDER / name).read_text(), text, name)


if __name__ == "__main__":
    unittest.main()
