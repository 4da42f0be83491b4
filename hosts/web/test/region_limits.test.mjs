/** What a region doesn't do: what is denied, steps that the history has lost, and all if it is read-only. */
import assert from "node:assert/strict";
import { describe } from "node:test";
import { BROWSERS, it } from "./browsers.mjs";
import { RegionPage } from "./region_page.mjs";

/**
 * What is denied and yet might be done: a page, a place in it, and how it is asked for.
 * @type {any[][]}
 */
const DENIED = [
  [["backColor"], "<p>a</p>", [0, 0], 1, "exec", "backColor", "yellow"],
  [["formatBlock"], "<p>a</p>", [0, 0], 1, "exec", "formatBlock", "blockquote"],
  [["outdent"], "<blockquote><p>a <b>b</b></p></blockquote>", [0, 0, 0], 0, "exec", "outdent"],
  [["indent"], "<ul><li>z</li><li>a<ul><li>b</li></ul></li></ul>", [0, 1, 0], 0, "exec", "indent"],
  [["delete"], "<ul><li>a</li><li>b</li></ul>", [0, 1, 0], 0, "press", "Backspace"],
  [["delete"], '<p><a href="u">ab</a></p>', [0, 0, 0], 2, "press", "Backspace"],
  [["delete"], "<p>a🇩🇪</p>", [0, 0], 1, "press", "Delete"],
  [["forwardDelete"], "<p>ab</p>", [0, 0], 1, "press", "Delete"],
  [["FORWARDDELETE"], "<p>ab</p>", [0, 0], 1, "exec", "forwardDelete"],
  [["insertText"], "<p>ab</p>", [0, 0], 1, "press", "x"],
  [["insertText"], "<p>ab</p>", [0, 0], 1, "press", "Control+v"],
  [["insertParagraph"], "<p>ab</p>", [0, 0], 1, "press", "Enter"],
  [["insertLineBreak"], "<p>ab</p>", [0, 0], 1, "press", "Shift+Enter"],
  [["bold"], "<p>ab</p>", [0, 0], 1, "press", "Control+b"],
  [["underline"], "<p>ab</p>", [0, 0], 1, "press", "Control+u"],
];

for (const { Browser, name, skip } of BROWSERS) {
  describe(`a region in ${name}`, { skip }, () => {
    const region = new RegionPage(Browser);

    describe("what is denied", () => {
      for (const [denied, html, path, offset, way, ...words] of DENIED) {
        it(`isn't done: ${denied} by ${words.join(" ")}`, async () => {
          await region.open(html, { denied });
          await region.click(path, offset);
          if (words[0] === "Control+v") {
            await region.page.evaluate(() => navigator.clipboard.writeText("pasted"));
          }
          await region.events();
          if (way === "exec") {
            assert.equal(await region.ask("exec", ...words), false);
            assert.equal(await region.ask("enabled", words[0]), false);
          } else {
            await region.page.press(words[0]);
            assert.deepEqual(await region.events(), ["refused"]);
          }
          await region.shows(html);
          assert.equal(await region.ask("state", denied[0]), false);
          assert.equal(await region.steps(), 0);
        });
      }

      it("isn't what a habit does for another command", async () => {
        await region.open("<p>a</p>", { denied: ["indent", "hiliteColor"] });
        await region.click([0, 0], 1);
        assert.equal(await region.ask("exec", "formatBlock", "blockquote"), true);
        await region.shows("<blockquote><p>a</p></blockquote>");
      });

      it("isn't a string", async () => {
        const said = await region.page.evaluate(() => {
          try {
            window.start("<p>a</p>", { denied: "insertText" });
          } catch (error) {
            return error.name;
          }
        });
        assert.equal(said, "TypeError");
      });

      it("isn't undone", async () => {
        await region.open("<p>ab</p>", { denied: ["undo"] });
        await region.click([0, 0], 1);
        await region.type("x");
        await region.page.press("Control+z");
        assert.equal(await region.ask("undo"), false);
        await region.shows("<p>axb</p>");
      });
    });

    describe("a step", () => {
      /** Types digits as one step, which has an entry for each digit where something is marked. */
      const types = (from, count, isMarked) =>
        region.page.evaluate(
          (first, many, hasMarks) => {
            window.region.step(() => {
              for (let number = first; number < first + many; number += 1) {
                const { label } = window.region.editor.selection().focus;
                window.region.select({ label, offset: 1 });
                window.region.exec("insertText", String(number % 10));
                if (hasMarks) {
                  window.region.mark("here");
                }
              }
            });
          },
          from,
          count,
          isMarked,
        );

      for (const undoDepth of [1, 2, 5]) {
        const what = `is undone as a whole or not at all, with ${undoDepth} entries`;
        it(what, { timeout: 120_000 }, async () => {
          const marked = [1, 2, 3, 5, 6, 20].map((count) => ({ count, isMarked: true }));
          for (const { count, isMarked } of [{ count: 20, isMarked: false }, ...marked]) {
            await region.open("<p>ab</p>", { undoDepth });
            await region.click([0, 0], 1);
            await types(1, 1, isMarked);
            const first = await region.agrees();
            await types(2, count, isMarked);
            const second = await region.agrees();
            const entries = isMarked ? count : 1;
            const isKept = entries <= undoDepth;
            const isBothKept = entries + 1 <= undoDepth;
            assert.equal(await region.ask("enabled", "undo"), isKept);
            assert.equal(await region.ask("undo"), isKept);
            await region.shows(isKept ? first : second);
            assert.equal(await region.ask("undo"), isBothKept);
            await region.shows(isBothKept ? "<p>ab</p>" : isKept ? first : second);
            while (await region.ask("redo"));
            await region.shows(second);
          }
        });
      }

      it("has one entry, also where something is selected between", async () => {
        await region.open("<p>ab</p>");
        await region.click([0, 0], 1);
        await region.press("Control+a");
        await region.page.evaluate(() =>
          window.region.step(() => {
            window.region.exec("bold");
            window.region.exec("italic");
            window.region.exec("foreColor", "red");
            window.region.exec("justifyRight");
            window.region.select(window.region.selection().anchor);
            window.region.exec("insertText", "x");
          }),
        );
        const after = await region.agrees();
        await region.isOneStep("<p>ab</p>");
        await region.shows(after);
      });
    });

    describe("an act", () => {
      const LIST = "<ul><li>z</li><li>a<ul><li>b</li></ul></li></ul>";
      const ROWS = [
        ["Enter beside a space", "<p>foo bar</p>", [[0, 0], 4], "Enter"],
        ["Backspace of a flag", "<p>a🇩🇪b</p>", [[0, 0], 5], "Backspace"],
        ["Backspace behind a link", '<p><a href="u">ab</a>c</p>', [[0, 1], 0], "Backspace"],
        ["an item with a list that is indented", LIST, [[0, 1, 0], 1], "Control+m"],
        ["a quotation that is left", "<blockquote><p>a <b>b</b></p></blockquote>", [[0, 0, 0], 0], "Control+j"],
      ];
      for (const [what, html, place, keys] of ROWS) {
        it(`has one entry: ${what}`, async () => {
          await region.open(html, { keymap: { "Mod+M": "indent", "Mod+J": "outdent" } });
          await region.click(...place);
          await region.press(keys);
          assert.notEqual(await region.agrees(), html);
          await region.isOneStep(html);
        });
      }

      it("has one entry: what is typed over blocks of two kinds", async () => {
        const html = "<h1>one</h1><p>two</p>";
        await region.open(html);
        await region.sweep([[0, 0], 1], [[1, 0], 1]);
        await region.type("xy");
        await region.shows("<h1>oxywo</h1>");
        await region.isOneStep(html);
      });

      it("doesn't go on with the step before", async () => {
        await region.open("<p>ab</p>");
        await region.click([0, 0], 1);
        await region.press("Control+a");
        await region.page.evaluate(() => {
          window.region.step(() => window.region.exec("bold"));
          window.region.exec("italic");
        });
        await region.press("Control+z");
        await region.shows("<p><b>ab</b></p>");
        await region.press("Control+z");
        await region.shows("<p>ab</p>");
      });
    });

    describe("which is only read", () => {
      it("can't be edited, and can be copied", async () => {
        const html = "<p>one <b>two</b></p><p>three</p>";
        await region.open(html, { readOnly: true });
        await region.page.clickAt(await region.at([0, 0], 1), 2);
        assert.equal((await region.selected()).trim(), "one");
        await region.page.type("x");
        await region.page.press("Backspace");
        await region.page.press("Control+b");
        await region.page.press("Control+x");
        await region.shows(html);
        assert.equal(await region.ask("exec", "bold"), false);
        assert.equal(await region.ask("enabled", "bold"), false);
        assert.equal(await region.ask("undo"), false);
        await region.page.press("Control+c");
        const copied = await region.page.evaluate(() => navigator.clipboard.readText());
        assert.equal(copied.trim(), "one");
      });

      it("says so, and can be edited again", async () => {
        await region.open("<p>ab</p>");
        const look = () =>
          region.page.evaluate(() => {
            const { element, readOnly } = window.region;
            const names = ["contenteditable", "aria-readonly", "tabindex"];
            return [readOnly, ...names.map((each) => element.getAttribute(each))];
          });
        const set = (isReadOnly) =>
          region.page.evaluate((value) => {
            window.region.readOnly = value;
          }, isReadOnly);
        await region.click([0, 0], 1);
        await region.type("x");
        await set(true);
        assert.deepEqual(await look(), [true, "false", "true", "0"]);
        await region.page.type("y");
        await region.shows("<p>axb</p>");
        await set(false);
        assert.deepEqual(await look(), [false, "true", null, null]);
        await region.click([0, 0], 1);
        await region.type("z");
        await region.shows("<p>azxb</p>");
        await region.press("Control+z", 2);
        await region.shows("<p>ab</p>");
      });
    });
  });
}
