/** What users of editors expect: levels of lists by keys, styles that stay, lists that are typed. */
import assert from "node:assert/strict";
import { describe } from "node:test";
import { BROWSERS, it } from "./browsers.mjs";
import { RegionPage } from "./region_page.mjs";

for (const { Browser, name, skip } of BROWSERS) {
  describe(`the habits of a region in ${name}`, { skip }, () => {
    const region = new RegionPage(Browser);

    /** Whether the region has the focus. */
    const hasFocus = () =>
      region.page.evaluate(() => document.activeElement === window.region.element);

    /** Selects from a place to another, as a script does. */
    async function select(...ends) {
      await region.page.evaluate(
        (places) => {
          const nodeAt = (steps) =>
            steps.reduce((above, step) => above.childNodes[step], window.region.element);
          const [[from, start], [to, end]] = places;
          document.getSelection().setBaseAndExtent(nodeAt(from), start, nodeAt(to), end);
        },
        ends,
      );
      await region.agrees();
    }

    describe("Tab", () => {
      it("changes the level of an item, and Shift+Tab changes it back", async () => {
        const html = "<ul><li>a</li><li>b</li></ul>";
        await region.open(html);
        await region.click([0, 1, 0], 1);
        await region.press("Tab");
        await region.type("x");
        await region.shows("<ul><li>a</li><ul><li>bx</li></ul></ul>");
        await region.press("Shift+Tab");
        await region.shows("<ul><li>a</li><li>bx</li></ul>");
        assert.equal(await hasFocus(), true);
        await region.press("Control+z");
        await region.press("Control+z");
        await region.press("Control+z");
        await region.shows(html);
      });

      it("changes the level of several items", async () => {
        await region.open("<ol><li>a</li><li>b</li><li>c</li></ol>");
        await region.click([0, 0, 0], 1);
        await select([[0, 1, 0], 0], [[0, 2, 0], 1]);
        await region.press("Tab");
        await region.shows("<ol><li>a</li><ol><li>b</li><li>c</li></ol></ol>");
        await region.press("Shift+Tab", 2);
        await region.shows("<ol><li>a</li></ol><p>b</p><p>c</p>");
      });

      it("leaves the region elsewhere", async () => {
        await region.open("<ul><li>a</li></ul><p>b</p>");
        await region.click([1, 0], 1);
        await region.press("Tab");
        assert.equal(await hasFocus(), false);
        await region.shows("<ul><li>a</li></ul><p>b</p>");
        await region.click([0, 0, 0], 1);
        await select([[0, 0, 0], 0], [[1, 0], 1]);
        await region.press("Tab");
        assert.equal(await hasFocus(), false);
        await region.shows("<ul><li>a</li></ul><p>b</p>");
      });

      it("leaves it anywhere after Escape", async () => {
        const html = "<ul><li>a</li><li>b</li></ul>";
        await region.open(html);
        await region.click([0, 1, 0], 1);
        await region.press("Escape");
        await region.press("Shift+Tab");
        assert.equal(await hasFocus(), false);
        await region.click([0, 1, 0], 1);
        await region.press("Escape");
        await region.press("Tab");
        assert.equal(await hasFocus(), false);
        await region.shows(html);
        await region.click([0, 1, 0], 1);
        await region.press("Tab");
        await region.shows("<ul><li>a</li><ul><li>b</li></ul></ul>");
        await region.press("Escape");
        await region.press("ArrowLeft");
        await region.press("Shift+Tab");
        await region.shows(html);
      });

      it("leaves it where the command is denied, the region is only read or the host says so", async () => {
        const html = "<ul><li>a</li><li>b</li></ul>";
        for (const choices of [{ denied: ["indent"] }, { keymap: { Tab: null } }]) {
          await region.open(html, choices);
          await region.click([0, 1, 0], 1);
          await region.press("Tab");
          assert.equal(await hasFocus(), false);
          await region.shows(html);
        }
        await region.open(html);
        await region.click([0, 1, 0], 1);
        await region.page.evaluate(() => {
          window.region.readOnly = true;
        });
        await region.press("Tab");
        await region.shows(html);
      });
    });

    describe("a space", () => {
      it("keeps the style that is set", async () => {
        await region.open("<p>ab</p>");
        await region.click([0, 0], 2);
        await region.press("Control+b");
        await region.type(" c d");
        await region.shows("<p>ab <b>c d</b></p>");
        await region.press("Control+b");
        await region.type(" e");
        await region.shows("<p>ab <b>c d</b> e</p>");
      });

      it("keeps it also after another, after Enter and at the start of a text", async () => {
        await region.open("<p>ab</p>");
        await region.click([0, 0], 2);
        await region.press("Control+i");
        await region.type("  c");
        await region.press("Enter");
        await region.type(" d");
        await region.shows("<p>ab&nbsp; <i>c</i></p><p>&nbsp;<i>d</i></p>");
        await region.open("<p>ab</p>");
        await region.click([0, 0], 2);
        await region.ask("exec", "foreColor", "#ff0000");
        await region.ask("exec", "insertText", " c d");
        await region.shows('<p>ab <font color="#ff0000">c d</font></p>');
      });

      it("keeps a style that is switched off", async () => {
        await region.open("<p><b>ab</b></p>");
        await region.click([0, 0, 0], 2);
        await region.press("Control+b");
        await region.type(" c");
        await region.shows("<p><b>ab</b> c</p>");
      });

      it("doesn't end the step of what is typed", async () => {
        await region.open("<p>ab</p>");
        await region.click([0, 0], 2);
        await region.type("c d e");
        await region.isOneStep("<p>ab</p>");
      });

      it("drops the style without the habit", async () => {
        await region.open("<p>ab</p>", { keepStyle: false });
        await region.click([0, 0], 2);
        await region.press("Control+b");
        await region.type(" c");
        await region.shows("<p>ab c</p>");
      });
    });

    describe("a line that begins like a list", () => {
      const ROWS = [
        ["- ", "<ul><li>x</li></ul>"],
        ["* ", "<ul><li>x</li></ul>"],
        ["1. ", "<ol><li>x</li></ol>"],
        ["1) ", "<ol><li>x</li></ol>"],
        ["> ", "<blockquote><p>x</p></blockquote>"],
        ["-", "<p>-x</p>"],
        ["2. ", "<p>2. x</p>"],
      ];

      it("becomes one", async () => {
        for (const [typed, html] of ROWS) {
          await region.open("<p>ab</p><p><br></p>", { autoformat: true });
          await region.click([1], 0);
          await region.type(`${typed}x`);
          await region.shows(`<p>ab</p>${html}`);
        }
      });

      it("is the typed text again after undo", async () => {
        await region.open("<p>ab</p><p><br></p>", { autoformat: true });
        await region.click([1], 0);
        await region.type("- ");
        await region.shows("<p>ab</p><ul><li><br></li></ul>");
        await region.press("Control+z");
        await region.shows("<p>ab</p><p>-&nbsp;</p>");
        await region.type("x y");
        await region.shows("<p>ab</p><p>- x y</p>");
        await region.press("Control+z", 2);
        await region.shows("<p>ab</p><p><br></p>");
      });

      it("keeps what follows, and is one only at the start of a paragraph", async () => {
        await region.open("<p>ab</p>", { autoformat: true });
        await region.click([0, 0], 0);
        await region.type("- ");
        await region.shows("<ul><li>ab</li></ul>");
        const HTML = ["<p>a-</p>", "<h1>-</h1>", "<ul><li>-</li></ul>", "<p>a<br>-</p>", "<p><i>a</i>-</p>"];
        for (const html of HTML) {
          await region.open(html, { autoformat: true });
          await region.page.click("#host :last-child");
          await region.press("End");
          await region.type(" x");
          await region.shows(html.replace("-", "- x"));
        }
      });

      it("stays where the choice is off, or the command is denied", async () => {
        for (const choices of [{}, { autoformat: true, denied: ["insertUnorderedList"] }]) {
          await region.open("<p><br></p>", choices);
          await region.click([0], 0);
          await region.type("- x");
          await region.shows("<p>- x</p>");
        }
      });
    });

    describe("outdent", () => {
      it("takes several quoted blocks out as they are", async () => {
        const html =
          "<blockquote><p>a</p><p>b <i>c</i> d</p><h1>e <b>f</b></h1><p>g</p></blockquote><p>z</p>";
        await region.open(html);
        await region.click([0, 0, 0], 0);
        await select([[0, 1, 0], 0], [[0, 2, 0], 1]);
        await region.ask("exec", "outdent");
        const out = "<p>b <i>c</i> d</p><h1>e <b>f</b></h1>";
        await region.shows(
          `<blockquote><p>a</p></blockquote>${out}<blockquote><p>g</p></blockquote><p>z</p>`,
        );
        await region.press("Control+z");
        await region.shows(html);
      });
    });
  });
}
