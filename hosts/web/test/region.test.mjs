/** A region, used by keys and by the mouse: after each step the page is what the engine has. */
import assert from "node:assert/strict";
import { describe } from "node:test";
import { BROWSERS, it } from "./browsers.mjs";
import { RegionPage } from "./region_page.mjs";

for (const { Browser, name, skip } of BROWSERS) {
  describe(`a region in ${name}`, { skip }, () => {
    const region = new RegionPage(Browser);

    describe("typing", () => {
      it("goes where the caret is", async () => {
        await region.open("<p>Call Ann</p>");
        await region.click([0, 0], 4);
        await region.type(" me");
        await region.shows("<p>Call me Ann</p>");
        await region.press("End");
        await region.type(" & x < y");
        await region.shows("<p>Call me Ann &amp; x &lt; y</p>");
      });

      it("is one step of undo", async () => {
        await region.open("<p>ab</p>");
        await region.click([0, 0], 1);
        await region.type("one two");
        await region.press("Control+z");
        await region.shows("<p>ab</p>");
        await region.press("Control+y");
        await region.shows("<p>aone twob</p>");
        await region.press("Control+z");
        await region.press("Control+Shift+z");
        await region.shows("<p>aone twob</p>");
        await region.press("Control+Shift+z");
        await region.shows("<p>aone twob</p>");
      });

      it("begins in an empty paragraph, and in an empty host", async () => {
        await region.open("<p><br></p>");
        await region.click([0], 0);
        await region.type("a b");
        await region.shows("<p>a b</p>");
        await region.open("");
        await region.page.click("#host");
        await region.type("x");
        await region.agrees();
      });

      it("may be fast", async () => {
        await region.open("<p>ab</p><p>cd</p>");
        await region.click([0, 0], 1);
        await region.page.type("one\ntwo three\nfour");
        await region.shows("<p>aone</p><p>two three</p><p>fourb</p><p>cd</p>");
      });

      it("keeps blanks", async () => {
        await region.open("<p>ab</p>");
        await region.click([0, 0], 1);
        await region.type("   ");
        await region.agrees();
        assert.equal((await region.text()).replaceAll("\u00a0", " "), "a   b");
      });

      it("takes the place of what is selected", async () => {
        await region.open("<p>one <i>two</i> three</p>");
        await region.click([0, 1, 0], 1, 2);
        assert.equal((await region.selected()).trim(), "two");
        await region.type("2");
        await region.shows("<p>one <i>2</i> three</p>");
      });

      it("tells of itself", async () => {
        await region.open("<p>ab</p>");
        await region.click([0, 0], 1);
        assert.deepEqual(await region.events(), ["selectionchange", "statechange"]);
        await region.type("x");
        assert.deepEqual(await region.events(), ["change", "selectionchange", "statechange"]);
        await region.press("Control+b");
        assert.deepEqual(await region.events(), ["statechange"]);
        assert.equal(await region.ask("state", "bold"), true);
      });
    });

    describe("Enter", () => {
      it("splits a paragraph, and Backspace joins it", async () => {
        await region.open("<p>ab</p>");
        await region.click([0, 0], 1);
        await region.press("Enter");
        await region.shows("<p>a</p><p>b</p>");
        await region.type("x");
        await region.shows("<p>a</p><p>xb</p>");
        await region.press("Backspace", 2);
        await region.shows("<p>ab</p>");
        await region.press("Control+z", 2);
        await region.shows("<p>a</p><p>xb</p>");
        await region.press("Control+z", 2);
        await region.shows("<p>ab</p>");
      });

      it("begins one at the end", async () => {
        await region.open("<p>ab</p>");
        await region.click([0, 0], 2);
        await region.press("Enter", 2);
        await region.shows("<p>ab</p><p><br></p><p><br></p>");
        await region.type("c");
        await region.shows("<p>ab</p><p><br></p><p>c</p>");
      });

      it("with Shift breaks the line", async () => {
        await region.open("<p>ab</p>");
        await region.click([0, 0], 1);
        await region.press("Shift+Enter");
        await region.shows("<p>a<br>b</p>");
        await region.press("End");
        await region.press("Shift+Enter");
        await region.type("c");
        await region.shows("<p>a<br>b<br>c<br></p>");
      });

      it("keeps the style and the spaces", async () => {
        await region.open("<p>foo <b>bar</b></p>");
        await region.click([0, 1, 0], 3);
        await region.press("Enter");
        assert.equal(await region.ask("state", "bold"), true);
        await region.type("x");
        await region.shows("<p>foo <b>bar</b></p><p><b>x</b></p>");
        await region.open("<p>foo bar</p>");
        await region.click([0, 0], 4);
        await region.press("Enter");
        await region.shows("<p>foo&nbsp;</p><p>bar</p>");
        await region.press("Control+z");
        await region.shows("<p>foo bar</p>");
        await region.press("Control+y");
        await region.press("Backspace");
        await region.shows("<p>foo&nbsp;bar</p>");
      });

      it("leaves a heading's style", async () => {
        await region.open("<h1>ab</h1>");
        await region.click([0, 0], 2);
        await region.press("Enter");
        await region.type("c");
        await region.shows("<h1>ab</h1><p>c</p>");
      });

      it("leaves a list", async () => {
        await region.open("<ul><li>a</li></ul>");
        await region.click([0, 0, 0], 1);
        await region.press("Enter");
        await region.type("b");
        await region.shows("<ul><li>a</li><li>b</li></ul>");
        await region.press("Enter", 2);
        await region.shows("<ul><li>a</li><li>b</li></ul><p><br></p>");
      });
    });

    describe("Backspace and Delete", () => {
      it("take a character", async () => {
        await region.open("<p>abc</p>");
        await region.click([0, 0], 2);
        await region.press("Backspace");
        await region.shows("<p>ac</p>");
        await region.press("Delete");
        await region.shows("<p>a</p>");
        await region.press("Delete");
        await region.shows("<p>a</p>");
        await region.press("Backspace");
        await region.shows("<p><br></p>");
      });

      it("join paragraphs", async () => {
        await region.open("<p>ab</p><p>cd</p><p>ef</p>");
        await region.click([1, 0], 2);
        await region.press("Delete");
        await region.shows("<p>ab</p><p>cdef</p>");
        await region.press("Home");
        await region.press("Backspace");
        await region.shows("<p>abcdef</p>");
        await region.type("-");
        await region.shows("<p>ab-cdef</p>");
      });

      it("take words and lines", async () => {
        await region.open("<p>one two three four</p>");
        await region.click([0, 0], 7);
        await region.press("Control+Backspace");
        assert.match(await region.text(), /^one\s\sthree four$/);
        await region.press("Control+Delete");
        assert.match(await region.text(), /^one\s+four$/);
      });

      it("take whole clusters", async () => {
        const family = "👨‍👩‍👧";
        await region.open(`<p>a${family}🇩🇪é</p>`);
        await region.press("Control+End");
        await region.click([0, 0], 1);
        await region.press("End");
        await region.press("Backspace");
        await region.shows(`<p>a${family}🇩🇪</p>`);
        await region.press("Backspace");
        await region.shows(`<p>a${family}</p>`);
        await region.press("Backspace");
        await region.shows("<p>a</p>");
        await region.press("Control+z", 3);
        await region.click([0, 0], 1);
        await region.press("Delete", 2);
        await region.shows("<p>aé</p>");
      });

      it("take a cluster in a style of its own", async () => {
        await region.open("<p>a<b>🇩🇪</b></p>");
        await region.click([0, 0], 1);
        await region.press("End");
        await region.press("Backspace");
        await region.shows("<p>a</p>");
      });

      it("take a link's last character, and join items at once", async () => {
        await region.open('<p><a href="x">ab</a>c</p>');
        await region.click([0, 1], 1);
        await region.press("Backspace", 2);
        await region.shows('<p><a href="x">a</a></p>');
        await region.open("<ul><li>a</li><li>b</li></ul>");
        await region.click([0, 1, 0], 0);
        await region.press("Backspace");
        await region.shows("<ul><li>ab</li></ul>");
        await region.press("Control+z");
        await region.shows("<ul><li>a</li><li>b</li></ul>");
      });
    });

    describe("formats", () => {
      it("at a caret", async () => {
        await region.open("<p>ab</p>");
        await region.click([0, 0], 1);
        await region.press("Control+b");
        await region.press("Control+i");
        await region.type("xy");
        await region.shows("<p>a<i><b>xy</b></i>b</p>");
        await region.press("Control+b");
        await region.type("z");
        assert.equal(await region.ask("state", "bold"), false);
        assert.equal(await region.ask("state", "italic"), true);
        await region.agrees();
        await region.press("Control+z", 2);
        await region.agrees();
      });

      it("over a selection", async () => {
        await region.open("<p>Call Ann now</p>");
        await region.sweep([[0, 0], 5], [[0, 0], 8]);
        assert.equal(await region.selected(), "Ann");
        await region.press("Control+b");
        await region.shows("<p>Call <b>Ann</b> now</p>");
        assert.equal(await region.selected(), "Ann");
        await region.press("Control+u");
        await region.shows("<p>Call <u><b>Ann</b></u> now</p>");
        await region.press("Control+b");
        await region.agrees();
        await region.press("Control+z", 3);
        await region.shows("<p>Call Ann now</p>");
        assert.equal(await region.selected(), "Ann");
      });

      it("over blocks", async () => {
        await region.open("<p>ab</p><ul><li>cd</li><li>ef</li></ul><p>gh</p>");
        await region.sweep([[0, 0], 1], [[2, 0], 1]);
        await region.press("Control+i");
        await region.shows(
          "<p>a<i>b</i></p><ul><li><i>cd</i></li><li><i>ef</i></li></ul><p><i>g</i>h</p>",
        );
        await region.press("Delete");
        await region.shows("<p>ah</p>");
        await region.press("Control+z");
        await region.press("Control+z");
        await region.shows("<p>ab</p><ul><li>cd</li><li>ef</li></ul><p>gh</p>");
      });

      it("by the methods", async () => {
        await region.open("<p>ab</p><p>cd</p>");
        await region.click([0, 0], 1);
        await region.press("Control+a");
        for (const [command, value, html] of [
          ["insertUnorderedList", "", "<ul><li>ab</li><li>cd</li></ul>"],
          ["insertOrderedList", "", "<ol><li>ab</li><li>cd</li></ol>"],
          ["insertOrderedList", "", "<p>ab</p><p>cd</p>"],
          ["justifyCenter", "", '<div style="text-align: center;"><p>ab</p><p>cd</p></div>'],
          ["formatBlock", "h2", '<div style="text-align: center;"><h2>ab<br>cd</h2></div>'],
          ["justifyLeft", "", "<h2>ab<br>cd</h2>"],
          ["formatBlock", "blockquote", "<blockquote><h2>ab<br>cd</h2></blockquote>"],
        ]) {
          assert.equal(await region.ask("exec", command, value), true);
          await region.shows(html);
        }
        await region.press("Control+z", 7);
        await region.shows("<p>ab</p><p>cd</p>");
        assert.equal(await region.ask("enabled", "undo"), false);
        assert.equal(await region.ask("enabled", "redo"), true);
      });

      it("by a button, which has the focus", async () => {
        await region.open("<p>ab</p>");
        await region.sweep([[0, 0], 0], [[0, 0], 2]);
        await region.page.click("#bold");
        await region.shows("<p><b>ab</b></p>");
        assert.equal(await region.page.evaluate(() => document.activeElement.id), "bold");
        await region.page.click("#field");
        assert.equal(await region.ask("exec", "italic"), true);
        await region.shows("<p><i><b>ab</b></i></p>");
        assert.equal(await region.page.evaluate(() => document.activeElement.id), "field");
        await region.ask("focus");
        await region.agrees();
        assert.equal(await region.selected(), "ab");
      });

      it("of a heading and a word, when typed over", async () => {
        await region.open("<p>a</p><h1>b</h1>");
        await region.sweep([[0, 0], 1], [[1, 0], 1]);
        await region.type("x");
        await region.shows("<p>ax</p>");
        await region.press("Control+z");
        await region.shows("<p>a</p><h1>b</h1>");
      });

      it("of a background at a caret", async () => {
        await region.open("<p>a</p>");
        await region.click([0, 0], 1);
        await region.ask("exec", "backColor", "yellow");
        await region.type("b");
        await region.shows('<p>a<span style="background-color: yellow;">b</span></p>');
      });

      it("of links end with them", async () => {
        await region.open('<p><a href="u">ab</a></p>');
        await region.click([0, 0, 0], 1);
        await region.type("x");
        await region.press("End");
        await region.type("yz");
        await region.shows('<p><a href="u">axb</a>yz</p>');
      });

      it("of items go along with their lists", async () => {
        await region.open("<ul><li>z</li><li>a<ul><li>b</li></ul></li></ul>");
        await region.click([0, 1, 0], 0);
        await region.ask("exec", "indent");
        await region.shows("<ul><li>z</li><ul><li>a</li><ul><li>b</li></ul></ul></ul>");
        await region.type("x");
        await region.shows("<ul><li>z</li><ul><li>xa</li><ul><li>b</li></ul></ul></ul>");
      });

      it("stay in a paragraph that comes out of a quotation", async () => {
        const quoted = "<p>x</p><blockquote><p>a <b>b</b> c</p></blockquote>";
        for (const act of [() => region.ask("exec", "outdent"), () => region.press("Backspace")]) {
          await region.open(quoted);
          await region.click([1, 0, 0], 0);
          await act();
          await region.shows("<p>x</p><p>a <b>b</b> c</p>");
          await region.press("Control+z");
          await region.shows(quoted);
          await region.press("Control+y");
          await region.type("z");
          await region.shows("<p>x</p><p>za <b>b</b> c</p>");
        }
      });
    });

    describe("locked parts", () => {
      const NAME = '<span contenteditable="false">NAME</span>';

      it("stay", async () => {
        await region.open(`<p>Hi ${NAME}!</p><p>bye</p>`);
        await region.sweep([[0, 0], 1], [[1, 0], 1]);
        await region.press("Control+b");
        await region.shows(`<p>H<b>i </b>${NAME}<b>!</b></p><p><b>b</b>ye</p>`);
        await region.press("Control+z");
        await region.click([0, 2], 0);
        await region.press("Backspace");
        await region.shows(`<p>Hi ${NAME}!</p><p>bye</p>`);
        await region.type("x");
        await region.agrees();
      });

      it("keep a selection out that ends in them", async () => {
        await region.open(`<p>Hi ${NAME}!</p>`);
        await region.sweep([[0, 0], 0], [[0, 1, 0], 2]);
        await region.press("Control+b");
        await region.shows(`<p><b>Hi </b>${NAME}!</p>`);
      });

      it("take no text", async () => {
        await region.open('<p>a</p><div contenteditable="false"><p>Ada</p></div>');
        await region.click([0, 0], 1);
        await region.page.clickAt(await region.at([1, 0, 0], 1));
        await region.type("x");
        await region.press("Enter");
        await region.press("Backspace");
        assert.match(await region.agrees(), /<div contenteditable="false"><p>Ada<\/p><\/div>$/);
      });

      it("leave their fields to the browser", async () => {
        const field = '<input type="text">';
        const page = `<p>ac<span contenteditable="false">${field}</span></p>`;
        await region.page.evaluate((html) => {
          const element = (name) => name === "input" || undefined;
          const attribute = (name, each) => (name === "input" && each === "type") || undefined;
          window.start(html, { view: { element, attribute } });
        }, page);
        await region.click([0, 0], 1);
        await region.type("b");
        await region.page.click("#host input");
        await region.page.type("xy");
        await region.press("Backspace");
        const typed = () => /** @type {HTMLInputElement} */ (document.querySelector("#host input")).value;
        assert.equal(await region.page.evaluate(typed), "x");
        await region.shows(`<p>abc<span contenteditable="false">${field}</span></p>`);
      });

      it("stand around hosts in a whole page", async () => {
        const html = (inner) =>
          `<h1>Form</h1><div contenteditable="true"><p>${inner}</p></div><p>End</p>`;
        await region.open(html("ab"), { id: "page" });
        await region.click([1, 0, 0], 1);
        await region.type("x");
        await region.press("Control+b");
        await region.type("y");
        await region.shows(html("ax<b>y</b>b"));
        await region.press("Control+z", 2);
        await region.shows(html("ab"));
      });
    });
  });
}
