/** A region, used by input methods, by the clipboard and by dragging. */
import assert from "node:assert/strict";
import { describe } from "node:test";
import { BROWSERS, it } from "./browsers.mjs";
import { RegionPage } from "./region_page.mjs";

for (const { Browser, name, skip } of BROWSERS) {
  describe(`a region in ${name}`, { skip }, () => {
    const region = new RegionPage(Browser);

    describe("input methods", () => {
      it("compose a word", async () => {
        await region.open("<p>ab</p>");
        await region.click([0, 0], 1);
        for (const text of ["に", "にほ", "にほん", "日本"]) {
          await region.compose(text);
        }
        await region.commit("日本");
        await region.shows("<p>a日本b</p>");
        await region.type("x");
        await region.shows("<p>a日本xb</p>");
        await region.press("Control+z");
        await region.shows("<p>ab</p>");
      });

      it("compose in an empty paragraph", async () => {
        await region.open("<p>a</p><p><br></p>");
        await region.click([1], 0);
        await region.compose("に");
        await region.compose("日");
        await region.commit("日");
        await region.shows("<p>a</p><p>日</p>");
        await region.press("Control+z");
        await region.shows("<p>a</p><p><br></p>");
      });

      it("compose over what is selected", async () => {
        await region.open("<p>one</p><p>two</p>");
        await region.sweep([[0, 0], 1], [[1, 0], 1]);
        await region.compose("x");
        await region.compose("xy");
        await region.commit("xyz");
        await region.shows("<p>oxyzwo</p>");
        await region.press("Control+z");
        await region.shows("<p>one</p><p>two</p>");
      });

      it("compose in the style of the caret", async () => {
        await region.open("<p>ab</p>");
        await region.click([0, 0], 1);
        await region.press("Control+b");
        await region.compose("日");
        await region.commit("日本");
        await region.shows("<p>a<b>日本</b>b</p>");
      });

      it("make a letter with a dead key", async () => {
        await region.open("<p>ee</p>");
        await region.click([0, 0], 1);
        await region.compose("´");
        await region.commit("é");
        await region.shows("<p>eée</p>");
      });

      it("may give up", async () => {
        await region.open("<p>ab</p>");
        await region.click([0, 0], 1);
        await region.compose("に");
        await region.page.cancel();
        await region.shows("<p>ab</p>");
        await region.type("x");
        await region.shows("<p>axb</p>");
      });

      it("compose over a word, and end where the mouse clicks", async () => {
        await region.open("<p>one two</p><p>x</p>");
        await region.click([0, 0], 7);
        await region.compose("zwei", [4, 7]);
        await region.commit("zwei");
        await region.shows("<p>one zwei</p><p>x</p>");
        await region.press("Control+z");
        await region.shows("<p>one two</p><p>x</p>");
        await region.click([0, 0], 3);
        await region.compose("に");
        await region.page.clickAt(await region.at([1, 0], 0));
        await region.type("y");
        await region.shows("<p>oneに two</p><p>yx</p>");
      });

      it("compose a sentence, word by word", async () => {
        await region.open("<p>。</p>");
        await region.click([0, 0], 0);
        const words = [
          [["w", "わ", "わた", "わたし"], "私"],
          [["h", "は"], "は"],
          [["が", "がく", "がくせ", "がくせい", "学生"], "学生"],
        ];
        for (const [shown, word] of words) {
          for (const text of shown) {
            await region.compose(text);
          }
          await region.commit(word);
        }
        await region.shows("<p>私は学生。</p>");
        await region.press("Backspace");
        await region.shows("<p>私は学。</p>");
        await region.press("Control+z", 2);
        await region.shows("<p>。</p>");
        await region.press("Control+y", 2);
        await region.shows("<p>私は学。</p>");
      });

      it("compose at the ends of a style and of a link", async () => {
        await region.open('<p><b>ab</b><a href="u">cd</a></p>');
        await region.click([0, 0, 0], 1);
        await region.press("ArrowRight");
        await region.compose("日");
        await region.commit("日本");
        await region.agrees();
        await region.press("End");
        await region.compose("に");
        await region.commit("日");
        await region.agrees();
        assert.equal(await region.text(), "ab日本cd日");
      });

      it("compose beside a locked part", async () => {
        await region.open('<p>Hi <span contenteditable="false">NAME</span>!</p>');
        await region.click([0, 2], 0);
        await region.compose("に");
        await region.commit("日");
        const html = await region.agrees();
        assert.match(html, /<span contenteditable="false">NAME<\/span>/);
        assert.match(html, /日/);
        await region.press("Control+z");
        await region.shows('<p>Hi <span contenteditable="false">NAME</span>!</p>');
      });

      it("go on as the keyboard of a phone does", async () => {
        await region.open("<p>ab</p>");
        await region.click([0, 0], 2);
        await region.type(" ");
        for (const text of ["h", "he", "hel", "helo"]) {
          await region.compose(text);
        }
        await region.commit("hello ");
        assert.match(await region.agrees(), /^<p>ab(?: |&nbsp;)hello(?: |&nbsp;)<\/p>$/);
        await region.press("Backspace");
        await region.shows("<p>ab hello</p>");
        await region.compose("hell", [3, 8]);
        await region.compose("help", [3, 7]);
        await region.commit("help");
        await region.shows("<p>ab help</p>");
        await region.type("!");
        await region.shows("<p>ab help!</p>");
        for (const _ of "123456") {
          await region.press("Control+z");
        }
        await region.shows("<p>ab</p>");
      });

      it("are ended by a command, which then does its own", async () => {
        await region.open("<p>ab</p>");
        await region.click([0, 0], 1);
        await region.compose("にほん");
        await region.ask("exec", "insertParagraph");
        await region.commit("");
        const html = await region.agrees();
        assert.match(html, /^<p>a(?:にほん)?<\/p><p>b<\/p>$/);
        await region.type("x");
        await region.agrees();
      });
    });

    describe("a dead key", () => {
      it("gives up its accent where the letter has none", async () => {
        await region.open("<p>ab</p>");
        await region.click([0, 0], 1);
        await region.compose("´");
        await region.commit("´x");
        await region.shows("<p>a´xb</p>");
        await region.type("y");
        await region.shows("<p>a´xyb</p>");
      });

      it("goes on with what is typed, in one step", async () => {
        await region.open("<p>ab</p>");
        await region.click([0, 0], 1);
        await region.type("caf");
        await region.compose("´");
        await region.commit("é");
        await region.type("s");
        await region.shows("<p>acafésb</p>");
        await region.press("Control+z");
        await region.shows("<p>ab</p>");
      });
    });

    describe("emoji", () => {
      const FAMILY = "👨‍👩‍👧";

      it("come in whole, and go whole", async () => {
        await region.open("<p>ab</p>");
        await region.click([0, 0], 1);
        await region.commit("👩‍💻");
        await region.shows("<p>a👩‍💻b</p>");
        await region.type("x");
        await region.press("Backspace", 2);
        await region.shows("<p>ab</p>");
        await region.commit(FAMILY);
        await region.commit("👍🏽");
        await region.commit("🇩🇪");
        await region.shows(`<p>a${FAMILY}👍🏽🇩🇪b</p>`);
        await region.press("Backspace", 2);
        await region.shows(`<p>a${FAMILY}b</p>`);
      });

      it("are typed by a key", async () => {
        await region.open("<p>some ab</p>");
        await region.click([0, 0], 6);
        await region.type("x😀y");
        await region.shows("<p>some ax😀yb</p>");
        await region.press("Control+z");
        await region.shows("<p>some ab</p>");
      });

      it("are passed by the caret as one", async () => {
        await region.open(`<p>a${FAMILY}b</p>`);
        await region.click([0, 0], 0);
        await region.press("ArrowRight", 2);
        await region.type("x");
        await region.shows(`<p>a${FAMILY}xb</p>`);
        await region.press("ArrowLeft", 2);
        await region.type("y");
        await region.shows(`<p>ay${FAMILY}xb</p>`);
        await region.press("Shift+ArrowRight");
        assert.equal(await region.selected(), FAMILY);
        await region.press("Control+b");
        await region.shows(`<p>ay<b>${FAMILY}</b>xb</p>`);
        await region.press("Delete");
        await region.shows("<p>ayxb</p>");
      });

      it("may be composed between others", async () => {
        await region.open("<p>😀😃</p>");
        await region.click([0, 0], 2);
        await region.compose("😄");
        await region.commit("😄");
        await region.shows("<p>😀😄😃</p>");
        await region.press("Backspace");
        await region.shows("<p>😀😃</p>");
      });
    });

    describe("other scripts", () => {
      it("run from right to left", async () => {
        await region.open('<p dir="rtl">שלום</p>');
        await region.click([0, 0], 2);
        await region.type("אב");
        await region.shows('<p dir="rtl">שלאבום</p>');
        await region.press("ArrowLeft");
        await region.type("ג");
        await region.shows('<p dir="rtl">שלאבוגם</p>');
        await region.press("Backspace", 2);
        await region.press("Control+b");
        await region.type("ד");
        await region.shows('<p dir="rtl">שלאב<b>ד</b>ם</p>');
      });

      it("run both ways in a line", async () => {
        await region.open("<p>abc שלום 123 def</p>");
        await region.click([0, 0], 3);
        await region.press("ArrowRight", 3);
        await region.type("x");
        await region.agrees();
        await region.press("Shift+ArrowRight", 3);
        await region.press("Control+i");
        await region.agrees();
        await region.press("Home");
        await region.press("Shift+End");
        assert.match(await region.selected(), /^abc.*def$/);
        await region.type("ה");
        assert.match(await region.agrees(), /^<p>(?:<i>)?ה(?:<\/i>)?<\/p>$/);
        await region.press("Control+z");
        assert.match(await region.text(), /^abc.*def$/);
      });

      it("compose from right to left", async () => {
        await region.open('<p dir="rtl">سلام</p>');
        await region.click([0, 0], 4);
        await region.compose("ا");
        await region.commit("اب");
        await region.shows('<p dir="rtl">سلاماب</p>');
        await region.press("Control+Backspace");
        await region.agrees();
      });
    });

    describe("the clipboard", () => {
      it("takes and gives plain text", async () => {
        await region.open("<p>one <b>two</b></p><p>three</p>");
        await region.sweep([[0, 0], 0], [[1, 0], 3]);
        await region.press("Control+c");
        await region.press("Control+x");
        await region.shows("<p>ee</p>");
        await region.press("Control+v");
        assert.equal(await region.text(), "one two\nthree");
        await region.press("Control+z", 2);
        await region.shows("<p>one <b>two</b></p><p>three</p>");
      });

      it("gives HTML of what is selected", async () => {
        await region.open("<p>one <b>two</b></p>");
        await region.press("Control+a");
        await region.click([0, 0], 1);
        await region.press("Control+a");
        await region.press("Control+c");
        const html = await region.page.evaluate(async () => {
          const [item] = await navigator.clipboard.read();
          return (await item.getType("text/html")).text();
        });
        // WebKit gives blanks an element of their own.
        assert.match(html, /one.*<b.*>two<\/b>/s);
      });

      it("takes lines as paragraphs", async () => {
        await region.open("<p>ab</p>");
        await region.click([0, 0], 1);
        await region.page.evaluate(() => navigator.clipboard.writeText("1\r\n2\n\n3"));
        await region.press("Control+v");
        await region.shows("<p>a1</p><p>2</p><p><br></p><p>3b</p>");
        await region.press("Control+z");
        await region.shows("<p>ab</p>");
      });
    });

    describe("what is dragged", () => {
      // Firefox without a screen begins to drag, and drops nothing; so does WebKit's driver.
      const options = { skip: name !== "Chromium" };

      it("goes to where it is dropped, in one step", options, async () => {
        await region.open("<p>one two</p><p>ab</p>");
        await region.click([0, 0], 5, 2);
        const [from, to] = [await region.at([0, 0], 5), await region.at([1, 0], 1)];
        await region.page.drag([from, { x: from.x + 9, y: from.y + 9 }, to]);
        await region.page.until(() => document.querySelector("#host").textContent.includes("atwob"));
        await region.agrees();
        await region.press("Control+z");
        await region.shows("<p>one two</p><p>ab</p>");
      });
    });
  });
}
