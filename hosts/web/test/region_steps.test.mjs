/** What input methods, spelling and others change in a region by themselves: one step of undo each. */
import assert from "node:assert/strict";
import { describe } from "node:test";
import { BROWSERS, it } from "./browsers.mjs";
import { RegionPage } from "./region_page.mjs";

for (const { Browser, name, skip } of BROWSERS) {
  describe(`one step in a region in ${name}`, { skip }, () => {
    const region = new RegionPage(Browser);

    async function composeAll(texts) {
      for (const text of texts) {
        await region.compose(text);
      }
      await region.commit(texts.at(-1));
    }

    describe("of an input method", () => {
      it("is a word", async () => {
        await region.open("<p>ab</p>");
        await region.click([0, 0], 1);
        await composeAll(["n", "に", "にh", "にほ", "にほn", "にほん", "日本"]);
        await region.shows("<p>a日本b</p>");
        await region.isOneStep("<p>ab</p>");
        await region.type("x");
        await region.shows("<p>a日本xb</p>");
      });

      it("is a word in place of another", async () => {
        await region.open("<p>one two three</p>");
        await region.click([0, 0], 5, 2);
        assert.equal((await region.selected()).trim(), "two");
        await composeAll(["に", "にほん", "日本"]);
        assert.match(await region.agrees(), /^<p>one(?: |&nbsp;)日本(?: |&nbsp;)three<\/p>$/);
        await region.isOneStep("<p>one two three</p>");
      });

      it("is a word in place of all of a text", async () => {
        await region.open("<p>a<b>two</b>b</p>");
        await region.sweep([[0, 1, 0], 0], [[0, 1, 0], 3]);
        await composeAll(["に", "にほん", "日本"]);
        await region.shows("<p>a<b>日本</b>b</p>");
        await region.press("Control+z");
        await region.shows("<p>a<b>two</b>b</p>");
        await region.press("Control+y");
        await region.shows("<p>a<b>日本</b>b</p>");
      });

      it("is a letter of a dead key", async () => {
        await region.open("<p>ee</p>");
        await region.click([0, 0], 1);
        await composeAll(["´", "é"]);
        await region.shows("<p>eée</p>");
        await region.isOneStep("<p>ee</p>");
      });

      it("is a letter of a dead key in place of another", async () => {
        await region.open("<p>abc</p>");
        await region.sweep([[0, 0], 1], [[0, 0], 2]);
        await composeAll(["´", "é"]);
        await region.shows("<p>aéc</p>");
        await region.isOneStep("<p>abc</p>");
      });

      it("is a word that a phone's keyboard takes again", async () => {
        await region.open("<p>see helo there</p>");
        await region.click([0, 0], 8);
        await region.compose("hell", [4, 8]);
        await region.compose("hello", [4, 8]);
        await region.commit("hello");
        await region.shows("<p>see hello there</p>");
        await region.type("!");
        await region.shows("<p>see hello! there</p>");
        await region.isOneStep("<p>see helo there</p>");
      });

      it("is a word, whatever a script does meanwhile", async () => {
        await region.open("<p>ab</p><p>c</p>");
        await region.click([0, 0], 1);
        await region.compose("に");
        await region.page.evaluate(() => {
          document.querySelector("#host p").setAttribute("title", "x");
        });
        await composeAll(["にほ", "日本"]);
        await region.shows("<p>a日本b</p><p>c</p>");
        await region.isOneStep("<p>ab</p><p>c</p>");
        await region.compose("に");
        await region.page.evaluate(() => {
          document.querySelector("#host").append(document.createElement("hr"));
        });
        await composeAll(["にほ", "日本"]);
        await region.shows("<p>a日本日本b</p><p>c</p>");
      });

      it("stands behind a link where it is composed at its end, as what is typed does", async () => {
        await region.open('<p>x <a href="u">ab</a></p>');
        await region.click([0, 1, 0], 1);
        await region.press("End");
        await composeAll(["に", "日本"]);
        await region.shows('<p>x <a href="u">ab</a>日本</p>');
        await region.press("Control+z");
        await region.shows('<p>x <a href="u">ab</a></p>');
      });

      it("goes on with what was typed before, and with what is typed behind it", async () => {
        await region.open("<p>ab</p>");
        await region.click([0, 0], 1);
        await region.type("x");
        await composeAll(["に", "日本"]);
        await region.type("y");
        await region.shows("<p>ax日本yb</p>");
        await region.isOneStep("<p>ab</p>");
      });
    });

    describe("of spelling", () => {
      // Firefox selects the word before it asks, and may begin in the text before it.
      const options = { todo: name === "Firefox" };

      it("is a word that is corrected", async () => {
        await region.open("<p>see teh <b>end</b></p>");
        await region.click([0, 0], 2);
        await region.correct("teh", "the");
        await region.shows("<p>see the <b>end</b></p>");
        await region.isOneStep("<p>see teh <b>end</b></p>");
      });

      it("is a word that is corrected while it is typed", options, async () => {
        await region.open("<p>ab</p>");
        await region.click([0, 0], 1);
        await region.type(" teh");
        await region.correct("teh", "the");
        await region.type("!");
        await region.shows("<p>a the!b</p>");
        await region.isOneStep("<p>ab</p>");
      });

      it("keeps the word's style", options, async () => {
        await region.open('<p>a <i>teh</i> <a href="u">wrod</a></p>');
        await region.click([0, 1, 0], 1);
        await region.correct("teh", "the");
        await region.shows('<p>a <i>the</i> <a href="u">wrod</a></p>');
        await region.click([0, 3, 0], 1);
        await region.correct("wrod", "word");
        await region.shows('<p>a <i>the</i> <a href="u">word</a></p>');
        await region.press("Control+z", 2);
        await region.shows('<p>a <i>teh</i> <a href="u">wrod</a></p>');
      });

      it("isn't done where typing is denied", options, async () => {
        await region.open("<p>teh</p>", { denied: ["InsertText"] });
        await region.click([0, 0], 3);
        await region.correct("teh", "the");
        await region.shows("<p>teh</p>");
        await composeAll(["に", "日本"]);
        await region.shows("<p>teh</p>");
      });
    });

    describe("of what else changes a text", () => {
      it("is the change", async () => {
        await region.open("<p>see teh end</p>");
        await region.click([0, 0], 11);
        await region.page.evaluate(() => {
          const text = /** @type {Text} */ (document.querySelector("#host p").firstChild);
          text.replaceData(4, 3, "the");
        });
        await region.shows("<p>see the end</p>");
        await region.isOneStep("<p>see teh end</p>");
      });
    });
  });
}
