/** A region with much in it. The longest ones wait for hosts/web/test/all. */
import assert from "node:assert/strict";
import { describe } from "node:test";
import { BROWSERS, IS_WHOLE, it } from "./browsers.mjs";
import { RegionPage } from "./region_page.mjs";

const PARAGRAPHS = IS_WHOLE ? 5000 : 300;

const PASTED = IS_WHOLE ? 1_000_000 : 10_000;

const options = { timeout: 600_000 };

function pageOf(count) {
  const paragraph = (_, number) => `<p>Paragraph <b>number</b> ${number}.</p>`;
  return Array.from({ length: count }, paragraph).join("");
}

for (const { Browser, name, skip } of BROWSERS) {
  describe(`a region in ${name}`, { skip }, () => {
    const region = new RegionPage(Browser);

    /** Opens a page without looking at it after each event: looking takes as long as the page. */
    async function open(html) {
      await region.open(html, { debug: false });
    }

    describe(`a page of ${PARAGRAPHS} paragraphs`, () => {
      it("is typed in", options, async () => {
        await open(pageOf(PARAGRAPHS));
        await region.click([0, 0], 3);
        await region.page.type("x y");
        await region.press("Control+End");
        await region.page.type("!\nend");
        const html = await region.agrees();
        assert.match(html, /^<p>Parx yagraph <b>number<\/b> 0\.<\/p>/);
        assert.ok(html.endsWith(`${PARAGRAPHS - 1}.!</p><p>end</p>`));
        const scrolled = await region.page.evaluate(() => document.scrollingElement.scrollTop);
        assert.ok(scrolled > PARAGRAPHS * 10);
        await region.press("Control+z");
        await region.press("Control+Home");
        await region.press("Delete");
        assert.match(await region.agrees(), /^<p>arx y/);
      });

      it("is made bold, and undone", options, async () => {
        const html = pageOf(PARAGRAPHS);
        await open(html);
        await region.click([0, 0], 3);
        await region.press("Control+a");
        await region.press("Control+b");
        const isBold = (count) => document.querySelectorAll("#host b").length >= count;
        assert.equal(await region.page.evaluate(isBold, PARAGRAPHS), true);
        assert.equal(await region.ask("state", "bold"), true);
        await region.press("Control+z");
        await region.shows(html);
        await region.press("Control+y");
        assert.equal(await region.ask("state", "bold"), true);
        await region.press("Delete");
        await region.page.type("x");
        assert.equal((await region.text()).trim(), "x");
        await region.press("Control+z", 3);
        await region.shows(html);
      });
    });

    describe("the clipboard", () => {
      it(`takes a text of ${PASTED} characters`, options, async () => {
        const line = "A line of a text that is long: Zoë, 日本, 😀 & <tags>.";
        await open("<p>ab</p>");
        await region.click([0, 0], 1);
        const length = await region.page.evaluate(
          async (each, least) => {
            const text = `${each}\n`.repeat(Math.ceil(least / (each.length + 1))).slice(0, -1);
            window.pasted = text;
            await navigator.clipboard.writeText(text);
            return text.split("\n").length;
          },
          line,
          PASTED,
        );
        await region.press("Control+v");
        await region.idle();
        const isWhole = (count) => {
          const paragraphs = [...document.querySelectorAll("#host > p")];
          const text = paragraphs.map((paragraph) => paragraph.textContent).join("\n");
          return paragraphs.length === count && text === `a${window.pasted}b`;
        };
        assert.equal(await region.page.evaluate(isWhole, length), true);
        await region.page.type("x");
        await region.press("Backspace");
        await region.press("Control+a");
        await region.press("Control+c");
        const isCopied = async () => {
          const copied = await navigator.clipboard.readText();
          return copied.replace(/\n+/g, "\n") === `a${window.pasted}b`;
        };
        assert.equal(await region.page.evaluate(isCopied), true);
        await region.press("Control+z", 3);
        await region.shows("<p>ab</p>");
      });

      it("takes a long line", options, async () => {
        const copy = (count) => navigator.clipboard.writeText(`é${"é".repeat(count)}\nx`);
        await open("<p>ab</p>");
        await region.click([0, 0], 1);
        await region.page.evaluate(copy, 19_999);
        await region.press("Control+v");
        await region.idle();
        await region.shows(`<p>a${"é".repeat(20_000)}</p><p>xb</p>`);
        await region.press("Control+z");
        await region.shows("<p>ab</p>");
      });
    });
  });
}
