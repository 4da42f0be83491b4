/** Random sessions in a region: after each event the page is what the engine has. */
import assert from "node:assert/strict";
import { describe } from "node:test";
import { BROWSERS, IS_WHOLE, it } from "./browsers.mjs";
import { RegionPage, numbers } from "./region_page.mjs";

const [SEEDS, EVENTS] = IS_WHOLE ? [[1, 2, 3], 2000] : [[1], 150];

const CHARACTERS = ["a", "b", " ", "é", "ש", "."];

const KEYS = [
  "Enter",
  "Backspace",
  "Delete",
  "ArrowLeft",
  "ArrowRight",
  "ArrowUp",
  "ArrowDown",
  "Shift+ArrowLeft",
  "Shift+ArrowRight",
  "Shift+ArrowDown",
  "Home",
  "End",
  "Shift+Enter",
  "Control+Backspace",
  "Control+Delete",
  "Control+b",
  "Control+i",
  "Control+z",
  "Control+y",
  "Control+c",
  "Control+x",
  "Control+v",
];

const COMMANDS = [
  ["insertUnorderedList"],
  ["insertOrderedList"],
  ["indent"],
  ["outdent"],
  ["formatBlock", "h2"],
  ["formatBlock", "p"],
  ["formatBlock", "blockquote"],
  ["justifyRight"],
  ["foreColor", "red"],
  ["fontSize", "5"],
  ["createLink", "u"],
  ["unlink"],
  ["removeFormat"],
  ["insertHorizontalRule"],
  ["insertImage", "data:image/gif;base64,R0lGODlhAQABAAAAACH5BAEKAAEALAAAAAABAAEAAAICTAEAOw=="],
  ["forwardDelete"],
];

const COMPOSED = ["に", "日本", "é", "👩‍💻"];

const PAGE =
  "<p>one <b>two</b> three</p><ul><li>a</li><li>b<ul><li>c</li></ul></li></ul>" +
  '<p>Hi <span contenteditable="false">NAME</span>, 👨‍👩‍👧 and 🇩🇪.</p>' +
  "<blockquote><p>q</p></blockquote><p><br></p>";

/**
 * What a user does next, as a name and its words.
 * @returns {[string, ...any]}
 */
function nextAct(random) {
  const below = (count) => Math.floor(random.next().value * count);
  const pick = (from) => from[below(from.length)];
  const kind = below(10);
  if (kind < 3) {
    return ["type", pick(CHARACTERS)];
  }
  if (kind < 7) {
    return ["press", pick(KEYS)];
  }
  if (kind < 8) {
    return ["exec", ...pick(COMMANDS)];
  }
  return kind < 9 ? ["click", below(400), below(300)] : ["compose", pick(COMPOSED)];
}

async function act(region, [name, ...words]) {
  const { page } = region;
  switch (name) {
    case "click":
      return page.clickAt({ x: 16 + words[0], y: 16 + words[1] });
    case "exec":
      return region.ask("exec", ...words);
    case "compose":
      if (!page.hasInputMethods) {
        return;
      }
      await page.compose(words[0]);
      return page.commit(words[0]);
    default:
      return page[name](words[0]);
  }
}

for (const { Browser, name, skip } of BROWSERS) {
  describe(`a random session in ${name}`, { skip }, () => {
    const region = new RegionPage(Browser);

    for (const seed of SEEDS) {
      it(`of seed ${seed}`, { timeout: 1_800_000 }, async () => {
        const random = numbers(seed);
        await region.open(PAGE);
        await region.click([0, 0], 1);
        const said = [];
        for (let turn = 0; turn < EVENTS; turn += 1) {
          const next = nextAct(random);
          said.push(next);
          const found = await act(region, next).then(() => region.difference(), String);
          assert.equal(found, null, `${turn}: ${JSON.stringify(said.slice(-8))}`);
        }
        const [last, again] = await region.page.evaluate(() => {
          while (window.region.redo());
          const html = window.region.html();
          while (window.region.undo());
          while (window.region.redo());
          return [html, window.region.html()];
        });
        assert.equal(again, last);
        assert.equal(await region.difference(), null);
      });
    }
  });
}
