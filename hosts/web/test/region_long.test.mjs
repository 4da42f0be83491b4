/** A region that is used for long, beside a script that undoes what it shows. */
import assert from "node:assert/strict";
import { describe } from "node:test";
import { BROWSERS, IS_WHOLE, it } from "./browsers.mjs";
import { hostPage } from "./region_host.mjs";
import { RegionPage } from "./region_page.mjs";

/** How many events there are: as many as HEDIT_EVENTS says, or 100,000 where all tests run. */
const EVENTS = Number(process.env.HEDIT_EVENTS ?? (IS_WHOLE ? 100_000 : 1000));

/** After how many of them the page and the engine are held against each other. */
const ROUND = 1000;

const PAGE =
  "<p>one <b>two</b> three</p><ul><li>a</li><li>b<ul><li>c</li></ul></li></ul><x-a>d</x-a><!-- e -->" +
  '<p>Hi <span contenteditable="false">NAME</span>, 👨‍👩‍👧.</p><blockquote><p>q</p></blockquote>';

/** Makes random events in the page, with a script that fights on and off, and says what differs. */
async function use(seed, count) {
  const { region } = window;
  const { element } = region;
  let state = seed;
  const below = (most) => {
    state = (Math.imul(state, 1664525) + 1013904223) >>> 0;
    return Math.floor((state / 2 ** 32) * most);
  };
  const pick = (from) => from[below(from.length)];
  const nodes = () => {
    const walker = document.createTreeWalker(element);
    const found = [element];
    while (walker.nextNode()) {
      found.push(walker.currentNode);
    }
    return found;
  };
  const elements = () => nodes().filter(({ nodeType }) => nodeType === 1);
  const place = () => {
    const node = pick(nodes());
    return [node, below((node.data ?? node.childNodes).length + 1)];
  };
  const input = (inputType, data = null) => {
    const { activeElement } = document;
    const target = element.contains(activeElement) ? activeElement : element;
    const settings = { inputType, data, bubbles: true, cancelable: true };
    target.dispatchEvent(new InputEvent("beforeinput", settings));
  };
  const select = () => {
    const [from, start] = place();
    const [to, end] = below(3) ? [from, start] : place();
    document.getSelection().setBaseAndExtent(from, start, to, end);
  };
  const commands = ["bold", "italic", "insertUnorderedList", "indent", "outdent", "removeFormat"];
  commands.push("insertOrderedList", "justifyRight", "justifyLeft", "insertHorizontalRule", "unlink");
  const acts = [
    () => input("insertText", pick(["a", "b", " ", "é", "😀", "<"])),
    () => input("insertText", pick(["x", "y"])),
    () => input("deleteContentBackward"),
    () => input("deleteContentBackward"),
    () => input("deleteContentForward"),
    () => input("insertParagraph"),
    () => input("insertLineBreak"),
    select,
    select,
    () => region.exec(pick(commands)),
    () => region.exec("formatBlock", pick(["h2", "p", "blockquote", "pre"])),
    () => region.exec("createLink", "https://x/"),
    () => region.undo(),
    () => region.redo(),
    () => region.step(() => [region.exec("bold"), region.exec("insertText", "z")]),
    () => {
      const text = pick(nodes().filter(({ nodeType }) => nodeType === 3));
      if (text) {
        text.data += "!";
      }
    },
    () => pick(nodes())?.remove?.(),
    () => pick(elements()).prepend(document.createElement("hr"), "w"),
    () => pick(elements()).setAttribute("title", "v"),
    () => region.html(),
  ];
  const fights = [
    () => element.firstChild?.setAttribute?.("lang", "xx"),
    () => {
      if (!element.querySelector("hr.fight")) {
        element.append(Object.assign(document.createElement("hr"), { className: "fight" }));
      }
    },
    () => element.lastChild?.nodeType === 1 && element.lastChild.before(element.firstChild),
  ];
  let fight = null;
  let budget = 0;
  const observer = new MutationObserver(() => {
    // It gives in for now after many turns, as else it may fight with itself.
    budget += 1;
    if (fight && budget < 200) {
      fight();
    }
  });
  const all = { attributes: true, characterData: true, childList: true, subtree: true };
  const counts = { contested: 0, refused: 0, errors: 0 };
  region.addEventListener("statechange", () => {
    counts.contested += Number(region.status === "contested");
  });
  region.addEventListener("refused", (event) => {
    event.preventDefault();
    counts.refused += 1;
  });
  region.addEventListener("error", (event) => {
    event.preventDefault();
    counts.errors += 1;
  });
  const rest = (time) => new Promise((resolve) => setTimeout(resolve, time));
  element.focus();
  observer.observe(element, all);
  for (let turn = 0; turn < count; turn += 1) {
    fight = turn % 4 === 0 ? pick([null, ...fights]) : fight;
    budget = 0;
    if (document.getSelection().rangeCount === 0) {
      select();
    }
    pick(acts)();
    await null;
    if (turn % 500 === 0) {
      // So long that the region gives in.
      fight = pick(fights);
      fight();
      await rest(700);
    } else if (turn % 25 === 0) {
      await rest(below(4) ? 0 : 20);
    }
    if (element.textContent.length > 2000) {
      document.getSelection().selectAllChildren(element);
      await null;
      input("deleteContentBackward");
    }
  }
  observer.disconnect();
  await region.recover();
  await rest(200);
  const page = region.editor.html().slice(0, -1).replace(/^<[^>]*>|<\/div>$/g, "");
  const isSame = page === region.html();
  return { difference: region.check(), isSame, status: region.status, counts, length: page.length };
}

for (const { Browser, name, skip } of BROWSERS) {
  describe(`a region in ${name} that is used for long`, { skip }, () => {
    const region = new RegionPage(Browser, hostPage());

    it(`shows what the engine has after ${EVENTS} events`, { timeout: 7_200_000 }, async (context) => {
      const totals = { contested: 0, refused: 0, errors: 0 };
      await region.page.evaluate((html) => window.start(html, { debug: false }), PAGE);
      for (let done = 0; done < EVENTS; done += ROUND) {
        const { counts, ...found } = await region.page.evaluate(use, done + 1, ROUND);
        assert.deepEqual(
          [found.difference, found.isSame, found.status],
          [null, true, "ready"],
          `after ${done + ROUND}: ${JSON.stringify(found)}`,
        );
        for (const kind of Object.keys(totals)) {
          totals[kind] += counts[kind];
        }
        if (found.length < 30) {
          await region.page.evaluate((html) => window.start(html, { debug: false }), PAGE);
        }
      }
      context.diagnostic(JSON.stringify(totals));
      assert.deepEqual(region.takeComplaints(), []);
    });
  });
}
