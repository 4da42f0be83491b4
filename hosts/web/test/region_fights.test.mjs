/** A region beside scripts that undo what it shows, and beside other regions. */
import assert from "node:assert/strict";
import { describe } from "node:test";
import { setTimeout as sleep } from "node:timers/promises";
import { BROWSERS, it } from "./browsers.mjs";
import { hostPage } from "./region_host.mjs";
import { RegionPage } from "./region_page.mjs";

/** What scripts do again each time that the region mends it, by what they change. */
const FIGHTS = {
  attributes: ({ firstChild }) => {
    if (!firstChild.hasAttribute("data-x")) {
      firstChild.setAttribute("data-x", "y");
    }
  },
  nodes: (element) => {
    if (!element.querySelector("hr")) {
      element.prepend(document.createElement("hr"));
    }
  },
  texts: ({ lastChild }) => {
    if (!/!$/.test(lastChild.textContent)) {
      lastChild.firstChild.splitText(1).data += "!";
    }
  },
  "the order": (element) => {
    if (element.firstChild.textContent !== "two") {
      element.prepend(element.lastChild);
    }
  },
};

/** How long a fight may take until the region gives in, in milliseconds. */
const PATIENCE = 8000;

const options = { timeout: 60_000 };

for (const { Browser, name, skip } of BROWSERS) {
  describe(`a region in ${name} beside a script`, { skip }, () => {
    const region = new RegionPage(Browser, hostPage());

    const start = (html, choices = {}) =>
      region.page.evaluate((...words) => window.start(...words), html, { debug: false, ...choices });

    const fight = (call) =>
      region.page.evaluate((source) => {
        const act = (0, eval)(`(${source})`);
        const { element } = window.region;
        window.answers = 0;
        window.fight = new MutationObserver(() => {
          window.answers += 1;
          act(element);
        });
        const all = { attributes: true, characterData: true, childList: true, subtree: true };
        window.fight.observe(element, all);
        act(element);
      }, String(call));

    const status = () => region.page.evaluate(() => window.region.status);

    for (const [what, call] of Object.entries(FIGHTS)) {
      it(`that changes ${what} again and again doesn't hang, and loses nothing`, options, async () => {
        const html = "<p>one</p><p>two</p>";
        await start(html);
        await region.page.evaluate(() => {
          const label = window.region.editor.labelAt([0, 0, 0]);
          window.region.select({ label, offset: 0 });
        });
        await fight(call);
        const end = Date.now() + PATIENCE;
        while ((await status()) === "ready" && Date.now() < end) {
          await sleep(50);
        }
        assert.equal(await status(), "contested");
        assert.ok((await region.page.evaluate(() => window.answers)) < 100);
        assert.equal(await region.ask("html"), html);
        await region.page.evaluate(() => window.fight.disconnect());
        assert.equal(await region.ask("exec", "insertText", "x"), true);
        assert.equal(await status(), "ready");
        assert.equal(await region.ask("check"), null);
        assert.equal(await region.ask("html"), "<p>xone</p><p>two</p>");
      });
    }

    it("that changes the element's own attributes leaves them to the page", options, async () => {
      await start("<p>one</p>");
      await fight((element) => {
        if (element.title !== "x") {
          element.title = "x";
        }
      });
      await sleep(200);
      assert.equal(await status(), "ready");
      assert.equal(await region.ask("check"), null);
    });

    it("that translates each text is read, and goes on", options, async () => {
      await start("<p>one</p><p>two</p>");
      await region.page.evaluate(() => {
        for (const paragraph of [...window.region.element.children]) {
          const font = document.createElement("font");
          const inner = document.createElement("font");
          inner.append("eins");
          font.append(inner);
          paragraph.replaceChildren(font);
        }
      });
      await region.page.settle();
      assert.equal(await region.ask("check"), null);
      assert.equal(await region.ask("html"), "<p>one</p><p>two</p>");
      assert.equal(await status(), "ready");
    });

    it("goes on where the user acts meanwhile", options, async () => {
      await start("<p>one</p><p>two</p>");
      await fight(FIGHTS.attributes);
      await region.page.clickAt(await region.at([1, 0], 3));
      await region.page.type("xy");
      await sleep(300);
      await region.page.type("z");
      await region.page.evaluate(() => window.fight.disconnect());
      await region.page.evaluate(() => window.region.recover());
      assert.equal(await region.ask("html"), "<p>one</p><p>twoxyz</p>");
      await sleep(100);
      assert.equal(await region.ask("check"), null);
    });

    it("that makes another region there, around it or in it is refused", options, async () => {
      await start("<div>a</div><p>b</p>");
      const said = await region.page.evaluate(() => {
        const { Region, engine, region } = window;
        const { element } = region;
        const [, ...others] = [element, element, document.body, element.firstChild];
        const results = others.map((each) => {
          try {
            new Region(engine, each);
            return "made";
          } catch (error) {
            return error.name;
          }
        });
        const found = [Region.of(element) === region, Region.of(document.body)];
        region.close();
        const again = new Region(engine, element);
        again.close();
        return [results, found, Region.of(element), region.status, Region.isSupported()];
      });
      const supported = { ok: true, missing: [] };
      const refused = ["BadArgument", "BadArgument", "BadArgument"];
      assert.deepEqual(said, [refused, [true, null], null, "closed", supported]);
    });
  });
}
