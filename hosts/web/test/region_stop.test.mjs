/** What a region gives while an input method composes, and where its engine fails. */
import assert from "node:assert/strict";
import { describe } from "node:test";
import { setTimeout as sleep } from "node:timers/promises";
import { BROWSERS, it } from "./browsers.mjs";
import { hostPage } from "./region_host.mjs";
import { RegionPage } from "./region_page.mjs";

/** Opens a region over an engine that fails where the page says so. */
async function openFailing(html, choices = {}) {
  const { Engine } = await import(/** @type {string} */ ("/hedit.js"));
  const make = async () => {
    const bytes = await (await fetch("/hedit.wasm")).arrayBuffer();
    const { instance } = await WebAssembly.instantiate(bytes);
    const calls = Object.entries(instance.exports).map(([name, call]) => [
      name,
      typeof call !== "function"
        ? call
        : (...words) => {
            if (window.failing?.(name)) {
              throw new WebAssembly.RuntimeError("unreachable");
            }
            return window.refusing?.(name) ? 5 : call(...words);
          },
    ]);
    return new Engine(Object.fromEntries(calls));
  };
  window.failing = null;
  window.refusing = null;
  window.region?.close();
  const element = document.getElementById("host");
  element.replaceChildren();
  const reload = async () => {
    window.failing = null;
    return make();
  };
  window.failingEngine = await make();
  const all = { html, clean: false, debug: true, reload, ...choices };
  window.region = new window.Region(window.failingEngine, element, all);
  window.events = [];
  for (const kind of ["change", "error", "refused", "recovered"]) {
    window.region.addEventListener(kind, () => window.events.push(kind));
  }
}

for (const { Browser, name, skip } of BROWSERS) {
  describe(`a region in ${name}`, { skip }, () => {
    const region = new RegionPage(Browser, hostPage());

    describe("while an input method composes", () => {
      it("gives what is composed at once, and what was before", async () => {
        await region.page.evaluate((html) => window.start(html), "<p>ab</p><p><br></p>");
        await region.click([0, 0], 1);
        await region.page.evaluate(() => {
          window.inputs = 0;
          window.region.addEventListener("input", () => {
            window.inputs += 1;
          });
        });
        for (const text of ["に", "にほ", "日本"]) {
          await region.compose(text);
          assert.equal(await region.ask("html"), `<p>a${text}b</p><p><br></p>`);
          assert.equal(await region.ask("html", { composing: "without" }), "<p>ab</p><p><br></p>");
        }
        assert.ok((await region.page.evaluate(() => window.inputs)) >= 3);
        await region.commit("日本");
        assert.equal(await region.ask("html", { composing: "without" }), "<p>a日本b</p><p><br></p>");
        await region.click([1], 0);
        await region.compose("x");
        assert.equal(await region.ask("html"), "<p>a日本b</p><p>x</p>");
        await region.commit("xy");
        await region.shows("<p>a日本b</p><p>xy</p>");
      });

      it("gives what was before where typing is denied", async () => {
        const denied = ["insertText"];
        await region.page.evaluate((...words) => window.start(...words), "<p>ab</p>", { denied });
        await region.click([0, 0], 1);
        await region.compose("に");
        assert.equal(await region.ask("html"), "<p>ab</p>");
        await region.commit("日本");
        await region.shows("<p>ab</p>");
      });

      it("is ended first where it can only be read then", async () => {
        await region.page.evaluate((html) => window.start(html), "<p>ab</p>");
        await region.click([0, 0], 1);
        await region.compose("に");
        await region.page.evaluate(() => {
          window.region.readOnly = true;
        });
        assert.equal(await region.ask("html"), "<p>aにb</p>");
        await region.page.evaluate(() => {
          window.region.readOnly = false;
        });
        assert.equal(await region.ask("check"), null);
      });
    });

    describe("whose engine fails", () => {
      it("shows the page where it can't be told what changed", async () => {
        // So that the click isn't one more of those before, for WebKit.
        await sleep(600);
        await region.page.evaluate(openFailing, "<p>ab</p>");
        await region.click([0, 0], 1);
        await region.page.evaluate(() => {
          window.refusing = (call) => call === "hedit_changes";
        });
        await region.type("x");
        await region.press("Enter");
        await region.press("Control+b");
        await region.type("y");
        await region.shows("<p>ax</p><p><b>y</b>b</p>");
      });

      it("stops, still has the page, and goes on with another engine", async () => {
        await region.page.evaluate(openFailing, "<p>ab <b>c</b></p>", { undoDepth: 9 });
        await region.click([0, 0], 1);
        await region.type("x");
        await region.page.evaluate(() => {
          window.failing = (call) => /^hedit_(exec|replace)/.test(call);
        });
        await region.page.type("y");
        const look = () =>
          region.page.evaluate(() => {
            const { region, events } = window;
            const { isContentEditable, textContent } = region.element;
            return [region.status, region.html(), isContentEditable, textContent, events.splice(0)];
          });
        const html = "<p>axb <b>c</b></p>";
        assert.deepEqual(await look(), ["stopped", html, false, "axb c", ["change", "error"]]);
        assert.equal(await region.ask("exec", "bold"), false);
        assert.equal(await region.ask("state", "bold"), false);
        assert.equal(await region.ask("value", "fontName"), "");
        await region.page.evaluate(() => {
          document.querySelector("#host p").append(document.createElement("hr"), "!");
        });
        await region.page.evaluate(() => window.region.recover());
        const [status, ...rest] = await look();
        assert.deepEqual([status, rest[1], rest[3]], ["ready", true, ["recovered"]]);
        await region.click([0, 0], 1);
        await region.type("z");
        assert.match(await region.agrees(), /^<p>azxb <b>c<\/b>!?<\/p>$/);
        await region.press("Control+z");
        assert.match(await region.agrees(), /^<p>axb <b>c<\/b>!?<\/p>$/);
      });

      it("throws so from its methods, and doesn't take along the regions of others", async () => {
        await region.page.evaluate(openFailing, "<p>ab</p>");
        const said = await region.page.evaluate(() => {
          const other = document.createElement("div");
          other.contentEditable = "true";
          document.body.append(other);
          const another = new window.Region(window.engine, other, { html: "<p>c</p>" });
          const { region } = window;
          const { label } = { label: region.editor.labelAt([0, 0, 0]) };
          region.select({ label, offset: 0 }, { label, offset: 2 });
          window.failing = (call) => call.startsWith("hedit_exec");
          let thrown = "";
          try {
            region.exec("bold");
          } catch (error) {
            thrown = error.name;
          }
          const point = { label: another.editor.labelAt([0, 0, 0]), offset: 1 };
          another.select(point);
          const isDone = another.exec("insertText", "d");
          const html = another.html();
          another.close();
          other.remove();
          return [thrown, region.status, region.html(), isDone, html];
        });
        assert.deepEqual(said, ["EngineStopped", "stopped", "<p>ab</p>", true, "<p>cd</p>"]);
      });
    });

    describe("of ordinary HTML", () => {
      const PAGES = [
        ["<p>a &copy; b & c<p>d", "<p>a © b &amp; c</p><p>d</p>"],
        ["<div>a</br>b</div>", "<p>a<br>b</p>"],
        ["<p class=MsoNormal><o:p>&nbsp;</o:p>a</p><style>p {}</style>", /^<p>.*a<\/p>$/],
        ["<b><p>a</b>b</p>", /<b>a<\/b>b/],
      ];

      it("opens it, cleaned", async () => {
        for (const [html, wanted] of PAGES) {
          await region.page.evaluate((page) => window.start(page, { clean: undefined }), html);
          const printed = await region.ask("html");
          assert.match(printed, wanted instanceof RegExp ? wanted : new RegExp(`^${wanted}$`));
          assert.equal(await region.ask("check"), null);
        }
      });

      it("opens its element's own", async () => {
        const html = await region.page.evaluate(() => {
          window.region.close();
          const element = document.getElementById("host");
          element.innerHTML = "<p>a<p id=x>b&copy;<script>x</script>";
          window.region = new window.Region(window.engine, element, { debug: true });
          return window.region.html();
        });
        assert.equal(html, "<p>a</p><p>b©</p>");
        await region.click([0, 0], 1);
        await region.type("x");
        await region.shows("<p>ax</p><p>b©</p>");
      });
    });
  });
}
