/** What a region shows, what it undoes, and what can be switched off. */
import assert from "node:assert/strict";
import { readFile } from "node:fs/promises";
import { describe } from "node:test";
import { HABITS } from "../src/region.js";
import { BROWSERS, it } from "./browsers.mjs";
import { RegionPage } from "./region_page.mjs";
import { serve } from "./server.mjs";

describe("the page of docs/WEB.md", async () => {
  const documents = new URL("../../../docs/WEB.md", import.meta.url);
  const [, text] = (await readFile(documents, "utf8")).split("\n## A region in ten lines\n");
  const [, markup] = /```html\n(.*?)```/s.exec(text);

  for (const { Browser, name, skip } of BROWSERS) {
    it(`has a region in ${name}`, { skip }, async (t) => {
      const server = await serve("", markup);
      const browser = await Browser.launch();
      t.after(async () => {
        await browser.close();
        server.close();
      });
      const page = await browser.open(server.address);
      const looks = () => [
        document.querySelector("#mail").innerHTML,
        document.querySelector("#bold").getAttribute("aria-pressed"),
      ];
      await page.until(() => document.querySelector("#mail p"));
      await page.click("#mail p");
      do {
        await page.press("Home");
        await page.press("End");
      } while ((await page.evaluate(looks))[1] === null);
      await page.type(" now");
      await page.press("Control+Shift+ArrowLeft");
      await page.click("#bold");
      assert.deepEqual(await page.evaluate(looks), ["<p>Call Ann <b>now</b></p>", "true"]);
      await page.click("#mail p");
      await page.press("Control+z", 2);
      assert.deepEqual(await page.evaluate(looks), ["<p>Call Ann</p>", "false"]);
    });
  }
});

for (const { Browser, name, skip } of BROWSERS) {
  describe(`a region in ${name}`, { skip }, () => {
    const region = new RegionPage(Browser);

    describe("what the browser or the page does by itself", () => {
      it("is read back in one text", async () => {
        await region.open("<p>teh cat</p>");
        await region.click([0, 0], 7);
        await region.page.evaluate(() => {
          window.region.element.firstChild.firstChild.data = "the cat";
        });
        await region.shows("<p>the cat</p>");
        await region.press("Control+z");
        await region.shows("<p>teh cat</p>");
      });

      it("leaves the caret where it is", async () => {
        await region.open("<p>teh cat</p><p>ab</p>");
        await region.click([1, 0], 1);
        await region.page.evaluate(() => {
          window.region.element.firstChild.firstChild.data = "the cat";
        });
        await region.agrees();
        await region.type("x");
        await region.shows("<p>the cat</p><p>axb</p>");
      });

      it("is undone elsewhere", async () => {
        await region.open('<p class="x">one</p><p>two</p>');
        await region.click([0, 0], 1);
        await region.page.evaluate(() => {
          const { element } = window.region;
          element.firstChild.className = "y";
          element.lastChild.remove();
          element.append(document.createElement("hr"), "text");
          element.firstChild.firstChild.splitText(1);
        });
        await region.shows('<p class="x">one</p><p>two</p>');
        await region.type("x");
        await region.shows('<p class="x">oxne</p><p>two</p>');
      });
    });

    describe("the view", () => {
      it("leaves out what runs", async () => {
        const html =
          '<p onclick="x()">a</p><p><a href="java&#10;script:x()">b</a><a href="https://x/">c</a>' +
          '<img src="data:," onerror="x()"></p>';
        await region.page.evaluate((page) => window.start(page), html);
        const shown = await region.page.evaluate(() => window.region.element.innerHTML);
        assert.equal(
          shown,
          '<p>a</p><p><a data-hedit-link="">b</a><a href="https://x/" rel="noopener noreferrer">c</a>' +
            '<img referrerpolicy="no-referrer" data-hedit-image=""></p>',
        );
        assert.match(await region.ask("html"), /onclick="x\(\)".*script:x.*onerror/s);
        assert.equal(await region.ask("check"), null);
      });

      it("keeps the nodes that stay", async () => {
        await region.open("<p>a</p><p>b</p><p>c</p>");
        const same = await region.page.evaluate(() => {
          const before = [...window.region.element.children];
          const { label, offset } = { label: window.region.editor.labelAt([0, 1, 0]), offset: 1 };
          window.region.select({ label, offset });
          window.region.exec("insertParagraph");
          window.region.exec("delete");
          const now = [...window.region.element.children];
          return before.map((element) => now.indexOf(element));
        });
        assert.deepEqual(same, [0, 1, 2]);
      });

      it("changes where the command did, and nowhere else", async () => {
        await region.open('<p>ab</p><p>Call <b class="x">Zoë 😀</b> now</p><p>cd</p>');
        await region.page.evaluate(() => {
          const { element } = window.region;
          const blockOf = (target) => [...element.children].findIndex((child) => child.contains(target));
          const told = ({ type, target }) => `${type} ${blockOf(target)}`;
          const note = (records) => window.told.push(...records.map(told));
          window.told = [];
          const options = { attributes: true, characterData: true, childList: true, subtree: true };
          new MutationObserver(note).observe(element, options);
        });
        const told = () => region.page.evaluate(() => [...new Set(window.told.splice(0))].sort());
        await region.click([1, 1, 0], 4);
        await region.type("x");
        await region.shows('<p>ab</p><p>Call <b class="x">Zoë x😀</b> now</p><p>cd</p>');
        assert.deepEqual(await told(), ["characterData 1"]);
        await region.press("Backspace");
        assert.deepEqual(await told(), ["characterData 1"]);
        await region.page.press("Shift+End");
        assert.deepEqual(await told(), []);
        await region.press("Control+i");
        assert.deepEqual([...new Set((await told()).map((each) => each.at(-1)))], ["1"]);
        await region.press("Control+z");
        assert.deepEqual([...new Set((await told()).map((each) => each.at(-1)))], ["1"]);
        await region.press("Control+z", 2);
        await region.shows('<p>ab</p><p>Call <b class="x">Zoë 😀</b> now</p><p>cd</p>');
        assert.deepEqual(await told(), ["characterData 1"]);
      });

      it("follows several calls by comparing", async () => {
        await region.open("<p>ab</p>");
        await region.page.evaluate(() => {
          const { editor } = window.region;
          const text = editor.labelAt([0, 0, 0]);
          editor.select({ label: text, offset: 0 }, { label: text, offset: 1 });
          editor.exec("italic");
          editor.exec("insertText", "x");
          window.region.exec("bold");
        });
        await region.agrees();
        await region.press("Control+z", 2);
        await region.shows("<p>ab</p>");
      });

      it("is printed as the engine prints it, with what stands in a rule too", async () => {
        await region.open("<hr><p>a</p>");
        const printed = await region.page.evaluate(() => {
          const { region } = window;
          region.select({ label: region.editor.labelAt([0, 0]), offset: 0 });
          region.exec("insertLineBreak");
          const { length } = region.editor.node(region.editor.labelAt([0, 0]));
          return [region.html(), region.editor.html(), length];
        });
        assert.ok(printed[1].includes(`>${printed[0]}</div>`), printed.join("\n"));
        assert.equal(printed[2], 2);
      });

      it("refuses a page by the place in its markup", async () => {
        const refusal = await region.page.evaluate(() => {
          try {
            window.start("<p>x</b>");
          } catch (error) {
            return [error.name, error.at, error.kind];
          }
        });
        assert.deepEqual(refusal, ["PageRefused", 6, "stray-end"]);
        const outside = await region.page.evaluate(() => {
          try {
            window.start("</div><div>");
          } catch (error) {
            return error.name;
          }
        });
        assert.equal(outside, "BadArgument");
      });
    });

    describe("habits", () => {
      it("can be switched off", async () => {
        const off = Object.fromEntries(Object.keys(HABITS).map((name) => [name, false]));
        await region.open("<p>foo <b>bar</b></p>", off);
        await region.click([0, 1, 0], 3);
        await region.press("Enter");
        await region.type("x");
        await region.shows("<p>foo <b>bar</b></p><p>x</p>");
        await region.open("<ul><li>a</li><li>b</li></ul>", off);
        await region.click([0, 1, 0], 0);
        await region.press("Backspace");
        await region.shows("<ul><li>a<br>b</li></ul>");
        await region.open("<p>a🇩🇪</p>", off);
        await region.click([0, 0], 1);
        await region.press("End");
        await region.press("Backspace");
        await region.shows("<p>a🇩</p>");
      });
    });

    describe("a step", () => {
      it("takes several commands", async () => {
        await region.open("<p>ab</p>");
        await region.click([0, 0], 1);
        await region.page.evaluate(() =>
          window.region.step(() => {
            const { label, offset } = window.region.editor.selection().focus;
            window.region.exec("insertText", "link");
            window.region.select({ label, offset }, { label, offset: offset + 4 });
            window.region.exec("createLink", "u");
          }),
        );
        await region.shows('<p>a<a href="u">link</a>b</p>');
        await region.press("Control+z");
        await region.shows("<p>ab</p>");
        await region.press("Control+y");
        await region.shows('<p>a<a href="u">link</a>b</p>');
      });

      it("is counted where the history is full", async () => {
        await region.open("<ul><li>a</li><li>b</li></ul><p>x</p>", { undoDepth: 4 });
        await region.click([1, 0], 1);
        for (const command of ["bold", "bold", "italic", "bold"]) {
          await region.press("Control+a");
          await region.ask("exec", command);
          await region.agrees();
        }
        await region.ask("exec", "bold");
        await region.agrees();
        const before = await region.agrees();
        await region.click([0, 1, 0, 0], 0).catch(() => region.click([0, 1, 0], 0));
        await region.press("Backspace");
        const joined = await region.agrees();
        assert.notEqual(joined, before);
        await region.press("Control+z");
        await region.shows(before);
        await region.press("Control+y");
        await region.shows(joined);
      });
    });
  });
}
