/** What is dragged into a region, out of it and within it, and files that are dropped and pasted. */
import assert from "node:assert/strict";
import { readFile, writeFile } from "node:fs/promises";
import { tmpdir } from "node:os";
import { join } from "node:path";
import { describe } from "node:test";
import { BROWSERS, it } from "./browsers.mjs";
import { PastePage } from "./paste_page.mjs";

const PIXEL = "data:image/gif;base64,R0lGODlhAQABAAAAACH5BAEKAAEALAAAAAABAAEAAAICTAEAOw==";

const IN_CHROMIUM = BROWSERS.filter(({ name }) => name === "Chromium");

/** Keeps what a region says of files and refusals; files are handled where that is wanted. */
function listen(isHandled) {
  window.said = [];
  window.region.addEventListener("files", (event) => {
    if (isHandled) {
      event.preventDefault();
    }
    const { files, at, source } = event;
    window.said.push(["files", files.map(({ name }) => name), at !== null, source]);
  });
  window.region.addEventListener("refused", (event) => {
    event.preventDefault();
    window.said.push([event.command, event.reason, event.text]);
  });
}

// Firefox without a screen begins to drag, and drops nothing; so does WebKit's driver.
for (const { Browser, name, skip } of IN_CHROMIUM) {
  describe(`dragging in ${name}`, { skip }, () => {
    const region = new PastePage(Browser);
    const said = () => region.page.evaluate(() => window.said.splice(0));

    /** Drags what is selected, or an image, from a place to another. */
    const drag = async (from, to) => {
      const [start, end] = [await region.at(...from), await region.at(...to)];
      await region.page.drag([start, { x: start.x + 9, y: start.y + 9 }, end]);
      await region.page.until(() => window.hasEnded);
      return region.agrees();
    };

    const openAt = async (where, choices = {}) => {
      await region.openAt(where, choices);
      await region.page.evaluate(() => {
        window.hasEnded = false;
        const tell = () => {
          window.hasEnded = true;
        };
        document.addEventListener("dragend", tell, { once: true });
      });
      await region.page.evaluate(listen, true);
    };

    it("moves formats, in one step", async () => {
      await openAt("<p>one [<b>two</b> three] four</p><p>ab</p>");
      const before = await region.agrees();
      const after = await drag([[0, 1, 0], 1], [[1, 0], 1]);
      assert.equal(after, "<p>one&nbsp; four</p><p>a<b>two</b> threeb</p>");
      await region.press("Control+z");
      await region.shows(before);
      await region.press("Control+y");
      await region.shows(after);
    });

    it("moves lines within a paragraph's text", async () => {
      await openAt("<p>ab [cd] ef</p>");
      assert.equal(await drag([[0, 0], 4], [[0, 0], 1]), "<p>acdb&nbsp; ef</p>");
    });

    it("moves an image", async () => {
      await openAt(`<p>ab<img src="${PIXEL}" />cd|</p><p>ef</p>`);
      const image = await region.page.middle("#host img");
      const to = await region.at([1, 0], 1);
      await region.page.drag([image, { x: image.x + 9, y: image.y + 9 }, to]);
      await region.page.until(() => window.hasEnded);
      await region.shows(`<p>abcd</p><p>e<img src="${PIXEL}">f</p>`);
      await region.press("Control+z");
      await region.shows(`<p>ab<img src="${PIXEL}">cd</p><p>ef</p>`);
    });

    it("leaves what is dropped on itself", async () => {
      await openAt("<p>one [two] three</p>");
      assert.equal(await drag([[0, 0], 5], [[0, 0], 6]), "<p>one two three</p>");
    });

    it("leaves what a paste would lose, and says so", async () => {
      const where = '<p>one [<span class="c">two</span>] three</p><p>ab</p>';
      await openAt(where);
      const before = await region.agrees();
      assert.equal(await drag([[0, 1, 0], 1], [[1, 0], 1]), before);
      assert.deepEqual(await said(), [["insertFromDrop", "lossy", "two"]]);
    });

    it("takes away what is dragged out", async () => {
      await openAt("<p>one [two] three</p>");
      await region.page.evaluate(() => document.querySelector("#field").scrollIntoView());
      const [from, to] = [await region.at([0, 0], 5), await region.page.middle("#field")];
      await region.page.drag([from, { x: from.x + 9, y: from.y + 9 }, to]);
      await region.page.until(() => window.hasEnded);
      await region.shows("<p>one&nbsp; three</p>");
      assert.match(await region.page.evaluate(() => document.querySelector("#field").value), /two/);
    });

    describe("from elsewhere", () => {
      const drop = async (at, data) => {
        for (const type of ["dragEnter", "dragOver", "drop"]) {
          const items = { items: [], dragOperationsMask: 1, ...data };
          await region.page.send("Input.dispatchDragEvent", { type, ...at, data: items });
        }
        return region.agrees();
      };

      it("puts rich text where it is dropped", async () => {
        await openAt("<p>|one</p><p>ab</p>");
        const items = [
          { mimeType: "text/html", data: "<ul><li>x</li><li><b>y</b></li></ul>" },
          { mimeType: "text/plain", data: "x\ny" },
        ];
        const after = await drop(await region.at([1, 0], 1), { items });
        assert.equal(after, "<p>one</p><p>a</p><ul><li>x</li><li><b>y</b></li></ul><p>b</p>");
        await region.isOneStep("<p>one</p><p>ab</p>", after);
      });

      it("offers files to the host", async () => {
        const file = join(tmpdir(), "hedit-dropped.txt");
        await writeFile(file, "text");
        await openAt("<p>|one</p>");
        const at = await region.at([0, 0], 1);
        assert.equal(await drop(at, { files: [file] }), "<p>one</p>");
        assert.deepEqual(await said(), [["files", ["hedit-dropped.txt"], true, "drop"]]);
        await region.openAt("<p>|one</p>");
        await region.page.evaluate(listen, false);
        await drop(await region.at([0, 0], 1), { files: [file] });
        const unhandled = ["insertFromDrop", "unknown", ""];
        assert.deepEqual(await said(), [["files", ["hedit-dropped.txt"], true, "drop"], unhandled]);
      });
    });
  });
}

// The clipboards of other browsers without a screen hold no pictures.
for (const { Browser, name, skip } of IN_CHROMIUM) {
  describe(`files in ${name}`, { skip }, () => {
    const region = new PastePage(Browser);

    /** Copies a picture, as a program does. */
    const copyPicture = () =>
      region.page.evaluate(async () => {
        const canvas = document.createElement("canvas");
        canvas.width = canvas.height = 9;
        canvas.getContext("2d").fillRect(0, 0, 9, 9);
        const picture = await new Promise((resolve) => canvas.toBlob(resolve));
        await navigator.clipboard.write([new ClipboardItem({ "image/png": picture })]);
      });

    it("that are pasted are shown while they are uploaded, as docs/WEB.md has it", async () => {
      const page = await readFile(new URL("../../../docs/WEB.md", import.meta.url), "utf8");
      const [, code] = /^```js\n(const paste.*?)^```$/ms.exec(page);
      await region.openAt("<p>|</p>");
      await copyPicture();
      await region.page.evaluate(async (text) => {
        window.region.close();
        const modules = ["/hedit.js", "/region.js"];
        const [{ load }, { Region }] = await Promise.all(modules.map((path) => import(path)));
        const element = document.querySelector("#host");
        element.innerHTML = "<p><br></p>";
        const upload = (file, address) => {
          window.uploaded = [file.type, address];
        };
        const names = ["Region", "engine", "element", "upload"];
        const run = new Function(...names, `${text}\nreturn region;`);
        window.region = run(Region, await load(), element, upload);
        window.region.selectAll();
        window.region.focus();
      }, code);
      assert.equal(await region.agrees(), "<p>Call <b>Ann</b></p>");
      await region.page.press("Control+v");
      const [type, address] = await region.page.until(() => window.uploaded);
      assert.equal(type, "image/png");
      assert.ok((await region.agrees()).startsWith(`<p><img src="${address}">`));
      const src = await region.page.evaluate(() => document.querySelector("#host img").src);
      assert.match(src, /^blob:/);
    });
  });
}
