/** Pictures of the composer: from files, by paste, by drop and from addresses. */
import assert from "node:assert/strict";
import { mkdtemp, rm, writeFile } from "node:fs/promises";
import { tmpdir } from "node:os";
import { join } from "node:path";
import { after, before, describe } from "node:test";
import { it } from "./browsers.mjs";
import { ComposerPage, SIGNATURE, TRIED, button } from "./composer_page.mjs";

const PICTURE = '<img src="cid:ID@composer">';

for (const { Browser, name: browserName, skip } of TRIED) {
  describe(`pictures of the composer in ${browserName}`, { skip }, () => {
    const composer = new ComposerPage(Browser);
    let folder;

    before(async () => {
      folder = await mkdtemp(join(tmpdir(), "hedit-"));
    });

    after(() => rm(folder, { recursive: true }));

    /** A picture of so many pixels, as the bytes of a PNG file. */
    async function png(width, height) {
      const address = await composer.page.evaluate(
        (wide, high) => {
          const canvas = document.createElement("canvas");
          [canvas.width, canvas.height] = [wide, high];
          canvas.getContext("2d").fillRect(0, 0, wide / 2, high);
          return canvas.toDataURL();
        },
        width,
        height,
      );
      return Buffer.from(address.replace(/.*,/, ""), "base64");
    }

    /** The path of a file. */
    async function file(name, content) {
      await writeFile(join(folder, name), content);
      return join(folder, name);
    }

    const small = async () => file("small.png", await png(40, 20));

    /** Waits until the source is some HTML, whatever the pictures are called. */
    async function writes(html) {
      const isShown = (wanted) =>
        document.querySelector("#source-code").textContent.replace(/cid:[\w-]+/g, "cid:ID") === wanted;
      await composer.page.until(isShown, html + SIGNATURE).catch(async () => {
        assert.equal(await composer.text("#source-code"), html + SIGNATURE);
      });
    }

    /** How many pixels each picture of the message has, once all are shown. */
    const sizes = (within = "#message") =>
      composer.page.until((where) => {
        const pictures = [...document.querySelectorAll(`${where} img`)];
        const are = pictures.map(({ naturalWidth, naturalHeight }) => `${naturalWidth}x${naturalHeight}`);
        return are.length > 0 && pictures.every(({ naturalWidth }) => naturalWidth) && are;
      }, within);

    /** Puts a picture on the clipboard, as one that was copied elsewhere. */
    async function copyPicture(bytes) {
      await composer.page.allowClipboard();
      await composer.page.evaluate(async (letters) => {
        const picture = Uint8Array.from(atob(letters), (letter) => letter.charCodeAt(0));
        const blob = new Blob([picture], { type: "image/png" });
        await navigator.clipboard.write([new ClipboardItem({ "image/png": blob })]);
      }, bytes.toString("base64"));
    }

    it("come from files, and are kept with the draft", async () => {
      const page = await composer.compose("See");
      await page.choose("#image-file", [await small(), await file("wide.png", await png(3200, 100))]);
      await writes(`<p>See${PICTURE}${PICTURE}</p>`);
      assert.deepEqual(await sizes(), ["40x20", "1600x50"], "the larger one is made smaller");
      assert.equal(await composer.focused(), "Message");
      await composer.keeps("cid:");
      await composer.reload();
      await page.until(() => document.querySelectorAll("#message img[src^='blob:']").length === 2);
      assert.deepEqual(await sizes(), ["40x20", "1600x50"]);
      await page.click("#preview-open");
      assert.deepEqual(await sizes("#preview-message"), ["40x20", "1600x50"]);
    });

    const noPictures = browserName === "Firefox" && "Firefox without a screen copies no pictures";

    it("are pasted, and taken back in a step", { skip: noPictures }, async () => {
      const page = await composer.compose("See");
      await copyPicture(await png(30, 10));
      await page.click("#message > p");
      await page.press("End");
      await page.press("Control+V");
      await writes(`<p>See${PICTURE}</p>`);
      assert.deepEqual(await sizes(), ["30x10"]);
      await page.press("Control+Z");
      await writes("<p>See</p>");
      await page.press("Control+Y");
      await writes(`<p>See${PICTURE}</p>`);
      assert.deepEqual(await sizes(), ["30x10"]);
    });

    it("are dropped where they are to be", async () => {
      const page = await composer.compose("Ann\nBob");
      await page.drop(await page.middle("#message > p"), [await small()]);
      await composer.page.until(() => document.querySelector("#message > p img"));
      assert.deepEqual(await sizes(), ["40x20"]);
      assert.equal(await page.evaluate(() => document.querySelector("#paper").className), "paper");
      await page.drop(await page.middle("#subject"), [await small()]);
      await page.settle();
      assert.deepEqual(await sizes(), ["40x20"], "outside of the message nothing happens");
    });

    it("are refused with a reason", async () => {
      const page = await composer.compose("See");
      const refused = [
        ["plan.pdf", "only pictures can be"],
        ["drawing.svg", "mail programs show PNG, JPEG, GIF and WebP pictures only"],
        ["wrong.png", "it can’t be read as a picture"],
      ];
      for (const [name, reason] of refused) {
        await page.choose("#image-file", [await file(name, "%PDF-1.4")]);
        await composer.says(`“${name}” isn’t inserted: ${reason}`);
      }
      await page.choose("#image-file", [join(folder, "wrong.png"), await small()]);
      await composer.says("“wrong.png” isn’t inserted: it can’t be read as a picture");
      await writes(`<p>See${PICTURE}</p>`);
    });

    it("come from addresses, which are checked", async () => {
      const page = await composer.compose("See");
      await page.click(button("Image"));
      for (const address of ["http://example.org/a.png", "javascript:alert(1)", "data:text/html;base64,YQ==", ""]) {
        await page.press("Control+A");
        await page.press("Backspace");
        await page.type(`${address}\n`);
        assert.match(await composer.text("#image-address-fault"), /^A picture has an address/, address);
        assert.equal(await composer.focused(), "image-address");
      }
      await page.type("https://example.org/a.png\n");
      await writes('<p>See<img src="https://example.org/a.png"></p>');
      const shown = await page.evaluate(() => document.querySelector("#message img").getAttribute("src"));
      assert.equal(shown, null, "another server isn't asked for it");
    });

    it("are in the mail that is saved", async () => {
      const page = await composer.compose("See");
      await page.choose("#image-file", [await small()]);
      await writes(`<p>See${PICTURE}</p>`);
      const saved = await composer.saved("message.eml", () => page.press("Control+S"));
      const [, boundary] = /boundary="([^"]+)"/.exec(saved);
      const [, text, picture, end] = saved.split(`--${boundary}`);
      assert.equal(end, "--\r\n");
      const body = Buffer.from(text.split("\r\n\r\n")[1], "base64").toString();
      const [, id] = /<img src="cid:([\w@-]+)">/.exec(body);
      assert.ok(picture.includes(`Content-ID: <${id}>\r\n`), picture.slice(0, 300));
      assert.deepEqual(Buffer.from(picture.split("\r\n\r\n")[1], "base64"), await png(40, 20));
    });
  });
}
