/** The drafts that the composer keeps: each window its own, and none is lost. */
import assert from "node:assert/strict";
import { describe } from "node:test";
import { it } from "./browsers.mjs";
import { ComposerPage, TRIED } from "./composer_page.mjs";

/** A text that was kept of a draft, and that isn't one any more. */
const BROKEN = '{"to":"","subject":"Plan","html":"<p>Dear Ann,</p><p>call &amp; co';

for (const { Browser, name: browserName, skip } of TRIED) {
  describe(`drafts of the composer in ${browserName}`, { skip }, () => {
    const composer = new ComposerPage(Browser);

    const value = (selector) =>
      composer.page.evaluate((wanted) => document.querySelector(wanted).value, selector);

    /** The rows of the list of drafts. */
    async function listed(page = composer.page) {
      await page.click("#drafts");
      await page.until(() => document.querySelector("#drafts-menu:popover-open :focus"));
      return page.evaluate(() =>
        [...document.querySelectorAll("#drafts-menu button")].map((row) => row.firstChild.textContent),
      );
    }

    const answer = (name) =>
      composer.page.evaluate((wanted) => {
        const buttons = [...document.querySelectorAll("#notice button")];
        buttons.find(({ textContent }) => textContent === wanted).click();
      }, name);

    it("keeps the draft in the browser until it is discarded", async () => {
      const page = await composer.compose("Call Ann");
      await page.click("#subject");
      await page.type("Plan");
      await composer.keeps('"Plan"');
      await composer.reload();
      await composer.begins("Call Ann");
      assert.equal(await value("#subject"), "Plan");
      await page.click("#discard");
      await page.click("#discard-question .danger");
      await composer.begins("");
      assert.equal(await value("#subject"), "");
      assert.equal(await page.evaluate(() => localStorage.length), 0);
    });

    it("keeps what was written just before the page is left", async () => {
      const page = await composer.compose("Call");
      await composer.keeps("Call");
      await page.type(" Ann");
      await composer.reload();
      await composer.begins("Call Ann");
    });

    it("goes on with a draft that a window left", async () => {
      const page = await composer.compose("Call Ann");
      await composer.keeps("Call Ann");
      await page.evaluate(() => sessionStorage.clear());
      await composer.reload();
      await composer.begins("Call Ann");
    });

    it("has each window write a draft of its own", async () => {
      const page = await composer.compose("Call Ann");
      await composer.keeps("Call Ann");
      const beside = await composer.openBeside();
      await composer.begins("", beside);
      await beside.click("#message > p");
      await beside.type("Call Bob");
      await composer.keeps("Call Bob");
      await page.front();
      await page.type("!");
      await composer.keeps("Call Ann!");
      await beside.front();
      assert.deepEqual(await listed(beside), ["New message", "Call Ann!"]);
      const isDisabled = () => {
        const row = document.querySelector("#drafts-menu button:last-child");
        return [row.getAttribute("aria-disabled"), row.lastChild.textContent];
      };
      assert.deepEqual(await beside.evaluate(isDisabled), ["true", "Open in another window"]);
      await beside.close();
    });

    it("lists the other drafts, and goes from one to another", async () => {
      const page = await composer.compose("Call Ann");
      await composer.keeps("Call Ann");
      assert.deepEqual(await listed(), ["New message"]);
      await page.press("Enter");
      await composer.begins("");
      await page.click("#subject");
      await page.type("Plan\n");
      assert.equal(await composer.focused(), "Message");
      await composer.keeps("Plan");
      assert.deepEqual(await listed(), ["New message", "Call Ann"]);
      await page.press("ArrowDown");
      await page.press("Enter");
      await composer.begins("Call Ann");
      assert.equal(await value("#subject"), "");
      assert.deepEqual(await listed(), ["New message", "Plan"]);
      await page.press("Escape");
      assert.equal(await composer.focused(), "Drafts");
    });

    it("keeps what can't be read as a draft, and offers its text", async () => {
      const page = await composer.compose();
      await page.evaluate((text) => localStorage.setItem("hedit-draft:x", text), BROKEN);
      await composer.reload();
      await page.until(() => !document.querySelector("#notice").hidden);
      assert.equal(await composer.text("#notice-words"), "A draft couldn’t be opened. Its text is kept.");
      assert.equal(await page.evaluate(() => localStorage.getItem("hedit-unreadable:x")), BROKEN);
      await page.click("#message > p");
      await answer("Insert its text");
      await page.until(() => /Dear Ann,.*call & co/s.test(document.querySelector("#message").innerText));
      assert.equal(await page.evaluate(() => localStorage.getItem("hedit-unreadable:x")), BROKEN);
      await answer("Delete it");
      await page.until(() => document.querySelector("#notice").hidden);
      assert.equal(await page.evaluate(() => localStorage.getItem("hedit-unreadable:x")), null);
    });

    it("keeps a draft that the engine refuses", async () => {
      const page = await composer.compose();
      await page.evaluate(() => {
        const html = `<p>${"Dear Ann ".repeat(470_000)}</p>`;
        const draft = { to: "", cc: "", bcc: "", subject: "Long", html, time: 1 };
        localStorage.setItem("hedit-draft:x", JSON.stringify(draft));
        sessionStorage.clear();
      });
      await composer.reload();
      await page.until(() => !document.querySelector("#notice").hidden);
      await composer.begins("");
      await page.click("#message > p");
      await page.type("New");
      const sizes = await page.evaluate(() =>
        Object.entries(localStorage).map(([key, text]) => [key.replace(/:.*/, ""), text.length > 4e6]),
      );
      assert.ok(sizes.some(([key, isLong]) => key === "hedit-unreadable" && isLong), String(sizes));
    });

    it("says that a browser has no room for the draft", async () => {
      const page = await composer.compose("Call");
      await composer.keeps("Call");
      await page.evaluate(() => {
        for (let size = 2 ** 22; size >= 1; size /= 2) {
          try {
            for (;;) {
              localStorage.setItem(`rest${Math.random()}`, "x".repeat(size));
            }
          } catch {
            // It is full but for less than that.
          }
        }
      });
      // What is left has no room for this.
      await page.type(` Ann${" and Bob".repeat(8)}`);
      await page.until(() => !document.querySelector("#notice").hidden);
      assert.match(await composer.text("#notice-words"), /no room for the draft/);
      assert.equal(await composer.text("#saved"), "Not kept");
      await page.evaluate(() => {
        const rest = Object.keys(localStorage).filter((key) => key.startsWith("rest"));
        rest.forEach((key) => localStorage.removeItem(key));
      });
      await page.type("!");
      await page.until(() => document.querySelector("#notice").hidden);
      await composer.keeps("and Bob!");
    });
  });
}
