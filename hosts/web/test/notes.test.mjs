/** The note editor, by mouse and keyboard. */
import assert from "node:assert/strict";
import { describe } from "node:test";
import { it } from "./browsers.mjs";
import { DemoPage, TRIED } from "./composer_page.mjs";

for (const { Browser, name: browserName, skip } of TRIED) {
  describe(`the note editor in ${browserName}`, { skip }, () => {
    const notes = new DemoPage(Browser);

    async function open() {
      const page = await notes.open("notes.html");
      await page.until(() => document.activeElement?.id === "note");
      return page;
    }

    /** Waits until the note is some HTML, as it is saved. */
    async function saves(html) {
      const isSaved = (wanted) =>
        Object.values(localStorage).some((note) => JSON.parse(note).html === wanted);
      await notes.page.until(isSaved, html);
    }

    const names = () =>
      notes.page.evaluate(() =>
        [...document.querySelectorAll("#list strong")].map(({ textContent }) => textContent),
      );

    const command = (name) => `#toolbar [data-command="${name}"]`;

    async function writeAnother(text) {
      await notes.page.click("#add");
      await notes.page.type(text);
    }

    it("saves notes while they are written, and opens them again", async () => {
      const page = await open();
      assert.deepEqual(await names(), ["Welcome"]);
      await writeAnother("Shopping\nbread");
      await saves("<p>Shopping</p><p>bread</p>");
      assert.deepEqual(await names(), ["Shopping", "Welcome"]);
      await notes.reload();
      await page.until(() => document.querySelector("#note")?.textContent === "Shoppingbread");
      await page.click("#list li:last-child button");
      await page.until(() => document.querySelector("#note h2")?.textContent === "Welcome");
      assert.equal(await notes.attribute("#list li:last-child button", "aria-current"), "true");
    });

    it("keeps what was written just before the page is left", async () => {
      const page = await open();
      await writeAnother("Shopping");
      await saves("<p>Shopping</p>");
      await page.type(" today");
      await notes.reload();
      await page.until(() => document.querySelector("#note")?.textContent === "Shopping today");
    });

    it("formats by its toolbar, which shows the state", async () => {
      const page = await open();
      await writeAnother("Shopping");
      await page.click(command("formatBlock"));
      assert.equal(await notes.attribute(command("formatBlock"), "aria-pressed"), "true");
      await page.press("End");
      await page.press("Enter");
      await page.click(command("bold"));
      assert.equal(await notes.attribute(command("bold"), "aria-pressed"), "true");
      await page.type("bread");
      await saves("<h2>Shopping</h2><p><b>bread</b></p>");
      await page.click(command("insertUnorderedList"));
      await saves("<h2>Shopping</h2><ul><li><b>bread</b></li></ul>");
      await page.click(command("undo"));
      await saves("<h2>Shopping</h2><p><b>bread</b></p>");
      await page.press("Control+Y");
      await saves("<h2>Shopping</h2><ul><li><b>bread</b></li></ul>");
    });

    it("takes the steps of a note alone back", async () => {
      const page = await open();
      await writeAnother("One");
      await saves("<p>One</p>");
      await writeAnother("Two");
      await page.press("Control+Z", 3);
      await saves("<p><br></p>");
      assert.equal(await page.evaluate((at) => document.querySelector(at).disabled, command("undo")), true);
      assert.deepEqual(await names(), ["Empty note", "One", "Welcome"]);
    });

    it("finds notes by their words", async () => {
      const page = await open();
      await writeAnother("Shopping\nbread and milk");
      await saves("<p>Shopping</p><p>bread and milk</p>");
      await writeAnother("Walk");
      await saves("<p>Walk</p>");
      await page.click("#search");
      await page.type("MILK bread");
      assert.deepEqual(await names(), ["Shopping"]);
      await page.press("Tab", 2);
      await page.press("Enter");
      await page.until(() => document.querySelector("#note").textContent.startsWith("Shopping"));
      await page.click("#search");
      await page.press("Control+A");
      await page.type("tea");
      assert.deepEqual(await names(), []);
      assert.equal(await page.evaluate(() => document.querySelector("#none").hidden), false);
    });
  });
}
