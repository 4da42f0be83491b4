/** The composer's bar to find and replace. */
import assert from "node:assert/strict";
import { describe } from "node:test";
import { it } from "./browsers.mjs";
import { ComposerPage, TRIED, button } from "./composer_page.mjs";

for (const { Browser, name: browserName, skip } of TRIED) {
  describe(`find and replace in ${browserName}`, { skip }, () => {
    const composer = new ComposerPage(Browser);

    /** The texts that are marked: the one that is shown, and the others. */
    const marked = () =>
      composer.page.evaluate(() =>
        ["found-now", "found"].map((name) => [...(CSS.highlights.get(name) ?? [])].map(String)),
      );

    const count = () => composer.page.evaluate(() => document.querySelector("#find-count").value);

    async function find(text) {
      await composer.page.press("Control+F");
      assert.equal(await composer.focused(), "Find");
      await composer.page.press("Control+A");
      await composer.page.type(text);
    }

    it("goes from match to match, by keys and by buttons", async () => {
      const page = await composer.compose("Call Ann\nAnn calls\nann");
      await page.press("Control+Home");
      await find("ann");
      assert.equal(await count(), "1 of 3");
      assert.deepEqual(await marked(), [["Ann"], ["Ann", "ann"]]);
      await page.press("Enter");
      assert.equal(await count(), "2 of 3");
      await page.press("Shift+Enter", 2);
      assert.equal(await count(), "3 of 3");
      assert.deepEqual(await marked(), [["ann"], ["Ann", "Ann"]]);
      await page.click("#find-next");
      await page.click("#find-previous");
      await page.click("#find-previous");
      assert.equal(await count(), "2 of 3");
      await page.click("#find-case");
      assert.equal(await count(), "1 of 1");
      assert.equal(await composer.attribute("#find-case", "aria-pressed"), "true");
    });

    it("leads back to the message, with the match selected", async () => {
      const page = await composer.compose("Call Ann\nAnn calls");
      await find("calls");
      await page.press("Escape");
      assert.equal(await composer.focused(), "Message");
      assert.deepEqual(await marked(), [[], []]);
      await page.press("Control+B");
      await composer.writes("<p>Call Ann</p><p>Ann <b>calls</b></p>");
      await page.press("Control+F");
      assert.equal(await page.evaluate(() => document.querySelector("#find-text").value), "calls");
    });

    it("finds across formats, not in the signature, and says where nothing is", async () => {
      const page = await composer.compose("Call Ann");
      await page.press("Control+Shift+ArrowLeft");
      await page.click(button("Bold"));
      await find("l an");
      assert.deepEqual(await marked(), [["l An"], []]);
      await find("Lovelace");
      assert.equal(await count(), "Not found");
      assert.equal(await composer.attribute("#replace", "aria-disabled"), "true");
      await page.press("Enter");
      assert.deepEqual(await marked(), [[], []]);
    });

    it("replaces one match after the other", async () => {
      const page = await composer.compose("Ann, Ann and Ann");
      await page.press("Control+Home");
      await find("ann");
      await page.press("Tab", 4);
      assert.equal(await composer.focused(), "Replace with");
      await page.type("Joanna\n");
      await composer.writes("<p>Joanna, Ann and Ann</p>");
      assert.equal(await composer.focused(), "Replace with");
      assert.equal(await count(), "2 of 3", "the next one is behind the one that was replaced");
      await page.click("#replace");
      await composer.writes("<p>Joanna, Joanna and Ann</p>");
      await page.press("Escape");
      await page.press("Control+Z");
      await composer.writes("<p>Joanna, Ann and Ann</p>");
    });

    it("replaces all matches in a step", async () => {
      const page = await composer.compose("Ann, Ann\nCall Ann");
      await find("Ann");
      await page.click("#replace-text");
      await page.type("Bob");
      await page.click("#replace-all");
      await composer.says("Replaced 3");
      await composer.writes("<p>Bob, Bob</p><p>Call Bob</p>");
      assert.equal(await count(), "Not found");
      await page.press("Escape");
      await page.press("Control+Z");
      await composer.writes("<p>Ann, Ann</p><p>Call Ann</p>");
    });

    it("deletes what is replaced by nothing", async () => {
      const page = await composer.compose("Call call Ann");
      await find("call ");
      await page.click("#find-case");
      await page.click("#replace-all");
      await composer.writes("<p>Call Ann</p>");
    });
  });
}
