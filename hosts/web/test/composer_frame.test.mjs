/** What is around the composer's message: fields, keyboard, screen readers, themes, screens. */
import assert from "node:assert/strict";
import { describe } from "node:test";
import { it } from "./browsers.mjs";
import { ComposerPage, TRIED, button } from "./composer_page.mjs";

for (const { Browser, name: browserName, skip } of TRIED) {
  describe(`the composer's frame in ${browserName}`, { skip }, () => {
    const composer = new ComposerPage(Browser);

    it("is operated by the keyboard alone", async () => {
      const page = await composer.compose("Call ");
      await page.press("Alt+F10");
      assert.equal(await composer.focused(), "Undo");
      await page.press("ArrowRight", 4);
      assert.equal(await composer.focused(), "Bold");
      await page.press(" ");
      assert.equal(await composer.focused(), "Bold");
      assert.equal(await composer.pressed("Bold"), "true");
      await page.press("Escape");
      assert.equal(await composer.focused(), "Message");
      await page.type("Ann");
      await composer.writes("<p>Call <b>Ann</b></p>");
      await page.press("Shift+Tab");
      assert.equal(await composer.focused(), "Bold", "the toolbar is one stop, where it was left");
      await page.press("Tab");
      await page.type("!");
      await composer.writes("<p>Call <b>Ann!</b></p>");
      await page.press("Shift+Tab");
      await page.press("Home");
      assert.equal(await composer.focused(), "Undo");
      await page.press("ArrowLeft");
      assert.equal(await composer.focused(), "Find and replace");
      await page.press("Shift+Tab");
      assert.equal(await composer.focused(), "subject");
    });

    it("counts the words that are written, and says so", async () => {
      const page = await composer.compose("Call Ann, and Bob’s 2 friends: o’clock 😀.\nZoë");
      await page.press("Control+Shift+ArrowLeft");
      await page.press("Control+B");
      const isCounted = (id) => document.getElementById(id).textContent === "8 words, 44 characters";
      await page.until(isCounted, "count");
      await page.until(isCounted, "spoken");
      assert.equal(await composer.attribute("#spoken", "aria-live"), "polite");
    });

    it("turns to the dark theme and back", async () => {
      const canvas = () =>
        composer.page.evaluate(() => getComputedStyle(document.body).backgroundColor);
      const page = await composer.compose();
      const light = await canvas();
      await page.click("#theme");
      const dark = await canvas();
      assert.notEqual(light, dark);
      assert.equal(await composer.attribute("#theme", "aria-pressed"), "true");
      await page.click("#theme");
      assert.equal(await canvas(), light);
      await page.close();
      await composer.compose("", { scheme: "dark" });
      assert.equal(await canvas(), dark);
    });

    it("saves the mail for a mail program", async () => {
      const page = await composer.compose("Call Ann");
      await page.click(button("Align centre"));
      await page.click("#to");
      await page.type("Zoë <zoe@example.org>\nGrüße\n");
      const saved = await composer.saved("Grüße.eml", () => page.press("Control+S"));
      await composer.says("Saved as Grüße.eml");
      const [headers, letters] = saved.split("\r\n\r\n");
      assert.match(headers, /^To: =\?UTF-8\?B\?Wm\/Dqw==\?= <zoe@example\.org>\r$/m);
      assert.match(headers, /^Subject: =\?UTF-8\?B\?R3LDvMOfZQ==\?=\r$/m);
      const body = Buffer.from(letters, "base64").toString();
      assert.match(body, /<div style="text-align: center;"><p>Call Ann<\/p><\/div>/);
      assert.match(body, /<div class="signature"><p><b>Ada/);
    });

    it("checks the addresses of its recipients", async () => {
      const page = await composer.compose("Call Ann");
      const fault = (field) => composer.text(`#${field}-fault`);
      await page.click("#to");
      await page.type('"Byron, Ada" <ada@example.org>; bob@, joe');
      assert.equal(await fault("to"), "", "what is being written isn't wrong yet");
      await page.click("#copies");
      assert.equal(await composer.focused(), "cc");
      assert.equal(await fault("to"), "“bob@”, “joe” aren’t mail addresses");
      assert.equal(await composer.attribute("#to", "aria-invalid"), "true");
      assert.equal(await composer.attribute("#to", "aria-describedby"), "to-fault");
      await page.type("Zoë <zoë@exämple.org>\n");
      assert.equal(await composer.focused(), "bcc");
      await page.type("jim@example.org\nPlan\n");
      assert.equal(await fault("cc") + (await fault("bcc")), "");
      assert.equal(await composer.focused(), "Message");
      await page.click("#to");
      await page.press("End");
      await page.press("Backspace", "bob@, joe".length);
      await page.type("bob@example.org");
      assert.equal(await fault("to"), "");
      assert.equal(await composer.attribute("#to", "aria-invalid"), "false");
    });

    it("saves copies too, and says where an address is to be corrected", async () => {
      const page = await composer.compose();
      await page.click("#copies");
      await page.type("ann@example.org\nbob\nPlan\n");
      const saved = await composer.saved("Plan.eml", () => page.press("Control+S"));
      assert.match(saved, /^Cc: ann@example\.org\r\nBcc: bob\r$/m);
      await composer.says("Saved as Plan.eml, with an address to be corrected");
      assert.equal(await composer.focused(), "bcc");
    });

    it("shows the message as it is read, and lets nothing be written there", async () => {
      const page = await composer.compose("See ");
      await page.press("Control+K");
      await page.type("the plan");
      await page.press("Tab");
      await page.type("https://example.org/plan\n");
      await page.press("Control+Shift+P");
      const shown = () => page.evaluate(() => document.querySelector("#preview-message").innerHTML);
      await page.until(() => document.querySelector("#preview").open);
      const html = await shown();
      assert.match(html, /^<p>See <a href="https:\/\/example.org\/plan" rel="noopener noreferrer">the plan/);
      assert.match(html, /<div class="signature"><p><b>Ada/, "no part of it is locked by itself");
      assert.equal(await composer.attribute("#preview-message", "aria-readonly"), "true");
      await page.click("#preview-message > p");
      await page.type("x");
      await page.press("Backspace");
      assert.equal(await shown(), html);
      const width = () => page.evaluate(() => document.querySelector("#preview-message").clientWidth);
      const wide = await width();
      await page.click('#preview [value="phone"]');
      assert.ok((await width()) <= 390 && wide > 600);
      await page.press("Escape");
      await page.until(() => !document.querySelector("#preview").open);
      assert.equal(await composer.focused(), "Message");
      assert.equal(await shown(), "");
      await page.type("!");
      await page.until(() => document.querySelector("#message > p").textContent === "See the plan!");
    });

    it("takes nothing from elsewhere", async () => {
      const page = await composer.compose("Call Ann");
      const origins = await page.evaluate(() =>
        performance.getEntriesByType("resource").map(({ name }) => new URL(name).origin),
      );
      assert.deepEqual([...new Set(origins)], [new URL(composer.address).origin]);
      const violated = await page.evaluate(async () => {
        const told = new Promise((resolve) => {
          document.addEventListener("securitypolicyviolation", resolve, { once: true });
        });
        await fetch("https://example.org/").catch(() => {});
        return (await told).violatedDirective;
      });
      assert.equal(violated, "connect-src");
      await page.settle();
      composer.takeComplaints();
    });

    it("names each control", { skip: browserName !== "Chromium" }, async () => {
      const page = await composer.compose();
      const nodes = await page.accessible();
      const controls = nodes.filter(({ role }) => /^(button|textbox|toolbar)$/.test(role));
      assert.ok(controls.length > 30, String(controls.length));
      assert.deepEqual(controls.filter((control) => !control.name), []);
    });

    it("fits a narrow screen", async () => {
      const page = await composer.compose("Call Ann", { width: 390, height: 844, mobile: true });
      const [width, scrolled] = await page.evaluate(() => [
        document.documentElement.scrollWidth,
        document.querySelector("#toolbar").scrollWidth,
      ]);
      assert.equal(width, 390);
      assert.ok(scrolled > 390);
      await page.click(button("Horizontal rule"));
      await page.until(() => document.querySelector("#message hr"));
    });
  });
}
