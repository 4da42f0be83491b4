/** What the composer writes: its buttons, menus, panels and shortcuts, by mouse and keyboard. */
import assert from "node:assert/strict";
import { describe } from "node:test";
import { it } from "./browsers.mjs";
import { ComposerPage, SIGNATURE, TRIED, button } from "./composer_page.mjs";

/** The toggles of the text, with the shortcut of each and the element that it makes. */
const TOGGLES = [
  ["Bold", "Control+B", "b"],
  ["Italic", "Control+I", "i"],
  ["Underline", "Control+U", "u"],
  ["Strikethrough", "Control+Shift+X", "s"],
  ["Subscript", "Control+,", "sub"],
  ["Superscript", "Control+.", "sup"],
];

/** The alignments but the usual one, with the value of each. */
const ALIGNMENTS = [
  ["Align centre", "center"],
  ["Align right", "right"],
  ["Justify", "justify"],
];

for (const { Browser, name: browserName, skip } of TRIED) {
  describe(`the composer in ${browserName}`, { skip }, () => {
    const composer = new ComposerPage(Browser);

    it("formats what is selected by its buttons, which show the state", async () => {
      const page = await composer.compose("Call Ann");
      await page.press("Control+Shift+ArrowLeft");
      for (const [name, , element] of TOGGLES) {
        assert.equal(await composer.pressed(name), "false", name);
        await page.click(button(name));
        assert.equal(await composer.pressed(name), "true", name);
        await composer.writes(`<p>Call <${element}>Ann</${element}></p>`);
        await page.click(button(name));
        assert.equal(await composer.pressed(name), "false", name);
        await composer.writes("<p>Call Ann</p>");
      }
    });

    it("formats what is selected by shortcuts", async () => {
      const page = await composer.compose("Call Ann");
      await page.press("Control+Shift+ArrowLeft");
      for (const [name, keys, element] of TOGGLES) {
        await page.press(keys);
        assert.equal(await composer.pressed(name), "true", name);
        await composer.writes(`<p>Call <${element}>Ann</${element}></p>`);
        await page.press(keys);
        assert.equal(await composer.pressed(name), "false", name);
      }
    });

    it("shows where a part of the selection only is formatted", async () => {
      const page = await composer.compose("Call Ann");
      await page.press("Control+Shift+ArrowLeft");
      await page.click(button("Bold"));
      await page.press("Control+A");
      assert.equal(await composer.pressed("Bold"), "mixed");
    });

    it("chooses a style and a size from menus", async () => {
      const page = await composer.compose("Plan");
      await page.click("#block-button");
      assert.equal(await composer.attribute("#block-button", "aria-expanded"), "true");
      await page.click('#block-menu [data-value="h2"]');
      await composer.writes("<h2>Plan</h2>");
      assert.equal(await composer.text("#block-button .chosen"), "Heading 2");
      assert.equal(await composer.focused(), "Message");
      await page.press("Control+Alt+0");
      await composer.writes("<p>Plan</p>");
      await page.press("Control+A");
      await page.press("Alt+F10");
      await page.press("ArrowRight", 3);
      await page.press("Enter");
      assert.equal(await composer.text("#size-menu :focus"), "Normal");
      await page.press("ArrowDown", 2);
      await page.press("Enter");
      await composer.writes('<p><font size="5">Plan</font></p>');
      assert.equal(await composer.text("#size-button .chosen"), "Larger");
      assert.equal(await composer.focused(), "Font size");
    });

    it("colours the text and its background, and takes it back", async () => {
      const page = await composer.compose("Plan");
      await page.press("Control+Shift+ArrowLeft");
      await page.click("#colour-button");
      await page.click('#colour-menu [aria-label="Red"]');
      await composer.writes('<p><font color="#d33d3d">Plan</font></p>');
      assert.equal(await composer.attribute('#colour-menu [aria-label="Red"]', "aria-checked"), "true");
      await page.click("#colour-button");
      await page.press("Home");
      await page.press("Enter");
      await composer.writes("<p>Plan</p>");
      await page.click("#highlight-button");
      await page.click('#highlight-menu [aria-label="Yellow"]');
      await composer.writes('<p><span style="background-color: #fff1a1;">Plan</span></p>');
      await page.click("#highlight-button");
      await page.click('#highlight-menu [aria-label="None"]');
      await composer.writes("<p>Plan</p>");
    });

    it("makes lists, and takes their items in and out", async () => {
      const page = await composer.compose();
      await page.click(button("Bulleted list"));
      assert.equal(await composer.pressed("Bulleted list"), "true");
      await page.type("Ann\nBob");
      await composer.writes("<ul><li>Ann</li><li>Bob</li></ul>");
      await page.click(button("Indent more"));
      await composer.writes("<ul><li>Ann</li><ul><li>Bob</li></ul></ul>");
      await page.press("Control+[");
      await composer.writes("<ul><li>Ann</li><li>Bob</li></ul>");
      await page.press("Control+Shift+7");
      assert.equal(await composer.pressed("Numbered list"), "true");
      assert.equal(await composer.pressed("Bulleted list"), "false");
      await page.press("Control+Shift+7");
      assert.equal(await composer.pressed("Numbered list"), "false");
    });

    it("quotes, and aligns", async () => {
      const page = await composer.compose("Plan");
      await page.click(button("Quote"));
      await composer.writes("<blockquote><p>Plan</p></blockquote>");
      assert.equal(await composer.pressed("Quote"), "true");
      await page.press("Control+Shift+9");
      await composer.writes("<p>Plan</p>");
      assert.equal(await composer.pressed("Quote"), "false");
      assert.equal(await composer.pressed("Align left"), "true");
      for (const [name, value] of ALIGNMENTS) {
        await page.click(button(name));
        await composer.writes(`<div style="text-align: ${value};"><p>Plan</p></div>`);
        assert.equal(await composer.pressed(name), "true", name);
        assert.equal(await composer.pressed("Align left"), "false", name);
      }
      await page.press("Control+Shift+L");
      assert.equal(await composer.pressed("Align left"), "true");
    });

    it("makes a link of what is selected, changes it, and takes it away", async () => {
      const page = await composer.compose("Call Ann");
      assert.equal(await composer.disabled("Remove link"), "true");
      await page.press("Control+Shift+ArrowLeft");
      await page.press("Control+K");
      assert.equal(await composer.focused(), "link-address");
      await page.type("example.org\n");
      await composer.writes('<p>Call <a href="https://example.org">Ann</a></p>');
      assert.equal(await composer.focused(), "Message");
      assert.equal(await composer.pressed("Link"), "true");
      await page.press("ArrowRight");
      await page.press("ArrowLeft");
      await page.click(button("Link"));
      await page.type("ann@example.org\n");
      await composer.writes('<p>Call <a href="mailto:ann@example.org">Ann</a></p>');
      await page.press("ArrowRight");
      await page.press("ArrowLeft");
      await page.click(button("Remove link"));
      await composer.writes("<p>Call Ann</p>");
      assert.equal(await composer.pressed("Link"), "false");
    });

    it("inserts a link, an image and a rule at the caret", async () => {
      const page = await composer.compose("See ");
      await page.press("Control+K");
      assert.equal(await composer.focused(), "link-text");
      await page.type("the plan");
      await page.press("Tab");
      await page.type("https://example.org/plan\n");
      await composer.writes('<p>See <a href="https://example.org/plan">the plan</a></p>');
      await page.press("Control+Z");
      await composer.writes("<p>See&nbsp;</p>");
      await page.press("Control+Y");
      await page.press("End");
      await page.press("Enter");
      await page.click(button("Image"));
      await page.type("data:image/gif;base64,R0lGODlhAQABAAAAACw=\n");
      await page.press("Enter");
      await page.click(button("Horizontal rule"));
      await composer.writes(
        '<p>See <a href="https://example.org/plan">the plan</a></p>' +
          '<p><img src="data:image/gif;base64,R0lGODlhAQABAAAAACw="></p><hr><p><br></p>',
      );
    });

    it("clears the formatting", async () => {
      const page = await composer.compose("Plan");
      await page.press("Control+A");
      await page.press("Control+B");
      await page.press("Control+I");
      await composer.writes("<p><i><b>Plan</b></i></p>");
      await page.click(button("Clear formatting"));
      await composer.writes("<p>Plan</p>");
    });

    it("pastes formats, links and lists, as one step", async () => {
      const page = await composer.compose("See ");
      await page.allowClipboard();
      await page.evaluate(async () => {
        const html = '<p>the <a href="https://example.org/">plan</a></p><ul><li><b>one</b></li></ul><script>x()</script>';
        const texts = { "text/html": html, "text/plain": "the plan" };
        const blobs = Object.entries(texts).map(([type, text]) => [type, new Blob([text], { type })]);
        await navigator.clipboard.write([new ClipboardItem(Object.fromEntries(blobs))]);
      });
      await page.press("Control+V");
      await composer.writes(
        '<p>See the <a href="https://example.org/">plan</a></p><ul><li><b>one</b></li></ul>',
      );
      await page.press("Control+Z");
      await composer.writes("<p>See&nbsp;</p>");
      await page.press("Control+Y");
      await page.press("Control+Z");
      await page.press("Control+Shift+V");
      await page.until(() => document.querySelector("#message > p").textContent === "See the plan");
    });

    it("takes steps back and forth", async () => {
      const page = await composer.compose();
      assert.equal(await composer.disabled("Undo"), "true");
      await page.type("Plan");
      await page.press("Control+A");
      await page.click(button("Bold"));
      await composer.writes("<p><b>Plan</b></p>");
      assert.equal(await composer.disabled("Redo"), "true");
      await page.click(button("Undo"));
      await composer.writes("<p>Plan</p>");
      await page.press("Control+Z");
      await composer.writes("<p><br></p>");
      assert.equal(await composer.disabled("Undo"), "true");
      await page.press("Control+Y");
      await page.click(button("Redo"));
      await composer.writes("<p><b>Plan</b></p>");
      assert.equal(await composer.disabled("Redo"), "true");
    });

    it("keeps the signature as it is", async () => {
      const rest = () => page.evaluate(() => new Promise((resolve) => setTimeout(resolve, 400)));
      const page = await composer.compose("Call Ann");
      await page.clickAt(await page.middle(".signature b"), 2);
      await page.type("x");
      for (const keys of ["Backspace", "Delete", "Control+B", "Control+Shift+7", "Enter"]) {
        await page.press(keys);
      }
      assert.equal(await composer.disabled("Bold"), "true");
      await rest();
      await composer.writes("<p>Call Ann</p>");
      await page.click("#message > p");
      const upToIt = ["End", "Delete", "Control+End", "Backspace"];
      for (const keys of [...upToIt, "Control+Home", "Control+Shift+End", "Control+I"]) {
        await page.press(keys);
        await rest();
        const html = await composer.text("#source-code");
        assert.ok(html.endsWith(SIGNATURE), `${keys}: ${html}`);
      }
      await page.press("Control+A");
      await page.press("Delete");
      await page.type("Bob");
      await rest();
      assert.match(await composer.text("#source-code"), /^<p>.*Bob.*<\/p><div class="signature"/);
      assert.ok((await composer.text("#source-code")).endsWith(SIGNATURE));
    });
  });
}
