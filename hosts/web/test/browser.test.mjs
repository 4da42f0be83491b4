/** The engine in a page of each browser. */
import assert from "node:assert/strict";
import { BROWSERS, it } from "./browsers.mjs";
import { serve } from "./server.mjs";

for (const { Browser, name, skip } of BROWSERS) {
  it(`a page in ${name} makes a word bold`, { skip, timeout: 60_000 }, async (t) => {
    const { close, answer, address } = await serve("page.html");
    const browser = await Browser.launch();
    t.after(async () => {
      await browser.close();
      close();
    });
    await browser.open(address);
    assert.equal(await answer, '<p contenteditable="true">Call <b>Ann</b> &amp; 😀.</p>\n');
  });
}
