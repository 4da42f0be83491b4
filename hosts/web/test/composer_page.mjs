/**
 * The composer in a page of a browser, for the tests: as hosts/web/serve serves it, or the script that
 * HEDIT_SERVE names.
 */
import assert from "node:assert/strict";
import { spawn } from "node:child_process";
import { once } from "node:events";
import { mkdtemp, readFile, rm } from "node:fs/promises";
import { tmpdir } from "node:os";
import { join } from "node:path";
import { after, afterEach, before } from "node:test";
import { fileURLToPath } from "node:url";
import { BROWSERS, IS_WHOLE } from "./browsers.mjs";

const SERVE = process.env.HEDIT_SERVE ?? fileURLToPath(new URL("../serve", import.meta.url));

/** In other browsers than Chromium each page takes seconds to come. */
export const TRIED = BROWSERS.filter(({ name }) => IS_WHOLE || name === "Chromium");

export const SIGNATURE =
  '<div class="signature" contenteditable="false"><p><b>Ada Lovelace</b><br>' +
  "Analytical Engines, 12 St James’s Square, London</p></div>";

/** The selector of a control of the toolbar. */
export const button = (name) => `#toolbar [aria-label="${name}"]`;

/** Demos in a browser that runs for as long as the tests around. Each test has a page of its own. */
export class DemoPage {
  #server;

  #address = "";

  #browser;

  #page;

  constructor(Browser) {
    before(async () => {
      this.#server = spawn("python3", [SERVE, "0"], { stdio: ["ignore", "pipe", "inherit"] });
      const [said] = await once(this.#server.stdout, "data");
      [this.#address] = /http:\S+/.exec(String(said));
      this.#browser = await Browser.launch();
    });
    after(async () => {
      await this.#browser?.close();
      this.#server?.kill();
    });
    afterEach(async () => {
      await this.#page?.close();
      assert.deepEqual(this.takeComplaints(), []);
    });
  }

  get address() {
    return this.#address;
  }

  get page() {
    return this.#page;
  }

  /** Opens a page of the demos. */
  async open(name = "", screen = {}) {
    this.#page = await this.#browser.open(this.#address + name, screen);
    return this.#page;
  }

  /** Another window, with the storage of the page. */
  openBeside() {
    return this.#browser.open(this.#address, { beside: this.#page });
  }

  /** Loads the page again, and waits until it is another one. */
  async reload() {
    await this.#page.evaluate(() => {
      window.isLeft = true;
    });
    await this.#page.reload();
    await this.#page.until(() => !window.isLeft && document.readyState === "complete");
  }

  takeComplaints() {
    return this.#browser.complaints.splice(0);
  }

  attribute(selector, name) {
    const read = (wanted, of) => document.querySelector(wanted).getAttribute(of);
    return this.#page.evaluate(read, selector, name);
  }

  text(selector) {
    return this.#page.evaluate((wanted) => document.querySelector(wanted).textContent, selector);
  }

  /** The label of what has the focus, or its id. */
  focused() {
    return this.#page.evaluate(() => {
      const { id, ariaLabel } = document.activeElement;
      return ariaLabel ?? id;
    });
  }
}

/** The composer. */
export class ComposerPage extends DemoPage {
  /** Opens the composer with its source beside, and puts the caret into the message. */
  async compose(text = "", screen = {}) {
    const page = await this.open("", screen);
    await page.until(() => document.querySelector("#message > p"));
    await page.click("#source-toggle");
    await page.click("#message > p");
    await page.type(text);
    return page;
  }

  /** Waits until the source is some HTML before the signature. */
  async writes(html, signature = SIGNATURE) {
    const isShown = (wanted) => document.querySelector("#source-code").textContent === wanted;
    await this.page.until(isShown, html + signature).catch(async () => {
      assert.equal(await this.text("#source-code"), html + signature);
    });
  }

  pressed(name) {
    return this.attribute(button(name), "aria-pressed");
  }

  disabled(name) {
    return this.attribute(button(name), "aria-disabled");
  }

  /** Waits until some text is said below the message. */
  async says(text) {
    const isSaid = (wanted) => document.querySelector("#said").textContent === wanted;
    await this.page.until(isSaid, text).catch(async () => {
      assert.equal(await this.text("#said"), text);
    });
  }

  /** Waits until some draft of the browser contains a text. */
  async keeps(text) {
    const isKept = (wanted) =>
      Object.entries(localStorage).some(
        ([key, value]) => key.startsWith("hedit-draft:") && value.includes(wanted),
      );
    await this.page.until(isKept, text);
  }

  /** Waits until the first paragraph of a page's message is a text. */
  async begins(text, page = this.page) {
    const isThere = (wanted) => document.querySelector("#message > p")?.textContent === wanted;
    await page.until(isThere, text);
  }

  /** What the page saves as a file of some name while something is done. */
  async saved(name, act) {
    const folder = await mkdtemp(join(tmpdir(), "hedit-"));
    try {
      await this.page.saveTo(folder);
      await act();
      for (;;) {
        await this.page.settle();
        const content = await readFile(join(folder, name), "utf8").catch(() => "");
        if (content) {
          return content;
        }
      }
    } finally {
      await rm(folder, { recursive: true });
    }
  }
}
