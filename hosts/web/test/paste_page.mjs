/** A region in a page of a browser, into which things are pasted by the keyboard, for the tests. */
import assert from "node:assert/strict";
import { RegionPage } from "./region_page.mjs";

/** Finds the marks of a caret and of a selection, takes them out, and opens a region with that selected. */
function openAt(where, choices) {
  const holder = document.createElement("div");
  holder.innerHTML = where;
  const ends = [];
  const walker = document.createTreeWalker(holder, NodeFilter.SHOW_TEXT);
  const pathOf = (node) =>
    node === holder
      ? []
      : [...pathOf(node.parentNode), [...node.parentNode.childNodes].indexOf(node)];
  const nodes = Array.from({ length: 99 }, () => walker.nextNode()).filter(Boolean);
  for (const text of /** @type {Text[]} */ (nodes)) {
    for (let at = text.data.search(/[|[\]]/); at >= 0; at = text.data.search(/[|[\]]/)) {
      text.deleteData(at, 1);
      const isEmpty = text.data === "";
      const path = pathOf(text);
      ends.push(isEmpty ? [path.slice(0, -1), path.at(-1)] : [path, at]);
      if (isEmpty) {
        text.remove();
      }
    }
  }
  window.start(holder.innerHTML, choices);
  const { region } = window;
  const [anchor, focus = anchor] = ends.map(([path, offset]) => ({
    label: region.editor.labelAt([0, ...path]),
    offset,
  }));
  region.select(anchor, focus);
  region.focus();
}

/** A page with a region. Images in it are of nowhere. */
export class PastePage extends RegionPage {
  takeComplaints() {
    return super.takeComplaints().filter((said) => !said.startsWith("Failed to load resource"));
  }

  /** The page and the engine agree, once what was done is shown. */
  async agrees() {
    await this.page.until(() => window.region.status !== "busy");
    const { difference, html } = await this.page.evaluate(async () => {
      await new Promise((resolve) => requestAnimationFrame(() => requestAnimationFrame(resolve)));
      document.dispatchEvent(new Event("selectionchange"));
      return { difference: window.region.check(), html: window.region.html() };
    });
    assert.equal(difference, null);
    assert.deepEqual(this.takeComplaints(), []);
    return html;
  }

  /** Opens a region where `|` is the caret, or `[` and `]` are the ends of the selection. */
  async openAt(where, choices = {}) {
    await this.page.evaluate(openAt, where, choices);
    await this.agrees();
  }

  /** Puts something on the clipboard as a program does, and goes back into the region. */
  async clip(html, text = "") {
    await this.page.evaluate(
      (given, plain) => {
        const field = document.querySelector("#field");
        field.value = "x";
        field.focus();
        field.select();
        const write = (event) => {
          event.clipboardData.setData("text/html", given);
          event.clipboardData.setData("text/plain", plain);
          event.preventDefault();
          window.isCopied = true;
        };
        document.addEventListener("copy", write, { once: true });
      },
      html,
      text,
    );
    await this.page.press("Control+c");
    await this.page.until(() => window.isCopied);
    await this.page.evaluate(() => {
      window.isCopied = false;
      window.region.focus();
    });
  }

  /** Pastes HTML by the keyboard, and gives what the region has then. */
  async paste(html, { text = "", keys = "Control+v" } = {}) {
    await this.clip(html, text);
    await this.page.press(keys);
    return this.agrees();
  }

  /** Takes one step back, to what was before, and one forth again. */
  async isOneStep(before, after) {
    assert.equal(await this.steps(), 1);
    await this.press("Control+z");
    await this.shows(before);
    await this.press("Control+y");
    await this.shows(after);
  }
}
