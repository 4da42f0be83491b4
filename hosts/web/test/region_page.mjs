/** A region in a page of a browser, for the tests: what they do there, and what has to agree. */
import assert from "node:assert/strict";
import { after, afterEach, before } from "node:test";
import { serve } from "./server.mjs";

/** Numbers from 0 to 1, the same each time. */
export function* numbers(seed) {
  for (;;) {
    seed = (Math.imul(seed, 1664525) + 1013904223) >>> 0;
    yield seed / 2 ** 32;
  }
}

/** A page with a region, in a browser that runs for as long as the tests around. */
export class RegionPage {
  #server;

  #browser;

  #page;

  /** The page may be another one, as its markup, that has what region.html has. */
  constructor(Browser, markup = undefined) {
    before(async () => {
      this.#server = await serve("region.html", markup);
      this.#browser = await Browser.launch();
      this.#page = await this.#browser.open(this.#server.address);
      await this.#page.allowClipboard();
      await this.#page.until(() => window.isReady);
    });
    after(async () => {
      await this.#browser?.close();
      this.#server?.close();
    });
    afterEach(() => assert.deepEqual(this.takeComplaints(), []));
  }

  get page() {
    return this.#page;
  }

  takeComplaints() {
    return this.#browser.complaints.splice(0);
  }

  /** What the page and the engine show, once what was done is shown. */
  #look() {
    return this.#page.evaluate(async () => {
      const { region } = window;
      await new Promise((resolve) => requestAnimationFrame(() => requestAnimationFrame(resolve)));
      // What links and images get beside their own attributes.
      const added = / (?:rel|referrerpolicy)="[^"]*"/g;
      // WebKit tells nothing of a selection elsewhere that looks the same.
      document.dispatchEvent(new Event("selectionchange"));
      // A command may put a br into a rule, and the browser's markup leaves that out.
      const isPlain = !region.element.querySelector(":is(br, hr, img) *");
      return {
        difference: region.check(),
        shown: isPlain ? region.element.innerHTML.replace(added, "") : null,
        html: region.html(),
      };
    });
  }

  /** The page, the engine's HTML and the selection agree. */
  async agrees() {
    const { difference, shown, html } = await this.#look();
    assert.equal(difference, null);
    assert.equal(shown ?? html, html);
    assert.deepEqual(this.takeComplaints(), []);
    return html;
  }

  /** Where the page, the engine's HTML and the selection don't agree, or what was complained about. */
  async difference() {
    const { difference, shown, html } = await this.#look();
    const texts = (shown ?? html) === html ? null : `${shown} is shown, and not ${html}`;
    return difference ?? texts ?? this.takeComplaints()[0] ?? null;
  }

  async shows(html) {
    assert.equal(await this.agrees(), html);
  }

  /** Waits until a paste that takes long is whole. */
  async idle() {
    await this.#page.until(() => window.region.status !== "busy");
  }

  /** Opens a region, with the focus at the start. */
  async open(html, choices = {}) {
    // WebKit stays where it was scrolled to, also below the end of a shorter page.
    await this.#page.evaluate(() => window.scrollTo(0, 0));
    await this.#page.evaluate((...words) => window.start(...words), html, choices);
    await this.agrees();
  }

  /** Where a place of the region is in the window. */
  at(path, offset = 0) {
    return this.#page.evaluate(
      (steps, units) => {
        const node = steps.reduce((above, step) => above.childNodes[step], window.region.element);
        const range = new Range();
        range.setStart(node, units);
        const [rect] = range.getClientRects();
        const child = node.childNodes[units] ?? node;
        const { left, top, height } = rect ?? child.getBoundingClientRect();
        return { x: left + 1, y: top + height / 2 };
      },
      path,
      offset,
    );
  }

  async click(path, offset = 0, count = 1) {
    await this.#page.clickAt(await this.at(path, offset), count);
    await this.agrees();
  }

  /** Selects by the mouse. */
  async sweep(from, to) {
    const [start, end] = [await this.at(...from), await this.at(...to)];
    const between = { x: (start.x + end.x) / 2, y: (start.y + end.y) / 2 };
    await this.#page.drag([start, between, end]);
    await this.agrees();
  }

  async press(keys, times = 1) {
    for (let time = 0; time < times; time += 1) {
      await this.#page.press(keys);
      await this.agrees();
    }
  }

  async type(text) {
    for (const character of text) {
      await this.#page.type(character);
      await this.agrees();
    }
  }

  /** What an input method shows while it composes. */
  async compose(text, taken = undefined) {
    await this.#page.compose(text, taken);
    assert.deepEqual(this.takeComplaints(), []);
  }

  /** Ends what is composed with a text, or puts one in at once, as a picker of emoji does. */
  async commit(text) {
    await this.#page.commit(text);
    await this.agrees();
  }

  /** Corrects a word as spelling does. */
  async correct(word, text) {
    await this.#page.correct(word, text);
    await this.agrees();
  }

  /** How many steps the engine could take back. */
  steps() {
    return this.#page.evaluate(() => window.region.editor.counts().undo);
  }

  /** One undo takes all back that was done since the page was so, and one redo brings it again. */
  async isOneStep(before) {
    const after = await this.agrees();
    assert.equal(await this.steps(), 1);
    await this.press("Control+z");
    await this.shows(before);
    assert.equal(await this.steps(), 0);
    await this.press("Control+y");
    await this.shows(after);
  }

  /** What is selected, without the line feeds that WebKit has at the end. */
  selected() {
    return this.#page.evaluate(() => String(document.getSelection()).replace(/\n+$/, ""));
  }

  ask(call, ...words) {
    return this.#page.evaluate((name, rest) => window.region[name](...rest), call, words);
  }

  /** The text as it is shown, with each run of line feeds as one: WebKit has some more at the end. */
  text() {
    return this.#page.evaluate(() =>
      window.region.element.innerText.replace(/\n+/g, "\n").replace(/\n$/, ""),
    );
  }

  events() {
    return this.#page.evaluate(() => window.events.splice(0));
  }
}
