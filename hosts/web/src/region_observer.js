/**
 * What a page changes in a region by itself, for region.js: it is read back where that is what the
 * user meant, as by an input method, and the engine's nodes are shown again.
 */
import { Budget } from "./region_budget.js";
import { isCaret, windowOf } from "./region_nodes.js";

/** @typedef {import("./region_session.js").Session} Session */
/** @typedef {import("./region_user.js").Acts} Acts */

/**
 * What of a region its observer needs, beside what its user's acts do.
 * @typedef {Acts & {
 *   isBusy: () => boolean,
 *   handle: (call: () => void) => void,
 *   finish: (call: () => boolean) => boolean,
 *   dispatch: (kind: "input" | "statechange") => void,
 * }} ObserverActs
 */

/** The most changes of the page that wait to be looked at one by one. */
const MOST_WAITING = 1000;

/** Observes what the page changes in a region, and mends it. */
export class DOMObserver {
  #element;

  #region;

  #observer;

  #budget;

  /**
   * What the page changed and wasn't looked at yet.
   * @type {MutationRecord[]}
   */
  #records = [];

  /** Whether it changed more than what waits. */
  #hasLostRecords = false;

  /**
   * What the browser changed while an input method composes, and what ends its step of undo.
   * @type {{ records: MutationRecord[], endStep: () => void } | null}
   */
  #composing = null;

  /**
   * @param {HTMLElement} element
   * @param {ObserverActs} region
   */
  constructor(element, region) {
    const page = /** @type {Window & typeof globalThis} */ (windowOf(element));
    this.#element = element;
    this.#region = region;
    const mend = () => region.handle(() => this.readDOMChange());
    this.#budget = new Budget(page, mend, () => this.#contest());
    this.#observer = new page.MutationObserver((records) => {
      region.handle(() => this.#observe(records));
    });
  }

  get #session() {
    return this.#region.session();
  }

  /** Whether an input method composes. */
  get isComposing() {
    return this.#composing !== null;
  }

  /** Whether a script of the page undoes what is shown, so that mending rests until the user acts. */
  get isContested() {
    return this.#budget.isSpent;
  }

  /** Whether something waits to be mended. */
  get isPending() {
    return this.#records.length > 0 || this.#hasLostRecords;
  }

  /** Listens to the page. */
  watch() {
    this.#observer.observe(this.#element, {
      attributes: true,
      characterData: true,
      childList: true,
      subtree: true,
    });
  }

  /** Listens no more. What is composed stays as the page shows it. */
  end() {
    this.#observer.disconnect();
    this.#composing = null;
  }

  /** Forgets what the page tells of, as it is what the region itself just did. */
  discardRecords() {
    this.#observer.takeRecords();
  }

  /**
   * Changes the page otherwise than to show what the engine did.
   * @param {() => void} call
   */
  unobserved(call) {
    const records = this.#observer.takeRecords();
    call();
    this.discardRecords();
    if (records.length > 0) {
      this.#region.handle(() => this.#observe(records));
    }
  }

  /** Mends what waits, if it may: the markup is asked for. */
  flushWithinBudget() {
    this.#note(this.#observer.takeRecords());
    if (this.isPending && this.#budget.take()) {
      this.readDOMChange();
    }
  }

  /** Reads what the browser did that wasn't told yet, as the user acts now. */
  flush() {
    this.endComposition();
    this.#hasLostRecords ||= this.isContested;
    this.#budget.reset();
    this.readDOMChange();
  }

  /**
   * Begins to compose. So that it all happens in one text, what is selected goes before, unless it is
   * a part of one: then the engine puts what is composed in its place at once.
   */
  startComposition() {
    if (!this.#region.isEditable()) {
      return;
    }
    this.flush();
    this.#region.read();
    const { editor, selections, commands } = this.#session;
    const endStep = this.#session.beginStep();
    const isWhole = !isCaret(editor.selection()) && !selections.isPartOfText();
    if (isWhole && !this.#region.isDenied("insertText")) {
      this.#region.act(() => commands.run("delete"));
    }
    this.#composing = { records: [], endStep };
  }

  /**
   * Reads back what was composed, as one step of undo.
   * @param {string} text what the input method gave, where it has ended
   */
  endComposition(text = "") {
    if (!this.#composing) {
      return;
    }
    const { records, endStep } = this.#composing;
    this.#composing = null;
    this.#note(records);
    this.readDOMChange(text);
    endStep();
  }

  /**
   * Hears that an input method ended. WebKit tells so of a character that a key gives, too, without
   * that one had begun.
   * @param {string} text what it gave
   */
  compositionEnded(text) {
    if (this.#composing) {
      this.endComposition(text);
    } else {
      this.readDOMChange();
    }
  }

  /**
   * Hears what the page changed. While an input method composes, that is the browser's.
   * @param {readonly MutationRecord[]} records
   */
  #observe(records) {
    this.#note(records);
    if (this.#composing) {
      this.#composing.records.push(...this.#records.splice(0));
      this.#region.dispatch("input");
    } else if (this.isPending && !this.#region.isBusy() && this.#budget.take()) {
      this.readDOMChange();
    }
  }

  /**
   * Keeps what the page changed, but for the element's own attributes: these are the page's.
   * @param {readonly MutationRecord[]} records
   */
  #note(records) {
    const isPages = (/** @type {MutationRecord} */ { type, target }) =>
      type === "attributes" && target === this.#element;
    this.#records.push(...records.filter((record) => !isPages(record)));
    if (this.#records.length > MOST_WAITING && !this.#composing) {
      this.#records = [];
      this.#hasLostRecords = true;
    }
  }

  /**
   * Reads back what the page changed, where it is in one text, and shows the engine's nodes again in
   * all that it changed.
   * @param {string | null} composed what an input method gave, where one did it
   */
  readDOMChange(composed = null) {
    this.#note(this.#observer.takeRecords());
    const [records, hasLostRecords] = [this.#records.splice(0), this.#hasLostRecords];
    this.#hasLostRecords = false;
    if (records.length === 0 && !hasLostRecords) {
      return;
    }
    const { view, readback } = this.#session;
    const isRead = !hasLostRecords && this.#region.isEditable();
    const write = isRead ? readback.writeOf(records, composed) : null;
    const labels = records.flatMap(({ target }) => view.nearest(target) ?? []);
    for (const label of new Set(hasLostRecords ? [view.root] : labels)) {
      view.mend(label);
    }
    this.discardRecords();
    const isDenied = write !== null && this.#region.isDenied(write.command);
    this.#region.finish(write && !isDenied ? write.call : () => false);
    if (isDenied) {
      this.#region.refuse(write.command, "denied", composed ?? "");
    }
  }

  /** Begins to rest, as a script of the page undoes each mend. */
  #contest() {
    console.warn("hedit: a script of the page undoes what the region shows");
    this.#region.dispatch("statechange");
  }
}
