/** The composer's bar to find and replace texts of the message. */
import { gathered, highlight, part } from "./composer_page.js";
import { setEnabled, setPressed } from "./composer_toolbar.js";

/** @typedef {import("./composer.js").Composer} Composer */
/** @typedef {import("../src/hedit.js").Selection} Selection */

/**
 * A place of the message where the text is, and its range in the page.
 * @typedef {{ selection: Selection, range: Range }} Match
 */

/** How long after a change the matches are found anew, in milliseconds. */
const PAUSE = 100;

/** How far a match stays from the edges of what is shown, in pixels. */
const MARGIN = 60;

/** @param {Range} range */
function reveal(range) {
  const paper = part("paper");
  const [shown, { top, bottom }] = [paper.getBoundingClientRect(), range.getBoundingClientRect()];
  if (top < shown.top || bottom > shown.bottom) {
    paper.scrollTop += top - shown.top - MARGIN;
  }
}

/** @param {Range} range */
function isLocked({ startContainer }) {
  return startContainer.parentElement?.closest('[contenteditable="false"]') !== null;
}

/** The bar. Its matches follow what is written. */
export class FindBar {
  #composer;

  /** @type {Match[]} */
  #matches = [];

  /** Which match is the one that is shown, and replaced. */
  #at = 0;

  refreshSoon = gathered(() => this.refresh(), PAUSE);

  /** @param {Composer} composer */
  constructor(composer) {
    this.#composer = composer;
    const [bar, field] = [part("find"), part("find-text")];
    part("find-button").addEventListener("click", () => this.#open());
    part("find-close").addEventListener("click", () => this.#close());
    part("find-next").addEventListener("click", () => this.#go(1));
    part("find-previous").addEventListener("click", () => this.#go(-1));
    part("find-case").addEventListener("click", () => this.#turnCase());
    part("replace").addEventListener("click", () => this.#replace());
    part("replace-all").addEventListener("click", () => this.#replaceAll());
    field.addEventListener("input", () => this.#search());
    bar.addEventListener("keydown", (/** @type {KeyboardEvent} */ event) => this.#key(event));
  }

  /** Finds anew, as the message is another one. */
  refresh() {
    if (!part("find").hidden) {
      this.#find();
      this.#show();
    }
  }

  get #text() {
    return part("find-text").value;
  }

  get #options() {
    return { matchCase: part("find-case").getAttribute("aria-pressed") === "true" };
  }

  #open() {
    const field = part("find-text");
    const selected = this.#composer.region.editor.selectionText();
    part("find").hidden = false;
    if (selected && !selected.includes("\n")) {
      field.value = selected;
    }
    field.focus();
    field.select();
    this.#search();
  }

  /** Goes back to the message, where the match is selected that was shown. */
  #close() {
    const match = this.#matches.at(this.#at);
    const { region } = this.#composer;
    part("find").hidden = true;
    this.#matches = [];
    this.#show();
    region.focus();
    if (match) {
      region.select(match.selection.anchor, match.selection.focus);
    }
  }

  /** Finds what stands in the field: the match that is shown is the first one behind the caret. */
  #search() {
    this.#find();
    const caret = this.#caret();
    const isBehind = (/** @type {Match} */ { range }) =>
      caret === null || range.compareBoundaryPoints(Range.START_TO_START, caret) >= 0;
    this.#at = Math.max(0, this.#matches.findIndex(isBehind));
    this.#show();
  }

  #find() {
    const found = this.#composer.region.find(this.#text, this.#options);
    const matches = found.map((selection) => ({ selection, range: this.#rangeOf(selection) }));
    this.#matches = matches.filter(({ range }) => !isLocked(range));
    this.#at = Math.min(this.#at, Math.max(0, this.#matches.length - 1));
  }

  /** @param {Selection} selection */
  #rangeOf({ anchor, focus }) {
    const [from, to] = [anchor, focus].map((point) => this.#composer.region.placeOf(point));
    const range = new Range();
    range.setStart(from.node, from.offset);
    range.setEnd(to.node, to.offset);
    return range;
  }

  /** Where the region's caret is, or begins what it has selected, in the order of the page. */
  #caret() {
    const selection = this.#composer.region.selection();
    if (!selection) {
      return null;
    }
    const { anchor, focus } = selection;
    const [first, other] = [anchor, focus].map((point) => this.#rangeOf({ anchor: point, focus: point }));
    return first.compareBoundaryPoints(Range.START_TO_START, other) <= 0 ? first : other;
  }

  /** @param {number} step */
  #go(step) {
    const { length } = this.#matches;
    this.#at = length === 0 ? 0 : (this.#at + step + length) % length;
    this.#show();
  }

  #turnCase() {
    setPressed(part("find-case"), !this.#options.matchCase);
    this.#search();
  }

  #show() {
    const match = this.#matches.at(this.#at);
    const others = this.#matches.filter((each) => each !== match);
    const isAsked = this.#text !== "" && !part("find").hidden;
    const words = match ? `${this.#at + 1} of ${this.#matches.length}` : "Not found";
    highlight("found", others.map(({ range }) => range));
    highlight("found-now", match ? [match.range] : []);
    part("find-count").value = isAsked ? words : "";
    for (const id of ["find-next", "find-previous", "replace", "replace-all"]) {
      setEnabled(part(id), match !== undefined);
    }
    if (match) {
      reveal(match.range);
    }
  }

  /** Replaces the match that is shown, and goes on to the next one behind it. */
  #replace() {
    const match = this.#matches.at(this.#at);
    if (match) {
      this.#composer.try((region) => region.replace(match.selection, part("replace-text").value));
      this.#search();
    }
  }

  /** Replaces all matches, as one step of undo. */
  #replaceAll() {
    this.#composer.try((region) => {
      const count = region.replaceAll(this.#text, part("replace-text").value, this.#options);
      this.#composer.say(count === 1 ? "Replaced one" : `Replaced ${count}`);
      return count > 0;
    });
    this.refresh();
  }

  /** @param {KeyboardEvent} event */
  #key(event) {
    const { key, shiftKey, isComposing } = event;
    const isInField = event.target instanceof HTMLInputElement;
    if (key === "Escape") {
      this.#close();
    } else if (key === "Enter" && isInField && !isComposing) {
      if (event.target === part("replace-text")) {
        this.#replace();
      } else {
        this.#go(shiftKey ? -1 : 1);
      }
    } else {
      return;
    }
    event.preventDefault();
  }
}
