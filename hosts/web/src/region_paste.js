/**
 * Pastes for region.js: as rich text where that is there, as plain text, or not at all. A long one goes
 * on between other things that the page does, and what the user does meanwhile waits.
 */
import { cleanNodes, parseInert, settingsOf } from "./clean_nodes.js";
import { HeditError } from "./hedit.js";
import { LinePaste } from "./paste_commands.js";
import { linesOfText, readLines, textOfLines } from "./paste_lines.js";

/** @typedef {import("./clean.js").CleanOptions} CleanOptions */
/** @typedef {import("./hedit.js").Selection} Selection */
/** @typedef {import("./paste_lines.js").Fragment} Fragment */
/** @typedef {import("./paste_lines.js").Line} Line */
/** @typedef {import("./paste_lines.js").Lost} Lost */
/** @typedef {import("./paste_lines.js").PasteOptions} PasteOptions */
/** @typedef {import("./region_session.js").Session} Session */

/**
 * What is pasted: HTML, where there is some, and its text. `isOwn` says that it was copied within a
 * region.
 * @typedef {{ html: string, text: string, isOwn?: boolean, isPlain?: boolean }} Pasted
 */

/**
 * A paste on its way, with what was selected before it.
 * @typedef {{ steps: Generator<undefined, boolean>, before: Selection | null }} Going
 */

/** @typedef {"done" | "denied" | "empty" | "impossible" | "lossy"} Outcome */

/**
 * What of a region pastes need.
 * @typedef {object} Pasting
 * @property {() => Session} session
 * @property {() => boolean} isEditable
 * @property {(...names: string[]) => boolean} isDenied
 * @property {(call: () => boolean) => boolean} act does something as one step of undo
 * @property {<T>(call: () => T) => T} guard does what asks the engine
 * @property {() => void} flush reads what the browser did that wasn't told yet
 * @property {(before: Selection | null) => void} conclude shows and tells what came of commands
 * @property {() => void} discardRecords forgets what the page tells of what the region itself did
 * @property {(call: () => void) => void} handle does something that nobody waits for
 * @property {(kind: "statechange") => void} dispatch
 */

/**
 * @typedef {object} PasteChoices
 * @property {PasteOptions | "plain"} paste
 * @property {CleanOptions} clean
 * @property {boolean} leavesLinks
 */

/** How long a paste may hold the page at first, and each time that it goes on, in milliseconds. */
const FIRST = 200;

const NEXT = 50;

/** The longest plain text, in units, that is typed at once. */
const SHORT = 2000;

/** Keeps what a region itself has, so that it comes back, or is known to be lost. */
const AS_IT_IS = { classes: /.+/, relative: true, locked: true };

/** The pastes of a region. */
export class Pastes {
  #region;

  #choices;

  /**
   * The paste that isn't done yet.
   * @type {Going | null}
   */
  #going = null;

  /**
   * What the user did meanwhile.
   * @type {(() => void)[]}
   */
  #waiting = [];

  /**
   * @param {Pasting} region
   * @param {PasteChoices} choices
   */
  constructor(region, choices) {
    this.#region = region;
    this.#choices = choices;
  }

  /** Whether a paste isn't done yet. */
  get isBusy() {
    return this.#going !== null;
  }

  /**
   * Has something wait until the paste is done.
   * @param {() => void} call
   */
  defer(call) {
    this.#waiting.push(call);
    return true;
  }

  /** Forgets the paste, as where the region is closed. */
  drop() {
    this.#going = null;
    this.#waiting = [];
  }

  /** Does the rest of the paste at once. */
  complete() {
    if (this.#going) {
      this.#advance(Infinity);
    }
  }

  /**
   * Pastes at the selection, and says what came of it.
   * @param {Pasted} pasted
   * @returns {Outcome}
   */
  paste(pasted) {
    const { fragment, way } = this.#read(pasted);
    const text = pasted.text || (fragment ? textOfLines(fragment.lines) : "");
    if (way === "refuse") {
      return "lossy";
    }
    if (!fragment && text === "") {
      return "empty";
    }
    if (this.#region.isDenied("insertText")) {
      return "denied";
    }
    const isDone = fragment && way === "rich" ? this.pasteLines(fragment.lines) : this.pastePlain(text);
    return isDone ? "done" : "impossible";
  }

  /**
   * Reads what is pasted as rich text, if it is some, and how it is to be pasted.
   * @param {Pasted} pasted
   * @returns {{ fragment: Fragment | null, way: "rich" | "plain" | "refuse" }}
   */
  #read({ html, isOwn = false, isPlain = false }) {
    const { paste } = this.#choices;
    if (isPlain || paste === "plain" || html === "") {
      return { fragment: null, way: "plain" };
    }
    const fragment = this.#lines(html, isOwn);
    if (fragment.lines.length === 0) {
      return { fragment: null, way: "plain" };
    }
    const way = fragment.lost.size > 0 ? (paste.lossy?.(fragment.lost) ?? "rich") : "rich";
    return { fragment, way };
  }

  /**
   * @param {string} html
   * @param {boolean} isOwn
   * @param {CleanOptions} [options]
   */
  #lines(html, isOwn, options = isOwn ? AS_IT_IS : {}) {
    const { clean } = this.#choices;
    const settings = settingsOf({ ...clean, ...options, inline: true });
    const nodes = cleanNodes(html, settings, clean.parse ?? parseInert);
    const isDenied = (/** @type {string} */ name) => this.#region.isDenied(name);
    return readLines(nodes, { isOwn, isDenied });
  }

  /**
   * Reads what the region itself has: all that is left out is lost.
   * @param {string} html
   * @returns {Fragment}
   */
  readOwn(html) {
    /** @type {Set<Lost>} */
    const left = new Set();
    const report = (/** @type {import("./clean_read.js").Dropped} */ { kind }) => void (kind === "style" || left.add("other"));
    const { lines, lost } = this.#lines(html, true, { ...AS_IT_IS, report });
    return { lines, lost: new Set([...lost, ...left]) };
  }

  /**
   * Pastes plain text, its lines as paragraphs.
   * @param {string} text
   */
  pastePlain(text) {
    if (text.length > SHORT) {
      return this.pasteLines(linesOfText(text));
    }
    const { commands } = this.#region.session();
    return text !== "" && this.#region.act(() => commands.run("insertText", text));
  }

  /**
   * Pastes lines, a part of them at once where they are many.
   * @param {readonly Line[]} lines
   */
  pasteLines(lines) {
    if (!this.#region.isEditable()) {
      return false;
    }
    return this.#region.guard(() => {
      this.#region.flush();
      const session = this.#region.session();
      const { leavesLinks } = this.#choices;
      const steps = new LinePaste(session, lines, { leavesLinks }).run();
      this.#going = { steps, before: session.editor.selection() };
      const isDone = this.#advance(FIRST);
      if (this.#going) {
        this.#region.dispatch("statechange");
        this.#schedule();
      }
      return isDone;
    });
  }

  #schedule() {
    const going = this.#going;
    setTimeout(() => {
      if (this.#going === going && going) {
        this.#region.handle(() => this.#region.guard(() => this.#advance(NEXT)));
        if (this.#going) {
          this.#schedule();
        }
      }
    });
  }

  /**
   * Goes on with the paste for some time. Says whether something was pasted.
   * @param {number} milliseconds
   */
  #advance(milliseconds) {
    const { steps, before } = /** @type {Going} */ (this.#going);
    const end = performance.now() + milliseconds;
    try {
      for (;;) {
        const { done, value } = steps.next();
        if (done) {
          this.#end(before);
          return value;
        }
        if (performance.now() > end) {
          return true;
        }
      }
    } catch (error) {
      this.#takeBack(before, error);
      throw error;
    } finally {
      this.#region.discardRecords();
    }
  }

  /** @param {Selection | null} before */
  #end(before) {
    const waiting = this.#waiting.splice(0);
    this.#going = null;
    this.#region.conclude(before);
    for (const call of waiting) {
      this.#region.handle(call);
    }
  }

  /**
   * Takes all back that was pasted, as the engine refused the rest.
   * @param {Selection | null} before
   * @param {unknown} error
   */
  #takeBack(before, error) {
    const { commands, editor } = this.#region.session();
    if (error instanceof HeditError && !this.#region.session().hasStopped()) {
      commands.takeBack(() => editor.undo());
      if (before) {
        commands.selectAgain(before);
      }
      this.#end(before);
    } else {
      this.drop();
    }
  }
}
