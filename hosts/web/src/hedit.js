/**
 * The engine behind a contenteditable region, for web pages.
 *
 *     import { load } from "./hedit.js";
 *
 *     const engine = await load();
 *     const editor = engine.open("<p contenteditable>Call Ann</p>");
 *     editor.select({ path: [0, 0], offset: 5 }, { path: [0, 0], offset: 8 });
 *     editor.exec("bold");
 *     editor.html();
 *
 * A place is a path and an offset. The path has the index of a child in each node, from the document
 * down. The offset counts children in an element, and characters in a text node. Characters are
 * Unicode code points, but JavaScript counts UTF-16 units: `toCharacters` and `toUnits` convert.
 *
 * A point has the label of a node instead of the path: a number that the node keeps as long as the
 * editor is open. The document has 0, and `children` leads to the others:
 *
 *     const show = (label = 0) => {
 *       console.log(editor.node(label), editor.nodeName(label), editor.nodeValue(label));
 *       for (const child of editor.children(label)) show(child);
 *     };
 *
 * A refused call throws a `HeditError`, with a class of its own for each cause, and leaves the editor
 * as it was.
 *
 * The engine is a WebAssembly module with a 32-bit memory. `missingFeatures` names what a browser
 * lacks for it.
 */

import { readChanges } from "./changes.js";
import { execOptions, limit, listOf, member, placeNumber } from "./hedit_arguments.js";
import { Question, View } from "./hedit_constants.js";
import { EditorClosed, answer } from "./hedit_errors.js";
import { Library } from "./hedit_library.js";
import { compileModule } from "./hedit_load.js";
import {
  isPoint,
  readCounts,
  readNode,
  readNumber,
  readPoint,
  readSelection,
} from "./hedit_records.js";
import { DECODER, bytesOf } from "./hedit_text.js";

export { NodeKind, PageKind, Question, Status, View } from "./hedit_constants.js";
export {
  BadArgument,
  BadPlace,
  EditorClosed,
  EngineNotLoaded,
  EngineStopped,
  EngineUnsupported,
  HeditError,
  OutOfMemory,
  PageFull,
  PageRefused,
  TooDeep,
  TooManyMarks,
} from "./hedit_errors.js";
export { missingFeatures } from "./hedit_load.js";
export { toCharacters, toUnits } from "./hedit_text.js";

/** The version of hedit.js, and of the module in its package. */
export const VERSION = "0.9.0";

/** @typedef {import("./changes.js").Change} Change */
/** @typedef {import("./changes.js").TreeNode} TreeNode */
/** @typedef {import("./hedit_load.js").Source} Source */
/** @typedef {import("./hedit_records.js").Counts} Counts */
/** @typedef {import("./hedit_records.js").Mark} Mark */
/** @typedef {import("./hedit_records.js").Node} Node */
/** @typedef {import("./hedit_records.js").Place} Place */
/** @typedef {import("./hedit_records.js").Point} Point */
/** @typedef {import("./hedit_records.js").Selection} Selection */
/** @typedef {import("./hedit_text.js").Text} Text */

/**
 * How a command is executed.
 * @typedef {object} ExecOptions
 * @property {{ readonly anchor: Place | Point, readonly focus: Place | Point }} [range] The command selects
 *   this first and works on it. The selection is left where the command leaves it.
 * @property {boolean} [joined] Whether the edits are added to the previous undo step, as by `execJoined`.
 *   False by default.
 * @property {Iterable<string>} [denied] Up to 16 names of commands that are refused.
 */

/**
 * The limits of a document and of its history.
 * @typedef {object} Limits
 * @property {number} [labelCap] No node gets a label from here on. 2,000,000 by default.
 * @property {number} [undoDepth] How many commands can be undone. 100 by default.
 */

/** An editor of a page, made by `Engine.open`. Close it. Otherwise it is closed when it is collected. */
export class Editor {
  #library;

  /** 0n if the editor is closed. */
  #handle;

  /** The length of each view when it was last printed. */
  #lengths;

  /**
   * @private
   * @param {Library} library
   * @param {Text} page
   * @param {Limits} limits
   */
  constructor(library, page, { labelCap = 2_000_000, undoDepth = 100 }) {
    limit("labelCap", labelCap, 0xffff_ffff);
    limit("undoDepth", undoDepth, Number.MAX_SAFE_INTEGER);
    this.#library = library;
    this.#handle = library.open(this, page, labelCap, undoDepth);
    this.#lengths = [page.length, 0, 0, 0];
  }

  /** Frees the editor's memory. Later calls are refused. */
  close() {
    if (this.#handle) {
      this.#library.close(this, this.#handle);
      this.#handle = 0n;
    }
  }

  /**
   * Returns the status of a call on this editor. `words` makes its arguments.
   * @param {string} name
   * @param {(loan: import("./hedit_library.js").Loan) => unknown[]} words
   * @returns {number}
   */
  #status(name, words = () => []) {
    return this.#library.borrow((loan) => this.#call(name, ...words(loan)));
  }

  /**
   * @param {string} name
   * @param {unknown[]} words
   * @returns {number}
   */
  #call(name, ...words) {
    if (!this.#handle) {
      throw new EditorClosed();
    }
    return this.#library.call(name, this.#handle, ...words);
  }

  /**
   * Returns what `read` makes of the record that a call writes, or undefined if the answer is false.
   * @template T
   * @param {string} name
   * @param {number} size
   * @param {(data: DataView, at: number) => T} read
   * @param {(loan: import("./hedit_library.js").Loan) => unknown[]} words
   */
  #record(name, size, read, words = () => []) {
    return this.#library.borrow((loan) => {
      const record = loan.room(size);
      const status = this.#call(name, ...words(loan), record);
      return answer(status) ? read(this.#library.data, Number(record)) : undefined;
    });
  }

  /**
   * Returns the text of a call that takes a buffer, or undefined if the answer is false.
   * @param {string} name
   * @param {number} capacity
   * @param {unknown[]} words
   */
  #text(name, capacity, ...words) {
    return this.#library.borrow((loan) => {
      const { status, bytes } = loan.printed(capacity, (...buffer) =>
        this.#call(name, ...words, ...buffer),
      );
      return answer(status) ? DECODER.decode(bytes) : undefined;
    });
  }

  /**
   * Returns what `read` makes of each item of a call that takes an array.
   * @template Item
   * @param {string} name
   * @param {number} size of an item in bytes
   * @param {(view: DataView, at: number) => Item} read
   * @param {(loan: import("./hedit_library.js").Loan) => unknown[]} words
   */
  #items(name, size, read, words) {
    return this.#library.borrow((loan) => {
      const given = words(loan);
      const { status, bytes } = loan.printed(
        64,
        (...buffer) => this.#call(name, ...given, ...buffer),
        size,
      );
      answer(status);
      const [{ data }, start] = [this.#library, bytes.byteOffset];
      return Array.from({ length: bytes.length / size }, (_, place) =>
        read(data, start + place * size),
      );
    });
  }

  /**
   * Executes a command by its name, in any case. Returns false if it isn't enabled, refuses the value,
   * or is denied. A list of names in place of the options has the denied ones.
   * @param {Text} name
   * @param {Text} [value]
   * @param {ExecOptions | Iterable<string>} [options]
   */
  exec(name, value = "", options = {}) {
    const { range, joined = false, denied = [] } = execOptions(options);
    const names = listOf(denied);
    /** @param {import("./hedit_library.js").Loan} loan */
    const words = (loan) => [...loan.text(name), ...loan.text(value)];
    if (!range && !names) {
      return answer(this.#status(joined ? "hedit_exec_joined" : "hedit_exec", words));
    }
    const points = range ? [...this.#point(range.anchor), ...this.#point(range.focus)] : [0, 0, 0, 0];
    const numbers = Uint32Array.of(Number(joined), Number(Boolean(range)), ...points);
    return answer(
      this.#status("hedit_exec_with", (loan) => [
        loan.array(numbers)[0],
        ...loan.text(names),
        ...words(loan),
      ]),
    );
  }

  /**
   * Executes a command like `exec`, but adds its edits to the previous undo step, if a command made
   * that step and nothing has intervened.
   * @param {Text} name
   * @param {Text} value
   */
  execJoined(name, value = "") {
    return answer(
      this.#status("hedit_exec_joined", (loan) => [...loan.text(name), ...loan.text(value)]),
    );
  }

  /**
   * Replaces the range between two places or points by a text, as one command, which continues a run
   * of typing. Returns false if they aren't in an editing host.
   * @param {Place | Point} anchor
   * @param {Place | Point} focus
   * @param {Text} text
   */
  replace(anchor, focus, text) {
    const points = [...this.#point(anchor), ...this.#point(focus)];
    return answer(this.#status("hedit_replace", (loan) => [...points, ...loan.text(text)]));
  }

  /** Undoes one step. Returns false if there is none. */
  undo() {
    return answer(this.#status("hedit_undo"));
  }

  /** Redoes one step. Returns false if there is none. */
  redo() {
    return answer(this.#status("hedit_redo"));
  }

  /**
   * Makes a call with two places, or its variant for points if one of them is a point.
   * @param {string} name
   * @param {Place | Point} anchor
   * @param {Place | Point} focus
   * @param {(loan: import("./hedit_library.js").Loan) => unknown[]} words
   */
  #between(name, anchor, focus, words = () => []) {
    if (isPoint(anchor) || isPoint(focus)) {
      const points = [...this.#point(anchor), ...this.#point(focus)];
      answer(this.#status(`${name}_points`, (loan) => [...words(loan), ...points]));
    } else {
      answer(
        this.#status(name, (loan) => [
          ...words(loan),
          ...loan.place(anchor),
          ...loan.place(focus),
        ]),
      );
    }
  }

  /**
   * Returns the label and the offset of a point.
   * @param {Place | Point} place
   */
  #point(place) {
    const label = isPoint(place) ? placeNumber(place.label) : this.labelAt(place.path);
    return [label, placeNumber(place.offset)];
  }

  /**
   * Selects from one place or point to another, or sets the caret.
   * @param {Place | Point} anchor
   * @param {Place | Point} focus
   */
  select(anchor, focus = anchor) {
    this.#between("hedit_select", anchor, focus);
  }

  /** Removes the selection. */
  unselect() {
    answer(this.#status("hedit_unselect"));
  }

  /**
   * Sets the marker of a name from one place or point to another. It follows the edits.
   * @param {Text} name
   * @param {Place | Point} anchor
   * @param {Place | Point} focus
   */
  mark(name, anchor, focus) {
    this.#between("hedit_mark", anchor, focus, (loan) => loan.text(name));
  }

  /**
   * Removes the marker of a name. Returns false if there is none.
   * @param {Text} name
   */
  unmark(name) {
    return answer(this.#status("hedit_unmark", (loan) => loan.text(name)));
  }

  /**
   * Answers a query about a command: the value as a text, the others as booleans.
   * @template {Question} Asked
   * @param {Asked} question
   * @param {Text} name
   * @returns {Asked extends typeof Question.VALUE ? string : boolean}
   */
  ask(question, name) {
    const { flag, text } = this.#ask(member(Question, question), name);
    return /** @type {any} */ (question === Question.VALUE ? text : flag);
  }

  /**
   * @param {number} question
   * @param {Text} name
   */
  #ask(question, name) {
    return this.#library.borrow((loan) => {
      const flag = loan.room(4);
      const words = [question, ...loan.text(name), flag];
      const { status, bytes } = loan.printed(256, (...buffer) =>
        this.#call("hedit_query", ...words, ...buffer),
      );
      answer(status);
      return {
        flag: this.#library.data.getUint32(Number(flag), true) === 1,
        text: DECODER.decode(bytes),
      };
    });
  }

  /**
   * Returns whether there is such a command.
   * @param {Text} name
   */
  supported(name) {
    return this.#ask(Question.SUPPORTED, name).flag;
  }

  /**
   * Returns whether the command has an editing host to work in.
   * @param {Text} name
   */
  enabled(name) {
    return this.#ask(Question.ENABLED, name).flag;
  }

  /**
   * Returns whether only a part of the selection has it.
   * @param {Text} name
   */
  indeterm(name) {
    return this.#ask(Question.INDETERM, name).flag;
  }

  /**
   * Returns whether the selection has it, for a button of a toolbar.
   * @param {Text} name
   */
  state(name) {
    return this.#ask(Question.STATE, name).flag;
  }

  /**
   * Returns the command's value: a font, a colour, the name of a block.
   * @param {Text} name
   */
  value(name) {
    return this.#ask(Question.VALUE, name).text;
  }

  /**
   * Returns a view of the editor, as complete lines.
   * @param {View} kind
   */
  view(kind) {
    member(View, kind);
    // Enough capacity for what commands have added since, so that it is printed once.
    const capacity = 4096 + Math.ceil(this.#lengths[kind] * 1.25);
    return this.#library.borrow((loan) => {
      const { status, bytes } = loan.printed(capacity, (...buffer) =>
        this.#call("hedit_view", kind, ...buffer),
      );
      answer(status);
      this.#lengths[kind] = bytes.length;
      return DECODER.decode(bytes);
    });
  }

  /** Returns the document as HTML, with a line feed at the end. */
  html() {
    return this.view(View.HTML);
  }

  /** Returns a line for each node. */
  tree() {
    return this.view(View.TREE);
  }

  /** Returns the selection and the markers, as lines. */
  points() {
    return this.view(View.POINTS);
  }

  /** Returns the counts of the document and of its history, as a line. */
  numbers() {
    return this.view(View.NUMBERS);
  }

  /**
   * Returns the counts of the document and of its history.
   * @returns {Counts}
   */
  counts() {
    return /** @type {Counts} */ (this.#record("hedit_numbers", 40, readCounts));
  }

  /**
   * Returns how many calls have changed the document.
   */
  revision() {
    const read = (/** @type {DataView} */ data, /** @type {number} */ at) =>
      Number(data.getBigUint64(at, true));
    return /** @type {number} */ (this.#record("hedit_revision", 8, read));
  }

  /**
   * Returns the changes of the last call that changed something, from the first to the last.
   * @returns {Change[]}
   */
  changes() {
    return this.#library.borrow((loan) => {
      const { status, bytes } = loan.printed(1024, (...buffer) =>
        this.#call("hedit_changes", ...buffer),
      );
      answer(status);
      return readChanges(bytes);
    });
  }

  /**
   * Returns whether the node of a label is in the document, or may be restored by `undo` or `redo`. A
   * removed node that isn't kept is never restored, so you can forget it.
   * @param {number} label
   */
  isKept(label) {
    const number = placeNumber(label);
    return answer(this.#status("hedit_is_kept", () => [number]));
  }

  /**
   * Returns the points of the selection, or null if nothing is selected.
   * @returns {Selection | null}
   */
  selection() {
    return this.#record("hedit_selection", 16, readSelection) ?? null;
  }

  /**
   * Returns the markers. A new one is last, and one that is set again keeps its index.
   * @returns {Mark[]}
   */
  marks() {
    /** @type {Mark[]} */
    const marks = [];
    for (;;) {
      const place = BigInt(marks.length);
      const range = this.#record("hedit_mark_range", 16, readSelection, () => [place]);
      if (range === undefined) {
        return marks;
      }
      marks.push({ name: this.#markName(place), ...range });
    }
  }

  /**
   * Returns the name of a marker by its index in the list of markers.
   * @param {bigint} place
   * @returns {Text}
   */
  #markName(place) {
    return this.#library.borrow((loan) => {
      const { status, bytes } = loan.printed(64, (...buffer) =>
        this.#call("hedit_mark_name", place, ...buffer),
      );
      answer(status);
      try {
        return DECODER.decode(bytes);
      } catch {
        return bytes.slice();
      }
    });
  }

  /**
   * Returns the selection as HTML, for the clipboard, or null if nothing is selected.
   * @returns {string | null}
   */
  selectionHtml() {
    return this.#text("hedit_selection_html", 4096) ?? null;
  }

  /**
   * Returns the selection as plain text, for the clipboard, or null if nothing is selected.
   * @returns {string | null}
   */
  selectionText() {
    return this.#text("hedit_selection_text", 4096) ?? null;
  }

  /**
   * Returns the label of the node at a path. The document has 0.
   * @param {readonly number[]} path
   */
  labelAt(path) {
    const label = this.#record("hedit_label_at", 4, readNumber, (loan) => loan.path(path));
    return /** @type {number} */ (label);
  }

  /**
   * Returns the path of the node of a label.
   * @param {number} label
   * @returns {number[]}
   */
  pathOf(label) {
    const number = placeNumber(label);
    return this.#items("hedit_path_of", 4, readNumber, () => [number]);
  }

  /**
   * Returns the node of a label.
   * @param {number} label
   * @returns {Node}
   */
  node(label) {
    const number = placeNumber(label);
    const read = (/** @type {DataView} */ data, /** @type {number} */ at) =>
      readNode(label, data, at);
    return /** @type {Node} */ (this.#record("hedit_node", 28, read, () => [number]));
  }

  /**
   * Yields the labels of a node's children. You may remove the one that was yielded last.
   * @param {number} label
   * @returns {IterableIterator<number>}
   */
  children(label) {
    return this.#from(this.node(label).firstChild);
  }

  /**
   * @param {number | null} label
   * @returns {Generator<number, void>}
   */
  *#from(label) {
    while (label !== null) {
      const { next } = this.node(label);
      yield label;
      label = next;
    }
  }

  /**
   * Returns the name of an element, and an empty text for another node.
   * @param {number} label
   */
  nodeName(label) {
    return /** @type {string} */ (this.#text("hedit_node_name", 64, placeNumber(label)));
  }

  /**
   * Returns the characters of a text node or a comment, and an empty text for another node.
   * @param {number} label
   */
  nodeValue(label) {
    return /** @type {string} */ (this.#text("hedit_node_value", 1024, placeNumber(label)));
  }

  /**
   * Returns the HTML of a node; for the document, that of its children.
   * @param {number} label
   */
  nodeHtml(label) {
    return /** @type {string} */ (this.#text("hedit_node_html", 4096, placeNumber(label)));
  }

  /**
   * Returns the plain text of a node: lines for blocks and for each br.
   * @param {number} label
   */
  nodeText(label) {
    return /** @type {string} */ (this.#text("hedit_node_text", 4096, placeNumber(label)));
  }

  /**
   * Returns the points at which a text occurs in a node, by default in the document. They are in tree
   * order, and the occurrences don't overlap.
   * @param {Text} text
   * @param {number} label
   * @returns {Point[]}
   */
  find(text, label = 0) {
    const number = placeNumber(label);
    return this.#items("hedit_find", 8, readPoint, (loan) => [number, ...loan.text(text)]);
  }

  /**
   * Returns the attributes of a node, in their order.
   * @param {number} label
   * @returns {Map<string, string>}
   */
  attributes(label) {
    const number = placeNumber(label);
    const found = new Map();
    for (let place = 0n; ; place += 1n) {
      const name = this.#text("hedit_attribute_name", 64, number, place);
      if (name === undefined) {
        return found;
      }
      found.set(name, this.#text("hedit_attribute_value", 256, number, place));
    }
  }
}

// Some browsers that run the engine have no `using` yet.
const { dispose } = /** @type {any} */ (Symbol);
if (dispose) {
  Object.defineProperty(Editor.prototype, dispose, { value: Editor.prototype.close });
}

/**
 * The constructor of editors, which is private outside of this module.
 * @type {new (library: Library, page: Text, limits: Limits) => Editor}
 */
const NewEditor = /** @type {any} */ (Editor);

/** The engine. Its editors share a memory, which grows if needed and is freed with the engine. */
export class Engine {
  #library;

  /**
   * @private
   * @param {WebAssembly.Exports} exports those of hedit.wasm
   */
  constructor(exports) {
    this.#library = new Library(exports);
  }

  /** Returns the version of the module. `VERSION` is that of hedit.js. */
  version() {
    const number = this.#library.call("hedit_version");
    return [number >> 16, (number >> 8) & 255, number & 255].join(".");
  }

  /**
   * Opens a page.
   * @param {Text} page
   * @param {Limits} limits
   * @returns {Editor}
   */
  open(page, limits = {}) {
    return new NewEditor(this.#library, page, limits);
  }

  /**
   * Runs a session of the program with the arguments of a command line.
   * @param {Text} text
   * @param {readonly string[]} words
   * @returns {{ status: import("./hedit_constants.js").Status, transcript: string }}
   */
  session(text, words = ["run"]) {
    return this.#library.borrow((loan) => {
      const input = bytesOf(text);
      const command = loan.text(words.map((word) => `${word}\n`).join(""));
      const given = [...command, ...loan.array(input)];
      const { status, bytes } = loan.printed(4096 + 4 * input.length, (...buffer) =>
        this.#library.call("hedit_session_with_words", ...given, ...buffer),
      );
      const ended = /** @type {import("./hedit_constants.js").Status} */ (status);
      return { status: ended, transcript: DECODER.decode(bytes) };
    });
  }
}

/**
 * The constructor of engines, which is private outside of this module.
 * @type {new (exports: WebAssembly.Exports) => Engine}
 */
const NewEngine = /** @type {any} */ (Engine);

/**
 * Loads the engine from hedit.wasm next to hedit.js, or from another address, a response or bytes.
 * Throws EngineUnsupported or EngineNotLoaded.
 * @param {Source} source
 * @returns {Promise<Engine>}
 */
export async function load(source = new URL("hedit.wasm", import.meta.url)) {
  const { exports } = await WebAssembly.instantiate(await compileModule(source));
  return new NewEngine(exports);
}
