/**
 * What the user of a region does, as commands of the engine, for region.js.
 */
import { BadPlace } from "./hedit.js";
import { commandOf } from "./region_command_table.js";
import { isCaret, isSame } from "./region_nodes.js";
import { leaveLocked } from "./region_typing.js";

/** @typedef {import("./hedit.js").Counts} Counts */
/** @typedef {import("./hedit.js").Editor} Editor */
/** @typedef {import("./hedit.js").Selection} Selection */
/** @typedef {import("./region_places.js").NodePlace} NodePlace */
/** @typedef {import("./region_view.js").View} View */

/**
 * What a region does besides the engine's commands. Each habit but `autoformat` is on, and `false`
 * switches it off.
 * docs/SURPRISES.md, "Differences from browsers", has a session for most of them.
 * @typedef {object} Habits
 * @property {boolean} keepStyle Enter keeps the formatting of the text before it, within blocks of
 *   one kind, and a space keeps the formatting that is set.
 * @property {boolean} keepSpaces A space that Enter leaves at the end or at the start of a line
 *   becomes U+00A0, so that it is visible, and is kept when the lines are joined.
 * @property {boolean} keepAlignment `formatBlock` keeps the alignment.
 * @property {boolean} quoteByIndent `formatBlock` with `blockquote` indents.
 * @property {boolean} hiliteAtCaret `backColor` at a caret colours typed text, like `hiliteColor`.
 * @property {boolean} indentSublists `indent` of an item moves the lists in it too.
 * @property {boolean} outdentWhole `outdent` and Backspace take quoted blocks with inline elements out
 *   of their only quotation without splitting them.
 * @property {boolean} deleteIntoLinks Backspace after a link removes its last character, not the link.
 * @property {boolean} joinItems Backspace at the start of a list item joins it with the previous one
 *   at once.
 * @property {boolean} leaveLinks Text typed at the end of a link goes after it.
 * @property {boolean} plainAcrossBlocks Text typed over blocks of two kinds has none of their
 *   formatting.
 * @property {boolean} wholeClusters Backspace and Delete remove what a user sees as one character: a
 *   flag, an emoji of several, a letter with its accents.
 * @property {boolean} leaveLocked A caret that a command leaves in an island returns to its former
 *   position.
 * @property {boolean} autoformat `- `, `* `, `1. ` and `> `, typed at the start of a paragraph, make a
 *   list or a quotation.
 */

/**
 * The habits that a region has by default.
 * @type {Readonly<Habits>}
 */
export const HABITS = Object.freeze({
  keepStyle: true,
  keepSpaces: true,
  keepAlignment: true,
  quoteByIndent: true,
  hiliteAtCaret: true,
  indentSublists: true,
  outdentWhole: true,
  deleteIntoLinks: true,
  joinItems: true,
  leaveLinks: true,
  plainAcrossBlocks: true,
  wholeClusters: true,
  leaveLocked: true,
  autoformat: false,
});

/**
 * A text as `insertText` takes it: its lines end with a line feed, and half of a surrogate pair is
 * replaced.
 * @param {string} text
 */
function plain(text) {
  return text
    .replace(/\r\n?/g, "\n")
    .replaceAll("\0", "")
    .replace(/\p{Surrogate}/gu, "\ufffd");
}

/** The commands of an editor whose nodes a view shows. */
export class Commands {
  #habits;

  #undoDepth;

  #typingPause;

  /** Whether the next `insertText` goes on with the last entry of the history. */
  #isTyping = false;

  /** When the last text was typed. */
  #typedAt = 0;

  /** What came of the commands. */
  #done = { entries: 0, isChanged: false };

  /** Whether the next command may go on with the entry of the last one. */
  #isJoinable = false;

  /** How many steps around this act have begun, which it goes on with. */
  #depth = 0;

  /**
   * @param {Editor} editor
   * @param {View} view
   * @param {Habits} habits
   * @param {number} undoDepth
   * @param {number} typingPause
   */
  constructor(editor, view, habits, undoDepth, typingPause) {
    this.editor = editor;
    this.view = view;
    this.#habits = habits;
    this.#undoDepth = undoDepth;
    this.#typingPause = typingPause;
  }

  /**
   * What came of the commands since this was last asked: entries of the history, and something to
   * see.
   */
  take() {
    const done = this.#done;
    this.#done = { entries: 0, isChanged: false };
    this.#isJoinable &&= this.isInStep;
    return done;
  }

  /**
   * Executes a command of the engine on what is selected, or on a range that it selects first, and shows
   * what it did. What this act has changed already is in the same entry of the history.
   * @param {string} name
   * @param {string} value
   * @param {Selection} [range]
   */
  exec(name, value = "", range = undefined) {
    const isInsertion = name.toLowerCase() === "inserttext";
    const given = isInsertion ? plain(value) : value;
    const joined = this.#isJoinable;
    const before = this.editor.counts();
    const isDone = this.editor.exec(name, given, range ? { range, joined } : { joined });
    if (isDone) {
      const isChanged = this.view.follow(given.length);
      this.#note(before, isInsertion, isChanged);
      this.#done.isChanged ||= isChanged;
    }
    return isDone;
  }

  /**
   * Puts a text in place of what is between two points, by one command of the engine, which goes on
   * with what is typed as `insertText` does.
   * @param {Selection} range
   * @param {string} text
   */
  #exchange(range, text) {
    this.#pause();
    return this.exec("insertText", text, range);
  }

  /**
   * Counts an entry of the history. Where that is full, the oldest goes with each that comes, and an
   * entry is known by what it changed.
   * @param {Counts} before
   * @param {boolean} isInsertion
   * @param {boolean} isChanged
   */
  #note(before, isInsertion, isChanged) {
    const isFull = before.undo === this.#undoDepth;
    const isMore = this.editor.counts().undo > before.undo;
    const isOfLast = this.#isJoinable || (isInsertion && this.#isTyping);
    const isNew = isMore || (isFull && isChanged && !isOfLast);
    this.#done.entries += Number(isNew);
    this.#isJoinable ||= isNew;
    this.#isTyping = isInsertion && (this.#isTyping || isChanged);
  }

  /** Notes that something else than a command changed what is shown. */
  noteChange() {
    this.#done.isChanged = true;
  }

  /** Has what comes make an entry of its own, also within a step, so that it can be taken back by itself. */
  beginEntry() {
    const selection = this.editor.selection();
    if (selection) {
      this.editor.select(selection.anchor, selection.focus);
    }
    this.#endStep();
  }

  /**
   * Takes back all that was done since this was last told, and shows that.
   * @param {() => boolean} undo
   */
  takeBack(undo) {
    this.turn(this.#done.entries, undo);
    this.#done = { entries: 0, isChanged: true };
  }

  /** Whether the last command typed a text, and nothing was selected since. */
  get isTyping() {
    return this.#isTyping;
  }

  /**
   * Selects between two points. A call of the engine that selects would end the step of undo, so what
   * goes on with one selects by a command that changes nothing.
   * @param {Selection} selection
   */
  select({ anchor, focus }) {
    const name = "defaultParagraphSeparator";
    const options = { range: { anchor, focus }, joined: true };
    if (this.#isJoinable && this.editor.exec(name, this.editor.value(name), options)) {
      this.#isTyping = false;
      return;
    }
    this.editor.select(anchor, focus);
    this.#endStep();
  }

  /** Forgets the style that what is typed would get: the engine does so where something else is selected. */
  forgetStyle() {
    const selection = this.editor.selection();
    if (selection) {
      const { root } = this.view;
      const isAtStart = selection.focus.label === root && selection.focus.offset === 0;
      const offset = isAtStart ? this.editor.node(root).length : 0;
      const elsewhere = { label: root, offset };
      this.select({ anchor: elsewhere, focus: elsewhere });
      this.select(selection);
    }
  }

  /** Whether commands go on with those of the acts before, as one step. */
  get isInStep() {
    return this.#depth > 0;
  }

  /** Begins a step of undo that acts share until what is given is called. */
  beginStep() {
    this.#depth += 1;
    return () => {
      this.#depth -= 1;
      this.#isJoinable &&= this.isInStep;
    };
  }

  /** Has what comes begin a step of its own. */
  #endStep() {
    this.#isTyping = false;
    this.#isJoinable = false;
  }

  /** Has what is typed begin a step of its own. */
  endTyping() {
    const selection = this.#isTyping ? this.editor.selection() : null;
    if (selection) {
      this.select(selection);
    }
  }

  /** Has what is typed after a pause begin a step of its own. */
  #pause() {
    const now = performance.now();
    if (!this.isInStep && now - this.#typedAt > this.#typingPause) {
      this.endTyping();
    }
    this.#typedAt = now;
  }

  /**
   * Gives a name to what is selected, or to what is between other points.
   * @param {string} name
   * @param {Selection} selection
   */
  mark(name, { anchor, focus }) {
    this.editor.mark(name, anchor, focus);
    this.#endStep();
  }

  /**
   * Takes a mark out. False where there is none of that name.
   * @param {string} name
   */
  unmark(name) {
    const isDone = this.editor.unmark(name);
    this.#endStep();
    return isDone;
  }

  /**
   * Selects what was selected before, unless it is, or isn't there any more.
   * @param {Selection} selection
   */
  selectAgain(selection) {
    if (isSame(selection, this.editor.selection())) {
      return;
    }
    try {
      this.select(selection);
    } catch (error) {
      if (!(error instanceof BadPlace)) {
        throw error;
      }
    }
  }

  /**
   * Takes steps of the history, and shows what they did: how many there were, up to a number.
   * @param {number} most
   * @param {() => boolean} call
   */
  turn(most, call) {
    this.#endStep();
    let turned = 0;
    let { edits } = this.editor.counts();
    while (turned < most && call()) {
      turned += 1;
      const next = this.editor.counts().edits;
      this.view.follow(Math.max(edits, next));
      edits = next;
      this.#done.isChanged = true;
    }
    return turned;
  }

  /**
   * Whether a habit is on.
   * @param {keyof Habits} habit
   */
  has(habit) {
    return this.#habits[habit];
  }

  /**
   * Executes a command with the habits.
   * @param {string} name
   * @param {string} value
   */
  run(name, value = "") {
    const { prepare, habits = {} } = commandOf(name);
    if (name.toLowerCase() === "inserttext") {
      this.#pause();
    }
    prepare?.(this);
    let call = () => this.exec(name, value);
    for (const [habit, around] of Object.entries(habits).reverse()) {
      if (this.has(/** @type {keyof Habits} */ (habit))) {
        const next = call;
        call = () => around(this, next, value);
      }
    }
    return call();
  }

  // Where commands work.

  isCaret() {
    return isCaret(this.editor.selection());
  }

  /**
   * The place of the selection's focus, which is the caret where there is one.
   * @returns {NodePlace | null}
   */
  focus() {
    const selection = this.editor.selection();
    return selection && this.view.place(selection.focus);
  }

  /**
   * Puts the caret at a place.
   * @param {Node} node
   * @param {number} offset
   */
  putCaret(node, offset) {
    const point = this.view.point(node, offset);
    if (point) {
      this.select({ anchor: point, focus: point });
    }
  }

  /**
   * Selects a part of a text, in units.
   * @param {Text} text
   * @param {number} start
   * @param {number} end
   */
  selectIn(text, start, end) {
    const [anchor, focus] = [this.view.point(text, start), this.view.point(text, end)];
    if (anchor && focus) {
      this.select({ anchor, focus });
    }
  }

  /**
   * The places of the selection's ends, in the order of the page.
   * @returns {[NodePlace, NodePlace] | null}
   */
  ends() {
    const selection = this.editor.selection();
    if (!selection) {
      return null;
    }
    const anchor = this.view.place(selection.anchor);
    const focus = this.view.place(selection.focus);
    const range = this.view.element.ownerDocument.createRange();
    range.setStart(anchor.node, anchor.offset);
    return range.comparePoint(focus.node, focus.offset) < 0 ? [focus, anchor] : [anchor, focus];
  }

  // Texts.

  /**
   * Types a text in place of the selection.
   * @param {string} text
   */
  type(text) {
    return this.run("insertText", text);
  }

  /**
   * Puts a text in place of what is between two points.
   * @param {Selection} range
   * @param {string} text
   */
  replace(range, text) {
    const [from, to] = [range.anchor, range.focus].map((point) => this.view.place(point).node);
    const isInLine = !isCaret(range) && this.view.blockOf(from) === this.view.blockOf(to);
    if (isInLine) {
      const exchange = () => this.#exchange(range, text);
      return this.has("leaveLocked") ? leaveLocked(this, exchange) : exchange();
    }
    this.select(range);
    return this.type(text);
  }

  /**
   * Puts a text in place of a part of a text, as the browser did by itself, and selects what is
   * selected there.
   * @param {Text} text
   * @param {{ start: number, end: number, put: string }} change
   * @param {Selection | null} shown what the page selects, as points in the new text
   */
  takeOver(text, { start, end, put }, shown) {
    const whole = text.data.slice(0, start) + put + text.data.slice(end);
    const [anchor, focus] = [this.view.point(text, start), this.view.point(text, end)];
    if (!anchor || !focus) {
      return false;
    }
    const isOther = start !== end || put !== "";
    const isDone = isOther && this.#write(text, { start, end, put }, { anchor, focus });
    if (shown && text.data === whole) {
      this.selectAgain(shown);
    }
    return isDone;
  }

  /**
   * @param {Text} text
   * @param {{ start: number, end: number, put: string }} change
   * @param {Selection} range
   */
  #write(text, { start, end, put }, range) {
    if (put === "") {
      this.select(range);
      return this.exec("delete");
    }
    const isTyped = start === end && this.#isAt(text, start);
    return isTyped ? this.type(put) : this.#exchange(range, put);
  }

  /**
   * Whether the caret is in a text at an offset, or beside it there.
   * @param {Text} text
   * @param {number} at
   */
  #isAt(text, at) {
    const place = this.isCaret() ? this.focus() : null;
    if (!place || place.node === text) {
      return place?.offset === at;
    }
    const { childNodes } = place.node;
    const isBefore = at === 0 && childNodes[place.offset] === text;
    return isBefore || (at === text.length && childNodes[place.offset - 1] === text);
  }
}
