/** What a region has of one engine: an editor of its page, and all that shows and changes it. */
import { EngineStopped } from "./hedit.js";
import { commandOf } from "./region_command_table.js";
import { Commands, HABITS } from "./region_commands.js";
import { selectForward } from "./region_deletion.js";
import { isCaret } from "./region_nodes.js";
import { open } from "./region_open.js";
import { Readback } from "./region_readback.js";
import { Selections } from "./region_selection.js";
import { Steps } from "./region_steps.js";
import { View } from "./region_view.js";

/** @typedef {import("./hedit.js").Engine} Engine */
/** @typedef {import("./region.js").Choices} Choices */
/** @typedef {import("./region_pages.js").Pages} Pages */
/** @typedef {import("./region_shown.js").Shown} Shown */

/** An editor of a region's page. */
export class Session {
  steps = new Steps();

  #pages;

  /** How many steps to do again belong to what was undone before another page came. */
  #lostRedo = 0;

  /**
   * Opens a page in an engine, and shows it.
   * @param {Engine} engine
   * @param {string} html
   * @param {object} region
   * @param {HTMLElement} region.element
   * @param {readonly [string, string] | null} region.tags those of the element, where it is an editing
   *   host
   * @param {Shown} region.shown
   * @param {Choices} region.choices
   * @param {Pages} region.pages
   * @param {boolean} isThere whether the element's nodes show the page already
   */
  constructor(engine, html, { element, tags, shown, choices, pages }, isThere) {
    const { undoDepth = 100, labelCap, separator = "p", typingPause = 1000 } = choices;
    const limits = { undoDepth, ...(labelCap === undefined ? {} : { labelCap }) };
    const { editor, root } = open(engine, tags, html, limits);
    editor.exec("defaultParagraphSeparator", separator);
    this.#pages = pages;
    this.editor = editor;
    this.view = new View(editor, element, root, shown);
    this.commands = new Commands(editor, this.view, { ...HABITS, ...choices }, undoDepth, typingPause);
    this.selections = new Selections(editor, this.view, this.commands);
    this.readback = new Readback(editor, this.view, this.commands, this.selections);
    if (isThere) {
      this.view.adopt();
    }
    this.view.follow();
  }

  /** The markup as the engine has it. */
  html() {
    const labels = [...this.editor.children(this.view.root)];
    return labels.map((label) => this.editor.nodeHtml(label)).join("");
  }

  /** Whether the engine has stopped, here or in another of its editors. */
  hasStopped() {
    try {
      this.editor.revision();
      return false;
    } catch (error) {
      return error instanceof EngineStopped;
    }
  }

  /**
   * Executes a command with the habits.
   * @param {string} name
   * @param {string} value
   */
  run(name, value) {
    const { run } = commandOf(name);
    return run ? run(this, value) : this.commands.run(name, value);
  }

  /**
   * Whether there is something for a command to work in.
   * @param {string} name
   */
  isEnabled(name) {
    const { isEnabled, needs = name } = commandOf(name);
    return isEnabled ? isEnabled(this) : this.editor.enabled(needs);
  }

  /** Deletes what is selected, or at a caret what stands behind it. */
  deleteForward() {
    if (isCaret(this.editor.selection()) && !selectForward(this.commands)) {
      this.selections.extendForward();
      this.selections.read();
    }
    return !isCaret(this.editor.selection()) && this.commands.run("delete");
  }

  /** Begins a step of undo that acts share until what is given is called. */
  beginStep() {
    const before = this.steps.length;
    const endStep = this.commands.beginStep();
    return () => {
      endStep();
      this.steps.join(before);
    };
  }

  /** Notes that another page takes this one's place: what was undone here isn't done again. */
  leave() {
    this.#lostRedo = this.editor.counts().redo;
  }

  /** Whether there is a step to undo, here or of what put this page here. */
  canUndo() {
    return this.#canUndoHere() || this.#pages.hasBefore;
  }

  #canUndoHere() {
    return this.steps.canUndo(this.editor.counts().undo);
  }

  /** Whether there is a step to do again, here or of what put another page here. */
  canRedo() {
    return this.#canRedoHere() || this.#pages.hasAfter;
  }

  #canRedoHere() {
    return this.editor.counts().redo > this.#lostRedo;
  }

  /** Takes a step back, and selects what was selected before it. False where there was none. */
  undo() {
    if (!this.#canUndoHere()) {
      return this.#pages.goBack(this);
    }
    const undo = () => this.editor.undo();
    return this.#selectAfter(this.steps.undo((most) => this.commands.turn(most, undo)));
  }

  /** Takes a step forth again, and selects what was selected after it. False where there was none. */
  redo() {
    if (!this.#canRedoHere()) {
      return this.#pages.goOn(this);
    }
    const redo = () => this.editor.redo();
    return this.#selectAfter(this.steps.redo((most) => this.commands.turn(most, redo)));
  }

  /** Forgets what comes after, as something new is done. */
  branch() {
    this.#lostRedo = 0;
    this.#pages.dropAfter();
  }

  /**
   * @param {import("./hedit.js").Selection | null | undefined} selection
   */
  #selectAfter(selection) {
    if (selection) {
      this.commands.selectAgain(selection);
    }
    return selection !== undefined;
  }
}
