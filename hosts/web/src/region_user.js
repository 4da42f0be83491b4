/** What the user of a region does by keys, inputs and the clipboard, for region.js. */
import { askedByStart, autoformat } from "./region_autoformat.js";
import { INPUTS, namesOf } from "./region_command_table.js";
import { selectForward } from "./region_deletion.js";
import { SurrogatePairs, isOfBrowser, textOf } from "./region_input.js";
import { keyOf } from "./region_keymap.js";
import { isCaret } from "./region_nodes.js";

/** @typedef {import("./hedit.js").Selection} Selection */
/** @typedef {import("./region_command_table.js").Asked} Asked */
/** @typedef {import("./region_keymap.js").Keys} Keys */
/** @typedef {import("./region_session.js").Session} Session */

/**
 * What of a region the acts of its user need.
 * @typedef {object} Acts
 * @property {() => Session} session
 * @property {() => boolean} isEditable
 * @property {(...names: string[]) => boolean} isDenied
 * @property {(call: () => boolean) => boolean} act does something as one step of undo
 * @property {(command: string, value?: string) => boolean} exec
 * @property {(command: string, reason: "denied" | "impossible" | "unknown", text?: string) => void}
 *   refuse tells that something isn't done
 * @property {() => void} read selects what the page shows as selected
 * @property {() => void} reveal scrolls to where the selection is
 * @property {(call: (region: import("./region.js").Region) => boolean) => boolean} run calls a
 *   function of the host
 */

/** The user of a region. */
export class User {
  #acts;

  #keys;

  /** Whether Escape was pressed last, after which Tab goes to the browser. */
  #isLeaving = false;

  /** Whether the key that is down is turned off. */
  #isKeyOff = false;

  #pairs = new SurrogatePairs();

  /**
   * @param {Acts} acts
   * @param {Keys} keys
   */
  constructor(acts, keys) {
    this.#acts = acts;
    this.#keys = keys;
  }

  get #session() {
    return this.#acts.session();
  }

  /** @param {KeyboardEvent} event */
  keyDown(event) {
    const action = this.#isLeft(event) ? undefined : this.#keys.actionOf(event);
    this.#isKeyOff = action === null;
    if (typeof action === "string" && this.#acts.isEditable()) {
      event.preventDefault();
      this.#execute(action);
    } else if (typeof action === "function" && this.#acts.run(action)) {
      event.preventDefault();
      this.#acts.reveal();
    }
  }

  /**
   * Whether a key is left to the browser: after Escape, Tab leaves the region anywhere.
   * @param {KeyboardEvent} event
   */
  #isLeft(event) {
    const key = keyOf(event);
    const isEscape = key === "Escape" && !event.isComposing && !event.defaultPrevented;
    const isLeft = this.#isLeaving && key === "Tab";
    this.#isLeaving = isEscape || (this.#isLeaving && key === "Shift");
    return isLeft;
  }

  keyUp() {
    this.#isKeyOff = false;
  }

  /** @param {string} command */
  #execute(command) {
    if (this.#acts.isDenied(command)) {
      this.#acts.refuse(command, "denied");
    } else {
      this.#acts.exec(command);
      this.#acts.reveal();
    }
  }

  /**
   * What an input method composes is the browser's until it ends, and all else is the engine's.
   * @param {InputEvent} event
   */
  input(event) {
    if (isOfBrowser(event)) {
      return;
    }
    event.preventDefault();
    if (this.#isKeyOff && /^(?:format|history)/.test(event.inputType)) {
      return;
    }
    const text = textOf(event);
    const asked = INPUTS.get(event.inputType);
    if (!asked) {
      this.#acts.refuse(event.inputType, "unknown");
    } else if (this.#acts.isDenied(...namesOf(asked.command))) {
      this.#acts.refuse(asked.command, "denied", asked.command === "insertText" ? text : "");
    } else if (this.#acts.isEditable()) {
      this.#answer(event, asked, text);
    }
    this.#acts.reveal();
  }

  /**
   * @param {InputEvent} event
   * @param {Asked} asked
   * @param {string} text
   */
  #answer(event, { command, answer }, text) {
    switch (answer) {
      case "execute":
        this.#acts.exec(command, text);
        break;
      case "insert":
        this.#insert(event, text);
        break;
      case "replace":
        this.#acts.act(() => this.#replace(event, text));
        break;
      case "delete":
        this.#acts.act(() => this.#delete(event, command));
        break;
      default:
        this.#acts.act(() => this.#deleteRange(event, answer === "deleteFrom"));
    }
  }

  /**
   * @param {InputEvent} event
   * @param {string} text
   */
  #insert(event, text) {
    const whole = this.#pairs.join(text);
    const isDone = this.#acts.act(() => {
      this.#selectTarget(event, false);
      return whole !== "" && this.#session.commands.type(whole);
    });
    if (isDone && whole === " ") {
      this.#autoformat();
    } else if (!isDone && whole !== "") {
      this.#acts.refuse("insertText", "impossible", whole);
    } else if (text === "") {
      // As where a file is pasted.
      this.#acts.refuse(event.inputType, "unknown");
    }
  }

  /** Makes a list or a quotation where one is typed, as a step of its own: undo gives the text back. */
  #autoformat() {
    const { commands } = this.#session;
    const asked = commands.has("autoformat") ? askedByStart(commands) : null;
    if (asked && !this.#acts.isDenied(asked.command)) {
      this.#acts.act(() => autoformat(commands, asked));
    }
  }

  /**
   * Puts a text in place of the range that an input names, or of what is selected.
   * @param {InputEvent} event
   * @param {string} text
   */
  #replace(event, text) {
    const range = this.#target(event) ?? this.#session.editor.selection();
    return range !== null && text !== "" && this.#session.commands.replace(range, text);
  }

  /**
   * Deletes what is selected, or at a caret what stands beside it. The browser knows what that is
   * behind a caret at the end of a text.
   * @param {InputEvent} event
   * @param {string} command
   */
  #delete(event, command) {
    const { commands } = this.#session;
    const isForward = command === "forwardDelete";
    return isForward && !selectForward(commands)
      ? this.#deleteRange(event, false)
      : commands.run("delete");
  }

  /**
   * Deletes what an input names, or what is selected.
   * @param {InputEvent} event
   * @param {boolean} isAimed
   */
  #deleteRange(event, isAimed) {
    const isSelected = this.#selectTarget(event, isAimed) || !isCaret(this.#session.editor.selection());
    return isSelected && this.#session.commands.run("delete");
  }

  /**
   * Selects the range that an input names. That of the selection may be another that looks the same,
   * so it is taken only where the input is aimed at it, or where it isn't empty and the selection is.
   * @param {InputEvent} event
   * @param {boolean} isAimed
   */
  #selectTarget(event, isAimed) {
    const isMeant = isAimed || isCaret(this.#session.editor.selection());
    const range = isMeant ? this.#target(event) : null;
    if (!range || (!isAimed && isCaret(range))) {
      return false;
    }
    this.#session.commands.select(range);
    return true;
  }

  /**
   * The range that an input names, as points; null where it names none in the element.
   * @param {InputEvent} event
   * @returns {Selection | null}
   */
  #target(event) {
    const [range] = event.getTargetRanges();
    const anchor = range && this.#session.view.point(range.startContainer, range.startOffset);
    const focus = range && this.#session.view.point(range.endContainer, range.endOffset);
    return anchor && focus ? { anchor, focus } : null;
  }
}
