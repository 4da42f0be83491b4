/**
 * What a browser changed in a page by itself, for region.js: read back as commands. Input methods,
 * spelling and others do that.
 */
import { difference, isText } from "./region_nodes.js";

/** @typedef {import("./hedit.js").Editor} Editor */
/** @typedef {import("./region_commands.js").Commands} Commands */
/** @typedef {import("./region_selection.js").Selections} Selections */
/** @typedef {import("./region_view.js").View} View */

/**
 * What writes a change into the engine, and the command that it comes to.
 * @typedef {{ readonly command: "insertText" | "delete", readonly call: () => boolean }} Write
 */

/** Reads what a browser changed in the nodes of a view. */
export class Readback {
  #editor;

  #view;

  #commands;

  #selections;

  /**
   * @param {Editor} editor
   * @param {View} view
   * @param {Commands} commands
   * @param {Selections} selections
   */
  constructor(editor, view, commands, selections) {
    this.#editor = editor;
    this.#view = view;
    this.#commands = commands;
    this.#selections = selections;
  }

  /**
   * What writes the changes into the engine; null where they aren't such that it can have them.
   * @param {readonly MutationRecord[]} records
   * @param {string | null} composed what an input method gave, where one did it
   * @returns {Write | null}
   */
  writeOf(records, composed) {
    return this.#changeOfText(records) ?? this.#composedElsewhere(records, composed);
  }

  /**
   * What writes the change where the browser changed one text, and nothing else but attributes; null
   * where it did something else.
   * @param {readonly MutationRecord[]} records
   * @returns {Write | null}
   */
  #changeOfText(records) {
    const inTexts = records.filter(({ type }) => type !== "attributes");
    const [text, ...others] = new Set(inTexts.map(({ target }) => target));
    const label = isText(text) ? this.#view.label(text) : undefined;
    if (!isText(text) || others.length > 0 || label === undefined || !this.#view.nearest(text)) {
      return null;
    }
    const [old, now] = [this.#editor.nodeValue(label), text.data];
    const { anchor, focus } = this.#selections.ends() ?? {};
    const isThere = focus?.node === text && anchor?.node === text && focus.offset === anchor.offset;
    const change = difference(old, now, isThere ? now.length - focus.offset : undefined);
    const shown = this.#selections.points();
    const command = change.put === "" && change.start < change.end ? "delete" : "insertText";
    return { command, call: () => this.#commands.takeOver(text, change, shown) };
  }

  /**
   * What writes what an input method did otherwise than in one text: a text of its own, or else what
   * it gave, so that no word is lost where something else changed meanwhile.
   * @param {readonly MutationRecord[]} records
   * @param {string | null} composed
   * @returns {Write | null}
   */
  #composedElsewhere(records, composed) {
    if (composed === null) {
      return null;
    }
    const typed = composed === "" ? null : () => this.#commands.type(composed);
    const call = this.#newText(records) ?? typed;
    return call && { command: "insertText", call };
  }

  /**
   * What writes a text that an input method began where there was none; null where it did something
   * else.
   * @param {readonly MutationRecord[]} records
   * @returns {(() => boolean) | null}
   */
  #newText(records) {
    const added = new Set(records.flatMap(({ addedNodes }) => [...addedNodes]));
    const there = [...added].filter((node) => this.#view.element.contains(node));
    const [text, ...others] = there.filter((node) => this.#view.label(node) === undefined);
    if (!isText(text) || text.length === 0 || others.some((node) => node.nodeName !== "BR")) {
      return null;
    }
    const { data } = text;
    const isThere = this.#selections.ends()?.focus.node === text;
    const shown = isThere ? null : this.#selections.points();
    return () => {
      const isDone = this.#commands.type(data);
      if (shown) {
        this.#commands.selectAgain(shown);
      }
      return isDone;
    };
  }
}
