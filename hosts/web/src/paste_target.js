/**
 * What a paste works on, for rich paste: the lines that are in the page, and commands on ranges of them.
 */
import { endAfter, isBeside, placeOf, spotOf } from "./paste_spots.js";

/** @typedef {import("./hedit.js").Editor} Editor */
/** @typedef {import("./paste_lines.js").Line} Line */
/** @typedef {import("./paste_spots.js").Spot} Spot */
/** @typedef {import("./region_commands.js").Commands} Commands */
/** @typedef {import("./region_places.js").NodePlace} NodePlace */
/** @typedef {import("./region_view.js").View} View */

/**
 * A line that is in the page: where it begins, and how many units of text, images and breaks it has.
 * @typedef {{ line: Line, spot: Spot, length: number }} Placed
 */

/**
 * A run of lines, or of pieces of them, from one on and before another.
 * @typedef {{ from: number, to: number }} Run
 */

/** The most lines that one command works on, so that none takes long. */
export const MOST_LINES = 50;

/**
 * The longest runs of numbers below a count for which a function gives the same, and not undefined.
 * @param {number} count
 * @param {(index: number) => unknown} keyOf
 * @param {(index: number) => boolean} [begins] whether a number begins a run anyway
 * @returns {Run[]}
 */
export function runsOf(count, keyOf, begins = () => false) {
  /** @type {(Run & { key: unknown })[]} */
  const runs = [];
  for (let index = 0; index < count; index += 1) {
    const [key, last] = [keyOf(index), runs.at(-1)];
    if (key === undefined) {
      continue;
    }
    if (last && last.key === key && last.to === index && !begins(index)) {
      last.to += 1;
    } else {
      runs.push({ from: index, to: index + 1, key });
    }
  }
  return runs;
}

/** What a paste works on. */
export class PasteTarget {
  /**
   * The lines that are in the page.
   * @type {Placed[]}
   */
  placed = [];

  /** Whether the lines are in a list item, so that each is one. */
  isInItem = false;

  /** @param {{ editor: Editor, view: View, commands: Commands }} session */
  constructor({ editor, view, commands }) {
    this.editor = editor;
    this.view = view;
    this.commands = commands;
  }

  get root() {
    return this.view.element;
  }

  /**
   * Executes a command on what is between two spots, or at one.
   * @param {string} name
   * @param {string} value
   * @param {Spot} from
   * @param {Spot} to
   */
  exec(name, value, from, to = from) {
    return this.execAt(name, value, placeOf(from), placeOf(to));
  }

  /**
   * @param {string} name
   * @param {string} value
   * @param {NodePlace} from
   * @param {NodePlace} to
   */
  execAt(name, value, from, to = from) {
    const anchor = this.view.point(from.node, from.offset);
    const focus = this.view.point(to.node, to.offset);
    return anchor !== null && focus !== null && this.commands.exec(name, value, { anchor, focus });
  }

  /** The place of the caret; null where nothing is selected. */
  caret() {
    const selection = this.editor.selection();
    return selection && this.view.place(selection.focus);
  }

  /** The spot of the caret. */
  caretSpot() {
    const caret = this.caret();
    return /** @type {Spot} */ (caret && spotOf(caret));
  }

  /**
   * Whether a node is in an element of certain names.
   * @param {Node} node
   * @param {RegExp} names
   */
  isIn(node, names) {
    return this.view.around(node, (each) => names.test(this.view.nameOf(each))) !== null;
  }

  /**
   * Whether something shows before a place in its block, or behind it.
   * @param {NodePlace} place
   * @param {boolean} isBefore
   */
  isBeside(place, isBefore) {
    const { root, view } = this;
    return isBeside(place, isBefore, { root, blockOf: (node) => view.blockOf(node) });
  }

  /**
   * @param {Node | null} leaf
   * @returns {leaf is Element}
   */
  isBreak(leaf) {
    return this.view.nameOf(leaf) === "br";
  }

  /** @param {Placed} placed */
  endOf({ spot, length }) {
    return endAfter(spot, length, this.root);
  }
}
