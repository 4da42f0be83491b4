/**
 * The records that calls of the engine write: points, nodes and counts.
 */

/** @typedef {import("./hedit_constants.js").NodeKind} NodeKind */
/** @typedef {import("./hedit_text.js").Text} Text */

/**
 * A path of child indexes from the document down, and an offset in children or in characters.
 * @typedef {{ readonly path: readonly number[], readonly offset: number }} Place
 */

/**
 * The label of a node, and an offset in it.
 * @typedef {{ readonly label: number, readonly offset: number }} Point
 */

/** @typedef {{ readonly anchor: Point, readonly focus: Point }} Selection */

/**
 * A named range, which follows the edits. The name is bytes if it isn't UTF-8.
 * @typedef {{ readonly name: Text, readonly anchor: Point, readonly focus: Point }} Mark
 */

/**
 * A node, with the labels of the nodes next to it, or null. `length` counts the characters of a text
 * node or a comment, and the children of others.
 * @typedef {{
 *   readonly label: number,
 *   readonly kind: NodeKind,
 *   readonly length: number,
 *   readonly parent: number | null,
 *   readonly firstChild: number | null,
 *   readonly lastChild: number | null,
 *   readonly previous: number | null,
 *   readonly next: number | null,
 * }} Node
 */

/**
 * The counts of a document and of its history: nodes, the label of the next node, characters of text
 * nodes, edits of the step that undo would take, and steps that can be undone and redone.
 * @typedef {{
 *   readonly nodes: number,
 *   readonly nextLabel: number,
 *   readonly chars: number,
 *   readonly edits: number,
 *   readonly undo: number,
 *   readonly redo: number,
 * }} Counts
 */

/** The label in the place of a missing node. */
const NO_NODE = 0xffff_ffff;

/**
 * @param {DataView} data
 * @param {number} at
 */
export function readNumber(data, at) {
  return data.getUint32(at, true);
}

/**
 * @param {DataView} data
 * @param {number} at
 */
function readLabel(data, at) {
  const label = readNumber(data, at);
  return label === NO_NODE ? null : label;
}

/**
 * @param {DataView} data
 * @param {number} at
 * @returns {Point}
 */
export function readPoint(data, at) {
  return { label: readNumber(data, at), offset: readNumber(data, at + 4) };
}

/**
 * @param {DataView} data
 * @param {number} at
 * @returns {Selection}
 */
export function readSelection(data, at) {
  return { anchor: readPoint(data, at), focus: readPoint(data, at + 8) };
}

/**
 * Returns whether a place is a point.
 * @param {Place | Point} place
 * @returns {place is Point}
 */
export function isPoint(place) {
  return "label" in place;
}

/**
 * @param {DataView} data
 * @param {number} at
 * @returns {Counts}
 */
export function readCounts(data, at) {
  return {
    nodes: data.getUint32(at, true),
    nextLabel: data.getUint32(at + 4, true),
    chars: Number(data.getBigUint64(at + 8, true)),
    edits: Number(data.getBigUint64(at + 16, true)),
    undo: Number(data.getBigUint64(at + 24, true)),
    redo: Number(data.getBigUint64(at + 32, true)),
  };
}

/**
 * Reads the node of a label.
 * @param {number} label
 * @param {DataView} data
 * @param {number} at
 * @returns {Node}
 */
export function readNode(label, data, at) {
  return {
    label,
    kind: /** @type {NodeKind} */ (data.getUint32(at, true)),
    length: data.getUint32(at + 4, true),
    parent: readLabel(data, at + 8),
    firstChild: readLabel(data, at + 12),
    lastChild: readLabel(data, at + 16),
    previous: readLabel(data, at + 20),
    next: readLabel(data, at + 24),
  };
}
