/**
 * The changes of the document by a call, by the labels of nodes.
 */

import { NodeKind } from "./hedit_constants.js";

/**
 * A node of an inserted tree, with its level below the root of the tree. An element has a name and
 * attributes, a text node and a comment have a value.
 * @typedef {{
 *   readonly level: number,
 *   readonly label: number,
 *   readonly kind: NodeKind,
 *   readonly name: string,
 *   readonly attributes: Map<string, string>,
 *   readonly value: string,
 * }} TreeNode
 */

/**
 * A change. `remove`: a node is removed, with its tree. `insert`: a tree, whose nodes are in tree
 * order, is inserted before a child of the parent, or at its end if `before` is null. `move`: a node
 * is moved, with its tree. `replace`: in a text node or a comment, `put` replaces `taken` characters
 * from the offset `at` on. `attributes`: an element has another list of attributes.
 * @typedef {{ readonly type: "remove", readonly label: number }
 *   | { readonly type: "insert", readonly tree: readonly TreeNode[], readonly parent: number,
 *       readonly before: number | null }
 *   | { readonly type: "move", readonly label: number, readonly parent: number,
 *       readonly before: number | null }
 *   | { readonly type: "replace", readonly label: number, readonly at: number,
 *       readonly taken: number, readonly put: string }
 *   | { readonly type: "attributes", readonly label: number,
 *       readonly attributes: Map<string, string> }} Change
 */

const NO_NODE = 0xffffffff;
const decoder = new TextDecoder("utf-8", { ignoreBOM: true });

/**
 * Reads packed changes: numbers of eight bytes, the lowest first, and texts after the count of their
 * bytes.
 */
class Reader {
  #bytes;
  #view;
  #at = 0;

  /** @param {Uint8Array} bytes */
  constructor(bytes) {
    this.#bytes = bytes;
    this.#view = new DataView(bytes.buffer, bytes.byteOffset, bytes.byteLength);
  }

  #number() {
    const low = this.#view.getUint32(this.#at, true);
    const high = this.#view.getUint32(this.#at + 4, true);
    this.#at += 8;
    return high * 0x100000000 + low;
  }

  #labelOrNull() {
    const label = this.#number();
    return label === NO_NODE ? null : label;
  }

  #text() {
    const length = this.#number();
    const begin = this.#at;
    this.#at += length;
    return decoder.decode(this.#bytes.subarray(begin, this.#at));
  }

  #attributes() {
    const attributes = new Map();
    for (let left = this.#number(); left > 0; left -= 1) {
      const name = this.#text();
      attributes.set(name, this.#text());
    }
    return attributes;
  }

  /** @returns {TreeNode} */
  #node() {
    const level = this.#number();
    const label = this.#number();
    const kind = /** @type {NodeKind} */ (this.#number());
    const isElement = kind === NodeKind.ELEMENT;
    return {
      level,
      label,
      kind,
      name: isElement ? this.#text() : "",
      attributes: isElement ? this.#attributes() : new Map(),
      value: isElement || kind === NodeKind.DOCUMENT ? "" : this.#text(),
    };
  }

  #tree() {
    const tree = [];
    for (let left = this.#number(); left > 0; left -= 1) tree.push(this.#node());
    return tree;
  }

  /** @returns {Change} */
  #change() {
    const number = this.#number();
    switch (number) {
      case 1:
        return { type: "remove", label: this.#number() };
      case 2: {
        const parent = this.#number();
        const before = this.#labelOrNull();
        return { type: "insert", parent, before, tree: this.#tree() };
      }
      case 3: {
        const label = this.#number();
        const parent = this.#number();
        return { type: "move", label, parent, before: this.#labelOrNull() };
      }
      case 4: {
        const label = this.#number();
        const at = this.#number();
        const taken = this.#number();
        return { type: "replace", label, at, taken, put: this.#text() };
      }
      case 5: {
        const label = this.#number();
        return { type: "attributes", label, attributes: this.#attributes() };
      }
      default:
        throw new RangeError(`unknown change ${number}`);
    }
  }

  /** Returns all changes, in their order. */
  changes() {
    const changes = [];
    while (this.#at < this.#bytes.length) changes.push(this.#change());
    return changes;
  }
}

/**
 * Returns the changes that the engine packed into bytes.
 * @param {Uint8Array} bytes
 * @returns {Change[]}
 */
export const readChanges = (bytes) => new Reader(bytes).changes();
