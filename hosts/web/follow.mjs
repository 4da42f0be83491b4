/**
 * A host that keeps a tree of its own and follows the editor by what changed alone.
 *
 *     node follow.mjs PATH_OF_HEDIT_WASM < PAGE
 *
 * It reads a page, executes some commands at the start of its first text, undoes and redoes them, and
 * prints the HTML that its own tree comes to, which is the editor's.
 */
import { readFile } from "node:fs/promises";
import { argv, exit, stdin, stdout } from "node:process";
import { text as textOf } from "node:stream/consumers";
import { fileURLToPath } from "node:url";
import { NodeKind, load, toUnits } from "hedit";

const VOID = new Set(
  "area base br col embed hr img input link meta source track wbr".split(" "),
);

const REFERENCES = { "&": "&amp;", "<": "&lt;", ">": "&gt;", '"': "&quot;", "\u00a0": "&nbsp;" };

const escaped = (text, pattern) => text.replace(pattern, (character) => REFERENCES[character]);

/**
 * A tree that was a page once, and follows it. It holds what went, too, as long as undo or redo may
 * bring it back.
 */
export class Tree {
  #items = new Map();

  /** What went. */
  #gone = new Map();

  /** How many of them were kept when the tree last asked. */
  #asked = 0;

  constructor(editor) {
    this.#read(editor, 0);
  }

  /** The item of a node, the one that it had or else a new one, with what the editor says of it. */
  #keep({ label, kind, name, attributes, value }) {
    const item = this.#gone.get(label) ?? { label, kind, name, parent: null, children: [] };
    this.#gone.delete(label);
    Object.assign(item, { attributes, value });
    this.#items.set(label, item);
    return item;
  }

  #read(editor, label) {
    const item = this.#keep({
      ...editor.node(label),
      name: editor.nodeName(label),
      attributes: editor.attributes(label),
      value: editor.nodeValue(label),
    });
    for (const child of editor.children(label)) {
      this.#put(this.#read(editor, child), item, null);
    }
    return item;
  }

  #put(item, parent, before) {
    const { children } = parent;
    const at = before === null ? children.length : children.indexOf(this.#items.get(before));
    children.splice(at, 0, item);
    item.parent = parent;
  }

  #take(item) {
    const { children } = item.parent;
    children.splice(children.indexOf(item), 1);
  }

  #leave(item) {
    this.#items.delete(item.label);
    this.#gone.set(item.label, item);
    item.children.forEach((child) => this.#leave(child));
    item.children = [];
    item.parent = null;
  }

  #insert({ tree, parent, before }) {
    const above = [];
    for (const node of tree) {
      const item = this.#keep(node);
      above.length = node.level;
      if (node.level > 0) {
        this.#put(item, above[node.level - 1], null);
      }
      above.push(item);
    }
    this.#put(above[0], this.#items.get(parent), before);
  }

  #followOne(change) {
    const item = this.#items.get(change.label);
    switch (change.type) {
      case "remove":
        this.#take(item);
        this.#leave(item);
        break;
      case "insert":
        this.#insert(change);
        break;
      case "move":
        this.#take(item);
        this.#put(item, this.#items.get(change.parent), change.before);
        break;
      case "replace": {
        const [at, end] = [change.at, change.at + change.taken].map((each) => toUnits(item.value, each));
        item.value = item.value.slice(0, at) + change.put + item.value.slice(end);
        break;
      }
      default:
        item.attributes = change.attributes;
    }
  }

  /** Does what changes say, one after another. */
  follow(changes) {
    changes.forEach((change) => this.#followOne(change));
  }

  /** The labels of the nodes. */
  get labels() {
    return this.#items.keys();
  }

  /** The labels of what went and is held. */
  get gone() {
    return this.#gone.keys();
  }

  /**
   * Forgets what can't come back any more. It asks once there is twice as much as it kept the last
   * time, so that it asks for each node that goes twice at most, on average.
   */
  forget(editor) {
    if (this.#gone.size <= 2 * this.#asked) {
      return;
    }
    for (const label of this.#gone.keys()) {
      if (!editor.isKept(label)) {
        this.#gone.delete(label);
      }
    }
    this.#asked = this.#gone.size;
  }

  #html({ kind, name, attributes, value, children }) {
    if (kind === NodeKind.TEXT) {
      return escaped(value, /[&<>\u00a0]/g);
    }
    if (kind === NodeKind.COMMENT) {
      return `<!--${value}-->`;
    }
    const inner = children.map((child) => this.#html(child)).join("");
    if (kind === NodeKind.DOCUMENT) {
      return inner;
    }
    const list = [...attributes].map(([key, of]) => ` ${key}="${escaped(of, /[&<>"\u00a0]/g)}"`);
    return `<${name}${list.join("")}>${inner}${VOID.has(name) ? "" : `</${name}>`}`;
  }

  /** The HTML of the tree, as the editor prints it. */
  html() {
    return `${this.#html(this.#items.get(0))}\n`;
  }
}

/** Returns the label of the first text node from a node on that doesn't begin with whitespace. */
function firstText(editor, label = 0) {
  if (editor.node(label).kind === NodeKind.TEXT && /^[^ \t\r\n]/.test(editor.nodeValue(label))) {
    return label;
  }
  for (const child of editor.children(label)) {
    const found = firstText(editor, child);
    if (found !== undefined) {
      return found;
    }
  }
  return undefined;
}

/** Follows some commands, and says whether the tree is the page. */
async function main() {
  const engine = await load(await readFile(argv[2]));
  const editor = engine.open(await textOf(stdin));
  const tree = new Tree(editor);
  let seen = editor.revision();
  const label = firstText(editor);
  if (label !== undefined) {
    editor.select({ label, offset: 0 }, { label, offset: 1 });
  }
  const calls = [
    () => editor.exec("bold"),
    () => editor.exec("insertText", "Hello"),
    () => editor.exec("insertParagraph"),
    () => editor.undo(),
    () => editor.undo(),
    () => editor.redo(),
  ];
  for (const call of calls) {
    call();
    if (editor.revision() !== seen) {
      seen = editor.revision();
      tree.follow(editor.changes());
      tree.forget(editor);
    }
  }
  stdout.write(tree.html());
  return tree.html() === editor.html();
}

if (argv[1] === fileURLToPath(import.meta.url)) {
  exit((await main()) ? 0 : 1);
}
