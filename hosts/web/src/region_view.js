/**
 * The nodes of a page that show those of an editor, for region.js: a node for each label. What an
 * element isn't shown as is kept here, so that the page can be printed. Here is also all that converts
 * the offsets of the page, in UTF-16 units, and those of the engine, in characters.
 */
import { EngineStopped, NodeKind, toCharacters, toUnits } from "./hedit.js";
import { difference, isBlock, isCharacters, isElement, isInside, isText } from "./region_nodes.js";
import { print } from "./region_print.js";
import { VOIDS, isBlockName } from "./shown.js";

/** @typedef {import("./hedit.js").Change} Change */
/** @typedef {import("./hedit.js").Editor} Editor */
/** @typedef {import("./hedit.js").Point} Point */
/** @typedef {import("./hedit.js").Selection} Selection */
/** @typedef {import("./hedit.js").TreeNode} TreeNode */
/** @typedef {import("./region_print.js").Content} Content */
/** @typedef {import("./region_shown.js").Shown} Shown */

/** From how many changes on it is worth to have the browser look at all of them at once. */
const MANY_CHANGES = 100;

/** From how many changes on the engine isn't asked for them. */
const MOST_CHANGES = 5_000;

/** @type {Content} */
const NO_CONTENT = { name: "", attributes: new Map() };

/** Blocks in which a caret can't stand by itself. */
const WHOLE = new Set(["hr", "table", "tbody", "thead", "tfoot", "tr"]);

/**
 * What is shown of a comment: as many blanks, since scripts of the page read comments.
 * @param {string} value
 */
function blanksOf(value) {
  return " ".repeat(toCharacters(value, value.length));
}

/** The nodes of an element that show those of an editor. */
export class View {
  #editor;

  #element;

  #root;

  /** @type {Map<number, Node>} */
  #nodes = new Map();

  /** @type {WeakMap<Node, number>} */
  #labels = new WeakMap();

  /**
   * The editor's revision that the page shows; null before the first one.
   * @type {number | null}
   */
  #seen = null;

  #shown;

  /**
   * What the engine has of each element, and the characters of each comment.
   * @type {Map<number, Content | string>}
   */
  #contents = new Map();

  /**
   * @param {Editor} editor
   * @param {HTMLElement} element
   * @param {number} root the label of the node whose children are the element's
   * @param {Shown} shown
   */
  constructor(editor, element, root, shown) {
    this.#editor = editor;
    this.#element = element;
    this.#root = root;
    this.#shown = shown;
    this.#keep(root, element);
  }

  get root() {
    return this.#root;
  }

  get element() {
    return this.#element;
  }

  /**
   * @param {number} label
   * @param {Node} node
   */
  #keep(label, node) {
    this.#nodes.set(label, node);
    this.#labels.set(node, label);
    return node;
  }

  /**
   * The label of a node, and undefined where it shows none.
   * @param {Node} node
   */
  label(node) {
    const label = /** @type {number} */ (this.#labels.get(node));
    return this.#nodes.get(label) === node ? label : undefined;
  }

  /**
   * What the engine has of an element, or the characters of a comment; undefined where a node shows
   * neither.
   * @param {Node} node
   */
  #contentOf(node) {
    return this.#contents.get(this.label(node) ?? -1);
  }

  /**
   * The engine's name of an element, whatever shows it; an empty text for other nodes.
   * @param {Node | null | undefined} node
   */
  nameOf(node) {
    const content = node ? this.#contentOf(node) : undefined;
    return typeof content === "object" ? content.name : "";
  }

  /**
   * Whether a node is a link to somewhere.
   * @param {Node} node
   */
  isLink(node) {
    const content = this.#contentOf(node);
    return typeof content === "object" && content.name === "a" && content.attributes.has("href");
  }

  /**
   * The innermost element of a kind that is a node or that it stands in; null where there is none in
   * the view.
   * @param {Node | null} node
   * @param {(node: Node) => boolean} isWanted
   * @returns {HTMLElement | null}
   */
  around(node, isWanted) {
    for (let at = node; at && at !== this.#element; at = at.parentNode) {
      if (isElement(at) && isWanted(at)) {
        return at;
      }
    }
    return null;
  }

  /**
   * The first list in an item.
   * @param {Element} item
   */
  listIn(item) {
    return [...item.querySelectorAll("*")].find((each) => /^[uo]l$/.test(this.nameOf(each)));
  }

  /** The page as HTML, or what is in the element: as the page shows it, without the engine. */
  html() {
    return print(this.#element, (node) => this.#contentOf(node));
  }

  /**
   * The label of the innermost node of the view that is a node of the page or that it stands in;
   * undefined where it stands elsewhere.
   * @param {Node} node
   */
  nearest(node) {
    if (!this.#element.contains(node)) {
      return undefined;
    }
    let at = node;
    while (this.label(at) === undefined) {
      at = /** @type {Node} */ (at.parentNode);
    }
    return this.label(at);
  }

  /**
   * The node that shows a label; undefined where the document has no such node.
   * @param {number} label
   */
  node(label) {
    return this.#nodes.get(label);
  }

  /**
   * The engine's point of a place in the page; null where it isn't in the element. A place in a node
   * that shows none of the engine's, or nothing that stands in it, is just before it, and one in a rule
   * behind it: there Firefox puts a caret that comes to a rule.
   * @param {Node | null} node
   * @param {number} offset
   * @returns {Point | null}
   */
  point(node, offset) {
    if (!node || !this.#element.contains(node)) {
      return null;
    }
    let [at, units] = [node, offset];
    let label = this.label(at);
    while (label === undefined || VOIDS.has(this.nameOf(at))) {
      const parent = /** @type {Node} */ (at.parentNode);
      units = [...parent.childNodes].indexOf(/** @type {ChildNode} */ (at));
      units += Number(this.nameOf(at) === "hr");
      at = parent;
      label = this.label(at);
    }
    if (!isCharacters(at)) {
      return { label, offset: Math.min(units, this.#editor.node(label).length) };
    }
    const whole = units - Number(isInside(at.data, units));
    return { label, offset: toCharacters(at.data, whole) };
  }

  /**
   * The place in the page of a point of the engine's.
   * @param {Point} point
   */
  place({ label, offset }) {
    const node = this.#nodes.get(label);
    if (!node) {
      return { node: /** @type {Node} */ (this.#element), offset: 0 };
    }
    return { node, offset: isCharacters(node) ? toUnits(node.data, offset) : offset };
  }

  /**
   * A selection of the engine's as it is read back where the page shows it.
   * @param {Selection} selection
   * @returns {Selection}
   */
  shown({ anchor, focus }) {
    const [from, to] = [anchor, focus].map((point) => {
      const { node, offset } = this.place(point);
      return this.point(node, offset) ?? point;
    });
    return { anchor: from, focus: to };
  }

  /**
   * A caret between blocks, put into the block behind it, or at the end into the one before it: that
   * is where a browser shows it.
   * @param {Selection} caret
   * @returns {Selection}
   */
  inBlock(caret) {
    let { node, offset } = this.place(caret.focus);
    for (;;) {
      const isLast = offset > 0 && offset === node.childNodes.length;
      const child = node.childNodes[isLast ? offset - 1 : offset];
      if (!child || !this.#holdsCaret(child)) {
        break;
      }
      [node, offset] = [child, isLast ? child.childNodes.length : 0];
    }
    const point = this.point(node, offset) ?? caret.focus;
    return { anchor: point, focus: point };
  }

  /**
   * Whether a caret may stand in a node that holds lines.
   * @param {Node} node
   */
  #holdsCaret(node) {
    const name = this.nameOf(node);
    const isOpen = isElement(node) && node.isContentEditable;
    return isOpen && isBlockName(name) && !WHOLE.has(name);
  }

  /**
   * Takes the nodes of the element for the engine's that they are like, each up to the first child that
   * is of another kind, so that they stay.
   */
  adopt() {
    this.#adoptFrom(this.#editor.node(this.#root).firstChild, this.#element.firstChild);
  }

  /**
   * @param {number | null} label
   * @param {Node | null} node
   */
  #adoptFrom(label, node) {
    while (label !== null && node) {
      const { kind, firstChild, next } = this.#editor.node(label);
      const hasName = kind === NodeKind.ELEMENT;
      if (node.nodeType !== kind || (hasName && !this.#isNamed(label, node))) {
        return;
      }
      this.#keep(label, node);
      this.#adoptFrom(firstChild, node.firstChild);
      [label, node] = [next, node.nextSibling];
    }
  }

  /**
   * Whether an element has the name of the engine's of a label.
   * @param {number} label
   * @param {Node} node
   */
  #isNamed(label, node) {
    return isElement(node) && node.localName === this.#shown.nameOf(this.#read(label));
  }

  /**
   * What the engine has of an element.
   * @param {number} label
   * @returns {Content}
   */
  #read(label) {
    return { name: this.#editor.nodeName(label), attributes: this.#editor.attributes(label) };
  }

  /**
   * Does to the page what the engine's last call changed, and looks at nothing else. At first, and
   * where a call was missed or its changes can't be had, the two are compared. Says whether the
   * engine's page is another one.
   * @param {number} edits about how many edits the call made: to be told of very many takes longer than
   *   to compare
   */
  follow(edits = 0) {
    const [seen, now] = [this.#seen, this.#editor.revision()];
    if (now === seen) {
      return false;
    }
    const isKnown = seen !== null && now === seen + 1 && edits < MOST_CHANGES;
    if (!isKnown || !this.#replay()) {
      this.mend(this.#root);
    }
    this.#seen = now;
    return true;
  }

  /** Does the engine's last changes to the page; false where that doesn't work. */
  #replay() {
    try {
      const changes = this.#editor.changes();
      const resume = changes.length > MANY_CHANGES ? this.#rest() : null;
      try {
        changes.forEach((change) => this.#followOne(change));
      } finally {
        resume?.();
      }
      return true;
    } catch (error) {
      if (error instanceof EngineStopped) {
        throw error;
      }
      return false;
    }
  }

  /**
   * Has the element that is edited be edited no more, and gives what has it be edited again: Firefox
   * tells the input method of each change in it, which takes as long as what stands before.
   */
  #rest() {
    const root = /** @type {Document | ShadowRoot} */ (this.#element.getRootNode());
    const host = root.activeElement ?? null;
    const name = "contenteditable";
    const value = this.#element.contains(host) ? host?.getAttribute(name) : null;
    if (typeof value !== "string" || !navigator.userAgent.includes("Gecko/")) {
      return null;
    }
    host?.removeAttribute(name);
    return () => host?.setAttribute(name, value);
  }

  /** @param {Change} change */
  #followOne(change) {
    switch (change.type) {
      case "remove": {
        const node = /** @type {ChildNode} */ (this.#node(change.label));
        node.remove();
        this.#forget(node);
        break;
      }
      case "insert":
        this.#put(this.#grow(change.tree), change.parent, change.before);
        break;
      case "move":
        this.#put(this.#node(change.label), change.parent, change.before);
        break;
      case "replace":
        this.#replace(change.label, change.at, change.taken, change.put);
        break;
      default: {
        const { name } = /** @type {Content} */ (this.#contents.get(change.label));
        this.#updateElement(change.label, { name, attributes: change.attributes });
      }
    }
  }

  /**
   * The node that shows a label that the engine has.
   * @param {number} label
   */
  #node(label) {
    return /** @type {Node} */ (this.#nodes.get(label));
  }

  /**
   * @param {Node} node
   * @param {number} parent
   * @param {number | null} before
   */
  #put(node, parent, before) {
    this.#node(parent).insertBefore(node, before === null ? null : this.#node(before));
  }

  /**
   * Makes the nodes of a tree, and gives its root.
   * @param {readonly TreeNode[]} tree
   */
  #grow(tree) {
    /** @type {Node[]} */
    const above = [];
    for (const { level, label, kind, name, attributes, value } of tree) {
      const node = this.#make(label, kind, { name, attributes }, value);
      above.length = level;
      above.at(-1)?.appendChild(node);
      above.push(node);
    }
    return above[0];
  }

  /**
   * @param {number} label
   * @param {number} at
   * @param {number} taken
   * @param {string} put
   */
  #replace(label, at, taken, put) {
    const node = /** @type {CharacterData} */ (this.#node(label));
    const content = this.#contents.get(label);
    const old = typeof content === "string" ? content : node.data;
    const [start, end] = [at, at + taken].map((offset) => toUnits(old, offset));
    if (typeof content === "string") {
      this.#contents.set(label, old.slice(0, start) + put + old.slice(end));
      node.replaceData(at, taken, blanksOf(put));
    } else {
      node.replaceData(start, end - start, put);
    }
  }

  /**
   * Makes the page what the engine's nodes are, from the node of a label down, whatever the browser
   * did to it. What doesn't differ isn't touched.
   * @param {number} label
   */
  mend(label) {
    /** @type {Set<Node>} */
    const gone = new Set();
    if (this.#nodes.has(label)) {
      this.#update(label, gone);
    }
    for (const node of gone) {
      if (!this.#element.contains(node)) {
        this.#forget(node);
      }
    }
  }

  /**
   * The innermost block that is a node or that it stands in.
   * @param {Node} node
   */
  blockOf(node) {
    let at = node;
    while (at !== this.#element && !isBlock(at)) {
      at = /** @type {Node} */ (at.parentNode);
    }
    return at;
  }

  /**
   * The node of a label as the engine has it.
   * @param {number} label
   * @param {Set<Node>} gone
   */
  #update(label, gone) {
    const known = this.#nodes.get(label);
    const node = known ?? this.#copy(label);
    if (isCharacters(node)) {
      if (known) {
        this.#updateCharacters(label, node);
      }
      return node;
    }
    const isOwn = known && known !== this.#element;
    const element = isOwn ? this.#updateElement(label, this.#read(label)) : node;
    this.#updateChildren(element, [...this.#editor.children(label)], gone);
    return element;
  }

  /**
   * @param {number} label
   * @param {CharacterData} node
   */
  #updateCharacters(label, node) {
    const value = this.#editor.nodeValue(label);
    if (!isText(node)) {
      this.#contents.set(label, value);
    }
    this.#updateData(node, isText(node) ? value : blanksOf(value));
  }

  /** @param {number} label */
  #copy(label) {
    const { kind } = this.#editor.node(label);
    return kind === NodeKind.ELEMENT
      ? this.#make(label, kind, this.#read(label), "")
      : this.#make(label, kind, NO_CONTENT, this.#editor.nodeValue(label));
  }

  /**
   * The node that shows a label, without children.
   * @param {number} label
   * @param {number} kind
   * @param {Content} content that of an element
   * @param {string} value that of another node
   * @returns {Node}
   */
  #make(label, kind, content, value) {
    const page = this.#element.ownerDocument;
    if (kind === NodeKind.ELEMENT) {
      this.#contents.set(label, content);
      const element = page.createElement(this.#shown.nameOf(content));
      this.#updateAttributes(element, content);
      return this.#keep(label, element);
    }
    if (kind === NodeKind.TEXT) {
      return this.#keep(label, page.createTextNode(value));
    }
    this.#contents.set(label, value);
    return this.#keep(label, page.createComment(blanksOf(value)));
  }

  /**
   * The element of a label, with what the engine has of it now: another one where it is shown by
   * another name now.
   * @param {number} label
   * @param {Content} content
   */
  #updateElement(label, content) {
    const element = /** @type {HTMLElement} */ (this.#node(label));
    if (element.localName === this.#shown.nameOf(content)) {
      this.#contents.set(label, content);
      this.#updateAttributes(element, content);
      return element;
    }
    const other = /** @type {HTMLElement} */ (this.#make(label, NodeKind.ELEMENT, content, ""));
    other.append(...element.childNodes);
    element.replaceWith(other);
    return other;
  }

  /**
   * Shows again all elements of a kind, as where what is shown of them has changed.
   * @param {(content: Content) => boolean} isWanted
   */
  refresh(isWanted) {
    for (const [label, content] of this.#contents) {
      if (typeof content === "object" && isWanted(content)) {
        this.#updateElement(label, content);
      }
    }
  }

  /**
   * Only the characters that differ are replaced, so that what the browser has on the others stays.
   * @param {CharacterData} node
   * @param {string} data
   */
  #updateData(node, data) {
    if (node.data === data) {
      return;
    }
    const { start, end, put } = difference(node.data, data);
    node.replaceData(start, end - start, put);
  }

  /**
   * A style is set as a property: a content security policy may refuse the attribute.
   * @param {HTMLElement} node
   * @param {Content} content
   */
  #updateAttributes(node, content) {
    const shown = this.#shown.attributesOf(content);
    for (const extra of node.getAttributeNames().filter((name) => !shown.has(name))) {
      node.removeAttribute(extra);
    }
    for (const [name, value] of shown) {
      if (node.getAttribute(name) === value) {
        continue;
      }
      if (name === "style") {
        node.style.cssText = value;
      } else {
        node.setAttribute(name, value);
      }
    }
  }

  /**
   * @param {Node} parent
   * @param {readonly number[]} labels
   * @param {Set<Node>} gone
   */
  #updateChildren(parent, labels, gone) {
    const staying = new Set(labels);
    let at = this.#staying(parent.firstChild, staying, gone);
    for (const label of labels) {
      const node = this.#update(label, gone);
      if (node === at) {
        at = this.#staying(node.nextSibling, staying, gone);
      } else {
        parent.insertBefore(node, at);
      }
    }
  }

  /**
   * The first of a node and its later siblings that shows one of these labels. Those before it are
   * taken out.
   * @param {ChildNode | null} node
   * @param {ReadonlySet<number>} labels
   * @param {Set<Node>} gone
   */
  #staying(node, labels, gone) {
    let at = node;
    while (at && !labels.has(/** @type {number} */ (this.label(at)))) {
      const next = at.nextSibling;
      at.remove();
      gone.add(at);
      at = next;
    }
    return at;
  }

  /**
   * Forgets a node that went, and what went with it.
   * @param {Node} node
   */
  #forget(node) {
    const label = this.label(node);
    if (label !== undefined) {
      this.#nodes.delete(label);
      this.#contents.delete(label);
    }
    for (const child of node.childNodes) {
      this.#forget(child);
    }
  }

  /** The first difference between the page and the engine's nodes; null where there is none. */
  difference() {
    return this.#differenceAt(this.#root, this.#element);
  }

  /**
   * @param {number} label
   * @param {Node} node
   * @returns {string | null}
   */
  #differenceAt(label, node) {
    if (this.#nodes.get(label) !== node || this.label(node) !== label) {
      return `node ${label} isn't shown where it stands, but ${node.nodeName}`;
    }
    if (isCharacters(node)) {
      const value = this.#editor.nodeValue(label);
      const wanted = isText(node) ? value : blanksOf(value);
      return node.data === wanted ? null : `node ${label} has ${JSON.stringify([value, node.data])}`;
    }
    return this.#differenceOfAttributes(label, node) ?? this.#differenceOfChildren(label, node);
  }

  /**
   * @param {number} label
   * @param {Node} node
   */
  #differenceOfAttributes(label, node) {
    if (node === this.#element || !isElement(node)) {
      return null;
    }
    const content = this.#read(label);
    const name = this.#shown.nameOf(content);
    if (node.localName !== name) {
      return `node ${label} is ${name}, and not ${node.localName}`;
    }
    const there = node.getAttributeNames().map((each) => [each, node.getAttribute(each)]);
    const wanted = this.#shown.attributesOf(content);
    const texts = [wanted, there].map((all) => JSON.stringify([...all].sort()));
    return texts[0] === texts[1] ? null : `node ${label} has ${texts[0]}, and not ${texts[1]}`;
  }

  /**
   * @param {number} label
   * @param {Node} node
   */
  #differenceOfChildren(label, node) {
    const labels = [...this.#editor.children(label)];
    if (labels.length !== node.childNodes.length) {
      return `node ${label} has ${labels.length} children, and not ${node.childNodes.length}`;
    }
    for (const [place, child] of node.childNodes.entries()) {
      const found = this.#differenceAt(labels[place], child);
      if (found) {
        return found;
      }
    }
    return null;
  }
}
