#!/usr/bin/env node
/**
 * What a command does to a random page: in browsers, by their own execCommand, and in the engine:
 *
 *     node bench/browsers.mjs [SEED [PAGES]] [--list]
 *
 * Each page is an editing host with blocks, lists, tables, formatted text and islands (parts that aren't editable).
 * In each a selection is made between two places of its text, a command is executed, and undone if it changed the
 * page. Pages, selections and commands come from SEED, and are the same for all. A page that the engine refuses is
 * left out. The table has what was done, and below it how often that went wrong:
 *
 * - A formatting command may not lose, add or reorder characters but whitespace, or images and rules. It is counted by
 *   itself if `createLink` at a caret adds the address as text.
 * - An island is altered if it isn't what it was, but something of it is there, or if it is there twice. It is lost if
 *   nothing of it is there after a formatting command. Other commands may remove it.
 * - Undo restores the page, but for empty and adjacent text nodes. Where it does, the selection has to be between the
 *   same characters as before, in the same blocks.
 *
 * `--list` prints each fault. It needs hosts/web/dist/hedit.wasm, and takes the browsers that are there. WebKit doesn't
 * report its version.
 */
import { argv, exit } from "node:process";
import { parseArgs } from "node:util";
import { load } from "../hosts/web/src/hedit.js";
import { BROWSERS } from "../hosts/web/test/browsers.mjs";
import { BYTES } from "../hosts/web/test/engine.mjs";
import { serve } from "../hosts/web/test/server.mjs";

const SETTINGS = parseArgs({ args: argv.slice(2), allowPositionals: true, options: { list: { type: "boolean" } } });

const [SEED, PAGES] = [Number(SETTINGS.positionals[0] ?? 1), Number(SETTINGS.positionals[1] ?? 1200)];

/** How many pages a browser gets at a time. */
const BATCH = 40;

const BLOCKS = new Set("address blockquote div dd dl dt h1 h2 h3 hr li ol p pre table tbody td tr ul".split(" "));

const ATOMS = new Set(["br", "hr", "img"]);

/** Formatting commands, each with the values that it may get. */
const FORMATTING = {
  bold: [""],
  italic: [""],
  underline: [""],
  strikethrough: [""],
  subscript: [""],
  superscript: [""],
  createLink: ["#x"],
  unlink: [""],
  fontName: ["serif"],
  fontSize: ["2", "5"],
  foreColor: ["#d33d3d"],
  backColor: ["#fff1a1"],
  hiliteColor: ["#c9f2d0"],
  removeFormat: [""],
  formatBlock: ["<h1>", "<h3>", "<p>", "<pre>", "<div>"],
  justifyLeft: [""],
  justifyCenter: [""],
  justifyRight: [""],
  justifyFull: [""],
  indent: [""],
  outdent: [""],
  insertOrderedList: [""],
  insertUnorderedList: [""],
};

const OTHERS = {
  delete: [""],
  insertText: ["Zq"],
  insertParagraph: [""],
  insertLineBreak: [""],
  insertHorizontalRule: [""],
  insertImage: ["data:,"],
};

const COMMANDS = { ...FORMATTING, ...OTHERS };

/**
 * A node is a text, or an element with its attributes and children. A point has the path of a node from the host and
 * an offset there.
 *
 * @typedef {string | { name: string, attributes: Record<string, string>, children: Tree[] }} Tree
 * @typedef {{ path: number[], offset: number }} Point
 * @typedef {{ host: Tree, points: [Point, Point] | null }} View
 * @typedef {{ host: Tree, points: [Point, Point], command: string, value: string }} Case
 * @typedef {{ before: View, after: View, undone?: View }} Course
 */

// ---- Pages from a seed

/** Numbers below 1 from a seed: mulberry32. */
function numbers(seed) {
  let state = seed >>> 0;
  return () => {
    state = (state + 0x6d2b79f5) >>> 0;
    let mixed = Math.imul(state ^ (state >>> 15), state | 1);
    mixed ^= mixed + Math.imul(mixed ^ (mixed >>> 7), mixed | 61);
    return ((mixed ^ (mixed >>> 14)) >>> 0) / 2 ** 32;
  };
}

const element = (name, children = [], attributes = {}) => ({ name, attributes, children });

/** Makes pages by chance. */
class Maker {
  #random;

  #words = 0;

  #islands = 0;

  constructor(random) {
    this.#random = random;
  }

  below(count) {
    return Math.floor(this.#random() * count);
  }

  pick(list) {
    return list[this.below(list.length)];
  }

  #many(least, most, make) {
    return Array.from({ length: least + this.below(most - least + 1) }, make);
  }

  /** Words that occur nowhere else in a page. */
  #text() {
    return this.#many(1, 3, () => `${this.pick(["ant", "bee", "cow", "dog", "elk", "fox"])}${(this.#words += 1)}`).join(" ");
  }

  #island(name) {
    const id = String((this.#islands += 1));
    const content = [`Kite${id}. `, element("b", [`Lark${id}.`])];
    const children = name === "div" ? [element("p", content)] : content;
    return element(name, children, { contenteditable: "false", "data-island": id });
  }

  #formatted(depth, isLinked) {
    const kinds = [["b"], ["i"], ["u"], ["s"], ["sub"], ["code"], ["font", { size: "5" }], ["font", { color: "#0000ff" }]];
    kinds.push(["span", { style: "background-color: rgb(238, 238, 238);" }], ["span", { style: "font-weight: bold;" }]);
    const [name, attributes] = isLinked || this.below(5) ? this.pick(kinds) : ["a", { href: "#y" }];
    return element(name, this.inline(depth - 1, isLinked || name === "a"), attributes);
  }

  /** Text with formatting, breaks, images and islands. No space is next to a break: it wouldn't be shown there. */
  inline(depth = 2, isLinked = false) {
    const parts = this.#many(0, 3, () => {
      const turn = this.below(12);
      if (turn < 6 && depth > 0) return this.#formatted(depth, isLinked);
      if (turn === 6) return element("br");
      if (turn === 7) return element("img", [], { alt: "" });
      return turn === 8 ? this.#island("span") : this.#text();
    });
    const all = [this.#text(), ...parts, this.#text()];
    const isBreak = (part) => part.name === "br";
    const spaces = all.slice(1).map((part, place) => (isBreak(part) || isBreak(all[place]) ? "" : " "));
    return joined(all.flatMap((part, place) => [part, spaces[place] ?? ""]));
  }

  #list(depth) {
    const item = () => {
      const inner = depth > 0 && this.below(4) === 0 ? [this.#list(depth - 1)] : [];
      return element("li", [...this.inline(1), ...inner]);
    };
    return element(this.pick(["ul", "ol"]), this.#many(1, 3, item));
  }

  #table() {
    const cell = () => element("td", this.inline(1));
    return element("table", [element("tbody", this.#many(1, 2, () => element("tr", this.#many(1, 2, cell))))]);
  }

  #block(depth) {
    const turn = this.below(20);
    if (turn < 8) return element("p", this.inline());
    if (turn < 10) return element(this.pick(["h1", "h2", "div", "pre"]), this.inline());
    if (turn < 14) return this.#list(depth);
    if (turn < 16 && depth > 0) return element("blockquote", this.#many(1, 2, () => this.#block(depth - 1)));
    if (turn === 16) return this.#table();
    if (turn === 17) return element("hr");
    return turn === 18 ? this.#island("div") : element("p", this.inline(), { style: "text-align: center;" });
  }

  /** An editing host that ends with a paragraph, so that it has text. */
  host() {
    const blocks = this.#many(0, 3, () => this.#block(1));
    return element("div", [...blocks, element("p", this.inline())], { contenteditable: "true" });
  }
}

/** A list of nodes without empty and adjacent texts. */
function joined(nodes) {
  const found = [];
  for (const node of nodes.filter((each) => each !== "")) {
    if (typeof node === "string" && typeof found.at(-1) === "string") {
      found.push(found.pop() + node);
    } else {
      found.push(node);
    }
  }
  return found;
}

/** The texts below a node, but those in islands, each with its path. */
function* textsOf(node, path = []) {
  if (typeof node === "string") {
    yield { path, text: node };
  } else if (node.attributes["data-island"] === undefined) {
    for (const [place, child] of node.children.entries()) {
      yield* textsOf(child, [...path, place]);
    }
  }
}

/** A page with a selection and a command. */
function makeCase(seed) {
  const maker = new Maker(numbers(seed));
  const host = maker.host();
  const texts = [...textsOf(host)];
  const point = () => {
    const { path, text } = maker.pick(texts);
    return { path, offset: maker.below(text.length + 1) };
  };
  const anchor = point();
  const command = maker.pick(Object.keys(COMMANDS));
  return { host, points: [anchor, maker.below(3) ? point() : anchor], command, value: maker.pick(COMMANDS[command]) };
}

const escaped = (text) => text.replaceAll("&", "&amp;").replaceAll("<", "&lt;").replaceAll('"', "&quot;");

function htmlOf(node) {
  if (typeof node === "string") {
    return escaped(node);
  }
  const attributes = Object.entries(node.attributes).map(([name, value]) => ` ${name}="${escaped(value)}"`);
  const tag = `<${node.name}${attributes.join("")}>`;
  return ATOMS.has(node.name) ? tag : `${tag}${node.children.map(htmlOf).join("")}</${node.name}>`;
}

// ---- What edits them

/** Executes cases in the page of a browser, each in a frame of its own, which has an undo of its own. */
async function runInBrowser(cases) {
  const treeOf = (node) =>
    node.nodeType === Node.TEXT_NODE
      ? node.data
      : {
          name: node.localName,
          attributes: Object.fromEntries([...node.attributes].map(({ name, value }) => [name, value])),
          children: [...node.childNodes].map(treeOf),
        };
  const pathOf = (node, host) => {
    const path = [];
    for (let at = node; at !== host; at = at.parentNode) {
      path.unshift([...at.parentNode.childNodes].indexOf(at));
    }
    return path;
  };
  const run = async ({ html, points, command, value }) => {
    const frame = document.createElement("iframe");
    frame.srcdoc = `<!doctype html><meta charset="utf-8">${html}`;
    const isLoaded = new Promise((resolve) => frame.addEventListener("load", resolve, { once: true }));
    document.body.append(frame);
    await isLoaded;
    const { contentDocument: page, contentWindow: view } = frame;
    const host = page.querySelector("div");
    const selection = page.getSelection();
    const look = () => {
      const { anchorNode, anchorOffset, focusNode, focusOffset } = selection;
      const isThere = host.contains(anchorNode) && host.contains(focusNode);
      const ends = [[anchorNode, anchorOffset], [focusNode, focusOffset]];
      const points = isThere ? ends.map(([node, offset]) => ({ path: pathOf(node, host), offset })) : null;
      return { host: treeOf(host), points };
    };
    view.focus();
    host.focus();
    const at = (path) => path.reduce((node, place) => node.childNodes[place], host);
    const [anchor, focus] = points;
    selection.setBaseAndExtent(at(anchor.path), anchor.offset, at(focus.path), focus.offset);
    const course = { before: look() };
    const html_ = host.innerHTML;
    page.execCommand(command, false, value);
    course.after = look();
    if (host.innerHTML !== html_) {
      page.execCommand("undo");
      course.undone = look();
    }
    frame.remove();
    return course;
  };
  const courses = [];
  for (const each of cases) {
    courses.push(await run(each));
  }
  return courses;
}

/** The courses of cases in a browser, and its name with its version. */
async function inBrowser({ Browser }, cases) {
  const server = await serve("page", "<!doctype html><title>Commands</title><body>");
  const browser = await Browser.launch();
  try {
    const page = await browser.open(server.address);
    await page.until(() => document.title === "Commands");
    const agent = await page.evaluate(() => navigator.userAgent);
    const version = /(?:Chrome|Firefox)\/(\d+)/.exec(agent)?.[1] ?? "";
    const asked = cases.map(({ host, ...rest }) => ({ html: htmlOf(host), ...rest }));
    const courses = [];
    for (let from = 0; from < asked.length; from += BATCH) {
      courses.push(...(await page.evaluate(runInBrowser, asked.slice(from, from + BATCH))));
    }
    return { name: `${Browser.name} ${version}`.trim(), courses };
  } finally {
    await browser.close();
    server.close();
  }
}

function treeOf(editor, label) {
  const { kind } = editor.node(label);
  if (kind === 3) {
    return editor.nodeValue(label);
  }
  const attributes = Object.fromEntries(editor.attributes(label));
  const children = [...editor.children(label)].map((child) => treeOf(editor, child));
  return { name: editor.nodeName(label), attributes, children };
}

function look(editor) {
  const selection = editor.selection();
  const pointOf = ({ label, offset }) => ({ path: editor.pathOf(label).slice(1), offset });
  const points = selection && [pointOf(selection.anchor), pointOf(selection.focus)];
  return { host: treeOf(editor, editor.labelAt([0])), points };
}

/** The course of a case in the engine; undefined where it refuses the page. */
function inEngine(engine, { host, points, command, value }) {
  let editor;
  try {
    editor = engine.open(htmlOf(host));
  } catch {
    return undefined;
  }
  const [anchor, focus] = points.map(({ path, offset }) => ({ path: [0, ...path], offset }));
  editor.select(anchor, focus);
  const course = { before: look(editor) };
  const html = editor.html();
  editor.exec(command, value);
  course.after = look(editor);
  if (editor.html() !== html) {
    editor.undo();
    course.undone = look(editor);
  }
  editor.close();
  return course;
}

// ---- What went wrong

/** The characters of a node but whitespace, and its images and rules, in order. */
function contentOf(node) {
  if (typeof node === "string") {
    return [...node.replace(/\s/gu, "")];
  }
  return ["img", "hr"].includes(node.name) ? [`<${node.name}>`] : node.children.flatMap(contentOf);
}

/** What a list has more often than another one. */
function excess(list, other) {
  const counts = new Map();
  for (const item of other) counts.set(item, (counts.get(item) ?? 0) + 1);
  return list.filter((item) => {
    const count = counts.get(item) ?? 0;
    counts.set(item, count - 1);
    return count <= 0;
  });
}

function faultOfText({ before, after }, { command, value, points: [anchor, focus] }) {
  const [had, has] = [contentOf(before.host), contentOf(after.host)];
  if (had.join("") === has.join("")) return undefined;
  if (excess(had, has).length) return "text lost";
  const added = excess(has, had).join("");
  const isCaret = JSON.stringify(anchor) === JSON.stringify(focus);
  if (command === "createLink" && isCaret && added === value) return "address added";
  return added ? "text added" : "text reordered";
}

/** The islands below a node, by their numbers. */
function islandsOf(node, found = new Map()) {
  if (typeof node !== "string") {
    const id = node.attributes["data-island"];
    if (id !== undefined) found.set(id, [...(found.get(id) ?? []), JSON.stringify(node)]);
    node.children.forEach((child) => islandsOf(child, found));
  }
  return found;
}

function faultOfIslands({ before, after }, command) {
  const [had, has] = [islandsOf(before.host), islandsOf(after.host)];
  const text = contentOf(after.host).join("");
  const faults = [...had].map(([id, [island]]) => {
    const now = has.get(id) ?? [];
    if (now.length === 1 && now[0] === island) return undefined;
    if (now.length || text.includes(`Kite${id}.`) || text.includes(`Lark${id}.`)) return "islands altered";
    return command in FORMATTING ? "islands lost" : undefined;
  });
  return faults.includes("islands altered") ? "islands altered" : faults.find(Boolean);
}

/** A node without empty and adjacent texts, as a text. */
function printed(node) {
  const plain = (each) =>
    typeof each === "string" ? each : { ...each, children: joined(each.children.map(plain)) };
  const { name, children } = plain(node);
  return JSON.stringify({ name, children });
}

/** How many characters, atoms and ends of blocks come before a point. */
function placeOf(host, { path, offset }) {
  let count = 0;
  const pass = (node) => {
    if (typeof node === "string") {
      count += node.length;
      return;
    }
    count += ATOMS.has(node.name) ? 1 : 0;
    count += BLOCKS.has(node.name) ? 1 : 0;
    node.children.forEach(pass);
    count += BLOCKS.has(node.name) ? 1 : 0;
  };
  let at = host;
  for (const place of path) {
    at.children.slice(0, place).forEach(pass);
    at = at.children[place];
    count += BLOCKS.has(at.name) ? 1 : 0;
  }
  if (typeof at === "string") return count + offset;
  at.children.slice(0, offset).forEach(pass);
  return count;
}

const rangeOf = ({ host, points }) => points?.map((point) => placeOf(host, point)).sort((left, right) => left - right);

function faultOfUndo({ before, undone }) {
  if (printed(before.host) !== printed(undone.host)) return "page not restored";
  return String(rangeOf(before)) === String(rangeOf(undone)) ? undefined : "selection not restored";
}

/** What each thing that is counted may come to. */
const KINDS = {
  "formatting commands": ["text lost", "text added", "text reordered", "address added"],
  "commands next to islands": ["islands altered", "islands lost"],
  undos: ["page not restored", "selection not restored"],
};

/** What of a course is counted, each with its fault, if it has one. */
function* judged(case_, course) {
  const { command } = case_;
  if (command in FORMATTING) yield ["formatting commands", faultOfText(course, case_)];
  if (islandsOf(course.before.host).size) yield ["commands next to islands", faultOfIslands(course, command)];
  if (course.undone) yield ["undos", faultOfUndo(course)];
}

function describe({ host, points, command, value }, { after, undone }) {
  const told = points.map(({ path, offset }) => `${path.join("/")}:${offset}`).join(" ");
  const lines = [htmlOf(host), `${command} ${value} at ${told}`, htmlOf(after.host)];
  return [...lines, ...(undone ? [`undone: ${JSON.stringify(undone.points)} ${htmlOf(undone.host)}`] : [])].join("\n  ");
}

/** How often each thing occurred, and each fault. */
function count(cases, name, courses) {
  const counts = new Map();
  courses.forEach((course, place) => {
    for (const [what, fault] of judged(cases[place], course)) {
      counts.set(what, (counts.get(what) ?? 0) + 1);
      if (fault) counts.set(fault, (counts.get(fault) ?? 0) + 1);
      if (fault && SETTINGS.values.list) console.log(`${name}: ${fault}\n  ${describe(cases[place], course)}`);
    }
  });
  return counts;
}

function printTable(names, counts) {
  const row = (head, cells) => console.log(head.padEnd(28) + cells.map((cell) => String(cell).padStart(16)).join(""));
  row("", names);
  for (const [what, faults] of Object.entries(KINDS)) {
    row(what, counts.map((each) => each.get(what) ?? 0));
    for (const fault of faults) {
      row(`  ${fault}`, counts.map((each) => each.get(fault) ?? 0));
    }
  }
}

const engine = await load(BYTES);
const made = Array.from({ length: PAGES }, (_, place) => makeCase(SEED * 1_000_003 + place));
const pairs = made.map((each) => [each, inEngine(engine, each)]).filter(([, course]) => course);
const cases = pairs.map(([each]) => each);
const [names, counts] = [[], []];

/** Counts what one of those that edit did. */
function add({ name, courses }) {
  names.push(name);
  counts.push(count(cases, name, courses));
}

for (const each of BROWSERS) {
  if (each.skip) console.log(`${each.name} is skipped: ${each.skip}`);
  else add(await inBrowser(each, cases));
}
add({ name: `hedit ${engine.version()}`, courses: pairs.map(([, course]) => course) });
console.log(`seed ${SEED}: ${cases.length} of ${PAGES} pages, with one command each`);
printTable(names, counts);
const faults = Object.values(KINDS).flat();
exit(faults.some((fault) => counts.at(-1).get(fault)) ? 1 : 0);
