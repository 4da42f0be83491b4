import assert from "node:assert/strict";
import { describe, it } from "node:test";
import { NAME, PAGE, at, engine, refused } from "./calls.mjs";
import { readChanges } from "../src/changes.js";
import { NodeKind, Status, toCharacters } from "../src/hedit.js";

function* partsOf(editor, label) {
  const isBreak = editor.nodeName(label) === "br";
  if (isBreak || editor.node(label).kind === NodeKind.TEXT) {
    yield { label, text: isBreak ? "\n" : editor.nodeValue(label) };
  }
  for (const child of editor.children(label)) {
    yield* partsOf(editor, child);
  }
}

function findAcross(editor, wanted, block) {
  const parts = [...partsOf(editor, block)];
  const whole = parts.map(({ text }) => text).join("");
  /** The point of a unit of the whole, in the text that has the unit `last`. */
  const point = (at, last) => {
    let [place, start] = [0, 0];
    for (; start + parts[place].text.length <= last; place += 1) {
      start += parts[place].text.length;
    }
    return { label: parts[place].label, offset: toCharacters(parts[place].text, at - start) };
  };
  const found = [];
  for (let at = whole.indexOf(wanted); at >= 0; at = whole.indexOf(wanted, at + wanted.length)) {
    const end = at + wanted.length;
    found.push([point(at, at), point(end, end - 1)]);
  }
  return found;
}

describe("nodes", () => {
  const NODES = '<!--n--><p contenteditable><i class="x&amp;y" lang>é😀</i>b</p>';

  const open = (t, page = NODES) => {
    const editor = engine.open(page);
    t.after(() => editor.close());
    return editor;
  };

  /** A node and what is below it, as nested arrays. */
  const told = (editor, label) => {
    const { kind, length, ...node } = editor.node(label);
    const children = [...editor.children(label)];
    assert.equal(node.label, label);
    assert.equal(node.firstChild, children[0] ?? null);
    assert.equal(node.lastChild, children.at(-1) ?? null);
    for (const [place, child] of children.entries()) {
      const { parent, previous, next } = editor.node(child);
      const beside = [label, children[place - 1] ?? null, children[place + 1] ?? null];
      assert.deepEqual([parent, previous, next], beside);
    }
    const attributes = [...editor.attributes(label)].map(([name, value]) => `${name}=${value}`);
    const texts = [editor.nodeName(label), editor.nodeValue(label), ...attributes];
    return [kind, length, texts.join(" "), ...children.map((child) => told(editor, child))];
  };

  it("are walked by their labels", (t) => {
    const editor = open(t);
    const italic = [NodeKind.ELEMENT, 1, "i  class=x&y lang=", [NodeKind.TEXT, 2, " é😀"]];
    const paragraph = [NodeKind.ELEMENT, 2, "p  contenteditable=", italic, [NodeKind.TEXT, 1, " b"]];
    const comment = [NodeKind.COMMENT, 1, " n"];
    assert.deepEqual(told(editor, 0), [NodeKind.DOCUMENT, 2, " ", comment, paragraph]);
    assert.equal(editor.labelAt([]), 0);
    const { parent, previous, next } = editor.node(0);
    assert.deepEqual([parent, previous, next], [null, null, null]);
  });

  it("keep their labels", (t) => {
    const editor = open(t);
    const text = editor.labelAt([1, 1]);
    const selection = { anchor: { label: text, offset: 0 }, focus: { label: text, offset: 1 } };
    editor.select(selection.anchor, selection.focus);
    assert.equal(editor.exec("bold"), true);
    const bold = editor.labelAt([1, 1]);
    assert.deepEqual([editor.nodeName(bold), editor.node(bold).firstChild], ["b", text]);
    assert.equal(editor.labelAt([1, 1, 0]), text);
    assert.deepEqual(editor.selection(), selection);
    assert.equal(editor.undo(), true);
    assert.equal(editor.labelAt([1, 1]), text);
    refused(() => editor.node(bold), "BadPlace", Status.BAD_PLACE);
    assert.equal(editor.redo(), true);
    assert.equal(editor.labelAt([1, 1]), bold);
    assert.equal(editor.node(text).parent, bold);
  });

  it("may go while their parent's children are asked for", (t) => {
    const editor = open(t, "<p contenteditable>a<i>b</i></p>");
    editor.select(at([0, 0], 0), at([0, 0], 1));
    editor.exec("bold");
    const children = editor.children(editor.labelAt([0]));
    const bold = children.next().value;
    assert.equal(editor.undo(), true);
    refused(() => editor.node(bold), "BadPlace", Status.BAD_PLACE);
    assert.deepEqual([...children], [editor.labelAt([0, 1])]);
  });

  it("are selected and marked by points", (t) => {
    const editor = open(t, PAGE);
    const text = editor.labelAt([0, 0]);
    const point = (offset) => ({ label: text, offset });
    assert.equal(editor.selection(), null);
    editor.select(point(8), point(5));
    assert.equal(editor.points(), "anchor 0/0:8\nfocus 0/0:5\n");
    assert.deepEqual(editor.selection(), { anchor: point(8), focus: point(5) });
    editor.select(point(4));
    assert.equal(editor.points(), "anchor 0/0:4\nfocus 0/0:4\n");
    editor.select(at([0], 0), point(4));
    assert.equal(editor.points(), "anchor 0:0\nfocus 0/0:4\n");
    editor.select(point(4), at([], 1));
    assert.equal(editor.points(), "anchor 0/0:4\nfocus .:1\n");
    editor.unselect();
    assert.equal(editor.selection(), null);
    editor.mark("note", point(0), point(4));
    editor.mark("all", at([], 0), point(8));
    assert.equal(editor.points(), "none\nmark note 0/0:0 0/0:4\nmark all .:0 0/0:8\n");
    for (let number = 0; number < 14; number += 1) {
      editor.mark(`m${number}`, ...NAME);
    }
    const mark = () => editor.mark("m14", point(0), point(4));
    refused(mark, "TooManyMarks", Status.TOO_MANY_MARKS);
  });

  it("have marks as records", (t) => {
    const editor = open(t, PAGE);
    const text = editor.labelAt([0, 0]);
    const point = (offset, label = text) => ({ label, offset });
    assert.deepEqual(editor.marks(), []);
    editor.mark("note", point(8), point(5));
    editor.mark("é".repeat(50), at([], 0), point(0));
    editor.mark(Uint8Array.of(255), point(1), point(1));
    const [first, ...others] = editor.marks();
    assert.deepEqual(first, { name: "note", anchor: point(8), focus: point(5) });
    assert.deepEqual(others, [
      { name: "é".repeat(50), anchor: point(0, 0), focus: point(0) },
      { name: Uint8Array.of(255), anchor: point(1), focus: point(1) },
    ]);
    editor.mark("note", point(5), point(8));
    editor.replace(point(4), point(4), "xy");
    assert.deepEqual(editor.marks()[0], { name: "note", anchor: point(7), focus: point(10) });
    for (const { name } of editor.marks()) {
      assert.equal(editor.unmark(name), true);
    }
    assert.deepEqual(editor.marks(), []);
  });

  it("are counted as in the line of numbers", (t) => {
    const editor = open(t, PAGE);
    editor.select(...NAME);
    for (const call of [() => true, () => editor.exec("bold"), () => editor.undo()]) {
      assert.equal(call(), true);
      const { nodes, chars, nextLabel, edits, undo, redo } = editor.counts();
      const line = `nodes ${nodes} chars ${chars} next ${nextLabel} edits ${edits} undo ${undo} redo ${redo}\n`;
      assert.equal(editor.numbers(), line);
    }
    const { nodes, chars, undo, redo } = editor.counts();
    assert.deepEqual([nodes, chars, undo, redo], [3, 8, 0, 1]);
  });

  it("have texts that are longer than the room", (t) => {
    const editor = open(t, `<p title="${"t".repeat(5_000)}">${"ü".repeat(20_000)}</p>`);
    assert.equal(editor.nodeValue(editor.labelAt([0, 0])), "ü".repeat(20_000));
    const attributes = editor.attributes(editor.labelAt([0]));
    assert.deepEqual([...attributes], [["title", "t".repeat(5_000)]]);
  });

  it("have paths", (t) => {
    const editor = open(t);
    for (const path of [[], [0], [1], [1, 0], [1, 0, 0], [1, 1]]) {
      assert.deepEqual(editor.pathOf(editor.labelAt(path)), path);
    }
    const deep = open(t, `${"<div>".repeat(150)}x${"</div>".repeat(150)}`);
    const path = Array(151).fill(0);
    assert.deepEqual(deep.pathOf(deep.labelAt(path)), path);
  });

  it("have HTML and a plain text", (t) => {
    const paragraph = '<p title="a&amp;b">a&lt;<b>b😀</b><br>c</p>';
    const editor = open(t, `${paragraph}<!--n--><ul><li>d</li><li>e</li></ul>f`);
    assert.equal(`${editor.nodeHtml(0)}\n`, editor.html());
    assert.equal(editor.nodeHtml(editor.labelAt([0])), paragraph);
    assert.equal(editor.nodeHtml(editor.labelAt([0, 0])), "a&lt;");
    assert.equal(editor.nodeHtml(editor.labelAt([1])), "<!--n-->");
    assert.equal(editor.nodeText(0), "a<b😀\nc\nd\ne\nf");
    assert.equal(editor.nodeText(editor.labelAt([0])), "a<b😀\nc");
    assert.equal(editor.nodeText(editor.labelAt([1])), "");
    const lines = open(t, "<p>a</p><p><br></p><p>b</p><div><div>c</div></div>");
    assert.equal(lines.nodeText(0), "a\n\nb\nc");
  });

  it("have HTML and a plain text between the points of the selection", (t) => {
    const editor = open(t, "<p>one <b>two</b></p><ul><li>three</li><li>four</li></ul>");
    assert.deepEqual([editor.selectionHtml(), editor.selectionText()], [null, null]);
    editor.select(at([1, 1, 0], 2), at([0, 1, 0], 1));
    const html = "<p><b>wo</b></p><ul><li>three</li><li>fo</li></ul>";
    assert.deepEqual([editor.selectionHtml(), editor.selectionText()], [html, "wo\nthree\nfo"]);
    editor.select(at([0, 0], 1), at([0, 0], 3));
    assert.deepEqual([editor.selectionHtml(), editor.selectionText()], ["ne", "ne"]);
    editor.select(at([1], 1));
    assert.deepEqual([editor.selectionHtml(), editor.selectionText()], ["", ""]);
  });

  it("are searched for a text", (t) => {
    const editor = open(t, `<p>aaaa😀a<b>aa</b></p><!--aa--><p>${"xy".repeat(200)}</p>`);
    const [first, second] = [editor.labelAt([0, 0]), editor.labelAt([0, 1, 0])];
    const twice = [0, 2].map((offset) => ({ label: first, offset }));
    assert.deepEqual(editor.find("aa"), [...twice, { label: second, offset: 0 }]);
    assert.deepEqual(editor.find("aa", second), [{ label: second, offset: 0 }]);
    assert.deepEqual(editor.find("😀a"), [{ label: first, offset: 4 }]);
    assert.deepEqual(editor.find(new TextEncoder().encode("😀a")), editor.find("😀a"));
    assert.equal(editor.find("yx").length, 199);
    for (const text of ["", "A", "aaaaa"]) {
      assert.deepEqual(editor.find(text), []);
    }
    refused(() => editor.find(Uint8Array.of(255)), "BadArgument", Status.BAD_ARGUMENT);
    const mail = open(t, "<p contenteditable>one two one</p>");
    for (const { label, offset } of mail.find("one").reverse()) {
      mail.select({ label, offset }, { label, offset: offset + 3 });
      assert.equal(mail.exec("insertText", "three"), true);
    }
    assert.equal(mail.nodeText(0), "three two three");
  });

  it("are searched for a text that runs over several", (t) => {
    const editor = open(t, "<p contenteditable>😀one <b>😀tw</b>o<i>two</i> t<br>wo</p>");
    const block = editor.labelAt([0]);
    const [bold, after, italic] = [[0, 1, 0], [0, 2], [0, 3, 0]].map((path) => editor.labelAt(path));
    const point = (label, offset) => ({ label, offset });
    const across = [
      [point(bold, 1), point(after, 1)],
      [point(italic, 0), point(italic, 3)],
    ];
    assert.deepEqual(findAcross(editor, "two", block), across);
    assert.deepEqual(findAcross(editor, "otwo t", block)[0][0], point(after, 0));
    assert.deepEqual(findAcross(editor, "three", block), []);
    for (const [anchor, focus] of across.toReversed()) {
      assert.equal(editor.replace(anchor, focus, "2"), true);
    }
    assert.equal(editor.nodeText(block), "😀one 😀22 t\nwo");
  });

  it("are refused where they are none", (t) => {
    const editor = open(t, PAGE);
    const calls = [
      (label) => editor.pathOf(label),
      (label) => editor.nodeHtml(label),
      (label) => editor.nodeText(label),
      (label) => editor.find("x", label === undefined ? null : label),
      (label) => editor.node(label),
      (label) => editor.children(label),
      (label) => editor.nodeName(label),
      (label) => editor.nodeValue(label),
      (label) => editor.attributes(label),
      (label) => editor.select({ label, offset: 0 }),
      (label) => editor.select(at([0], 0), { label, offset: 0 }),
      (label) => editor.mark("note", { label, offset: 0 }, at([0], 0)),
    ];
    for (const call of calls) {
      for (const label of [2 ** 32, 2 ** 32 - 1, -1, 3]) {
        refused(() => call(label), "BadPlace", Status.BAD_PLACE);
      }
      for (const label of [0.5, NaN, "0", null, undefined, 1n]) {
        assert.throws(() => call(label), TypeError);
      }
    }
    for (const offset of [9, 2 ** 32, -1]) {
      refused(() => editor.select({ label: 2, offset }), "BadPlace", Status.BAD_PLACE);
    }
    for (const path of [[7], [0, 2 ** 32], [-1], [0, 0, 0]]) {
      refused(() => editor.labelAt(path), "BadPlace", Status.BAD_PLACE);
    }
    assert.equal(editor.points(), "none\n");
  });
});

describe("changes", () => {
  const open = (t, page = "<p contenteditable>ab</p>") => {
    const editor = engine.open(page);
    t.after(() => editor.close());
    return editor;
  };

  const element = (label, name, attributes = new Map(), level = 0) =>
    ({ level, label, kind: NodeKind.ELEMENT, name, attributes, value: "" });

  const text = (label, value, level = 0) =>
    ({ level, label, kind: NodeKind.TEXT, name: "", attributes: new Map(), value });

  const came = [
    { type: "insert", tree: [element(3, "b")], parent: 1, before: 2 },
    { type: "move", label: 2, parent: 3, before: null },
  ];

  const went = [
    { type: "move", label: 2, parent: 1, before: null },
    { type: "remove", label: 3 },
  ];

  /** Whether the page was changed so often, and what is told of the last time, as often as one asks. */
  const tells = (editor, revision, changes) => {
    assert.equal(editor.revision(), revision);
    assert.deepEqual(editor.changes(), changes);
    assert.deepEqual(editor.changes(), changes);
  };

  it("are told of the last call that changed something", (t) => {
    const editor = open(t);
    editor.select({ label: 2, offset: 0 }, { label: 2, offset: 2 });
    editor.mark("note", { label: 2, offset: 0 }, { label: 2, offset: 1 });
    assert.equal(editor.exec("bold", "", ["bold"]), false);
    assert.equal(editor.exec("createLink"), false);
    tells(editor, 0, []);
    assert.equal(editor.exec("bold"), true);
    tells(editor, 1, came);
    assert.equal(editor.redo(), false);
    tells(editor, 1, came);
    assert.equal(editor.undo(), true);
    assert.equal(editor.undo(), false);
    tells(editor, 2, went);
    assert.equal(editor.redo(), true);
    assert.equal(editor.exec("styleWithCSS", "true"), true);
    editor.unselect();
    tells(editor, 3, came);
  });

  it("tell characters, and attributes in their order", (t) => {
    const editor = open(t);
    editor.select({ label: 2, offset: 2 });
    editor.exec("insertText", "\ufeff😀");
    tells(editor, 1, [
      { type: "replace", label: 2, at: 2, taken: 0, put: "\ufeff" },
      { type: "replace", label: 2, at: 3, taken: 0, put: "😀" },
    ]);
    editor.exec("insertText", "é");
    tells(editor, 2, [{ type: "replace", label: 2, at: 4, taken: 0, put: "é" }]);
    editor.undo();
    const takes = (at) => ({ type: "replace", label: 2, at, taken: 1, put: "" });
    tells(editor, 3, [takes(4), takes(3), takes(2)]);
    editor.select({ label: 2, offset: 0 }, { label: 2, offset: 2 });
    editor.exec("styleWithCSS", "true");
    editor.exec("foreColor", "red");
    tells(editor, 4, [
      { type: "insert", tree: [element(3, "span")], parent: 1, before: 2 },
      { type: "attributes", label: 3, attributes: new Map([["style", "color: red;"]]) },
      { type: "move", label: 2, parent: 3, before: null },
    ]);
  });

  it("tell the whole tree that comes back", (t) => {
    const editor = open(t, '<p contenteditable>a<b lang id="x"><!--n-->é</b>c</p>');
    editor.select({ label: 2, offset: 0 }, { label: 6, offset: 1 });
    editor.exec("delete");
    editor.undo();
    const attributes = new Map([["lang", ""], ["id", "x"]]);
    const tree = [
      element(3, "b", attributes),
      { level: 1, label: 4, kind: NodeKind.COMMENT, name: "", attributes: new Map(), value: "n" },
      text(5, "é", 1),
    ];
    tells(editor, 2, [
      { type: "remove", label: 7 },
      { type: "insert", tree: [text(6, "c")], parent: 1, before: null },
      { type: "insert", tree, parent: 1, before: 6 },
      { type: "insert", tree: [text(2, "a")], parent: 1, before: 3 },
    ]);
    const [, , inserted] = editor.changes();
    const [root] = "tree" in inserted ? inserted.tree : [];
    assert.deepEqual([...root.attributes.keys()], ["lang", "id"]);
  });

  it("leave what went, as long as it may come back", (t) => {
    const editor = open(t);
    const kept = () => [0, 1, 2, 3, 4, 2 ** 32 - 1].filter((label) => editor.isKept(label));
    assert.deepEqual(kept(), [0, 1, 2]);
    editor.select({ label: 2, offset: 0 }, { label: 2, offset: 2 });
    editor.exec("bold");
    editor.undo();
    tells(editor, 2, went);
    editor.exec("styleWithCSS", "true");
    assert.deepEqual(kept(), [0, 1, 2, 3]);
    // The new text has label 4; what redo would have brought back is gone, and undo brings back 2.
    editor.exec("insertText", "c");
    assert.deepEqual(kept(), [0, 1, 2, 4]);
    for (const label of [2 ** 32, -1]) {
      refused(() => editor.isKept(label), "BadPlace", Status.BAD_PLACE);
    }
    for (const label of [0.5, "0", null, undefined, 1n]) {
      assert.throws(() => editor.isKept(/** @type {any} */ (label)), TypeError);
    }
  });

  it("are whole where they are longer than the room", (t) => {
    const editor = open(t);
    editor.select({ label: 2, offset: 1 });
    const address = "ü".repeat(5_000);
    editor.exec("insertImage", address);
    tells(editor, 1, [
      { type: "insert", tree: [text(4, "b")], parent: 1, before: null },
      { type: "replace", label: 2, at: 1, taken: 1, put: "" },
      { type: "insert", tree: [element(3, "img", new Map([["src", address]]))], parent: 1, before: 4 },
    ]);
  });

  it("are read as they are packed", () => {
    const bytes = (...numbers) => new Uint8Array(new BigUint64Array(numbers.map(BigInt)).buffer);
    assert.deepEqual(readChanges(bytes()), []);
    const taken = 2 ** 40 + 3;
    const replaced = { type: "replace", label: 2, at: 5, taken, put: "" };
    assert.deepEqual(readChanges(bytes(4, 2, 5, taken, 0)), [replaced]);
    const within = Uint8Array.from([7, 7, 7, ...bytes(1, 9)]).subarray(3);
    assert.deepEqual(readChanges(within), [{ type: "remove", label: 9 }]);
    const document = { level: 0, label: 0, kind: 9, name: "", attributes: new Map(), value: "" };
    const inserted = { type: "insert", parent: 1, before: null, tree: [document] };
    assert.deepEqual(readChanges(bytes(2, 1, 0xffffffff, 1, 0, 0, 9)), [inserted]);
    assert.throws(() => readChanges(bytes(6, 1)), RangeError);
    assert.throws(() => readChanges(bytes(1, 9).subarray(0, 12)), RangeError);
  });

  it("are refused when the editor is closed", () => {
    const editor = engine.open(PAGE);
    editor.close();
    refused(() => editor.revision(), "EditorClosed", Status.CLOSED);
    refused(() => editor.changes(), "EditorClosed", Status.CLOSED);
    refused(() => editor.isKept(0), "EditorClosed", Status.CLOSED);
  });
});
