import assert from "node:assert/strict";
import { readFile } from "node:fs/promises";
import { describe, it } from "node:test";
import { NAME, PAGE, at, engine, refused } from "./calls.mjs";
import { BYTES, collect, withMorePages } from "./engine.mjs";
import * as hedit from "../src/hedit.js";

const { NodeKind, PageKind, Question, Status, View, load, toCharacters, toUnits } = hedit;

/** The class, whose constructor is private. */
const Engine = /** @type {any} */ (hedit.Engine);

/** What a new instance of the module exports. */
async function instantiate() {
  const { exports } = await WebAssembly.instantiate(new WebAssembly.Module(BYTES));
  return /** @type {any} */ (exports);
}

/** A value that a call doesn't take. */
const bad = (value) => /** @type {any} */ (value);

describe("the header", async () => {
  const header = await readFile(new URL("../../../include/hedit.h", import.meta.url), "utf8");
  const enumeration = (name, prefix) =>
    Object.fromEntries(
      [...header.split(`enum ${name} {`)[1].split("}")[0].matchAll(/HEDIT_(\w+) = (\d+)/g)].map(
        ([, key, number]) => [key.replace(prefix, ""), Number(number)],
      ),
    );

  it("has the version", () => {
    assert.ok(header.includes(`#define HEDIT_VERSION "${hedit.VERSION}"\n`));
    assert.equal(engine.version(), hedit.VERSION);
  });

  it("has the numbers of the enumerations", () => {
    assert.deepEqual({ ...Status }, enumeration("hedit_status", ""));
    assert.deepEqual({ ...Question }, enumeration("hedit_question", ""));
    assert.deepEqual({ ...View }, enumeration("hedit_view_kind", ""));
    assert.deepEqual({ ...NodeKind }, enumeration("hedit_node_kind", ""));
    const kinds = enumeration("hedit_page_kind", "PAGE_");
    assert.deepEqual(Object.keys(PageKind).map((key) => kinds[key]), [...Array(12).keys()].slice(1));
    for (const [key, word] of Object.entries(PageKind)) {
      assert.equal(word, key.toLowerCase().replaceAll("_", "-"));
    }
  });

  it("has the calls that the module exports, which imports nothing", () => {
    const module = new WebAssembly.Module(BYTES);
    const names = [...header.matchAll(/^\w+ (hedit_\w+)\(/gm)].map(([, name]) => name);
    const exported = WebAssembly.Module.exports(module).map(({ name }) => name);
    assert.deepEqual(new Set(exported), new Set([...names, "memory", "allocate", "release"]));
    assert.deepEqual(WebAssembly.Module.imports(module), []);
  });
});

describe("an editor", () => {
  it("selects, executes, undoes and redoes", () => {
    const editor = engine.open(PAGE);
    editor.select(...NAME);
    assert.equal(editor.exec("bold"), true);
    assert.equal(editor.html(), '<p contenteditable="">Call <b>Ann</b></p>\n');
    assert.equal(editor.undo(), true);
    assert.equal(editor.undo(), false);
    assert.equal(editor.html(), '<p contenteditable="">Call Ann</p>\n');
    assert.equal(editor.redo(), true);
    assert.equal(editor.redo(), false);
    assert.equal(editor.exec("createLink"), false);
    assert.equal(editor.exec("createLink", "tel:1"), true);
    assert.equal(editor.exec("noSuchCommand"), false);
    editor.close();
  });

  it("prints four views", () => {
    const editor = engine.open(PAGE);
    editor.select(...NAME);
    editor.mark("note", at([0], 0), at([0, 0], 4));
    assert.equal(editor.tree(), '<p contenteditable="">\n  "Call Ann"\n');
    assert.equal(editor.points(), "anchor 0/0:5\nfocus 0/0:8\nmark note 0:0 0/0:4\n");
    assert.equal(editor.numbers(), "nodes 3 chars 8 next 3 edits 0 undo 0 redo 0\n");
    assert.equal(editor.view(View.TREE), editor.tree());
    assert.equal(editor.unmark("note"), true);
    assert.equal(editor.unmark("note"), false);
    editor.unselect();
    assert.equal(editor.points(), "none\n");
    editor.close();
  });

  it("puts the caret at one place", () => {
    const editor = engine.open(PAGE);
    editor.select(at([0, 0], 4));
    assert.equal(editor.points(), "anchor 0/0:4\nfocus 0/0:4\n");
    editor.close();
  });

  it("answers questions", () => {
    const editor = engine.open("<p contenteditable>Call <b>Ann</b></p>");
    assert.equal(editor.supported("bold"), true);
    assert.equal(editor.supported("paste"), false);
    assert.equal(editor.enabled("bold"), false);
    editor.select(at([0, 0], 0), at([0, 1, 0], 3));
    assert.equal(editor.enabled("BOLD"), true);
    assert.equal(editor.indeterm("bold"), true);
    assert.equal(editor.state("bold"), false);
    assert.equal(editor.value("defaultParagraphSeparator"), "div");
    assert.equal(editor.ask(Question.INDETERM, "bold"), true);
    assert.equal(editor.ask(Question.VALUE, "defaultParagraphSeparator"), "div");
    editor.close();
  });

  it("takes bytes for a text", () => {
    const bytes = (text) => new TextEncoder().encode(text);
    const editor = engine.open(bytes(PAGE));
    editor.select(...NAME);
    assert.equal(editor.exec(bytes("insertText"), bytes("Zoë")), true);
    assert.equal(editor.html(), '<p contenteditable="">Call Zoë</p>\n');
    editor.close();
  });

  it("keeps to its limits", () => {
    const editor = engine.open(PAGE, { undoDepth: 1 });
    editor.select(...NAME);
    editor.exec("bold");
    editor.exec("italic");
    assert.deepEqual([editor.undo(), editor.undo()], [true, false]);
    editor.close();
    for (const limit of [0, -1, 1.5, 2 ** 32, NaN, "7", null]) {
      refused(() => engine.open(PAGE, { labelCap: bad(limit) }), "BadArgument", Status.BAD_ARGUMENT);
    }
    refused(() => engine.open(PAGE, { undoDepth: 0 }), "BadArgument", Status.BAD_ARGUMENT);
    engine.open(PAGE, { labelCap: 2 ** 32 - 1, undoDepth: 10_000 }).close();
  });

  it("prints a text that is longer than the room whole", () => {
    const editor = engine.open(PAGE);
    editor.select(...NAME);
    editor.exec("insertText", "ü".repeat(20_000));
    assert.ok(editor.html().includes("ü".repeat(20_000)));
    editor.select(at([0, 0], 0), at([0, 0], 4));
    editor.exec("createLink", "y".repeat(5_000));
    assert.equal(editor.value("createLink"), "y".repeat(5_000));
    editor.close();
  });

  it("leaves a byte order mark in a text", () => {
    const editor = engine.open("<p contenteditable>x</p>");
    editor.select(at([0, 0], 0));
    editor.exec("insertText", "\ufeff");
    assert.equal(editor.html(), '<p contenteditable="">\ufeffx</p>\n');
    editor.close();
    const bare = engine.open("\ufeffx");
    assert.equal(bare.html(), "\ufeffx\n");
    bare.close();
  });
});

describe("several commands as one step", () => {
  const open = (t) => {
    const editor = engine.open(PAGE);
    t.after(() => editor.close());
    return editor;
  };

  it("join the last one", (t) => {
    const editor = open(t);
    editor.select(...NAME);
    assert.equal(editor.exec("bold"), true);
    assert.equal(editor.execJoined("createLink", "tel:1"), true);
    assert.equal(editor.execJoined("createLink"), false);
    assert.equal(editor.counts().undo, 1);
    assert.equal(editor.undo(), true);
    assert.equal(editor.html(), '<p contenteditable="">Call Ann</p>\n');
    editor.exec("bold");
    editor.select(at([0, 1, 0], 0), at([0, 1, 0], 3));
    editor.execJoined("italic");
    assert.equal(editor.counts().undo, 2);
  });

  it("replace what is typed", (t) => {
    const editor = open(t);
    const label = editor.labelAt([0, 0]);
    editor.select({ label, offset: 8 });
    editor.exec("insertText", " teh");
    assert.equal(editor.replace({ label, offset: 9 }, { label, offset: 12 }, "the"), true);
    editor.exec("insertText", " 😀");
    assert.equal(editor.html(), '<p contenteditable="">Call Ann the 😀</p>\n');
    assert.equal(editor.counts().undo, 1);
    assert.equal(editor.replace({ label: 0, offset: 0 }, { label: 0, offset: 0 }, "x"), false);
    refused(
      () => editor.replace({ label, offset: 0 }, { label, offset: 99 }, "x"),
      "BadPlace",
      Status.BAD_PLACE,
    );
  });
});

describe("denied names", () => {
  const open = (t) => {
    const editor = engine.open(PAGE);
    t.after(() => editor.close());
    editor.select(...NAME);
    return editor;
  };

  it("do nothing", (t) => {
    const editor = open(t);
    for (const denied of [["bold"], ["italic", "BOLD"], new Set(["Bold"])]) {
      assert.equal(editor.exec("bold", "", denied), false);
    }
    assert.equal(editor.html(), '<p contenteditable="">Call Ann</p>\n');
    assert.equal(editor.exec("bold", "", ["italic", "insertImage"]), true);
    assert.equal(editor.undo(), true);
    assert.equal(editor.exec("createLink", "tel:1", []), true);
  });

  it("are refused where they are none", (t) => {
    const editor = open(t);
    const names = Array.from({ length: 17 }, (_, number) => `n${number}`);
    for (const denied of [[""], ["bold", ""], ["a b"], ["a_b"], ["é"], ["x".repeat(65)], names]) {
      refused(() => editor.exec("bold", "", denied), "BadArgument", Status.BAD_ARGUMENT);
    }
    for (const denied of ["bold", [7], null, 7, new Uint8Array([98])]) {
      assert.throws(() => editor.exec("bold", "", bad(denied)), TypeError);
    }
    assert.equal(editor.exec("bold", "", [...names.slice(1), "N1"]), true);
  });
});

describe("a command with options", () => {
  const open = (t) => {
    const editor = engine.open(PAGE);
    t.after(() => editor.close());
    return { editor, text: editor.labelAt([0, 0]) };
  };

  it("works on a range within a step", (t) => {
    const { editor, text } = open(t);
    const range = { anchor: { label: text, offset: 0 }, focus: { label: text, offset: 4 } };
    assert.equal(editor.exec("bold", "", { range }), true);
    const rest = { anchor: { path: [0, 1], offset: 0 }, focus: { path: [0, 1], offset: 1 } };
    assert.equal(editor.exec("italic", "", { range: rest, joined: true }), true);
    assert.equal(editor.counts().undo, 1);
    assert.equal(editor.undo(), true);
    assert.equal(editor.html(), '<p contenteditable="">Call Ann</p>\n');
  });

  it("is refused where its name is denied or its range is nowhere", (t) => {
    const { editor, text } = open(t);
    const range = { anchor: { label: text, offset: 0 }, focus: { label: text, offset: 99 } };
    assert.equal(editor.exec("bold", "", { range, denied: ["bold"] }), false);
    refused(() => editor.exec("bold", "", { range }), "BadPlace", Status.BAD_PLACE);
    assert.equal(editor.selection(), null);
  });
});

describe("a cause has a class", () => {
  const open = (t, page, limits) => {
    const editor = engine.open(page, limits);
    t.after(() => editor.close());
    return editor;
  };

  it("PageRefused, with a place and a kind", () => {
    const place = (page) => {
      try {
        engine.open(page);
      } catch (error) {
        assert.ok(error instanceof hedit.PageRefused);
        return [error.at, error.kind, error.message];
      }
    };
    assert.deepEqual(place("<p>x</b>"), [6, PageKind.STRAY_END, "the page is refused: stray-end at 6"]);
    assert.deepEqual(place("<p>é😀</b>"), [8, "stray-end", "the page is refused: stray-end at 8"]);
    assert.deepEqual(place(new TextEncoder().encode("<p>é😀</b>")).slice(0, 2), [11, "stray-end"]);
    assert.deepEqual(place(new Uint8Array([120, 255])).slice(0, 2), [1, PageKind.NOT_UTF8]);
    assert.deepEqual(place("<p>").slice(1, 2), [PageKind.UNCLOSED]);
    refused(() => engine.open("<p>"), "PageRefused", Status.PAGE_REFUSED);
  });

  it("BadPlace", (t) => {
    const editor = open(t, PAGE);
    const wrong = [at([7], 0), at([0, 0], 9), at([0, 0, 0], 0), at([-1], 0), at([0], 2 ** 32)];
    for (const place of wrong) {
      refused(() => editor.select(place), "BadPlace", Status.BAD_PLACE);
      refused(() => editor.mark("note", NAME[0], place), "BadPlace", Status.BAD_PLACE);
    }
    assert.equal(editor.points(), "none\n");
  });

  it("TooManyMarks", (t) => {
    const editor = open(t, PAGE);
    for (let number = 0; number < 16; number += 1) {
      editor.mark(`m${number}`, ...NAME);
    }
    refused(() => editor.mark("m16", ...NAME), "TooManyMarks", Status.TOO_MANY_MARKS);
    editor.mark("m15", ...NAME);
  });

  it("PageFull", (t) => {
    const editor = open(t, PAGE, { labelCap: 3 });
    editor.select(...NAME);
    refused(() => editor.exec("bold"), "PageFull", Status.FULL);
  });

  it("TooDeep", (t) => {
    const deep = `<div contenteditable>${"<div>".repeat(190)}x${"</div>".repeat(191)}`;
    const editor = open(t, deep);
    editor.select(at(Array(192).fill(0), 0));
    const indent = () => Array.from({ length: 99 }, () => editor.exec("indent"));
    refused(indent, "TooDeep", Status.DEEP);
  });

  it("BadArgument", (t) => {
    const editor = open(t, PAGE);
    const calls = [
      () => editor.exec(new Uint8Array([255])),
      () => editor.exec("insertText", "\ud83d"),
      () => engine.open("<p>\ude00</p>"),
      () => editor.view(bad(9)),
      () => editor.view(bad("html")),
      () => editor.ask(bad(5), "bold"),
    ];
    for (const call of calls) {
      refused(call, "BadArgument", Status.BAD_ARGUMENT);
    }
  });

  it("TypeError, for what is no text and no number", (t) => {
    const editor = open(t, PAGE);
    for (const text of [undefined, null, 7, {}, [98], new ArrayBuffer(2)]) {
      assert.throws(() => engine.open(bad(text)), TypeError);
      assert.throws(() => editor.state(bad(text)), TypeError);
    }
    for (const number of [0.5, NaN, "0", null, 1n]) {
      assert.throws(() => editor.select(at([0, number], 0)), TypeError);
      assert.throws(() => editor.select(at([0, 0], number)), TypeError);
    }
    assert.throws(() => editor.select(bad([0, 0]), bad(5)), TypeError);
  });

  it("EditorClosed", () => {
    const editor = engine.open(PAGE);
    editor.close();
    editor.close();
    const calls = [
      () => editor.exec("bold"),
      () => editor.undo(),
      () => editor.redo(),
      () => editor.select(...NAME),
      () => editor.unselect(),
      () => editor.mark("note", ...NAME),
      () => editor.unmark("note"),
      () => editor.state("bold"),
      () => editor.html(),
      () => editor.exec("bold", "", ["italic"]),
      () => editor.select({ label: 0, offset: 0 }),
      () => editor.mark("note", { label: 0, offset: 0 }, at([], 0)),
      () => editor.counts(),
      () => editor.selection(),
      () => editor.marks(),
      () => editor.labelAt([]),
      () => editor.node(0),
      () => editor.children(0),
      () => editor.nodeName(0),
      () => editor.nodeValue(0),
      () => editor.attributes(0),
      () => editor.pathOf(0),
      () => editor.nodeHtml(0),
      () => editor.nodeText(0),
      () => editor.find("x"),
      () => editor.selectionHtml(),
      () => editor.selectionText(),
    ];
    for (const call of calls) {
      refused(call, "EditorClosed", Status.CLOSED);
    }
  });

  it("OutOfMemory, with the editor as before", async () => {
    const small = await load(withMorePages(12));
    const spare = small.open("y".repeat(20_000));
    const editor = small.open(PAGE);
    editor.select(...NAME);
    let typed = 0;
    const fill = () => {
      for (;;) {
        editor.exec("insertText", "x");
        typed += 1;
      }
    };
    refused(fill, "OutOfMemory", Status.MEMORY);
    assert.ok(typed > 100);
    refused(() => small.open("y".repeat(1_000_000)), "OutOfMemory", Status.MEMORY);
    spare.close();
    assert.equal(editor.html(), `<p contenteditable="">Call ${"x".repeat(typed)}</p>\n`);
    assert.equal(editor.undo(), true);
    assert.equal(editor.html(), '<p contenteditable="">Call Ann</p>\n');
    editor.close();
    small.open("y".repeat(50_000)).close();
  });

  it("EngineStopped, after a call that JavaScript's full stack cut off", async () => {
    const other = await load(BYTES);
    const editor = other.open(PAGE);
    const dive = () => {
      try {
        dive();
      } catch {
        // This far up there is room for the call's beginning.
      }
      editor.html();
    };
    assert.throws(dive, (error) => error instanceof RangeError || error.name === "EngineStopped");
    refused(() => editor.html(), "EngineStopped", undefined);
    refused(() => other.open(PAGE), "EngineStopped", undefined);
    assert.throws(() => editor.undo(), ({ cause }) => cause instanceof RangeError);
    editor.close();
  });
});

describe("many editors", () => {
  it("share an engine, and nothing else", () => {
    const editors = Array.from({ length: 200 }, (_, number) =>
      engine.open(`<p contenteditable>Call ${number}</p>`),
    );
    for (const [number, editor] of editors.entries()) {
      editor.select(at([0, 0], 5));
      editor.exec("insertText", `${number} `);
    }
    for (const [number, editor] of editors.entries()) {
      assert.equal(editor.html(), `<p contenteditable="">Call ${number} ${number}</p>\n`);
      if (number % 2) {
        editor.close();
      }
    }
    for (const [number, editor] of editors.entries()) {
      if (number % 2 === 0) {
        assert.equal(editor.undo(), true);
        assert.equal(editor.html(), `<p contenteditable="">Call ${number}</p>\n`);
        editor.close();
      }
    }
  });

  it("go on where the memory grows for one of them", async () => {
    const exports = await instantiate();
    const grown = new Engine(exports);
    const editor = grown.open(PAGE);
    editor.select(...NAME);
    const before = exports.memory.buffer;
    const large = grown.open(`<div contenteditable>${"<p>Call Ann</p>".repeat(20_000)}</div>`);
    assert.equal(before.byteLength, 0);
    assert.equal(editor.exec("bold"), true);
    assert.equal(editor.html(), '<p contenteditable="">Call <b>Ann</b></p>\n');
    assert.equal(large.html().length, 15 * 20_000 + '<div contenteditable=""></div>\n'.length);
    large.close();
    editor.close();
  });

  it("give their memory back", async () => {
    const exports = await instantiate();
    const lent = new Set();
    const allocate = (size) => {
      const at = exports.allocate(size);
      lent.add(at);
      return at;
    };
    const release = (at) => {
      assert.ok(lent.delete(at));
      exports.release(at);
    };
    const other = new Engine({ ...exports, allocate, release });
    const page = `<div contenteditable>${"<p>Call Ann</p>".repeat(2_000)}</div>`;
    const edit = () => {
      const editor = other.open(page);
      editor.select(at([0, 0, 0], 0), at([0, 1999, 0], 4));
      editor.exec("bold", "", ["italic"]);
      editor.html();
      const [host] = editor.children(0);
      editor.attributes(host);
      editor.select({ label: host, offset: 0 });
      assert.throws(() => editor.node(2 ** 32 - 1), hedit.BadPlace);
      editor.close();
      assert.throws(() => other.open("<p>"), hedit.PageRefused);
    };
    edit();
    edit();
    const length = exports.memory.buffer.byteLength;
    // The engine keeps one block, for what calls borrow.
    assert.equal(lent.size, 1);
    for (let time = 0; time < 5; time += 1) {
      edit();
    }
    assert.equal(exports.memory.buffer.byteLength, length);
    assert.equal(lent.size, 1);
  });

  it("are closed when they are collected", async () => {
    const exports = await instantiate();
    const closed = [];
    const counted = { ...exports, hedit_close: (handle) => exports.hedit_close(handle, closed.push(handle)) };
    const other = new Engine(counted);
    (() => {
      for (let number = 0; number < 10; number += 1) {
        other.open(PAGE);
      }
      other.open(PAGE).close();
    })();
    assert.equal(closed.length, 1);
    const kept = other.open(PAGE);
    for (let time = 0; closed.length < 11 && time < 100; time += 1) {
      await new Promise((resolve) => setTimeout(resolve));
      collect();
    }
    assert.equal(closed.length, 11);
    assert.equal(kept.html(), '<p contenteditable="">Call Ann</p>\n');
  });

  it("are closed by `using`", { skip: !Symbol.dispose && "there is no Symbol.dispose" }, () => {
    const editor = engine.open(PAGE);
    editor[Symbol.dispose]();
    refused(() => editor.undo(), "EditorClosed", Status.CLOSED);
  });
});

describe("UTF-16", () => {
  const TEXT = "a😀é\ud83dz👩‍👩‍👧";

  it("is converted at each place between characters", () => {
    let units = 0;
    for (const [characters, character] of [...TEXT].entries()) {
      assert.equal(toCharacters(TEXT, units), characters);
      assert.equal(toUnits(TEXT, characters), units);
      units += character.length;
    }
    assert.equal(toCharacters(TEXT, TEXT.length), [...TEXT].length);
    assert.equal(toUnits(TEXT, [...TEXT].length), TEXT.length);
    assert.deepEqual([toCharacters("", 0), toUnits("", 0)], [0, 0]);
  });

  it("has no place inside a character or past the end", () => {
    for (const units of [2, -1, TEXT.length + 1, 0.5, NaN]) {
      refused(() => toCharacters(TEXT, units), "BadPlace", Status.BAD_PLACE);
    }
    for (const characters of [-1, [...TEXT].length + 1, 0.5, NaN]) {
      refused(() => toUnits(TEXT, characters), "BadPlace", Status.BAD_PLACE);
    }
  });

  it("leads to the place that the engine means", () => {
    const text = "😀 Ann 😀 Bob";
    const editor = engine.open(`<p contenteditable>${text}</p>`);
    const place = (units) => at([0, 0], toCharacters(text, units));
    editor.select(place(text.indexOf("Bob")), place(text.length));
    assert.equal(editor.exec("bold"), true);
    assert.equal(editor.html(), '<p contenteditable="">😀 Ann 😀 <b>Bob</b></p>\n');
    editor.close();
  });
});

describe("a session", () => {
  it("has the status and the transcript of the program", () => {
    const text = `page <<END\n${PAGE}\nEND\nhtml\n`;
    const transcript = '<p contenteditable="">Call Ann</p>\n';
    assert.deepEqual(engine.session(text), { status: Status.DONE, transcript });
    assert.deepEqual(engine.session("", ["walk"]), { status: Status.USAGE, transcript: "" });
    assert.equal(engine.session("", ["bulk", "3000"]).status, Status.DONE);
  });
});
