/**
 * The code of the documents: each block of JavaScript is run, with the names that its page takes for
 * granted. The block of HTML is tried in browsers, in region_view.test.mjs.
 */
import assert from "node:assert/strict";
import { readFile } from "node:fs/promises";
import { afterEach, beforeEach, describe, it } from "node:test";
import * as hedit from "../src/hedit.js";
import { BYTES } from "./engine.mjs";

const MAIL = '<div contenteditable="true"><h1>Plan</h1><p>Call Ann &amp; Bob.</p></div>';

/** The blocks of code of a page in a language. */
async function blocks(page, language) {
  const text = await readFile(new URL(`../../../${page}`, import.meta.url), "utf8");
  const found = text.matchAll(new RegExp(`^\`\`\`${language}\\n(.*?)^\`\`\`$`, "gms"));
  return [...found].map(([, code]) => code);
}

const AsyncFunction = /** @type {any} */ ((async () => {}).constructor);

/** Runs code with names that it takes for granted, and gives what the expressions of `wanted` are then. */
function run(code, names = {}, wanted = "") {
  const given = { ...hedit, load: () => hedit.load(BYTES), MAIL, ...names };
  const body = code.replace(/^import .*$/gm, "");
  const call = new AsyncFunction(...Object.keys(given), `${body}\nreturn { ${wanted} };`);
  return call(...Object.values(given));
}

/** The only block of a page that has certain words. */
async function oneWith(page, words) {
  const found = (await blocks(page, "js")).filter((code) => code.includes(words));
  assert.equal(found.length, 1);
  return found[0];
}

describe("the code of docs/WEB.md", async () => {
  it("runs", async () => {
    // What is done by a region is tried in browsers, in region_api.test.mjs.
    const all = await blocks("docs/WEB.md", "js");
    for (const code of all.filter((each) => !each.includes("region."))) {
      await run(code);
    }
  });

  it("has the region of hosts/web/README.md", async () => {
    const [[shown], [region]] = [
      await blocks("hosts/web/README.md", "html"),
      await blocks("docs/WEB.md", "html"),
    ];
    assert.equal(shown, region);
  });
});

describe("the code of hosts/web/README.md", async () => {
  const log = console.log;

  afterEach(() => {
    console.log = log;
  });

  it("runs, and tells of the change", async () => {
    const said = [];
    console.log = (...words) => said.push(words);
    const [whole, ...parts] = await blocks("hosts/web/README.md", "js");
    const node = parts.pop();
    await run(whole);
    assert.equal(said[0][0], '<p contenteditable="">Call <b>Ann</b></p>\n');
    const editor = (await hedit.load(BYTES)).open("<p contenteditable>Call Ann</p>");
    await run(parts.join("\n"), { editor });
    assert.ok(said.some(([type]) => ["insert", "move", "remove"].includes(type)));
    editor.close();
    assert.ok(node.includes("await load(await readFile("));
  });
});

describe("the code of docs/SYNC.md", async () => {
  const page = "docs/SYNC.md";
  let editor;
  let text;

  beforeEach(async () => {
    editor = (await hedit.load(BYTES)).open(MAIL);
    text = editor.labelAt([0, 1, 0]);
  });

  afterEach(() => editor.close());

  it("is tried block by block", async () => {
    assert.equal((await blocks(page, "js")).length, 3);
  });

  it("shows each node in a view", async () => {
    const make = (name) => ({
      name,
      replaceChildren(...children) {
        this.children = children;
      },
    });
    const names = {
      document: { createElement: make, createTextNode: make, createComment: make },
      page: make("body"),
      editor,
    };
    const { views } = await run(await oneWith(page, "const views"), names, "views");
    assert.equal(views.get(text).data, "Call Ann & Bob.");
    assert.equal(views.get(text).hedit, text);
    assert.deepEqual(names.page.children[0].children.map(({ name }) => name), ["h1", "p"]);
  });

  it("selects what the page selects", async () => {
    const view = { hedit: text, data: "Call Ann & Bob." };
    const ends = { anchorNode: view, anchorOffset: 5, focusNode: view, focusOffset: 8 };
    const document = { getSelection: () => ends };
    await run(await oneWith(page, "document.getSelection()"), { document, editor });
    assert.equal(editor.selectionText(), "Ann");
  });

  it("finds a text that is in several", async () => {
    editor.select({ label: text, offset: 6 }, { label: text, offset: 8 });
    editor.exec("bold");
    const code = await oneWith(page, "function findAcross");
    const { findAcross } = await run(code, {}, "findAcross");
    const [[start, end]] = findAcross(editor, "Ann", editor.labelAt([0, 1]));
    editor.select(start, end);
    assert.equal(editor.selectionText(), "Ann");
  });
});
