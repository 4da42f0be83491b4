/**
 * Random fragments that are pasted: what a region has then, read again as lines, is what was pasted, and
 * one undo takes it back.
 */
import assert from "node:assert/strict";
import { describe } from "node:test";
import { BROWSERS, IS_WHOLE, it } from "./browsers.mjs";
import { PastePage } from "./paste_page.mjs";
import { numbers } from "./region_page.mjs";

const COUNT = IS_WHOLE ? 150 : 25;

const WORDS = ["alpha", "be ta", "gamma, delta", "x", "日本", "😀 e", "1 &amp; 2", "a &lt; b", "&nbsp;n"];

const INLINES = [
  ["<b>", "</b>"],
  ["<i>", "</i>"],
  ["<u>", "</u>"],
  ["<s>", "</s>"],
  ["<sub>", "</sub>"],
  ["<a href='http://x/'>", "</a>"],
  ["<span style='color:#d33'>", "</span>"],
  ["<span style='background-color:#ff0'>", "</span>"],
  ["<span style='font-size:24px'>", "</span>"],
  ["<code>", "</code>"],
];

/** Makes random fragments. */
class Fragments {
  #numbers;

  constructor(seed) {
    this.#numbers = numbers(seed);
  }

  below(count) {
    return Math.floor(Number(this.#numbers.next().value) * count);
  }

  pick(list) {
    return list[this.below(list.length)];
  }

  many(most, make) {
    return Array.from({ length: 1 + this.below(most) }, make).join("");
  }

  inline(depth = 0) {
    return this.many(3, () => {
      const text = this.pick(WORDS) + this.pick(["", " "]);
      const kind = this.below(10);
      if (kind < 4 || depth > 2) {
        return text;
      }
      if (kind < 8) {
        const [start, end] = this.pick(INLINES);
        return start + this.inline(depth + 1) + end;
      }
      return kind === 8 ? `${text}<br>${this.pick(WORDS)}` : `<img src='http://x/i.png'>${text}`;
    });
  }

  list(depth = 0) {
    const name = this.pick(["ul", "ol"]);
    const item = () =>
      `<li>${this.inline()}${depth < 2 && this.below(3) === 0 ? this.list(depth + 1) : ""}</li>`;
    return `<${name}>${this.many(3, item)}</${name}>`;
  }

  blocks(depth = 0) {
    return this.many(4, () => {
      const kind = this.below(13);
      if (kind < 5) {
        return `<p>${this.inline()}</p>`;
      }
      if (kind < 6) {
        const level = 1 + this.below(3);
        return `<h${level}>${this.inline(2)}</h${level}>`;
      }
      if (kind < 8) {
        return this.list();
      }
      if (kind < 9 && depth < 2) {
        return `<blockquote>${this.blocks(depth + 1)}</blockquote>`;
      }
      const align = this.pick(["center", "right"]);
      return kind < 10
        ? "<hr>"
        : kind < 11
          ? `<p style='text-align:${align}'>${this.inline()}</p>`
          : kind < 12
            ? "<p><br></p>"
            : `<pre>${this.pick(WORDS)}\n  ${this.pick(WORDS)}</pre>`;
    });
  }
}

/** Pastes a fragment, and gives it as lines before and after, and what undo leaves. */
async function pasteAndRead(fragment) {
  const modules = ["/paste_lines.js", "/clean_nodes.js"];
  const loaded = await Promise.all(modules.map((path) => import(path)));
  const [{ readLines }, { cleanNodes, parseInert, settingsOf }] = loaded;
  const settings = settingsOf({ inline: true });
  const lines = (html) =>
    readLines(cleanNodes(html, settings, parseInert)).lines.map(({ pieces, ...line }) => ({
      ...line,
      pieces: pieces.map(({ formats, ...piece }) => {
        const text = piece.text?.replaceAll("\u00a0", " ");
        const own = piece.type === "text" ? [...formats].sort() : [];
        const link = piece.type === "image" ? (formats.get("createLink") ?? null) : null;
        return { ...piece, text, own, link };
      }),
    }));
  const { region } = window;
  const textOf = (node) => node.textContent.replace(/[\s\u00a0]/g, "");
  const before = region.html();
  const fragmentText = textOf(parseInert(fragment).body);
  const isDone = region.paste(fragment);
  for (let frame = 0; region.status === "busy" && frame < 500; frame += 1) {
    await new Promise((resolve) => setTimeout(resolve, 20));
  }
  const html = region.html();
  const text = textOf(region.element);
  const [given, got] = [lines(fragment), lines(html)];
  const steps = region.editor.counts().undo;
  const difference = region.check();
  region.undo();
  return { isDone, html, text, fragmentText, given, got, steps, difference, isBack: region.html() === before };
}

/** Places where random fragments are pasted, without blanks beside what is pasted. */
const PLACES = [
  "<p>L|R</p>",
  "<p>L|</p><p>R</p>",
  "<p>L</p><p>|R</p>",
  "<p><b>L|R</b></p>",
  "<p>L<a href='http://y/'>1|2</a>R</p>",
  "<p>L<a href='http://y/'>1|</a>R</p>",
  "<p>L [one</p><h2>two] R</h2>",
  "<h2>L|R</h2>",
  "<h1>L</h1><h1>|</h1><h1>R</h1>",
  "<ul><li>L|R</li></ul>",
  "<ul><li>L|<ul><li>1</li></ul></li><li>R</li></ul>",
  "<ul><li>L|1<ul><li>R</li></ul></li></ul>",
  "<ol><li>L</li><ul><li>1|2</li></ul><li>R</li></ol>",
  "<ul><li><p>L|</p></li><li><p>R</p></li></ul>",
  "<ul><li>L</li><li>|<br></li><li>R</li></ul>",
  "<blockquote><p>L|R</p></blockquote>",
  "<blockquote>L<blockquote>1|2</blockquote>R</blockquote>",
  "<div>L|R</div>",
  "<div style='text-align:center'><p>L|R</p></div>",
  "<dl><dt>L|1</dt><dd>R</dd></dl>",
  "<dl><dt>L</dt><dd>1|2</dd></dl><p>R</p>",
  "<table><tbody><tr><td>L|1</td><td>R</td></tr></tbody></table>",
  "<table><tbody><tr><td><p>L|</p></td><td>R</td></tr></tbody></table>",
  "<pre>L|R</pre>",
  "L|R",
  "L<br>|R",
  "<p>L<img src='http://x/l.png'>|<img src='http://x/r.png'>R</p>",
  "<p>L<span contenteditable='false'>1</span>|R</p>",
  "<hr><p>|</p><hr>",
  "|",
];

/** Lines as far as a page has them: empty ones at the end don't count, nor does where a rule is quoted. */
function comparable(lines) {
  const all = lines.map((line) => ({ ...line, rules: line.rules.length }));
  while (all.length > 1 && all.at(-1).pieces.length === 0 && all.at(-1).rules === 0) {
    all.pop();
  }
  return all;
}

for (const { Browser, name, skip } of BROWSERS.filter(({ name: each }) => each === "Chromium")) {
  describe(`random fragments in ${name}`, { skip }, () => {
    const region = new PastePage(Browser);

    it("come back as the same lines", { timeout: 600_000 }, async () => {
      for (let seed = 1; seed <= COUNT; seed += 1) {
        const fragment = new Fragments(seed).blocks();
        await region.openAt("<p>|<br></p>", { view: { relative: false }, debug: false });
        const { given, got, ...result } = await region.page.evaluate(pasteAndRead, fragment);
        const about = `${seed}: ${fragment} gives ${result.html}`;
        const { isDone, steps, difference, isBack } = result;
        assert.deepEqual([isDone, difference, isBack], [true, null, true], about);
        assert.ok(steps <= 1, about);
        assert.deepEqual(comparable(got), comparable(given), about);
      }
    });

    it("lose and move no text, wherever they are pasted", { timeout: 600_000 }, async () => {
      for (let seed = 1; seed <= COUNT; seed += 1) {
        const fragment = new Fragments(1000 + seed).blocks();
        const where = PLACES[seed % PLACES.length];
        await region.openAt(where, { debug: false });
        const result = await region.page.evaluate(pasteAndRead, fragment);
        const about = `${seed}: ${fragment} in ${where} gives ${result.html}`;
        const { isDone, steps, difference, isBack, text, fragmentText } = result;
        assert.deepEqual([isDone, difference, isBack], [true, null, true], about);
        assert.ok(steps <= 1, about);
        const around = where.replace(/\[.*\]/, "|").replace(/<[^>]*>|\s/g, "");
        assert.equal(text, around.replace("|", () => fragmentText), about);
      }
    });
  });
}
