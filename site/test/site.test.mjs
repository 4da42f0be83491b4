/**
 * The site that bin/site made in the folder HEDIT_SITE, by default dist/site: its links, and its pages in
 * Chromium, Firefox and WebKit.
 */
import assert from "node:assert/strict";
import { once } from "node:events";
import { readFileSync } from "node:fs";
import { readFile, readdir } from "node:fs/promises";
import { createServer } from "node:http";
import { dirname, extname, join, relative, resolve } from "node:path";
import { after, afterEach, before, describe, it as test } from "node:test";
import { fileURLToPath } from "node:url";
import { BROWSERS, it } from "../../hosts/web/test/browsers.mjs";
import { load } from "../../hosts/web/src/hedit.js";
import { repliesOf } from "../playground/session.js";

const REPOSITORY = fileURLToPath(new URL("../..", import.meta.url));

const SITE = resolve(process.env.HEDIT_SITE ?? join(REPOSITORY, "dist", "site"));

const TYPES = {
  ".html": "text/html; charset=utf-8",
  ".css": "text/css",
  ".js": "text/javascript",
  ".json": "application/json",
  ".png": "image/png",
  ".wasm": "application/wasm",
};

const LIMITS = ["default-src 'none'", "script-src 'self'", "style-src 'self'"];

/** Serves the files of the site. */
async function serve() {
  const server = createServer(async (request, response) => {
    const { pathname } = new URL(request.url, "http://site");
    const path = join(SITE, decodeURIComponent(pathname.replace(/\/$/, "/index.html")));
    const content = await readFile(path).catch(() => undefined);
    response.writeHead(content ? 200 : 404, { "Content-Type": TYPES[extname(path)] ?? "text/plain" });
    response.end(content);
  });
  server.listen(0, "127.0.0.1");
  await once(server, "listening");
  return server;
}

/** The pages of the site, with the attributes that lead somewhere and the anchors of each. */
async function readPages() {
  const names = (await readdir(SITE, { recursive: true })).filter((name) => name.endsWith(".html"));
  return new Map(
    names.map((name) => {
      const text = readFileSync(join(SITE, name), "utf8");
      const links = [...text.matchAll(/<(\w+)\b[^>]*?\s(?:href|src)="([^"]*)"/g)];
      const anchors = [...text.matchAll(/\sid="([^"]*)"/g)].map(([, id]) => id);
      return [name, { text, anchors, links: links.map(([, element, link]) => ({ element, link })) }];
    }),
  );
}

describe("the site's files", () => {
  let pages;

  before(async () => {
    pages = await readPages();
  });

  /** What is wrong with a link of a page; undefined where nothing is. */
  function faultOf(name, { element, link }) {
    if (link.startsWith("data:")) return undefined;
    if (/^[a-z]+:/.test(link)) return element === "a" ? undefined : `${name} loads ${link}`;
    const [path, anchor] = link.replaceAll("&amp;", "&").split("#");
    const target = path ? relative(SITE, resolve(SITE, dirname(name), path)) : name;
    const there = pages.get(target);
    if (!there) {
      const isFile = !target.startsWith("..") && extname(target) !== "" && exists(target);
      return isFile ? undefined : `${name}: ${link} leads nowhere`;
    }
    const isSession = target === "playground.html" && /^(text|example)=/.test(anchor ?? "");
    const isThere = !anchor || isSession || there.anchors.includes(decodeURIComponent(anchor));
    return isThere ? undefined : `${name}: ${link} has no such heading`;
  }

  function exists(name) {
    try {
      return readFileSync(join(SITE, name)).length > 0;
    } catch {
      return false;
    }
  }

  test("have a page for each document", () => {
    assert.ok(pages.size > 80, `there are ${pages.size}`);
    for (const name of ["index.html", "docs/WEB.html", "docs/api/c.html", "hosts/web/index.html", "LICENSE.html"]) {
      assert.ok(pages.has(name), name);
    }
  });

  test("link only to what is there, and load nothing from elsewhere", () => {
    const faults = [...pages].flatMap(([name, { links }]) => links.map((link) => faultOf(name, link)));
    assert.deepEqual(faults.filter(Boolean), []);
  });

  test("allow no scripts and styles but their own", () => {
    for (const [name, { text }] of [...pages].filter(([each]) => !each.startsWith("demo/"))) {
      const policy = /http-equiv="Content-Security-Policy" content="([^"]*)"/.exec(text)?.[1] ?? "";
      assert.ok(LIMITS.every((limit) => policy.includes(limit)), name);
      assert.doesNotMatch(text, /<style|<[^>]*\son\w+=|<script(?![^>]*\ssrc=)/, name);
    }
  });

  test("have the examples with the answers that the repository has", async () => {
    const engine = await load(await readFile(join(SITE, "src", "hedit.wasm")));
    const examples = JSON.parse(await readFile(join(SITE, "playground", "examples.json"), "utf8"));
    assert.ok(examples.length > 10);
    for (const { name, words, text, shows } of examples) {
      const run = (part) => engine.session(part, words.split(" "));
      const answer = await readFile(join(REPOSITORY, "examples", `${name}.answer`), "utf8");
      assert.equal(run(text).transcript, answer, name);
      const replies = repliesOf(text, run(text), run);
      assert.equal(replies.map(({ reply }) => reply).join(""), answer, name);
      assert.notEqual(shows, "", name);
    }
  });
});

for (const { Browser, name: browserName, skip } of BROWSERS) {
  describe(`the site in ${browserName}`, { skip }, () => {
    let server;
    let root;
    let browser;
    let page;

    before(async () => {
      server = await serve();
      root = `http://127.0.0.1:${server.address().port}/`;
      // WebKit's driver runs a script that comes between a page's text and its load a minute later.
      browser = await Browser.launch({ loading: "normal" });
    });

    after(async () => {
      await browser?.close();
      server.closeAllConnections();
      server.close();
    });

    afterEach(async () => {
      await page?.close();
      assert.deepEqual(browser.complaints.splice(0), []);
    });

    /** Opens a page of the site, and waits until an element is there. */
    async function open(path, wanted, screen = {}) {
      page = await browser.open(root + path, screen);
      await page.until((selector) => document.querySelector(selector), wanted);
    }

    const textOf = (selector) => page.evaluate((wanted) => document.querySelector(wanted)?.textContent, selector);

    const shows = (selector, part) =>
      page
        .until((wanted, text) => document.querySelector(wanted)?.textContent.includes(text), selector, part)
        .catch(async () => assert.match(await textOf(selector), new RegExp(part)));

    it("leads from page to page", async () => {
      await open("index.html", "article h1");
      await page.click('.pages a[href="docs/SURPRISES.html"]');
      await shows("article h1", "Surprises");
      assert.equal(await textOf(".pages [aria-current]"), "Surprises");
      await page.click(".code.session a");
      await page.until(() => document.querySelector("#replies li"));
      assert.match(await page.evaluate(() => document.querySelector("#session").value), /^page <</);
    });

    it("finds a section by its words", async () => {
      await open("docs/api/python.html", "#search:not([hidden])");
      await page.click("#query");
      await page.type("insertparagraph");
      await page.until(() => document.querySelector('#results a[aria-selected="true"]'));
      assert.equal(await textOf("#results a strong"), "insertParagraph");
      await page.press("Enter");
      await page.until(() => location.hash === "#insertparagraph");
      assert.match(await page.evaluate(() => location.pathname), /docs\/ALGORITHMS\.html$/);
    });

    it("finds nothing where there is nothing", async () => {
      await open("index.html", "#search:not([hidden])");
      await page.click("#query");
      await page.type("qqzzx");
      await shows("#results", "Nothing found");
      await page.press("Escape");
      assert.equal(await page.evaluate(() => document.querySelector("#results").hidden), true);
    });

    it("has the composer, in which one types", async () => {
      await open("demo/index.html", "#message > p");
      await page.click("#message > p");
      await page.type("Call Ann");
      await page.press("Control+Shift+ArrowLeft");
      await page.press("Control+B");
      await page.until(() => document.querySelector("#message b")?.textContent === "Ann");
    });

    it("answers a session as it is typed", async () => {
      await open("playground.html", "#replies li");
      await page.click("#session");
      await page.press("Control+A");
      await page.type("page <<E\n<p contenteditable>ab</p>\nE\nselect 0/0:0 0/0:2\nexec italic\nhtml\n");
      await shows("#replies li:last-child .reply", '<p contenteditable=""><i>ab</i></p>');
      assert.equal(await textOf("#replies li:nth-child(2) .act"), "exec italic");
      assert.match(await textOf("#said"), /^3 lines ran in /);
    });

    it("says in which line a fault is", async () => {
      const text = "page <<E\n<p contenteditable>ab</p>\nE\nselect 7:0 7:0\n\nhello\n";
      await open(`playground.html#${new URLSearchParams({ text })}`, "#replies li");
      await shows("#said", "Line 4");
      assert.match(await textOf("#said"), /no such place.* 1 more line has a fault/);
      await page.click("#session");
      await page.press("Control+A");
      await page.type("page <<E\n<p>a\n</q></p>\nE\n");
      await shows("#said", "Line 3, column 3");
      await page.click("#said button");
      const chosen = () => {
        const { selectionStart, selectionEnd, value } = document.querySelector("#session");
        return value.slice(selectionStart, selectionEnd);
      };
      assert.equal(await page.evaluate(chosen), "q");
    });

    it("keeps the session and the arguments in the address", async () => {
      await open("playground.html#example=denied", "#replies li");
      assert.match(await page.evaluate(() => document.querySelector("#words").value), /^run --deny /);
      await page.click("#words");
      await page.press("Control+A");
      await page.type("run --deny bold");
      await page.click("#session");
      await page.press("Control+A");
      await page.type("page <<E\n<p contenteditable>ab</p>\nE\nselect 0/0:0 0/0:2\nexec bold\n");
      await shows("#replies li:last-child .reply", "false");
      const address = await page.evaluate(() => location.href);
      await page.close();
      await open(address.slice(root.length), "#replies li");
      await shows("#replies li:last-child .reply", "false");
      assert.equal(await page.evaluate(() => document.querySelector("#words").value), "run --deny bold");
    });

    it("shows the pages of a menu on a phone, and nothing is wider than that", async () => {
      for (const path of ["index.html", "docs/api/c.html", "docs/ALGORITHMS.html", "playground.html"]) {
        await open(path, "#theme:not([hidden])", { width: 390, height: 844, mobile: true });
        assert.ok((await page.evaluate(() => document.documentElement.scrollWidth)) <= 390, path);
        await page.click("#menu");
        assert.equal(await page.evaluate(() => getComputedStyle(document.querySelector("#pages")).display), "block");
        await page.close();
      }
      page = undefined;
    });

    it("keeps the theme that is chosen", async () => {
      await open("index.html", "#theme:not([hidden])");
      const canvas = () => page.evaluate(() => getComputedStyle(document.body).backgroundColor);
      const light = await canvas();
      await page.click("#theme");
      assert.notEqual(await canvas(), light);
      await page.click('.pages a[href="playground.html"]');
      await page.until(() => document.querySelector("#replies li"));
      assert.notEqual(await canvas(), light);
      assert.equal(await page.evaluate(() => document.querySelector("#theme").ariaPressed), "true");
    });
  });
}
