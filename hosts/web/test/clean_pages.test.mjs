/** Tests `cleanPage` with whole mails and hostile pages, and its options and limits. */
import assert from "node:assert/strict";
import { readFile, readdir } from "node:fs/promises";
import { describe } from "node:test";
import { BROWSERS, it } from "./browsers.mjs";
import { CleaningPage, read } from "./clean_page.mjs";
import { serve } from "./server.mjs";

const CORPUS = new URL("clean_corpus/", import.meta.url);

/** Pages that got something past other sanitizers, or that parsers read in two ways. */
const HOSTILE = [
  "<svg></p><style><a id='</style><img src=1 onerror=alert(1)>'>",
  "<svg><style><img src=x onerror=alert(1)></style></svg>a",
  "<math><mtext><table><mglyph><style><!--</style><img title='--&gt;&lt;img src=1 onerror=alert(1)&gt;'>",
  "<math><annotation-xml encoding='text/html'><p onclick=x>a</p></annotation-xml></math>b",
  "<form><math><mtext></form><form><mglyph><style></math><img src onerror=alert(1)></style></mglyph></form>",
  "<noscript><p title='</noscript><img src=x onerror=alert(1)>'></noscript>",
  "<template><script>alert(1)</script><template><img src=x onerror=x></template></template>a",
  "<form>a<form>b</form><div><form>c</form></div></form>",
  "<textarea><img title='</textarea><img src=x onerror=alert(1)>'></textarea>",
  "<title><img title='</title><img src=x onerror=alert(1)>'></title>",
  "<xmp><img title='</xmp><img src=x onerror=alert(1)>'></xmp>",
  "<iframe srcdoc='<script>alert(1)</script>'></iframe><noembed><img title='</noembed><img src=x onerror=x>'>",
  "<select><style></select><img src=x onerror=alert(1)></style></select>",
  "<table><caption><svg><desc><table><img src=x onerror=x></table></desc></svg></caption></table>",
  "<!--><img src=x onerror=alert(1)>--><!--!><b>a</b>--!><i>b</i>",
  "<p title='&quot;><img src=x onerror=alert(1)>'>a</p>",
  "<a href='jav&#x09;ascript:alert(1)'>a</a><a href='\u0001javascript:alert(1)'>b</a>",
  "<a href='https://x/&quot; onclick=&quot;alert(1)'>a</a>",
  "<img src='data:image/svg+xml;base64,PHN2Zz4='><img src='data:text/html,x'><img src=javascript:x>",
  "<p style='background: url(javascript:x); behavior: url(x); -moz-binding: url(x)'>a</p>",
  "<p style='width: expression(alert(1)); color: red; position: fixed'>a</p>",
  "<p style='font-family: \"</p><img src=x onerror=x>\"'>a</p>",
  "<font face='x; position: fixed' color='red\" onclick=\"x'>a</font>",
  "<base href=https://x/><link rel=stylesheet href=x><meta http-equiv=refresh content='0;url=x'>a",
  "<img name=cookie id=body src=https://x/i><a id=x name=y href=https://x/>a</a>",
  "<x-a is=x-b><p is=x-c slot=d part=e popover>a</p></x-a>",
  "<svg><foreignObject><p>a</p><iframe src=x></foreignObject></svg><p>b",
  "<svg><a xlink:href='javascript:alert(1)'><text>x</text></a><animate attributeName=href></svg>",
  "<frameset onload=x><frame src=javascript:x></frameset>",
  "<plaintext><script>alert(1)</script>",
  "a<nobr>b<nobr>c<a href=https://x/>d<a href=https://y/>e<button>f<button>g",
  "<b><i><u><s><b><i><u><s><b><p>a</b></i></u></s>b",
  "<ruby>a<rp>(<rt>b<rp>)</ruby><table><tr><td><table><td>c",
];

/** Pages with names that hide properties of the document or of a form, and their results. */
const NAMED = [
  ["<img name=body src=https://x/i>a", '<p><img src="https://x/i">a</p>'],
  ["<form name=body>a</form>b", "<p>a</p><p>b</p>"],
  ["<object name=documentElement></object><embed name=querySelector>a", "<p>a</p>"],
  ["<img name=createElement><img name=querySelectorAll><p style='mso-list:l0 level1 lfo1'>a", "<ul><li>a</li></ul>"],
  ["<form>a<input name=firstChild><input name=nodeType>b</form>c", "<p>ab</p><p>c</p>"],
  ["<form>a<input id=nextSibling><button name=localName>b</button></form>c", "<p>ab</p><p>c</p>"],
  ["<form dir=rtl>a<img name=getAttribute><img name=getAttributeNames></form>", '<p dir="rtl">a</p>'],
  ["<form>a<fieldset name=attributes>b<input name=namespaceURI></fieldset></form>", "<p>a</p><p>b</p>"],
  ["<form name=removeAttribute>a<input name=removeAttribute></form>", "<p>a</p>"],
];

for (const { Browser, name, skip } of BROWSERS) {
  describe(`cleaning whole pages in ${name}`, { skip }, () => {
    const page = new CleaningPage(Browser);

    it("gives what mails and documents of several writers show", async () => {
      const files = (await readdir(CORPUS)).filter((file) => !file.endsWith(".clean.html"));
      assert.ok(files.length > 5);
      for (const file of files) {
        const html = await readFile(new URL(file, CORPUS), "utf8");
        const expected = new URL(file.replace(".html", ".clean.html"), CORPUS);
        assert.equal(`${await page.clean(html)}\n`, await readFile(expected, "utf8"), file);
      }
    });

    it("lets nothing hostile through", async () => {
      for (const html of HOSTILE) {
        for (const options of [{}, { relative: true, inline: true, locked: true }]) {
          const cleaned = await page.clean(html, options);
          const tags = cleaned.replace(/"[^"]*"/g, "").match(/<[^>]*>/g) ?? [];
          assert.doesNotMatch(tags.join(""), /\bon|svg|iframe|script|style>|form/, html);
        }
      }
    });

    it("reads forms and documents in which names hide properties", async () => {
      for (const [html, expected] of NAMED) {
        assert.equal(await page.clean(html), expected, html);
      }
    });

    it("tells what it leaves out, once", async () => {
      const told = await page.evaluate(() => {
        const dropped = [];
        const html =
          "<p id=a title=b style='color: red; top: 0'>c<script>d</script><o:p>e</o:p></p>" +
          "<a href='javascript:x'>f</a>";
        window.cleanPage(html, { report: (each) => dropped.push(each) });
        return dropped;
      });
      assert.deepEqual(told, [
        { kind: "attribute", element: "p", name: "id" },
        { kind: "style", element: "p", name: "top" },
        { kind: "element", element: "script" },
        { kind: "tags", element: "o:p" },
        { kind: "attribute", element: "a", name: "href", value: "javascript:x" },
      ]);
    });

    it("takes expressions and words as classes", async () => {
      const cleaned = await page.evaluate(() => [
        window.cleanPage("<p class='m-a x m-b'>a", { classes: /m-[a-z]/ }),
        window.cleanPage("<p class='m-a x m-b'>a", { classes: new Set(["x"]).values() }),
      ]);
      assert.deepEqual(cleaned, ['<p class="m-a m-b">a</p>', '<p class="x">a</p>']);
    });

    it("takes pages that are made to be slow", { timeout: 120_000 }, async () => {
      const numbered = Array.from({ length: 20_000 }, (_, number) => `a${number}=b`).join(" ");
      for (const [html, least] of [
        [`<p ${numbered}>x`, 8],
        [`<p style='${"color: red; ".repeat(20_000)}'>x`, 8],
        [`<p class='${"a ".repeat(50_000)}'>x`, 8],
        ["<div>a".repeat(3_000), 3_000],
        ["<b><i>a".repeat(1_000), 1_000],
        ["<blockquote><ul><li>a".repeat(1_000), 1_000],
        ["<table><tr><td>a".repeat(500), 500],
        ["<a href=https://x/>a".repeat(2_000), 40_000],
        [`${"<b>".repeat(50)}${"<p>x".repeat(1_000)}`, 300_000],
        [`<p style='white-space: pre-wrap'>${" \n".repeat(20_000)}x`, 100_000],
        [`<pre>${"\n".repeat(20_000)}x`, 80_000],
        [`<p>${"&".repeat(50_000)}`, 250_000],
        [`<a href='${" ".repeat(50_000)}https://x/'>x`, 20],
        ["<p style='mso-list: l0 level9 lfo1'>1. a</p>".repeat(1_000), 10_000],
      ]) {
        const cleaned = await page.clean(html);
        assert.ok(cleaned.length >= least, `${String(html).slice(0, 40)}: ${cleaned.length}`);
      }
    });

    it("keeps no more levels than asked for, and no more than the engine reads", async () => {
      const deep = "<blockquote>a".repeat(450);
      const depthOf = (html) => html.match(/^(<blockquote>(<p>a<\/p>)?)+/)[0].match(/<b/g).length;
      const cut = await page.clean(deep);
      assert.equal(depthOf(cut), 100);
      assert.equal(cut.match(/a/g).length, 450);
      assert.equal(depthOf(await page.clean(deep, { maxDepth: 1000 })), 190);
      assert.equal((await page.clean("<p>a<b>b</b></p>", { maxDepth: 0 })), "<p>ab</p>");
    });

    it("refuses what is too long for the engine", async () => {
      const lengths = await page.evaluate(() => {
        const most = 4 * 2 ** 20 - 4 * 2 ** 10;
        const tryLength = (html) => {
          try {
            return window.cleanPage(html).length;
          } catch (error) {
            return [error.name, error.kind, error.at];
          }
        };
        const text = "x".repeat(most - "<p></p>".length);
        const copies = `${"<b>".repeat(99)}${"<p>x".repeat(20_000)}`;
        return [most, ...[text, `${text}x`, `é${text.slice(1)}`, copies].map(tryLength)];
      });
      const refused = ["PageRefused", "too-long", lengths[0]];
      assert.deepEqual(lengths.slice(1), [lengths[0], refused, refused, refused]);
      read(`<p>${"x".repeat(lengths[0] - "<p></p>".length)}</p>`);
    });
  });

  describe(`cleaning under strict policies in ${name}`, { skip }, () => {
    /** Runs a script in a page with a strict policy, and returns its answer. */
    async function ask(types, script) {
      const policy =
        "default-src 'none'; script-src 'self' 'nonce-hedit'; connect-src 'self'; style-src 'none'; " +
        `require-trusted-types-for 'script'; trusted-types ${types}`;
      const markup = `<!doctype html>
        <meta charset="utf-8">
        <meta http-equiv="Content-Security-Policy" content="${policy}">
        <title>Strict</title>
        <script type="module" nonce="hedit">
          import { cleanPage } from "/clean.js";

          let said = "";
          try {
            said = (() => { ${script} })();
          } catch (error) {
            said = String(error);
          }
          await fetch("/", { method: "POST", body: said });
        </script>`;
      const server = await serve("", markup);
      const browser = await Browser.launch();
      try {
        await browser.open(server.address);
        return await server.answer;
      } finally {
        await browser.close();
        server.close();
      }
    }

    const PAGE = "<p style='color: red; top: 0' onclick=x>a<b style='font-weight: normal'>b</b>";

    const CLEANED = '<p style="color: rgb(255, 0, 0);">ab</p>';

    it("makes a policy of its own, and reads styles", async () => {
      assert.equal(await ask("hedit", `return cleanPage("${PAGE}");`), CLEANED);
    });

    it("takes a parser of the page", async () => {
      const script = `
        const policy = globalThis.trustedTypes?.createPolicy("mine", { createHTML: (html) => html });
        const parse = (html) =>
          new DOMParser().parseFromString(policy ? policy.createHTML(html) : html, "text/html");
        return cleanPage("${PAGE}", { parse });`;
      assert.equal(await ask("mine", script), CLEANED);
    });
  });
}
