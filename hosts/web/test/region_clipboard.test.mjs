/** What a region does with the clipboard: choices of its host, copies, refusals, long pastes and files. */
import assert from "node:assert/strict";
import { describe } from "node:test";
import { BROWSERS, it } from "./browsers.mjs";
import { PastePage } from "./paste_page.mjs";

const TABLE = "<p>a</p><table><tbody><tr><td>b</td><td><b>c</b></td></tr></tbody></table>";

/** Answers what is lost as is wanted, and keeps what was said. */
function openLossy(answer) {
  window.said = [];
  const lossy = (lost) => {
    window.said.push([...lost].sort());
    return answer;
  };
  window.start("<p>x</p>", { paste: { lossy } });
  const label = window.region.editor.labelAt([0, 0, 0]);
  window.region.select({ label, offset: 1 });
  window.region.addEventListener("refused", (event) => {
    event.preventDefault();
    window.said.push([event.command, event.reason, event.text]);
  });
  window.region.focus();
}

for (const { Browser, name, skip } of BROWSERS) {
  describe(`the clipboard of a region in ${name}`, { skip }, () => {
    const region = new PastePage(Browser);
    const said = () => region.page.evaluate(() => window.said.splice(0));

    describe("plain text", () => {
      it("is pasted by a key", async () => {
        await region.openAt("<p>a|b</p>");
        const html = "<p>one <b>two</b></p>";
        const pasted = await region.paste(html, { text: "one two", keys: "Control+Shift+v" });
        assert.equal(pasted, "<p>aone twob</p>");
        assert.equal(await region.paste(html, { text: "one two" }), "<p>aone twoone <b>two</b>b</p>");
      });

      it("is what a host may choose", async () => {
        await region.openAt("<p>a|b</p>", { paste: "plain" });
        const pasted = await region.paste("<p><b>one</b></p><p>two</p>", { text: "one\ntwo" });
        assert.equal(pasted, "<p>aone</p><p>twob</p>");
      });
    });

    describe("what a paste loses", () => {
      const cases = [
        ["rich", "<p>xa</p><p>b &nbsp; <b>c</b></p>", []],
        ["plain", "<p>xa</p><p>b c</p>", []],
        ["refuse", "<p>x</p>", [["insertFromPaste", "lossy", "a\nb c"]]],
      ];
      for (const [answer, wanted, refused] of cases) {
        it(`is told to the host, which answers ${answer}`, async () => {
          await region.page.evaluate(openLossy, answer);
          assert.equal(await region.paste(TABLE, { text: "a\nb c" }), wanted);
          assert.deepEqual(await said(), [["table"], ...refused]);
        });
      }

      it("has names", async () => {
        await region.page.evaluate(openLossy, "rich");
        for (const [fragment, lost] of [
          ["<img src='http://x/' alt='a' width='9'>", ["alt", "size"]],
          ["<ol start='3'><li>a</ol>", ["numbering"]],
          ["<ul><li><blockquote>a</blockquote></ul>", ["quotation"]],
          ["<p dir='rtl' lang='he' title='t'>a</p>", ["dir", "lang", "title"]],
          ["<dl><dt>a<dd>b</dl>", ["definitions"]],
          ["a <code>b</code>", ["code"]],
        ]) {
          await region.paste(fragment);
          assert.deepEqual(await said(), [lost], fragment);
        }
        await region.paste("<p>a <b>b</b></p><pre><code>c</code></pre><ul><li>d</li></ul><hr>");
        assert.deepEqual(await said(), []);
      });
    });

    describe("denied commands", () => {
      it("make nothing of what is pasted", async () => {
        const denied = ["bold", "insertImage", "insertUnorderedList", "formatBlock", "createLink"];
        await region.openAt("<p>|<br></p>", { denied });
        const fragment =
          "<h1>a</h1><ul><li><b>b</b></li></ul><p><i>c</i><img src='http://x/'><a href='http://x/'>d</a></p>";
        assert.equal(await region.paste(fragment), "<p>a</p><p>b</p><p><i>c</i>d</p>");
      });

      it("are told where nothing may be inserted", async () => {
        await region.openAt("<p>a|</p>", { denied: ["insertText"] });
        await region.page.evaluate(() => {
          window.said = [];
          window.region.addEventListener("refused", (event) => {
            event.preventDefault();
            window.said.push([event.command, event.reason, event.text]);
          });
        });
        assert.equal(await region.paste("<b>b</b>", { text: "b" }), "<p>a</p>");
        assert.deepEqual(await said(), [["insertText", "denied", "b"]]);
      });
    });

    describe("what is copied within a region", () => {
      const cases = [
        ["a part of formats", "<p>a<b>b[c<i>d</i>]e</b></p>", "<p><b>c<i>d</i></b></p>"],
        ["a usual font", '<p>a[<font face="Arial">b</font>]</p>', '<p><font face="Arial">b</font></p>'],
        ["a link", '<p>a<a href="/b?c">b[c]d</a></p>', '<p><a href="/b?c">c</a></p>'],
        ["a heading", "<h2>[ab]</h2><p>c</p>", "<h2>ab</h2>"],
        ["items", "<ol><li>a[b</li><li>c</li><ul><li>d]e</li></ul></ol>", "<ol><li>b</li><li>c</li><ul><li>d</li></ul></ol>"],
        ["quoted lines", "<blockquote><p>a[b</p><p>c]d</p></blockquote>", "<blockquote><p>b</p><p>c</p></blockquote>"],
        ["centred lines", '<div style="text-align: center;"><p>a[b</p><p>c]d</p></div>', '<div style="text-align: center;"><p>b</p><p>c</p></div>'],
        ["code", "<pre>[a  b<br> c]</pre>", "<pre>a  b<br> c</pre>"],
      ];
      for (const [what, where, wanted] of cases) {
        it(`comes back: ${what}`, async () => {
          await region.openAt(where);
          await region.press("Control+c");
          await region.openAt("<p>|<br></p>");
          await region.press("Control+v");
          await region.shows(wanted);
        });
      }

      it("is text and HTML elsewhere", async () => {
        await region.openAt("<ul><li>a[b</li><li><b>c</b>]</li></ul>");
        await region.press("Control+c");
        const types = await region.page.evaluate(async () => {
          const [item] = await navigator.clipboard.read();
          const read = async (type) => (await item.getType(type)).text();
          return [await read("text/html"), await read("text/plain")];
        });
        assert.match(types[0], /<ul.*<li.*>b.*<\/li>.*<li.*>.*c.*<\/ul>/s);
        assert.match(types[1], /b\s*c/);
      });

      it("is cut in one step", async () => {
        await region.openAt("<p>a[<b>b</b>]c</p>");
        await region.press("Control+x");
        await region.shows("<p>ac</p>");
        await region.press("Control+v");
        await region.shows("<p>a<b>b</b>c</p>");
        await region.press("Control+z", 2);
        await region.shows("<p>a<b>b</b>c</p>");
      });
    });

    describe("a long paste", () => {
      const LONG = Array.from({ length: 120 }, (_, index) => `<p>one <b>two</b> <i>${index}</i></p>`).join("");
      const start = (choices = {}) =>
        region.page.evaluate(
          (html, given) => {
            window.start("<p>ab</p>", { debug: false, ...given });
            const label = window.region.editor.labelAt([0, 0, 0]);
            window.region.select({ label, offset: 1 });
            window.region.focus();
            window.errors = [];
            window.region.addEventListener("error", (event) => {
              event.preventDefault();
              window.errors.push(event.error.constructor.name);
            });
            // The clock runs ahead, so that the paste goes on later.
            const now = performance.now.bind(performance);
            performance.now = () => now() * 1000;
            try {
              window.isDone = window.region.paste(html);
            } catch (error) {
              window.isDone = error.constructor.name;
            }
            performance.now = now;
            return [window.isDone, window.region.status];
          },
          LONG,
          choices,
        );

      it("goes on while the page does other things, and what is typed waits", async () => {
        assert.deepEqual(await start(), [true, "busy"]);
        await region.page.type("xy");
        const html = await region.agrees();
        assert.match(html, /^<p>aone <b>two<\/b> <i>0<\/i><\/p>.*<i>119<\/i>xyb<\/p>$|119xy<\/i>b<\/p>$/);
        await region.press("Control+z", 2);
        await region.shows("<p>ab</p>");
      });

      it("is done at once where the host calls", async () => {
        assert.deepEqual(await start(), [true, "busy"]);
        assert.equal(await region.ask("undo"), true);
        await region.shows("<p>ab</p>");
        await region.ask("redo");
        assert.match(await region.agrees(), /<i>119<\/i>b<\/p>$/);
      });

      it("is taken back where the engine refuses the rest", async () => {
        const [isDone] = await start({ labelCap: 400 });
        await region.shows("<p>ab</p>");
        const errors = await region.page.evaluate(() => window.errors);
        assert.ok(isDone === "PageFull" || errors[0] === "PageFull");
      });

      it("is left where the region is closed", async () => {
        await start();
        await region.ask("close");
        await region.page.settle();
        assert.equal(await region.page.evaluate(() => window.region.status), "closed");
        await region.open("<p>one</p>");
      });
    });
  });
}
