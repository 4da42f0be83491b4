/** What a page's host asks of a region, and has it do. */
import assert from "node:assert/strict";
import { readFile } from "node:fs/promises";
import { describe } from "node:test";
import { setTimeout as sleep } from "node:timers/promises";
import { BROWSERS, it } from "./browsers.mjs";
import { RegionPage } from "./region_page.mjs";

/** A picture that is found by itself. */
const DOT = "data:image/gif;base64,R0lGODlhAQABAAAAACwAAAAAAQABAAA=";

for (const { Browser, name, skip } of BROWSERS) {
  describe(`a region's host in ${name}`, { skip }, () => {
    const region = new RegionPage(Browser);
    const evaluate = (call, ...words) => region.page.evaluate(call, ...words);

    /** The name of what a call throws. */
    const thrown = (call, ...words) =>
      evaluate(
        (text, given) => {
          try {
            new Function(`return (${text});`)()(...given);
          } catch (error) {
            return error.name;
          }
        },
        String(call),
        words,
      );

    describe("another page", () => {
      it("is a step of undo, and the one before stays as it was", async () => {
        const table = "<table><tbody><tr><td>a</td></tr></tbody></table>";
        await region.open(`<p>one</p>${table}`);
        await region.click([0, 0], 3);
        await region.type("x");
        await region.events();
        await region.ask("setHtml", "<h1>two</h1>");
        await region.shows("<h1>two</h1>");
        const events = await region.events();
        assert.deepEqual(events.slice(0, 2), ["reset", "change"]);
        await region.click([0, 0], 3);
        await region.type("y");
        await region.press("Control+z");
        await region.shows("<h1>two</h1>");
        await region.press("Control+z");
        await region.shows(`<p>onex</p>${table}`);
        await region.press("Control+z");
        await region.shows(`<p>one</p>${table}`);
        assert.equal(await evaluate(() => window.region.canUndo), false);
        for (const html of [`<p>onex</p>${table}`, "<h1>two</h1>", "<h1>twoy</h1>"]) {
          await region.press("Control+y");
          await region.shows(html);
        }
        assert.equal(await evaluate(() => window.region.canRedo), false);
      });

      it("forgets what was undone before it, and what comes after a new act", async () => {
        await region.open("<p>one</p>");
        await region.click([0, 0], 3);
        await region.type("x");
        await region.press("Control+z");
        await region.ask("setHtml", "<p>two</p>");
        await region.press("Control+z");
        await region.shows("<p>one</p>");
        await region.press("Control+y");
        await region.shows("<p>two</p>");
        await region.press("Control+z");
        await region.click([0, 0], 3);
        await region.type("z");
        assert.equal(await evaluate(() => window.region.canRedo), false);
        await region.press("Control+z");
        await region.shows("<p>one</p>");
      });

      it("is kept eight times", async () => {
        await region.open("<p>0</p>");
        for (let number = 1; number <= 10; number += 1) {
          await region.ask("setHtml", `<p>${number}</p>`);
        }
        await region.shows("<p>10</p>");
        let steps = 0;
        while (await region.ask("undo")) {
          steps += 1;
        }
        assert.equal(steps, 8);
        await region.shows("<p>2</p>");
      });

      it("has no history after a reset", async () => {
        await region.open("<p>one</p>");
        await region.click([0, 0], 3);
        await region.type("x");
        await region.ask("setHtml", "<p>two</p>");
        await region.ask("setHtml", "<p>three</p>", { history: "reset" });
        await region.shows("<p>three</p>");
        assert.equal(await region.ask("undo"), false);
      });

      it("is shown where nothing can be edited", async () => {
        await region.open("<p>one</p>", { readOnly: true });
        await region.ask("setHtml", "<p>two</p>");
        await region.shows("<p>two</p>");
        await evaluate(() => {
          window.region.readOnly = false;
        });
        assert.equal(await region.ask("undo"), true);
        await region.shows("<p>one</p>");
      });

      it("is refused as a whole", async () => {
        await region.open("<p>one</p>");
        assert.equal(await thrown(() => window.region.setHtml("<p>")), "PageRefused");
        await region.shows("<p>one</p>");
        assert.equal(await region.ask("undo"), false);
      });

      it("is cleaned, unless the first one wasn't", async () => {
        await region.open("<p>one</p>", { clean: true });
        await region.ask("setHtml", "<p onclick=x>two<script>3</script>");
        await region.shows("<p>two</p>");
      });

      it("ends what is composed", async () => {
        await region.open("<p>ab</p>");
        await region.click([0, 0], 1);
        await region.compose("に");
        await region.ask("setHtml", "<p>two</p>");
        await region.shows("<p>two</p>");
        await region.ask("undo");
        await region.shows("<p>aにb</p>");
      });
    });

    it("ends a region by `using`, and by `close`", async () => {
      await region.open("<p>one</p>", { placeholder: "Write" });
      await region.ask("setHtml", "<p>two</p>");
      const seen = await evaluate(() => {
        const { region: it } = window;
        const { element } = it;
        it[Symbol.dispose ?? "close"]();
        window.start("<p>three</p>");
        return [it.status, element.getAttribute("aria-placeholder"), window.region.canUndo];
      });
      assert.deepEqual(seen, ["closed", null, false]);
      const late = () => {
        const { region: it } = window;
        it.close();
        it.select({ label: 1, offset: 0 });
      };
      assert.equal(await thrown(late), "EditorClosed");
    });

    describe("what is selected", () => {
      it("is all, and has places and rectangles", async () => {
        await region.open("<p>a😀b</p><p>cd</p>");
        await region.click([0, 0], 1);
        await region.ask("selectAll");
        await region.agrees();
        assert.match(await region.selected(), /^a😀b\n+cd$/);
        const seen = await evaluate(() => {
          const { anchor, focus } = window.region.selection();
          const { node, offset } = window.region.placeOf(focus);
          const { label } = window.region.pointAt(node, 1);
          const [text] = document.querySelector("#host p").childNodes;
          return {
            is: [anchor.offset, focus.offset, label === focus.label, node.data, offset],
            emoji: window.region.pointAt(text, 3).offset,
            elsewhere: window.region.pointAt(document.body, 0),
            lines: window.region.rects(window.region.selection()).length,
            caret: window.region.rects({ anchor, focus: anchor }).map(({ height }) => height > 0),
          };
        });
        assert.deepEqual(seen.is, [0, 2, true, "cd", 2]);
        assert.equal(seen.emoji, 2);
        assert.equal(seen.elsewhere, null);
        assert.ok(seen.lines >= 2);
        assert.deepEqual(seen.caret, [true]);
        const nowhere = () => window.region.placeOf({ label: 999, offset: 0 });
        assert.equal(await thrown(nowhere), "BadPlace");
      });

      it("is all of one host in a whole page", async () => {
        const html = '<p>x</p><div contenteditable="true"><p>one</p></div>';
        await region.open(html, { id: "page" });
        await region.click([1, 0, 0], 1);
        await region.ask("selectAll");
        assert.equal(await region.selected(), "one");
      });

      it("may be where nothing can be edited", async () => {
        await region.open("<p>one two</p>", { readOnly: true });
        await evaluate(() => {
          const [{ anchor, focus }] = window.region.find("two");
          window.region.select(anchor, focus);
          window.region.focus();
        });
        assert.equal(await region.selected(), "two");
      });

      it("has marks, which go along with the text", async () => {
        await region.open("<p>one two</p>");
        await region.click([0, 0], 0);
        const marks = await evaluate(() => {
          const { region: it } = window;
          const [two] = it.find("two");
          it.mark("it", two);
          it.mark("caret");
          it.exec("insertText", "x");
          const [{ name, anchor, focus }, caret] = it.marks();
          const isOut = [it.unmark("it"), it.unmark("it")];
          return [name, anchor.offset, focus.offset, caret.name, it.marks().length, isOut];
        });
        assert.deepEqual(marks, ["it", 5, 8, "caret", 1, [true, false]]);
      });
    });

    describe("what is found", () => {
      /** The texts of the places where a text occurs. */
      const found = (text, options = {}) =>
        evaluate(
          (wanted, how) =>
            window.region.find(wanted, how).map(({ anchor, focus }) => {
              const [from, to] = [anchor, focus].map((point) => window.region.placeOf(point));
              const range = document.createRange();
              range.setStart(from.node, from.offset);
              range.setEnd(to.node, to.offset);
              return String(range);
            }),
          text,
          options,
        );

      it("is in one line, whatever formats are in it", async () => {
        const html = `<p>Call <b>An</b>n, ann</p><p>an</p><p>n an<br>n an<img src="${DOT}">n</p>`;
        await region.open(html);
        assert.deepEqual(await found("ann"), ["Ann", "ann"]);
        assert.deepEqual(await found("ann", { matchCase: true }), ["ann"]);
        assert.deepEqual(await found("ann", { across: false }), ["ann"]);
        assert.deepEqual(await found(""), []);
        assert.deepEqual(await found("İ"), []);
      });

      it("has letters that are longer when small, and spaces of both kinds", async () => {
        await region.open("<p>İx İX a&nbsp;b 😀A</p>");
        assert.deepEqual(await found("x"), ["x", "X"]);
        assert.deepEqual(await found("i̇x"), ["İx", "İX"]);
        assert.deepEqual(await found("a b"), ["a\u00a0b"]);
        assert.deepEqual(await found("😀a"), ["😀A"]);
      });

      it("is replaced as one step, and the caret stays where it was", async () => {
        const html = "<p>one <b>o</b>ne</p><p>bone</p><ul><li>One</li></ul>";
        await region.open(html);
        await region.click([1, 0], 4);
        await region.type("!");
        assert.equal(await region.ask("replaceAll", "one", "seven"), 4);
        await region.shows("<p>seven <b>seven</b></p><p>bseven!</p><ul><li>seven</li></ul>");
        await region.type("?");
        await region.shows("<p>seven <b>seven</b></p><p>bseven!?</p><ul><li>seven</li></ul>");
        await region.press("Control+z", 2);
        await region.shows(html.replace("bone", "bone!"));
        await region.press("Control+z");
        await region.shows(html);
        assert.equal(await region.ask("replaceAll", "absent", "x"), 0);
        assert.equal(await region.ask("replaceAll", "one", ""), 4);
        await region.agrees();
        await region.press("Control+z");
        await region.shows(html);
      });

      it("is replaced once, and isn't where it can't be", async () => {
        const html = '<p>one one</p><p contenteditable="false">one</p>';
        await region.open(html);
        const replace = (place) =>
          evaluate(
            (number) => {
              const places = window.region.find("one");
              return window.region.replace(places.at(number), "two");
            },
            place,
          );
        assert.equal(await replace(1), true);
        await region.shows('<p>one two</p><p contenteditable="false">one</p>');
        assert.equal(await replace(-1), false);
        await region.press("Control+z");
        await region.shows(html);
        await region.open("<p>one</p>", { denied: ["insertText"] });
        assert.equal(await region.ask("replaceAll", "one", "two"), 0);
      });
    });

    it("is shown how in docs/WEB.md", async () => {
      const page = await readFile(new URL("../../../docs/WEB.md", import.meta.url), "utf8");
      const [, code] = /^```js\n(region\..*?)^```$/ms.exec(page);
      await region.open("<p>one</p>");
      const states = await evaluate(
        (text) => new Function("region", `${text}\nreturn { bold, greet };`)(window.region),
        code,
      );
      await region.shows("<p>Call Bob, dear Bob</p>");
      assert.deepEqual([states.bold.enabled, states.greet.enabled], [true, false]);
    });

    describe("commands of its own", () => {
      const define = (text, ...others) =>
        evaluate(
          (code, names) => {
            window.undefine = window.region.define("Greet", new Function(`return (${code});`)());
            return names.map((each) => {
              try {
                window.region.define(each, { run: () => true });
                return null;
              } catch (error) {
                return error.name;
              }
            });
          },
          text,
          others,
        );

      const GREET = `{
        run: (region, value) => region.exec("insertText", "Dear ")
          && region.exec("bold") && region.exec("insertText", value),
        state: (region) => region.state("bold"),
        value: () => "dear",
        enabled: (region) => !region.html().includes("Dear"),
      }`;

      it("are one step, and are asked as others are", async () => {
        await region.open("<p>.</p>", { keymap: { "Mod+M": "greet" } });
        await region.click([0, 0], 0);
        assert.deepEqual(await define(GREET), []);
        assert.equal(await region.ask("exec", "greet", "Ann"), true);
        await region.shows("<p>Dear <b>Ann</b>.</p>");
        const { greet, bold } = await region.ask("toolbar", ["greet", "bold"]);
        assert.deepEqual(greet, { enabled: false, state: true, mixed: false, value: "dear" });
        assert.deepEqual(bold, { enabled: true, state: true, mixed: false, value: "" });
        await region.press("Control+z");
        await region.shows("<p>.</p>");
        await region.press("Control+m");
        await region.agrees();
        assert.match(await region.ask("html"), /^<p>Dear/);
        await evaluate(() => window.undefine());
        assert.equal(await region.ask("exec", "greet", "Ann"), false);
        assert.equal(await region.ask("state", "greet"), false);
      });

      it("have names that are free, and may be denied", async () => {
        await region.open("<p>.</p>", { denied: ["greet"] });
        await region.click([0, 0], 0);
        const taken = ["greet", "Bold", "undo", "forwardDelete", ""];
        assert.deepEqual(await define(GREET, ...taken), taken.map(() => "BadArgument"));
        assert.equal(await region.ask("exec", "greet", "Ann"), false);
        assert.equal(await region.ask("enabled", "greet"), false);
        await evaluate(() => {
          window.region.readOnly = true;
        });
        await region.shows("<p>.</p>");
      });
    });

    describe("a pause in typing", () => {
      it("begins a step", async () => {
        await region.open("<p>ab</p>", { typingPause: 2000 });
        await region.click([0, 0], 1);
        await region.type("xy");
        await sleep(2200);
        await region.type("z");
        await region.shows("<p>axyzb</p>");
        await region.press("Control+z");
        await region.shows("<p>axyb</p>");
        await region.press("Control+z");
        await region.shows("<p>ab</p>");
        assert.equal(
          await thrown(() => window.start("<p>a</p>", { typingPause: -1 })),
          "BadArgument",
        );
      });
    });

    describe("a placeholder", () => {
      const shown = () =>
        evaluate(() => {
          const host = document.querySelector("#host");
          const places = [host, host.firstElementChild].filter(Boolean);
          const [content] = places
            .map((element) => getComputedStyle(element, "::before").content)
            .filter((text) => !["none", "normal"].includes(text));
          return content ?? null;
        });

      it("is shown while there is nothing else", async () => {
        const words = 'Say "hello" \\ 你好';
        await region.open("<p><br></p>", { placeholder: words });
        assert.match(await shown(), /hello/);
        const { ariaPlaceholder } = await evaluate(() => ({
          ariaPlaceholder: document.querySelector("#host").getAttribute("aria-placeholder"),
        }));
        assert.equal(ariaPlaceholder, words);
        await region.click([0], 0);
        await region.type("x");
        assert.equal(await shown(), null);
        await region.press("Backspace");
        assert.match(await shown(), /hello/);
        assert.equal(await region.ask("isEmpty"), true);
        await region.press("Enter");
        assert.equal(await shown(), null);
        assert.equal(await region.ask("isEmpty"), true);
        await region.press("Control+z");
        assert.match(await shown(), /hello/);
        await region.ask("exec", "insertUnorderedList");
        assert.equal(await shown(), null);
        await evaluate(() => {
          window.region.placeholder = "";
        });
        await region.ask("undo");
        assert.equal(await shown(), null);
        assert.equal(await evaluate(() => document.querySelector("#host").getAttribute("style")), null);
      });

      it("is hidden while an input method composes", async () => {
        await region.open("", { placeholder: "Write" });
        assert.match(await shown(), /Write/);
        await region.page.click("#host");
        await region.compose("に");
        await region.page.settle();
        assert.equal(await shown(), null);
        await region.commit("日本");
        assert.equal(await shown(), null);
        await region.ask("setHtml", `<p><img src="${DOT}"></p>`);
        assert.equal(await region.ask("isEmpty"), false);
      });
    });
  });
}
