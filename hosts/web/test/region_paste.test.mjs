/** A region into which rich text is pasted by the clipboard. */
import assert from "node:assert/strict";
import { readFile, readdir } from "node:fs/promises";
import { describe } from "node:test";
import { BROWSERS, it } from "./browsers.mjs";
import { FRAGMENTS } from "./paste_fragments.mjs";
import { PastePage } from "./paste_page.mjs";

/** What programs put on the clipboard, and what comes of it where it is pasted. */
const GIVEN = new URL("clean_corpus/", import.meta.url);

const PASTED = new URL("paste_corpus/", import.meta.url);

const PROGRAMS = await readdir(PASTED);

for (const { Browser, name, skip } of BROWSERS) {
  describe(`pasting in ${name}`, { skip }, () => {
    const region = new PastePage(Browser);

    describe("a fragment", () => {
      for (const [what, where, fragment, wanted] of FRAGMENTS) {
        it(`is pasted: ${what}`, async () => {
          const separator = where.includes("<div>") ? "div" : "p";
          await region.openAt(where, { separator, view: { relative: false } });
          const before = await region.agrees();
          assert.equal(await region.paste(fragment), wanted);
          await region.isOneStep(before, wanted);
        });
      }
    });

    describe("what a program copies", () => {
      for (const file of PROGRAMS) {
        it(`is pasted: ${file}`, async () => {
          await region.openAt("<p>|<br></p>", { view: { relative: false, classes: [] } });
          const wanted = await readFile(new URL(file, PASTED), "utf8");
          const html = await region.paste(await readFile(new URL(file, GIVEN), "utf8"));
          assert.equal(`${html}\n`, wanted);
          await region.isOneStep("<p><br></p>", html);
        });
      }
    });
  });
}
