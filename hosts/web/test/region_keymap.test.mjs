/** The keys of a region: their names on keyboards of several kinds, and what they do in a page. */
import assert from "node:assert/strict";
import { describe } from "node:test";
import { BadArgument } from "../src/hedit.js";
import { Keys } from "../src/region_keymap.js";
import { BROWSERS, it } from "./browsers.mjs";
import { RegionPage } from "./region_page.mjs";

/** Gives modules a platform, as browsers have one. */
function setPlatform(platform) {
  Object.defineProperty(globalThis, "navigator", { value: { platform }, configurable: true });
}

/** A key as a browser tells of it: `flags` has the first letters of the modifiers. */
function pressed(flags, key, code = "", others = {}) {
  const [ctrlKey, altKey, shiftKey, metaKey] = [..."casm"].map((flag) => flags.includes(flag));
  const flagged = { key, code, ctrlKey, altKey, shiftKey, metaKey, defaultPrevented: false, ...others };
  return /** @type {any} */ (flagged);
}

describe("keys", () => {
  const SIGNS = ["Mod+Shift+7", "alt+x", "Mod+Alt+0", "Mod+?", "Mod++", "Mod+/"];
  const NAMES = [...SIGNS, "F2", "Shift+Enter", "Alt+Tab"];
  const keymap = Object.fromEntries(NAMES.map((name) => [name.replace("alt", "Alt"), name]));

  /** @type {any[][]} */
  const ROWS = [
    ["Linux x86_64", "bold", ["c", "b", "KeyB"]],
    ["Linux x86_64", "bold", ["c", "B", "KeyB"]],
    ["Linux x86_64", "redo", ["cs", "Z", "KeyZ"]],
    ["Linux x86_64", "redo", ["c", "y", "KeyY"]],
    ["Linux x86_64", undefined, ["m", "b", "KeyB"]],
    ["Linux x86_64", undefined, ["ca", "b", "KeyB"]],
    ["Linux x86_64", undefined, ["", "b", "KeyB"]],
    // A letter of another script, another place of a letter, and a sign at the place of one.
    ["Win32", "bold", ["c", "и", "KeyB"]],
    ["Win32", "undo", ["c", "z", "KeyY"]],
    ["Win32", undefined, ["c", ";", "KeyZ"]],
    // Digits with Shift: of an American, a German and a French keyboard.
    ["Win32", "Mod+Shift+7", ["cs", "&", "Digit7"]],
    ["Win32", "Mod+Shift+7", ["cs", "/", "Digit7"]],
    ["Win32", "Mod+Shift+7", ["cs", "7", "Digit7"]],
    // Signs that are typed with Shift.
    ["Win32", "Mod+?", ["cs", "?", "Slash"]],
    ["Win32", "Mod++", ["cs", "+", "Equal"]],
    ["Win32", "Mod++", ["c", "+", "NumpadAdd"]],
    ["Win32", "Mod+/", ["c", "/", "Slash"]],
    // Control and Alt type a brace on a German keyboard of Windows, and Alt a sign on Apple's.
    ["Win32", undefined, ["ca", "}", "Digit0"]],
    ["Win32", "Mod+Alt+0", ["ca", "0", "Digit0"]],
    ["MacIntel", "Mod+Alt+0", ["ma", "º", "Digit0"]],
    ["MacIntel", "alt+x", ["a", "≈", "KeyX"]],
    ["MacIntel", "bold", ["m", "b", "KeyB"]],
    ["MacIntel", undefined, ["c", "b", "KeyB"]],
    ["MacIntel", undefined, ["m", "y", "KeyY"]],
    // Keys with names.
    ["Win32", "F2", ["", "F2", "F2"]],
    ["Win32", "Shift+Enter", ["s", "Enter", "Enter"]],
    ["Win32", undefined, ["", "Enter", "Enter"]],
    ["Linux x86_64", "Alt+Tab", ["a", "Unidentified", "Tab"]],
    // What an input method takes, and what another listener has taken.
    ["Win32", undefined, ["c", "b", "KeyB", { isComposing: true }]],
    ["MacIntel", undefined, ["m", "b", "KeyB", { keyCode: 229 }]],
    ["Win32", undefined, ["c", "b", "KeyB", { defaultPrevented: true }]],
  ];
  for (const [platform, action, key] of ROWS) {
    it(`${key.slice(0, 3).join(" ")} of ${platform} is ${action}`, () => {
      setPlatform(platform);
      assert.equal(new Keys(keymap).actionOf(pressed(...key)), action);
    });
  }

  it("are known by one name, whatever the order of the modifiers", () => {
    setPlatform("Win32");
    const keys = new Keys({ "Shift+Mod+x": "first", "Mod+Shift+X": "second", "Control+b": null });
    assert.equal(keys.actionOf(pressed("cs", "X", "KeyX")), "second");
    assert.equal(keys.actionOf(pressed("c", "b", "KeyB")), null);
  });

  for (const name of ["Strg+B", "Mod+", "", "Mod+Hyper+B"]) {
    it(`have no name ${JSON.stringify(name)}`, () => {
      assert.throws(() => new Keys({ [name]: "bold" }), BadArgument);
    });
  }
});

for (const { Browser, name, skip } of BROWSERS) {
  describe(`a region's keymap in ${name}`, { skip }, () => {
    const region = new RegionPage(Browser);

    /** Opens a region whose keys do what functions of the page do. */
    async function open(keymap, choices = {}) {
      await region.page.evaluate(
        (text, others) => {
          window.calls = [];
          window.start("<p>ab</p>", { ...others, keymap: new Function(`return (${text});`)() });
        },
        keymap,
        choices,
      );
      await region.click([0, 0], 1);
    }

    it("executes commands", async () => {
      await open('{ "Mod+Shift+7": "insertOrderedList", "Mod+M": "indent" }');
      await region.press("Control+Shift+7");
      await region.shows("<ol><li>ab</li></ol>");
      await region.press("Control+z");
      await region.press("Control+m");
      await region.shows("<blockquote><p>ab</p></blockquote>");
    });

    it("has functions, which may leave a key to the browser", async () => {
      await open(`{
        Escape: (region) => region.exec("insertText", "[x]"),
        x: () => { window.calls.push("x"); return false; },
        y: () => { window.calls.push("y"); return true; },
      }`);
      await region.press("Escape");
      await region.type("xy");
      await region.shows("<p>a[x]xb</p>");
      assert.deepEqual(await region.page.evaluate(() => window.calls), ["x", "y"]);
    });

    it("turns keys off, also where the browser has them", async () => {
      await open('{ "Mod+B": null, "Mod+Z": null }');
      await region.type("x");
      await region.press("Control+b");
      await region.press("Control+z");
      await region.shows("<p>axb</p>");
      assert.equal(await region.ask("state", "bold"), false);
      await region.press("Control+i");
      assert.equal(await region.ask("state", "italic"), true);
    });

    it("says what is denied, and does nothing where a region is only read", async () => {
      await open('{ "Mod+M": "indent" }', { denied: ["indent"] });
      await region.events();
      await region.press("Control+m");
      assert.deepEqual(await region.events(), ["refused"]);
      await open('{ "Mod+M": "indent", "Escape": () => { window.calls.push("Escape"); return true; } }');
      await region.page.evaluate(() => {
        window.region.readOnly = true;
        window.region.element.focus();
      });
      await region.page.press("Control+m");
      await region.page.press("Escape");
      await region.shows("<p>ab</p>");
      assert.deepEqual(await region.page.evaluate(() => window.calls), ["Escape"]);
    });
  });
}
