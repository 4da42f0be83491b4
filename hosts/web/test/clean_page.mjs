/** Opens a page with `cleanPage` in a browser, and checks each result. */
import assert from "node:assert/strict";
import { after, before } from "node:test";
import { load } from "../src/hedit.js";
import { BYTES } from "./engine.mjs";
import { serve } from "./server.mjs";

const MARKUP = `<!doctype html>
<meta charset="utf-8">
<title>Cleaning</title>
<link rel="icon" href="data:,">
<script type="module">
  import { cleanPage } from "/clean.js";
  import { DROPPED } from "/clean_read.js";
  import { CLEAN_BLOCKS, CLEAN_INLINES } from "/clean_tree.js";
  import { isShownStyle, shownAttribute } from "/shown.js";

  /** Parses markup, and removes names that hide properties of documents and forms. */
  function parse(html) {
    const document = new DOMParser().parseFromString("<body>" + html, "text/html");
    for (const element of Document.prototype.querySelectorAll.call(document, "[id], [name]")) {
      Element.prototype.removeAttribute.call(element, "id");
      Element.prototype.removeAttribute.call(element, "name");
    }
    return document;
  }

  /** Returns the names that the tables don't have: of the element, its attributes and its styles. */
  function strangeOf(element, options) {
    const { localName: name } = element;
    const isKnown = CLEAN_BLOCKS.has(name) || CLEAN_INLINES.has(name);
    const isHtml = element.namespaceURI === "http://www.w3.org/1999/xhtml";
    const attributes = [...element.attributes].filter(
      (each) => each.name !== "style" && shownAttribute(name, each.name, each.value, options) === null,
    );
    const probe = document.createElement("p").style;
    probe.cssText = element.getAttribute("style") ?? "";
    const properties = [...probe].filter(
      (property) =>
        !isShownStyle(property, probe.getPropertyValue(property)) &&
        !/^(initial|auto)$/.test(probe.getPropertyValue(property)),
    );
    return [...(isKnown && isHtml ? [] : [name]), ...attributes.map((each) => each.name), ...properties];
  }

  /** Returns the characters of a page, sorted, without whitespace and without removed elements. */
  function charactersOf(html) {
    const { body } = parse(html);
    const gone = [...DROPPED, "[hidden]"].join();
    for (const element of body.querySelectorAll("*")) {
      const isForeign = element.namespaceURI !== "http://www.w3.org/1999/xhtml";
      const isHidden = /display: *none/.test(element.getAttribute("style"));
      if (isForeign || isHidden || element.matches(gone)) {
        element.remove();
      }
    }
    const text = [...body.textContent.replace(/[\\0\\s\\u00a0\\ufeff]/g, "")];
    return text.map((each) => (/\\p{Surrogate}/u.test(each) ? "\\ufffd" : each)).sort().join("");
  }

  window.cleanPage = cleanPage;

  /** Cleans a page twice, and returns both results with what is checked of them. */
  window.tryPage = (html, options) => {
    let parses = 0;
    const counting = (text) => {
      parses += 1;
      return new DOMParser().parseFromString(text, "text/html");
    };
    const cleaned = cleanPage(html, { ...options, parse: counting });
    const again = cleanPage(cleaned, options);
    const document = new DOMParser().parseFromString("<body>" + cleaned, "text/html");
    const elements = [...document.head.children, ...document.body.querySelectorAll("*")];
    const strange = elements.flatMap((element) => strangeOf(element, options));
    const isWhole = charactersOf(html) === charactersOf(cleaned);
    return { cleaned, again, parses, strange, isWhole };
  };
</script>`;

const engine = await load(BYTES);

/** Throws if the engine doesn't read a page. */
export function read(html) {
  engine.open(html).close();
}

/** A page with `cleanPage`, in a browser that runs for as long as the tests around. */
export class CleaningPage {
  #server;

  #browser;

  #page;

  constructor(Browser) {
    before(async () => {
      this.#server = await serve("", MARKUP);
      this.#browser = await Browser.launch();
      this.#page = await this.#browser.open(this.#server.address);
      await this.#page.until(() => Boolean(window.tryPage));
    });
    after(async () => {
      await this.#browser?.close();
      this.#server?.close();
    });
  }

  evaluate(call, ...words) {
    return this.#page.evaluate(call, ...words);
  }

  /**
   * Returns the result of cleaning a page. Fails if the engine doesn't read it, if the tables don't have
   * all of it, or if cleaning it again changes it.
   */
  async clean(html, options = {}) {
    const tried = await this.#page.evaluate(
      (given, choices) => window.tryPage(given, choices),
      html,
      options,
    );
    read(tried.cleaned);
    assert.deepEqual(tried.strange, [], html);
    assert.equal(tried.again, tried.cleaned);
    return tried.cleaned;
  }
}
