/**
 * Search over all sections, by Lunr. What is searched comes as a script when the field is used first, so
 * that it works from files too.
 */
"use strict";

{
  /** @typedef {{ location: string, title: string, page: string, text: string }} Section */
  /** @typedef {{ search: (query: string) => { ref: string }[], sections: Map<string, Section> }} Index */

  const MOST_RESULTS = 12;
  const SNIPPET_LENGTH = 150;

  const ROOT = document.documentElement.dataset.root ?? ".";

  /** @param {string} id */
  const byId = (id) => /** @type {any} */ (document.getElementById(id));

  /** @type {HTMLFormElement} */
  const form = byId("search");
  /** @type {HTMLInputElement} */
  const field = byId("query");
  /** @type {HTMLElement} */
  const list = byId("results");

  /** @type {Promise<Index> | undefined} */
  let loading;

  /** @param {string} name */
  function loadScript(name) {
    return new Promise((resolve, reject) => {
      const script = document.createElement("script");
      script.src = `${ROOT}/search/${name}`;
      script.addEventListener("load", resolve);
      script.addEventListener("error", reject);
      document.head.append(script);
    });
  }

  /** @returns {Promise<Index>} */
  async function load() {
    await Promise.all([loadScript("lunr.js"), loadScript("index.js")]);
    const { lunr, heditPages } = /** @type {any} */ (self);
    const lunrIndex = lunr(/** @this {any} */ function build() {
      this.ref("location");
      this.field("title", { boost: 8 });
      this.field("page", { boost: 3 });
      this.field("text");
      heditPages.forEach(/** @param {Section} section */ (section) => this.add(section));
    });
    const sections = new Map(heditPages.map(/** @param {Section} section */ (section) => [section.location, section]));
    return { search: (query) => lunrIndex.query(queryOf(lunr, query)), sections };
  }

  /** @param {string} text */
  const termsOf = (text) => text.toLowerCase().split(/[^\p{L}\p{N}_]+/u).filter(Boolean);

  /**
   * A section has each term, or a word that begins with it.
   * @param {any} lunr
   * @param {string} text
   */
  const queryOf = (lunr, text) => /** @param {any} query */ (query) => {
    for (const term of termsOf(text)) {
      const stem = lunr.stemmer(new lunr.Token(term)).toString();
      query.term(stem, { usePipeline: false, boost: 4 });
      query.term(term, { usePipeline: false, boost: 2, wildcard: lunr.Query.wildcard.TRAILING });
    }
  };

  /**
   * A text with its terms marked.
   * @param {string} text
   * @param {readonly string[]} terms
   */
  function marked(text, terms) {
    const found = document.createDocumentFragment();
    const pattern = new RegExp(`(${terms.join("|")})`, "giu");
    text.split(pattern).forEach((part, place) => {
      const node = place % 2 ? document.createElement("mark") : document.createElement("span");
      node.textContent = part;
      found.append(node);
    });
    return found;
  }

  /**
   * The part of a text around the first term.
   * @param {string} text
   * @param {readonly string[]} terms
   */
  function snippet(text, terms) {
    const places = terms.map((term) => text.toLowerCase().indexOf(term)).filter((place) => place >= 0);
    const start = Math.max(0, Math.min(...places, text.length) - 40);
    const from = start && places.length ? text.indexOf(" ", start) + 1 : 0;
    const part = text.slice(from, from + SNIPPET_LENGTH);
    return `${from ? "… " : ""}${part}${from + SNIPPET_LENGTH < text.length ? " …" : ""}`;
  }

  /**
   * @param {Section} section
   * @param {readonly string[]} terms
   * @param {number} place
   */
  function resultOf(section, terms, place) {
    const link = document.createElement("a");
    link.href = `${ROOT}/${section.location}`;
    link.id = `result-${place}`;
    link.setAttribute("role", "option");
    link.tabIndex = -1;
    const [title, page, text] = ["strong", "small", "p"].map((name) => document.createElement(name));
    title.append(marked(section.title, terms));
    page.textContent = section.page === section.title ? "" : section.page;
    text.append(marked(snippet(section.text, terms), terms));
    link.append(title, page, text);
    return link;
  }

  const results = () => /** @type {HTMLAnchorElement[]} */ ([...list.querySelectorAll("a")]);

  /** @param {boolean} isShown */
  function show(isShown) {
    list.hidden = !isShown;
    field.setAttribute("aria-expanded", String(isShown));
    if (!isShown) field.removeAttribute("aria-activedescendant");
  }

  /**
   * Whether a section has all terms.
   * @param {Section} section
   * @param {readonly string[]} terms
   */
  function hasAll(section, terms) {
    const text = `${section.title} ${section.page} ${section.text}`.toLowerCase();
    return terms.every((term) => text.includes(term));
  }

  async function answer() {
    const query = field.value;
    const terms = termsOf(query);
    if (terms.length === 0) {
      show(false);
      return;
    }
    loading ??= load();
    const index = await loading;
    if (field.value !== query) return;
    const found = index.search(query).map(({ ref }) => /** @type {Section} */ (index.sections.get(ref)));
    const whole = found.filter((section) => hasAll(section, terms));
    const shown = (whole.length ? whole : found).slice(0, MOST_RESULTS);
    list.replaceChildren(...shown.map((section, place) => resultOf(section, terms, place)));
    if (shown.length === 0) {
      const none = document.createElement("p");
      none.textContent = "Nothing found.";
      list.append(none);
    }
    byId("result-count").textContent = shown.length === 1 ? "1 result" : `${shown.length} results`;
    show(true);
    choose(0);
  }

  /** @param {number} place */
  function choose(place) {
    const found = results();
    found.forEach((link, at) => link.setAttribute("aria-selected", String(at === place)));
    if (found[place]) {
      field.setAttribute("aria-activedescendant", found[place].id);
      found[place].scrollIntoView({ block: "nearest" });
    }
  }

  const chosen = () => results().findIndex((link) => link.getAttribute("aria-selected") === "true");

  field.addEventListener("focus", () => {
    loading ??= load();
  });
  field.addEventListener("input", answer);
  field.addEventListener("keydown", (event) => {
    const count = results().length;
    const step = { ArrowDown: 1, ArrowUp: -1 }[event.key];
    if (step && count) {
      choose((chosen() + step + count) % count);
      event.preventDefault();
    } else if (event.key === "Escape") {
      show(false);
      field.blur();
    }
  });
  form.addEventListener("submit", (event) => {
    event.preventDefault();
    results()[chosen()]?.click();
  });
  list.addEventListener("click", () => show(false));
  document.addEventListener("pointerdown", (event) => {
    if (event.target instanceof Node && !form.contains(event.target)) show(false);
  });
  document.addEventListener("keydown", (event) => {
    const isTyping = event.target instanceof Element && event.target.matches("input, textarea, select");
    if (event.key === "/" && !isTyping && !event.ctrlKey && !event.metaKey && !event.altKey) {
      event.preventDefault();
      field.focus();
      field.select();
    }
  });
  form.hidden = false;
}
