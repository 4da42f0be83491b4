/** Keeps the draft in the browser while it is written, and shows the other ones that are there. */
import { gathered, part } from "./composer_page.js";
import { plainText } from "./composer_text.js";
import { Menu, setEnabled } from "./composer_toolbar.js";

/** @typedef {import("./composer.js").Composer} Composer */
/** @typedef {import("./composer_drafts.js").Drafts} Drafts */
/** @typedef {import("./composer_drafts.js").Listed} Listed */

/** How long after a change the draft is kept, in milliseconds. */
const PAUSE = 250;

const NO_ROOM =
  "This browser has no room for the draft: it is lost if you close this window. Save it, or make it smaller.";

const UNREADABLE = "A draft couldn’t be opened. Its text is kept.";

/**
 * A row of the list of drafts.
 * @param {string} name
 * @param {string} detail
 * @param {string} id
 */
function rowOf(name, detail, id = "") {
  const row = document.createElement("button");
  const [first, second] = [document.createElement("span"), document.createElement("small")];
  row.type = "button";
  row.dataset.id = id;
  row.setAttribute("role", "menuitem");
  first.textContent = name;
  second.textContent = detail;
  row.append(first, second);
  return row;
}

/** @param {Listed} listed */
function draftRow({ id, draft, isOpen }) {
  const written = new Date(draft.time).toLocaleString(undefined, { dateStyle: "medium", timeStyle: "short" });
  const name = draft.subject.trim() || plainText(draft.html).split("\n")[0] || "No subject";
  const row = rowOf(name, isOpen ? "Open in another window" : written, id);
  setEnabled(row, !isOpen);
  return row;
}

/**
 * The text of what was kept of a draft that can't be opened.
 * @param {string} kept
 */
function textOf(kept) {
  try {
    const { to = "", subject = "", html = "" } = JSON.parse(kept);
    return [to, subject, plainText(String(html))].filter(Boolean).join("\n");
  } catch {
    return plainText(kept);
  }
}

/** Keeps the draft of a composer. */
export class Keeper {
  #composer;

  #drafts;

  /** Whether the draft that the browser keeps is the one that is shown. */
  #isKept = true;

  keepRestSoon = gathered(() => this.keepRest(), PAUSE);

  /**
   * @param {Composer} composer
   * @param {Drafts} drafts
   */
  constructor(composer, drafts) {
    this.#composer = composer;
    this.#drafts = drafts;
    const menu = part("drafts-menu");
    const choose = (/** @type {HTMLElement} */ { dataset }) => this.#change(dataset.id ?? "");
    new Menu(menu, choose, (before) => composer.goBack(before), () => this.#list());
    window.addEventListener("pagehide", () => this.keepRest());
    window.addEventListener("beforeunload", (event) => {
      this.keepRest();
      if (!this.#isKept) {
        event.preventDefault();
      }
    });
    const question = part("discard-question");
    part("discard").addEventListener("click", () => composer.showSheet(question));
    question.addEventListener("close", () => {
      if (question.returnValue === "discard") {
        this.#drafts.drop();
        composer.open(null);
      }
    });
  }

  keepSoon() {
    this.#isKept = false;
    this.keepRestSoon();
  }

  /** Keeps what isn't kept yet. */
  keepRest() {
    if (!this.#isKept) {
      this.#keep();
    }
  }

  /** Says that the draft is as it is kept. */
  begin() {
    this.#isKept = true;
    part("saved").textContent = "";
    this.#composer.notices.drop("room");
  }

  #keep() {
    const composer = this.#composer;
    const head = composer.fields.head;
    const html = composer.region.html();
    if (Object.values(head).join("") === "" && html === composer.newMessage) {
      this.#drafts.drop();
      this.begin();
      return;
    }
    this.#isKept = this.#drafts.keep({ ...head, html });
    part("saved").textContent = this.#isKept ? "Kept in this browser" : "Not kept";
    if (this.#isKept) {
      composer.notices.drop("room");
    } else {
      composer.notices.show("room", NO_ROOM, { "Save draft": () => composer.save() });
    }
  }

  // The other drafts.

  async #list() {
    this.keepRest();
    const listed = await this.#drafts.list();
    const more = listed.length > 0 ? "" : "There are no other drafts";
    const rows = [rowOf("New message", more), ...listed.map(draftRow)];
    part("drafts-menu").replaceChildren(...rows);
  }

  /**
   * Goes on to another draft, or to a new one. The one before is kept.
   * @param {string} id
   */
  async #change(id) {
    this.keepRest();
    if (!this.#isKept) {
      return;
    }
    if (id === "") {
      await this.#drafts.begin();
      this.#composer.open(null);
      return;
    }
    const draft = await this.#drafts.open(id);
    if (draft) {
      this.#composer.open(draft);
    } else {
      this.#composer.say("Another window has this draft now");
    }
  }

  // Drafts that can't be opened.

  /** Keeps aside the draft that the composer couldn't open. */
  setAside() {
    this.#drafts.setAside();
    this.offerUnreadable();
  }

  /** Offers the text of a draft that can't be opened, if there is one. */
  offerUnreadable() {
    const [first] = this.#drafts.unreadable();
    if (first) {
      const [id, kept] = first;
      this.#offer(UNREADABLE, id, textOf(kept));
    }
  }

  /**
   * @param {string} words
   * @param {string} id
   * @param {string} text
   */
  #offer(words, id, text) {
    const composer = this.#composer;
    composer.notices.show("unreadable", words, {
      "Insert its text": () => {
        composer.act((region) => region.exec("insertText", text));
        this.#offer("Its text was inserted, and is kept until you delete it.", id, text);
      },
      "Save its text": () => {
        composer.saveFile(new Blob([text], { type: "text/plain" }), "draft.txt");
        this.#offer("Its text was saved, and is kept until you delete it.", id, text);
      },
      "Delete it": () => {
        this.#drafts.dropUnreadable(id);
        this.offerUnreadable();
      },
      Later: () => {},
    });
  }
}
