/**
 * The drafts that the browser keeps. Each has a key of its own in the storage, and is written by one
 * window: that holds a lock of its name as long as it is open.
 */

/** What the keys of drafts begin with, and those of drafts that couldn't be read. */
const [KEY, ASIDE] = ["hedit-draft", "hedit-unreadable"];

/** Under which key a window remembers which draft it writes, for when it is loaded again. */
const OWN = "hedit-own-draft";

/** How long a window that is loaded again waits until it has left its draft, in milliseconds. */
const PATIENCE = 3000;

/**
 * What is kept: `html` is the message's, as the engine prints it, and `time` when that was.
 * @typedef {{ to: string, cc: string, bcc: string, subject: string, html: string, time: number }} Draft
 */

/**
 * A draft in the list, and whether another window writes it.
 * @typedef {{ id: string, draft: Draft, isOpen: boolean }} Listed
 */

/**
 * What a storage answers; null if the browser keeps nothing.
 * @template T
 * @param {() => T} call
 */
function answerOf(call) {
  try {
    return call();
  } catch {
    return null;
  }
}

/** @param {string} key */
const stored = (key) => answerOf(() => localStorage.getItem(key));

/**
 * False if the browser has no room for a text, or keeps nothing.
 * @param {string} key
 * @param {string} text
 */
const store = (key, text) => answerOf(() => localStorage.setItem(key, text)) !== null;

/** @param {string} key */
const forget = (key) => answerOf(() => localStorage.removeItem(key));

/**
 * The names of what is kept under keys that begin so.
 * @param {string} start
 */
function idsOf(start) {
  const keys = answerOf(() => Object.keys(localStorage)) ?? [];
  return keys.filter((key) => key.startsWith(`${start}:`)).map((key) => key.slice(start.length + 1));
}

/**
 * The draft that a text keeps; null if it can't be read.
 * @param {string | null} text
 * @returns {Draft | null}
 */
function draftOf(text) {
  const kept = answerOf(() => JSON.parse(text ?? ""));
  if (typeof kept?.html !== "string") {
    return null;
  }
  const { to = "", cc = "", bcc = "", subject = "", html, time = 0 } = kept;
  const isWhole = [to, cc, bcc, subject].every((each) => typeof each === "string");
  return isWhole ? { to, cc, bcc, subject, html, time: Number(time) } : null;
}

/** The drafts, of which a window writes one. */
export class Drafts {
  #id = "";

  /** Lets another window write the draft. */
  #release = () => {};

  constructor() {
    // At once, and not when the page is gone: it may be loaded again.
    window.addEventListener("pagehide", () => this.#release());
    window.addEventListener("pageshow", ({ persisted }) => {
      if (persisted) {
        this.#holdAgain();
      }
    });
  }

  /**
   * Takes the draft that this window wrote before it was loaded again, or else the newest one that no
   * window writes, or else a new one.
   * @returns {Promise<Draft | null>}
   */
  async take() {
    const own = answerOf(() => sessionStorage.getItem(OWN));
    if (own && (await this.#hold(own, PATIENCE))) {
      return this.#read();
    }
    for (const { id, isOpen } of own ? [] : await this.list()) {
      if (!isOpen && (await this.#hold(id))) {
        return this.#read();
      }
    }
    await this.begin();
    return null;
  }

  /** Begins a new draft. The one before stays. */
  async begin() {
    await this.#hold(answerOf(() => crypto.randomUUID()) ?? String(Date.now()));
  }

  /**
   * Takes a draft in place of the one before, which stays; null if another window writes it now, or if
   * it can't be read.
   * @param {string} id
   */
  async open(id) {
    return (await this.#hold(id)) ? this.#read() : null;
  }

  /** The drafts that can be read, without the one of this window: the newest is the first. */
  async list() {
    const locks = await navigator.locks?.query();
    const names = new Set(locks?.held?.map(({ name }) => name));
    /** @type {Listed[]} */
    const listed = [];
    for (const id of idsOf(KEY)) {
      const draft = draftOf(stored(`${KEY}:${id}`));
      if (draft && id !== this.#id) {
        listed.push({ id, draft, isOpen: names.has(`${KEY}:${id}`) });
      }
    }
    return listed.sort((a, b) => b.draft.time - a.draft.time);
  }

  /**
   * Writes the draft. False if the browser has no room for it, or keeps nothing.
   * @param {Omit<Draft, "time">} draft
   */
  keep(draft) {
    return store(`${KEY}:${this.#id}`, JSON.stringify({ ...draft, time: Date.now() }));
  }

  /** Keeps the draft no more. */
  drop() {
    forget(`${KEY}:${this.#id}`);
  }

  /** Keeps aside, as a text, what this window can't open as a draft. */
  setAside() {
    this.#setAside(this.#id);
  }

  /**
   * What couldn't be read as drafts: the text that was kept of each, by its name.
   * @returns {Map<string, string>}
   */
  unreadable() {
    for (const id of idsOf(KEY)) {
      if (draftOf(stored(`${KEY}:${id}`)) === null) {
        this.#setAside(id);
      }
    }
    return new Map(idsOf(ASIDE).map((id) => [id, stored(`${ASIDE}:${id}`) ?? ""]));
  }

  /** @param {string} id of a draft that couldn't be read */
  dropUnreadable(id) {
    forget(`${ASIDE}:${id}`);
  }

  /** All that is kept of all drafts, as one text. */
  everything() {
    const keys = [KEY, ASIDE].flatMap((start) => idsOf(start).map((id) => `${start}:${id}`));
    return keys.map(stored).join("\n");
  }

  #read() {
    return draftOf(stored(`${KEY}:${this.#id}`));
  }

  /** @param {string} id */
  #setAside(id) {
    const text = stored(`${KEY}:${id}`);
    if (text !== null) {
      // There is room for one of the two.
      forget(`${KEY}:${id}`);
      if (!store(`${ASIDE}:${id}`, text)) {
        store(`${KEY}:${id}`, text);
      }
    }
  }

  /** Goes on with the draft as the page is shown again, or with a copy if another window has it. */
  async #holdAgain() {
    if (!(await this.#hold(this.#id))) {
      await this.begin();
    }
  }

  /**
   * Has this window write a draft, and no other. False if another window does already.
   * @param {string} id
   * @param {number} patience how long it may wait for that, in milliseconds
   * @returns {Promise<boolean>}
   */
  #hold(id, patience = 0) {
    const { locks } = navigator;
    if (!locks) {
      this.#use(id, () => {});
      return Promise.resolve(true);
    }
    const waiting = new AbortController();
    setTimeout(() => waiting.abort(), patience);
    const options = patience ? { signal: waiting.signal } : { ifAvailable: true };
    return new Promise((resolve) => {
      const held = (/** @type {Lock | null} */ lock) => {
        const end = lock && new Promise((/** @type {(end?: unknown) => void} */ release) => {
          this.#use(id, release);
        });
        resolve(lock !== null);
        return end;
      };
      locks.request(`${KEY}:${id}`, options, held).catch(() => resolve(false));
    });
  }

  /**
   * @param {string} id
   * @param {() => void} release
   */
  #use(id, release) {
    this.#release();
    this.#id = id;
    this.#release = release;
    answerOf(() => sessionStorage.setItem(OWN, id));
  }
}
