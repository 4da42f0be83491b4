/**
 * The pictures of drafts. In a message each has a `cid:` address, as in a mail: so a draft and its
 * steps of undo stay small. The browser's database keeps the pictures themselves.
 */

/** @typedef {{ address: string, bytes: Uint8Array, type: string, time: number }} Picture */

const [DATABASE, STORE] = ["hedit-pictures", "pictures"];

/** How long a picture is kept that no draft shows: undo can bring it back. In milliseconds. */
const LEFT_FOR = 24 * 3_600_000;

const ADDRESS = /cid:[\w-]+@composer/g;

/**
 * What a request of the database gives.
 * @template T
 * @param {IDBRequest<T>} request
 * @returns {Promise<T>}
 */
function answerOf(request) {
  return new Promise((resolve, reject) => {
    request.addEventListener("success", () => resolve(request.result));
    request.addEventListener("error", () => reject(request.error));
  });
}

/** The database; null if the browser has none. */
async function open() {
  try {
    const request = indexedDB.open(DATABASE);
    request.addEventListener("upgradeneeded", () => {
      request.result.createObjectStore(STORE, { keyPath: "address" });
    });
    return await answerOf(request);
  } catch {
    return null;
  }
}

/**
 * The addresses of pictures that some HTML shows, each once.
 * @param {string} html
 */
export function picturesOf(html) {
  return [...new Set(html.match(ADDRESS))];
}

/** The pictures that this window shows, and those that the browser keeps. */
export class Pictures {
  #database = open();

  /**
   * The pictures that are at hand, each with the address that it is shown from.
   * @type {Map<string, Picture & { url: string }>}
   */
  #known = new Map();

  /**
   * The address to show a picture from: for the choice `view.image` of a region. Other servers aren't
   * asked for any.
   * @param {string} src
   * @returns {string | null | undefined | Promise<string | null>}
   */
  shown(src) {
    if (/^https?:/i.test(src)) {
      return null;
    }
    return src.startsWith("cid:") ? (this.#known.get(src)?.url ?? this.#load(src)) : undefined;
  }

  /**
   * Takes a picture, and gives the address that a message shows it by. Whether the browser keeps it
   * too is said by `isKept`.
   * @param {Blob} blob
   */
  async add(blob) {
    const address = `cid:${crypto.randomUUID()}@composer`;
    const bytes = new Uint8Array(await blob.arrayBuffer());
    const picture = { address, bytes, type: blob.type, time: Date.now() };
    this.#know(picture);
    const isKept = (await this.#ask("readwrite", (store) => store.put(picture))) !== null;
    return { address, isKept };
  }

  /**
   * The pictures that some HTML shows.
   * @param {string} html
   */
  async of(html) {
    const found = await Promise.all(picturesOf(html).map((address) => this.#find(address)));
    return found.flatMap((picture) => picture ?? []);
  }

  /**
   * How many bytes the pictures take that some HTML shows.
   * @param {string} html
   */
  size(html) {
    const sizes = picturesOf(html).map((address) => this.#known.get(address)?.bytes.length ?? 0);
    return sizes.reduce((sum, size) => sum + size, 0);
  }

  /**
   * Keeps those pictures no more that no draft has shown for long.
   * @param {string} drafts all of them
   */
  async dropUnused(drafts) {
    const used = new Set(picturesOf(drafts));
    /** @type {Picture[]} */
    const kept = (await this.#ask("readonly", (store) => store.getAll())) ?? [];
    for (const { address, time } of kept) {
      if (!used.has(address) && time < Date.now() - LEFT_FOR) {
        await this.#ask("readwrite", (store) => store.delete(address));
      }
    }
  }

  /** @param {Picture} picture */
  #know(picture) {
    const url = URL.createObjectURL(new Blob([picture.bytes], { type: picture.type }));
    this.#known.set(picture.address, { ...picture, url });
    return url;
  }

  /** @param {string} address */
  async #load(address) {
    const picture = await this.#find(address);
    return picture && (this.#known.get(address)?.url ?? this.#know(picture));
  }

  /**
   * @param {string} address
   * @returns {Promise<Picture | null>}
   */
  async #find(address) {
    const known = this.#known.get(address);
    return known ?? (await this.#ask("readonly", (store) => store.get(address))) ?? null;
  }

  /**
   * What the database answers; null if it can't.
   * @template T
   * @param {IDBTransactionMode} mode
   * @param {(store: IDBObjectStore) => IDBRequest<T>} question
   */
  async #ask(mode, question) {
    const database = await this.#database;
    try {
      const store = database?.transaction(STORE, mode).objectStore(STORE);
      return store ? await answerOf(question(store)) : null;
    } catch {
      return null;
    }
  }
}
