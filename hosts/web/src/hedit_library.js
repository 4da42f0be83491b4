/**
 * The calls of the WebAssembly module, and its memory.
 */

import { placeNumber } from "./hedit_arguments.js";
import { PageKind, Status } from "./hedit_constants.js";
import { EngineStopped, OutOfMemory, PageRefused, answer } from "./hedit_errors.js";
import { bytesOf, unitsInBytes } from "./hedit_text.js";

/** @typedef {import("./hedit_text.js").Text} Text */

/** @typedef {import("./hedit.js").Place} Place */

/** How many bytes are kept for loans, so that most calls need no block of the heap. */
const SCRATCH_SIZE = 16_384;

/** The memory of the module that one call borrows. A loan that begins within another ends within it. */
export class Loan {
  #library;

  /** @type {bigint[]} */
  #blocks = [];

  /** How many bytes of the scratch memory were taken before. */
  #taken;

  /** @param {Library} library */
  constructor(library) {
    this.#library = library;
    this.#taken = library.taken;
  }

  /**
   * Returns a pointer to a number of bytes.
   * @param {number} size
   */
  room(size) {
    const scratch = this.#library.takeScratch(size);
    if (scratch !== null) {
      return scratch;
    }
    const at = this.#library.allocate(size);
    this.#blocks.push(at);
    return at;
  }

  /**
   * Copies an array into the memory, and returns its pointer and count.
   * @param {Uint8Array | Uint32Array} array
   */
  array(array) {
    const at = this.room(array.byteLength);
    const bytes = new Uint8Array(array.buffer, array.byteOffset, array.byteLength);
    this.#library.bytes(at, bytes.length).set(bytes);
    return [at, BigInt(array.length)];
  }

  /**
   * Returns the pointer and the length of a text.
   * @param {Text} text
   */
  text(text) {
    return this.array(bytesOf(text));
  }

  /**
   * Returns the pointer and the length of a path.
   * @param {readonly number[]} path
   */
  path(path) {
    return this.array(Uint32Array.from(path, placeNumber));
  }

  /**
   * Returns the pointer and the length of a path, and the offset.
   * @param {Place} place
   */
  place({ path, offset }) {
    return [...this.path(path), placeNumber(offset)];
  }

  /**
   * Returns the status of a call that takes a buffer, and the bytes of the items that it wrote. If the
   * buffer is too small, it calls again.
   * @param {number} capacity
   * @param {(...buffer: bigint[]) => number} call
   * @param {number} size of an item in bytes: the items of a text are bytes
   */
  printed(capacity, call, size = 1) {
    const length = this.room(8);
    this.#library.data.setBigUint64(Number(length), 0n);
    for (;;) {
      const buffer = this.room(capacity * size);
      const status = call(buffer, BigInt(capacity), length);
      const written = Number(this.#library.data.getBigUint64(Number(length), true));
      if (status !== Status.TOO_SMALL) {
        return { status, bytes: this.#library.bytes(buffer, written * size) };
      }
      capacity = written;
    }
  }

  end() {
    this.#library.giveScratch(this.#taken);
    for (const at of this.#blocks) {
      this.#library.release(at);
    }
  }
}

/**
 * The calls of the module and its memory. A pointer is a BigInt. A memory that grows detaches its
 * views, so these are made again.
 */
export class Library {
  #calls;

  #memory;

  #data;

  /**
   * The pointer to the scratch memory: null before its first use, 0n if memory ran out.
   * @type {bigint | null}
   */
  #scratch = null;

  #taken = 0;

  /**
   * The error that interrupted a call of the module.
   * @type {unknown}
   */
  #cause = undefined;

  /** Closes the editors that are collected, by their handles. */
  #collected = new FinalizationRegistry((/** @type {bigint} */ handle) => this.#close(handle));

  /** @param {WebAssembly.Exports} exports */
  constructor(exports) {
    this.#calls = /** @type {Record<string, (...words: unknown[]) => any>} */ (exports);
    this.#memory = /** @type {WebAssembly.Memory} */ (exports.memory);
    this.#data = new DataView(this.#memory.buffer);
  }

  /**
   * @param {string} name
   * @param {unknown[]} words
   */
  call(name, ...words) {
    if (this.#cause) {
      throw new EngineStopped("the engine has stopped", { cause: this.#cause });
    }
    try {
      return this.#calls[name](...words);
    } catch (cause) {
      this.#cause = cause;
      throw cause;
    }
  }

  /**
   * @param {number} size
   * @returns {bigint}
   */
  allocate(size) {
    const at = this.call("allocate", BigInt(size));
    if (at === 0n) {
      throw new OutOfMemory();
    }
    return at;
  }

  /** @param {bigint} at */
  release(at) {
    this.call("release", at);
  }

  /**
   * @param {bigint} at
   * @param {number} length
   */
  bytes(at, length) {
    return new Uint8Array(this.#memory.buffer, Number(at), length);
  }

  /** A view of the memory, until it grows. */
  get data() {
    const { buffer } = this.#memory;
    if (this.#data.buffer !== buffer) {
      this.#data = new DataView(buffer);
    }
    return this.#data;
  }

  /** How many bytes of the scratch memory are taken. */
  get taken() {
    return this.#taken;
  }

  /**
   * Returns a pointer to a number of bytes of the scratch memory, or null if too few are left.
   * @param {number} size
   */
  takeScratch(size) {
    this.#scratch ??= /** @type {bigint} */ (this.call("allocate", BigInt(SCRATCH_SIZE)));
    const start = this.#taken;
    const end = start + Math.ceil(size / 16) * 16;
    if (this.#scratch === 0n || end > SCRATCH_SIZE) {
      return null;
    }
    this.#taken = end;
    return this.#scratch + BigInt(start);
  }

  /**
   * Frees the scratch memory, except a number of bytes.
   * @param {number} taken
   */
  giveScratch(taken) {
    this.#taken = taken;
  }

  /**
   * Returns what `use` returns. Its loan is freed when it ends.
   * @template T
   * @param {(loan: Loan) => T} use
   * @returns {T}
   */
  borrow(use) {
    const loan = new Loan(this);
    try {
      return use(loan);
    } finally {
      if (!this.#cause) {
        loan.end();
      }
    }
  }

  /**
   * Opens a page for an editor, and returns its handle: the pointer to a hedit_editor.
   * @param {object} editor
   * @param {Text} page
   * @param {number} labelCap
   * @param {number} undoDepth
   */
  open(editor, page, labelCap, undoDepth) {
    const handle = this.allocate(8);
    this.data.setBigUint64(Number(handle), 0n);
    try {
      this.borrow((loan) => {
        const bytes = bytesOf(page);
        const refusal = loan.room(16);
        const words = [...loan.array(bytes), labelCap, BigInt(undoDepth), refusal];
        const status = this.call("hedit_open", handle, ...words);
        if (status === Status.PAGE_REFUSED) {
          const [data, place] = [this.data, Number(refusal)];
          const at = Number(data.getBigUint64(place, true));
          const kind = Object.values(PageKind)[data.getUint32(place + 8, true) - 1];
          throw new PageRefused(typeof page === "string" ? unitsInBytes(bytes, at) : at, kind);
        }
        answer(status);
      });
    } catch (error) {
      if (!this.#cause) {
        this.release(handle);
      }
      throw error;
    }
    this.#collected.register(editor, handle, editor);
    return handle;
  }

  /**
   * @param {object} editor
   * @param {bigint} handle
   */
  close(editor, handle) {
    this.#collected.unregister(editor);
    this.#close(handle);
  }

  /** @param {bigint} handle */
  #close(handle) {
    if (!this.#cause) {
      this.call("hedit_close", handle);
      this.release(handle);
    }
  }
}
