/**
 * Why calls of the engine are refused: an error for each cause.
 */

import { Status } from "./hedit_constants.js";

/** @typedef {import("./hedit_constants.js").PageKind} PageKind */

/** A call was refused. The editor is unchanged. */
export class HeditError extends Error {
  name = "HeditError";

  /**
   * The status that the engine answered.
   * @readonly
   * @type {Status | undefined}
   */
  status = undefined;
}

/** The text isn't a page: the part before `at` begins one, and `kind` says why no more does. */
export class PageRefused extends HeditError {
  name = "PageRefused";
  /** @readonly */
  status = Status.PAGE_REFUSED;

  /**
   * @param {number} at
   * @param {PageKind} kind
   */
  constructor(at, kind) {
    super(`the page is refused: ${kind} at ${at}`);
    /**
     * Counted in UTF-16 units of a string, or in bytes of a Uint8Array.
     * @readonly
     */
    this.at = at;
    /** @readonly */
    this.kind = kind;
  }
}

/** A path or a label names no node, or an offset is past its length or inside a character. */
export class BadPlace extends HeditError {
  name = "BadPlace";
  /** @readonly */
  status = Status.BAD_PLACE;

  constructor(message = "the document has no such place") {
    super(message);
  }
}

/** There are 16 markers of other names. */
export class TooManyMarks extends HeditError {
  name = "TooManyMarks";
  /** @readonly */
  status = Status.TOO_MANY_MARKS;

  constructor(message = "there are 16 markers of other names already") {
    super(message);
  }
}

/** A node that the command makes would have the label `labelCap`. */
export class PageFull extends HeditError {
  name = "PageFull";
  /** @readonly */
  status = Status.FULL;

  constructor(message = "no label is left below labelCap") {
    super(message);
  }
}

/** The document is too deep for commands. */
export class TooDeep extends HeditError {
  name = "TooDeep";
  /** @readonly */
  status = Status.DEEP;

  constructor(message = "the document is too deep") {
    super(message);
  }
}

/** The call ran out of memory. */
export class OutOfMemory extends HeditError {
  name = "OutOfMemory";
  /** @readonly */
  status = Status.MEMORY;

  constructor(message = "out of memory") {
    super(message);
  }
}

/** A number is outside its limits, a text isn't Unicode, or a denied name is malformed. */
export class BadArgument extends HeditError {
  name = "BadArgument";
  /** @readonly */
  status = Status.BAD_ARGUMENT;

  constructor(message = "an argument is invalid") {
    super(message);
  }
}

/** The editor is closed. */
export class EditorClosed extends HeditError {
  name = "EditorClosed";
  /** @readonly */
  status = Status.CLOSED;

  constructor(message = "the editor is closed") {
    super(message);
  }
}

/** An earlier call was interrupted by the `cause`. Load another engine. */
export class EngineStopped extends HeditError {
  name = "EngineStopped";
}

/** The browser, or this version of Node, lacks what the engine needs. */
export class EngineUnsupported extends HeditError {
  name = "EngineUnsupported";

  /** @param {readonly string[]} missing */
  constructor(missing) {
    super(`the engine can't run here, since ${missing.join(", ")} is missing: use a newer version`);
    /**
     * Names of what is missing, as `missingFeatures` gives them.
     * @readonly
     */
    this.missing = missing;
  }
}

/** The engine's file couldn't be loaded: the message says from where and why. */
export class EngineNotLoaded extends HeditError {
  name = "EngineNotLoaded";
}

/** @type {Readonly<Record<number, new () => HeditError>>} */
const REFUSALS = {
  [Status.MEMORY]: OutOfMemory,
  [Status.FULL]: PageFull,
  [Status.DEEP]: TooDeep,
  [Status.BAD_PLACE]: BadPlace,
  [Status.TOO_MANY_MARKS]: TooManyMarks,
  [Status.BAD_ARGUMENT]: BadArgument,
};

/**
 * Returns whether a call was done. Throws an error if it was refused.
 * @param {number} status
 */
export function answer(status) {
  const Refusal = REFUSALS[status];
  if (Refusal) {
    throw new Refusal();
  }
  return status === Status.DONE;
}
