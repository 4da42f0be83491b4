/**
 * The numbers and words that calls of the engine take and return.
 */

/** The status of a call of the engine. hedit.h says what each number means. */
export const Status = Object.freeze(
  /** @type {const} */ ({
    DONE: 0,
    NO: 1,
    USAGE: 2,
    MEMORY: 5,
    PAGE_REFUSED: 6,
    TOO_LONG: 7,
    STEP_REFUSED: 8,
    TOO_SMALL: 9,
    FULL: 10,
    DEEP: 11,
    BAD_PLACE: 12,
    TOO_MANY_MARKS: 13,
    BAD_ARGUMENT: 14,
    CLOSED: 15,
  }),
);

/** @typedef {typeof Status[keyof typeof Status]} Status */

/** The queries about a command. */
export const Question = Object.freeze(
  /** @type {const} */ ({ SUPPORTED: 0, ENABLED: 1, INDETERM: 2, STATE: 3, VALUE: 4 }),
);

/** @typedef {typeof Question[keyof typeof Question]} Question */

/** The views of an editor. */
export const View = Object.freeze(
  /** @type {const} */ ({ HTML: 0, TREE: 1, POINTS: 2, NUMBERS: 3 }),
);

/** @typedef {typeof View[keyof typeof View]} View */

/** Kinds of nodes, with the numbers of DOM's nodeType. */
export const NodeKind = Object.freeze(
  /** @type {const} */ ({ ELEMENT: 1, TEXT: 3, COMMENT: 8, DOCUMENT: 9 }),
);

/** @typedef {typeof NodeKind[keyof typeof NodeKind]} NodeKind */

/** Why a page is refused: the program's words. */
export const PageKind = Object.freeze(
  /** @type {const} */ ({
    NOT_UTF8: "not-utf8",
    BAD_TAG: "bad-tag",
    UNCLOSED: "unclosed",
    STRAY_END: "stray-end",
    BAD_ATTRIBUTE: "bad-attribute",
    REPEATED_ATTRIBUTE: "repeated-attribute",
    UNKNOWN_REFERENCE: "unknown-reference",
    UNSUPPORTED_ELEMENT: "unsupported-element",
    TOO_DEEP: "too-deep",
    TOO_LONG: "too-long",
    FULL: "full",
  }),
);

/** @typedef {typeof PageKind[keyof typeof PageKind]} PageKind */
