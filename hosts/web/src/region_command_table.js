/**
 * The commands of a region, for region.js: the kinds of `beforeinput` that ask for each, what each needs,
 * and the habits, which are what a region does around the engine's command.
 */
import {
  hiliteAtCaret,
  indentSublists,
  keepAlignment,
  outdentBackward,
  outdentWhole,
  quoteByIndent,
} from "./region_blocks.js";
import { enterLink, joinItems, selectCluster } from "./region_deletion.js";
import {
  enterBlock,
  forgetStyles,
  keepSpaces,
  keepStyle,
  keepStyleOverSpace,
  leaveLink,
  leaveLocked,
} from "./region_typing.js";

/** @typedef {import("./region_commands.js").Commands} Commands */
/** @typedef {import("./region_commands.js").Habits} Habits */
/** @typedef {import("./region_session.js").Session} Session */

/**
 * Does something around a command: `next` executes it, with the habits that follow, and says whether it
 * was done.
 * @typedef {(commands: Commands, next: () => boolean, value: string) => boolean} Habit
 */

/**
 * How an input is answered:
 * - `execute`: by the command, with the input's text as its value;
 * - `insert`: by the command, with the input's text in place of what is selected;
 * - `replace`: the text in that range is corrected;
 * - `delete`: by the command;
 * - `deleteAt`: what is selected goes, or at a caret the range that the input names;
 * - `deleteFrom`: the range that the input names goes, whatever is selected.
 * @typedef {"execute" | "insert" | "replace" | "delete" | "deleteAt" | "deleteFrom"} Answer
 */

/**
 * A command:
 * - `inputs`: the kinds of `beforeinput` that ask for it, by how they are answered;
 * - `needs`: the engine's command that it is made of, which has to be enabled, and not denied;
 * - `isEnabled`: whether there is something for it to work in, where the engine doesn't know that;
 * - `prepare`: what is done before it at any rate;
 * - `habits`: what is done around it, the outermost first, by the names of the choices;
 * - `run`: what it does, where that isn't the engine's command of its name.
 * @typedef {object} Command
 * @property {Readonly<Partial<Record<Answer, readonly string[]>>>} [inputs]
 * @property {string} [needs]
 * @property {(session: Session) => boolean} [isEnabled]
 * @property {(commands: Commands) => void} [prepare]
 * @property {Readonly<Partial<Record<keyof Habits, Habit>>>} [habits]
 * @property {(session: Session, value: string) => boolean} [run]
 */

/**
 * What is pasted and dropped is region_transfer.js's.
 * @type {Readonly<Record<string, Command>>}
 */
const COMMANDS = {
  insertText: {
    inputs: {
      insert: ["insertText", "insertFromYank"],
      replace: ["insertReplacementText", "insertTranspose"],
    },
    prepare: enterBlock,
    habits: {
      plainAcrossBlocks: forgetStyles,
      leaveLinks: leaveLink,
      keepStyle: keepStyleOverSpace,
      leaveLocked,
    },
  },
  insertParagraph: {
    inputs: { execute: ["insertParagraph"] },
    prepare: enterBlock,
    habits: { keepStyle, keepSpaces },
  },
  insertLineBreak: { inputs: { execute: ["insertLineBreak"] } },
  delete: {
    inputs: {
      delete: ["deleteContentBackward"],
      deleteAt: [
        "deleteByCut",
        "deleteContent",
        "deleteEntireSoftLine",
        "deleteHardLineBackward",
        "deleteHardLineForward",
        "deleteSoftLineBackward",
        "deleteSoftLineForward",
        "deleteWordBackward",
        "deleteWordForward",
      ],
      deleteFrom: ["deleteByDrag"],
    },
    habits: {
      deleteIntoLinks: enterLink,
      wholeClusters: selectCluster,
      outdentWhole: outdentBackward,
      joinItems,
      leaveLocked,
    },
  },
  forwardDelete: {
    inputs: { delete: ["deleteContentForward"] },
    needs: "delete",
    run: (session) => session.deleteForward(),
  },
  undo: {
    inputs: { execute: ["historyUndo"] },
    isEnabled: (session) => session.canUndo(),
    run: (session) => session.undo(),
  },
  redo: {
    inputs: { execute: ["historyRedo"] },
    isEnabled: (session) => session.canRedo(),
    run: (session) => session.redo(),
  },
  formatBlock: { habits: { quoteByIndent, keepAlignment } },
  indent: { inputs: { execute: ["formatIndent"] }, habits: { indentSublists } },
  outdent: { inputs: { execute: ["formatOutdent"] }, habits: { outdentWhole } },
  backColor: { inputs: { execute: ["formatBackColor"] }, habits: { hiliteAtCaret } },
  bold: { inputs: { execute: ["formatBold"] } },
  italic: { inputs: { execute: ["formatItalic"] } },
  underline: { inputs: { execute: ["formatUnderline"] } },
  strikethrough: { inputs: { execute: ["formatStrikeThrough"] } },
  superscript: { inputs: { execute: ["formatSuperscript"] } },
  subscript: { inputs: { execute: ["formatSubscript"] } },
  removeFormat: { inputs: { execute: ["formatRemove"] } },
  foreColor: { inputs: { execute: ["formatFontColor"] } },
  fontName: { inputs: { execute: ["formatFontName"] } },
  createLink: { inputs: { execute: ["insertLink"] } },
  justifyLeft: { inputs: { execute: ["formatJustifyLeft"] } },
  justifyCenter: { inputs: { execute: ["formatJustifyCenter"] } },
  justifyRight: { inputs: { execute: ["formatJustifyRight"] } },
  justifyFull: { inputs: { execute: ["formatJustifyFull"] } },
  insertOrderedList: { inputs: { execute: ["insertOrderedList"] } },
  insertUnorderedList: { inputs: { execute: ["insertUnorderedList"] } },
  insertHorizontalRule: { inputs: { execute: ["insertHorizontalRule"] } },
};

const BY_NAME = new Map(Object.entries(COMMANDS).map(([name, row]) => [name.toLowerCase(), row]));

/**
 * Whether a region has more to say of a command than the engine.
 * @param {string} name in any case
 */
export function isCommand(name) {
  return BY_NAME.has(name.toLowerCase());
}

/** A command that is the engine's, and that no input asks for. */
const OTHER = Object.freeze({});

/**
 * @param {string} name in any case
 * @returns {Command}
 */
export function commandOf(name) {
  return BY_NAME.get(name.toLowerCase()) ?? OTHER;
}

/**
 * The names that may be denied so that a command is: its own, and that of the one that it is made of.
 * @param {string} name
 */
export function namesOf(name) {
  const { needs } = commandOf(name);
  return needs === undefined ? [name] : [name, needs];
}

/**
 * The command that a kind of input asks for, and how it is answered.
 * @typedef {{ readonly command: string, readonly answer: Answer }} Asked
 */

/**
 * @param {string} command
 * @param {Command} row
 * @returns {[string, Asked][]}
 */
function inputsOf(command, { inputs = {} }) {
  const each = /** @type {[Answer, readonly string[]][]} */ (Object.entries(inputs));
  return each.flatMap(([answer, kinds]) => {
    const asked = { command, answer };
    return kinds.map((kind) => /** @type {[string, Asked]} */ ([kind, asked]));
  });
}

/**
 * What the kinds of input ask for.
 * @type {ReadonlyMap<string, Asked>}
 */
export const INPUTS = new Map(Object.entries(COMMANDS).flatMap((each) => inputsOf(...each)));
