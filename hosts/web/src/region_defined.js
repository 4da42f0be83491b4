/** The commands that the host of a page defines, for region.js. */
import { BadArgument } from "./hedit.js";
import { isCommand } from "./region_command_table.js";

/** @typedef {import("./region.js").Region} Region */

/**
 * A command that the host of a page defines.
 * @typedef {object} RegionCommand
 * @property {(region: Region, value: string) => boolean} run Does it, by other calls of the region, and
 *   says whether it could. That is one step of undo.
 * @property {(region: Region) => boolean} [enabled] Whether there is something for it to work in. Default:
 *   yes.
 * @property {(region: Region) => boolean} [state] Whether the selection has it. Default: no.
 * @property {(region: Region) => string} [value] Its value. Default: an empty text.
 */

/** The commands that a region has beside the engine's. */
export class Defined {
  #region;

  /** @type {Map<string, RegionCommand>} */
  #commands = new Map();

  /** @param {Region} region */
  constructor(region) {
    this.#region = region;
  }

  /** @param {string} name */
  has(name) {
    return this.#commands.has(name.toLowerCase());
  }

  /**
   * @param {string} name
   * @returns {RegionCommand | undefined}
   */
  #command(name) {
    return this.#commands.get(name.toLowerCase());
  }

  /**
   * Adds a command, and gives what takes it out again.
   * @param {string} name
   * @param {RegionCommand} command
   */
  add(name, command) {
    if (name === "" || isCommand(name) || this.has(name) || this.#region.editor.supported(name)) {
      throw new BadArgument(`no command can be defined as ${JSON.stringify(name)}`);
    }
    const key = name.toLowerCase();
    this.#commands.set(key, command);
    return () => {
      if (this.#commands.get(key) === command) {
        this.#commands.delete(key);
      }
    };
  }

  /**
   * @param {string} name
   * @param {string} value
   */
  run(name, value) {
    return this.#command(name)?.run(this.#region, value) ?? false;
  }

  /** @param {string} name */
  isEnabled(name) {
    return this.#command(name)?.enabled?.(this.#region) ?? true;
  }

  /** @param {string} name */
  state(name) {
    return this.#command(name)?.state?.(this.#region) ?? false;
  }

  /** @param {string} name */
  value(name) {
    return this.#command(name)?.value?.(this.#region) ?? "";
  }
}
