/**
 * Loads the engine: the features that it needs, and the sources of hedit.wasm.
 */

import { EngineNotLoaded, EngineUnsupported } from "./hedit_errors.js";

/**
 * The source of hedit.wasm: its address, a response, or bytes.
 * @typedef {string | URL | Response | PromiseLike<Response> | BufferSource} Source
 */

const MEDIA_TYPE = "application/wasm";

/** The first bytes of a WebAssembly module. */
const MAGIC = [0, ...new TextEncoder().encode("asm")];

const VERSION = [1, 0, 0, 0];

/**
 * Returns a module with one function, which has no arguments and no result.
 * @param {readonly number[]} instructions
 */
function moduleOf(instructions) {
  const type = [1, 4, 1, 0x60, 0, 0];
  const functions = [3, 2, 1, 0];
  const memory = [5, 3, 1, 0, 0];
  const body = [0, ...instructions, 0x0b];
  const code = [10, body.length + 2, 1, body.length, ...body];
  return Uint8Array.from([...MAGIC, ...VERSION, ...type, ...functions, ...memory, ...code]);
}

/** A module with `i32.extend8_s` of a number. The next has `memory.fill` of no bytes. */
const SIGN_EXTENSION = moduleOf([0x41, 0, 0xc0, 0x1a]);

const BULK_MEMORY = moduleOf([0x41, 0, 0x41, 0, 0x41, 0, 0xfc, 11, 0]);

/** Returns whether 64-bit numbers are passed to a module and returned as BigInt. */
function passesBigInt() {
  try {
    return new WebAssembly.Global({ value: "i64" }, BigInt(1)).value === BigInt(1);
  } catch {
    return false;
  }
}

/**
 * Returns the names of features that the engine needs and this browser or version of Node lacks.
 * @returns {string[]}
 */
export function missingFeatures() {
  if (typeof WebAssembly !== "object") {
    return ["WebAssembly"];
  }
  /** @type {[string, boolean][]} */
  const needed = [
    ["WebAssembly with BigInt", typeof BigInt === "function" && passesBigInt()],
    ["WebAssembly sign extension", WebAssembly.validate(SIGN_EXTENSION)],
    ["WebAssembly bulk memory", WebAssembly.validate(BULK_MEMORY)],
    ["FinalizationRegistry", typeof FinalizationRegistry === "function"],
  ];
  return needed.filter(([, isThere]) => !isThere).map(([name]) => name);
}

/**
 * Fetches hedit.wasm.
 * @param {string | URL} address
 */
async function fetchModule(address) {
  try {
    return await fetch(address);
  } catch (cause) {
    const advice = String(address).startsWith("file:")
      ? "fetch doesn't read files: in Node, read hedit.wasm and pass its bytes to load; in a browser, open the page from a server"
      : "the server can't be reached, or refuses this page";
    throw new EngineNotLoaded(`${address} couldn't be fetched: ${advice}`, { cause });
  }
}

/**
 * Compiles the response of a server, while it arrives if its media type is that of WebAssembly.
 * @param {Response} response
 */
async function compileResponse(response) {
  const { ok, status, statusText, url } = response;
  const name = url || "hedit.wasm";
  if (!ok) {
    const said = `${status} ${statusText}`.trim();
    throw new EngineNotLoaded(`${name} couldn't be loaded: the server answered ${said}`);
  }
  const type = response.headers.get("Content-Type");
  if (type === MEDIA_TYPE && typeof WebAssembly.compileStreaming === "function") {
    return WebAssembly.compileStreaming(response);
  }
  const bytes = new Uint8Array(await response.arrayBuffer());
  if (!MAGIC.every((byte, at) => bytes[at] === byte)) {
    const sent = type ?? "bytes without a type";
    throw new EngineNotLoaded(`${name} isn't the engine: the server sent ${sent} in its place`);
  }
  return WebAssembly.compile(bytes);
}

/**
 * Compiles the module of an address, a response or bytes.
 * @param {Source} source
 * @returns {Promise<WebAssembly.Module>}
 */
export async function compileModule(source) {
  const missing = missingFeatures();
  if (missing.length > 0) {
    throw new EngineUnsupported(missing);
  }
  const isAddress = typeof source === "string" || source instanceof URL;
  const given = await (isAddress ? fetchModule(source) : source);
  return typeof Response === "function" && given instanceof Response
    ? compileResponse(given)
    : WebAssembly.compile(/** @type {BufferSource} */ (given));
}
