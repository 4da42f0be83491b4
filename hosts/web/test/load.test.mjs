/** How the engine is loaded, and what is said where it can't be. */
import assert from "node:assert/strict";
import { readFile } from "node:fs/promises";
import { createServer } from "node:http";
import { afterEach, describe, it } from "node:test";
import { PAGE } from "./calls.mjs";
import { BYTES } from "./engine.mjs";
import { EngineNotLoaded, EngineUnsupported, HeditError, load, missingFeatures } from "../src/hedit.js";

/** The address of a server that answers so with some bytes, until the test ends. */
async function serve(t, bytes, status, headers) {
  const server = createServer((request, response) => {
    response.writeHead(status, headers);
    response.end(bytes);
  });
  await new Promise((resolve) => server.listen(0, "127.0.0.1", resolve));
  t.after(() => {
    server.closeAllConnections();
    server.close();
  });
  return `http://127.0.0.1:${server.address().port}/hedit.wasm`;
}

const WASM = { "Content-Type": "application/wasm" };

const isWhole = async (source) => {
  const editor = (await load(source)).open(PAGE);
  assert.equal(editor.html(), '<p contenteditable="">Call Ann</p>\n');
};

/** Whether an error is of a class, and of HeditError, and says all of this. */
const refuses = (source, Refusal, ...said) =>
  assert.rejects(load(source), (error) => {
    assert.ok(error instanceof Refusal && error instanceof HeditError);
    said.forEach((words) => assert.ok(error.message.includes(words), error.message));
    return true;
  });

describe("the engine is loaded", () => {
  it("from bytes, a response and an address", async (t) => {
    const address = await serve(t, BYTES, 200, WASM);
    const { buffer, byteOffset, byteLength } = BYTES;
    await isWhole(BYTES);
    await isWhole(buffer.slice(byteOffset, byteOffset + byteLength));
    await isWhole(address);
    await isWhole(new URL(address));
    await isWhole(fetch(address));
    await isWhole(await fetch(address));
  });

  it("where a server names another type, or none", async (t) => {
    await isWhole(await serve(t, BYTES, 200, { "Content-Type": "application/octet-stream" }));
    await isWhole(await serve(t, BYTES, 200, { "Content-Type": "Application/WASM; charset=x" }));
    await isWhole(await serve(t, BYTES, 200, {}));
  });

  it("where there is no streaming", async (t) => {
    const { compileStreaming } = WebAssembly;
    t.after(() => Object.assign(WebAssembly, { compileStreaming }));
    WebAssembly.compileStreaming = undefined;
    await isWhole(await serve(t, BYTES, 200, WASM));
  });

  it("over the bytes of hedit.wasm that were read before", async () => {
    await isWhole(await readFile(new URL("../dist/hedit.wasm", import.meta.url)));
  });
});

describe("the engine isn't loaded", () => {
  it("where a server hasn't got it", async (t) => {
    const address = await serve(t, "Not here", 404, WASM);
    await refuses(address, EngineNotLoaded, address, "404 Not Found");
  });

  it("where a server sends a page in its place", async (t) => {
    const address = await serve(t, "<!doctype html>", 200, { "Content-Type": "text/html; charset=utf-8" });
    await refuses(address, EngineNotLoaded, address, "sent text/html");
  });

  it("where nothing answers", async () => {
    const server = createServer();
    await new Promise((resolve) => server.listen(0, "127.0.0.1", resolve));
    const address = `http://127.0.0.1:${server.address().port}/hedit.wasm`;
    await new Promise((resolve) => server.close(resolve));
    await refuses(address, EngineNotLoaded, address, "can't be reached");
  });

  it("by an address of a file, which says what to do", async () => {
    await refuses(undefined, EngineNotLoaded, "in Node, read hedit.wasm");
  });

  it("from bytes that are no module", async () => {
    await assert.rejects(load(new Uint8Array([1, 2, 3])), WebAssembly.CompileError);
  });
});

describe("what is missing", () => {
  const { validate, Global } = WebAssembly;

  afterEach(() => Object.assign(WebAssembly, { validate, Global }));

  it("is nothing here", () => assert.deepEqual(missingFeatures(), []));

  it("is named where modules are refused", async () => {
    WebAssembly.validate = () => false;
    assert.deepEqual(missingFeatures(), ["WebAssembly sign extension", "WebAssembly bulk memory"]);
    await refuses(BYTES, EngineUnsupported, "WebAssembly sign extension, WebAssembly bulk memory");
    await assert.rejects(load(BYTES), ({ missing }) => missing.length === 2);
  });

  it("is named where there are no numbers of 64 bits", () => {
    /** @type {any} */ (WebAssembly).Global = class {
      constructor() {
        throw new TypeError("i64");
      }
    };
    assert.deepEqual(missingFeatures(), ["WebAssembly with BigInt"]);
  });

  it("is WebAssembly where there is none", () => {
    const whole = WebAssembly;
    globalThis.WebAssembly = undefined;
    const missing = missingFeatures();
    globalThis.WebAssembly = whole;
    assert.deepEqual(missing, ["WebAssembly"]);
  });
});
