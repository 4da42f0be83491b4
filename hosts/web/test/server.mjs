/** What serves the pages of the tests on this machine, with the modules of hosts/web. */
import { once } from "node:events";
import { readFile } from "node:fs/promises";
import { createServer } from "node:http";
import { text } from "node:stream/consumers";

/** So that pages have a fine clock. */
const ISOLATED = {
  "Cross-Origin-Opener-Policy": "same-origin",
  "Cross-Origin-Embedder-Policy": "require-corp",
};

/**
 * The file of an address: `/` is the page, and the others are modules and the engine.
 * @param {string} address
 * @param {string} page
 * @returns {[string, string] | []}
 */
function fileOf(address, page) {
  if (address === "/") {
    return [page, "text/html"];
  }
  if (address === "/hedit.wasm") {
    return ["../dist/hedit.wasm", "application/wasm"];
  }
  return /^\/\w+\.js$/.test(address) ? [`../src${address}`, "text/javascript"] : [];
}

/** @param {string | undefined} name */
const read = (name) => name && readFile(new URL(name, import.meta.url)).catch(() => undefined);

/**
 * Serves a page of this folder, or one of some markup, and hears what it tells.
 * @param {string} page
 * @param {string} [markup]
 */
export async function serve(page, markup) {
  /** @type {(said: string) => void} */
  let tell;
  const answer = new Promise((resolve) => {
    tell = resolve;
  });
  const server = createServer(async (request, response) => {
    if (request.method === "POST") {
      tell(await text(request));
      response.end();
      return;
    }
    const [path] = String(request.url).split("?");
    const [name, type] = fileOf(path, page);
    const content = name === page && markup ? markup : await read(name);
    response.writeHead(content ? 200 : 404, content && { ...ISOLATED, "Content-Type": type });
    response.end(content);
  });
  server.listen(0, "127.0.0.1");
  await once(server, "listening");
  const close = () => {
    server.closeAllConnections();
    server.close();
  };
  return { answer, close, address: `http://127.0.0.1:${server.address().port}/` };
}
