/** A page that has a region and much beside it, for the tests of what the region keeps from it. */
import { once } from "node:events";
import { createServer } from "node:http";

/** Hears what is asked of an address that hostile HTML leads to. */
export async function trap() {
  /** @type {string[]} */
  const asked = [];
  const server = createServer((request, response) => {
    asked.push(String(request.url));
    const headers = { "Cross-Origin-Resource-Policy": "cross-origin", "Content-Type": "image/gif" };
    response.writeHead(200, headers);
    response.end(Buffer.from("R0lGODlhAQABAAAAACH5BAEKAAEALAAAAAABAAEAAAICTAEAOw==", "base64"));
  });
  server.listen(0, "127.0.0.1");
  await once(server, "listening");
  const close = () => {
    server.closeAllConnections();
    server.close();
  };
  return { asked, close, address: `http://127.0.0.1:${server.address().port}` };
}

const NONCE = "bm9uY2U";

/** What a strict page lets be done. */
export const POLICY =
  `default-src 'none'; script-src 'self' 'nonce-${NONCE}' 'wasm-unsafe-eval'; connect-src 'self'; ` +
  "img-src data: blob:; require-trusted-types-for 'script'; trusted-types hedit";

/**
 * A page with a region at `#host`, after which comes what hostile HTML aims at: a form with a field, a
 * custom element, and ids.
 * @param {string} policy
 */
export const hostPage = (policy = "") => `<!doctype html>
<html lang="en">
<meta charset="utf-8">
${policy && `<meta http-equiv="Content-Security-Policy" content="${policy}">`}
<title>A host</title>
<link rel="icon" href="data:,">
<button id="cover">a button above</button>
<div id="host" contenteditable="true" spellcheck="false"></div>
<div id="page"></div>
<form id="form"><input id="field" name="field" value="own"></form>
<script nonce="${NONCE}">
  window.ran = [];
  window.made = 0;
  customElements.define("x-host", class extends HTMLElement {
    constructor() {
      super();
      window.made += 1;
    }
  });
  document.addEventListener("securitypolicyviolation", ({ effectiveDirective, sourceFile }) => {
    window.ran.push(effectiveDirective);
  });
</script>
<script type="module" nonce="${NONCE}">
  import { load } from "/hedit.js";
  import { Region } from "/region.js";

  const engine = await load();
  window.Region = Region;
  window.engine = engine;
  window.start = (html, { id = "host", ...choices } = {}) => {
    window.region?.close();
    const element = document.getElementById(id);
    element.replaceChildren();
    window.region = new Region(engine, element, { html, clean: false, debug: true, ...choices });
  };
  window.isReady = true;
</script>
</html>
`;
