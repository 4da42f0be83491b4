/** What the tests share: the engine from hosts/web/dist, and its bytes. */
import { readFile } from "node:fs/promises";
import { setFlagsFromString } from "node:v8";
import { runInNewContext } from "node:vm";

setFlagsFromString("--expose-gc");

export const BYTES = await readFile(new URL("../dist/hedit.wasm", import.meta.url));

/** Collects what isn't used any more. */
export const collect = runInNewContext("gc");

/** A number of a WebAssembly module, and where it ends. */
function leb(bytes, at) {
  let number = 0;
  for (let shift = 0; ; shift += 7) {
    const byte = bytes[at];
    at += 1;
    number += (byte & 0x7f) * 2 ** shift;
    if (byte < 0x80) {
      return [number, at];
    }
  }
}

/** The module with a memory that has at most so many pages of 64 KB (fewer than 128) more than at first. */
export function withMorePages(pages) {
  let at = 8;
  for (;;) {
    const [length, start] = leb(BYTES, at + 1);
    if (BYTES[at] === 5) {
      const [least] = leb(BYTES, start + 2);
      const most = least + pages;
      const limits = [1, BYTES[start + 1], least, most];
      return Buffer.concat([
        BYTES.subarray(0, at),
        Buffer.from([5, limits.length, ...limits]),
        BYTES.subarray(start + length),
      ]);
    }
    at = start + length;
  }
}
