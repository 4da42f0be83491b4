import assert from "node:assert/strict";
import { BYTES } from "./engine.mjs";
import * as hedit from "../src/hedit.js";

/** What the tests of the calls share: the engine, a page, and a name in it. */
export const engine = await hedit.load(BYTES);

export const PAGE = "<p contenteditable>Call Ann</p>";

export const at = (path, offset) => ({ path, offset });

/** @type {[hedit.Place, hedit.Place]} */
export const NAME = [at([0, 0], 5), at([0, 0], 8)];

export const refused = (call, name, status) =>
  assert.throws(call, (error) => {
    assert.ok(error instanceof hedit.HeditError);
    assert.ok(error instanceof hedit[name]);
    assert.deepEqual([error.name, error.status], [name, status]);
    assert.ok(error.message);
    return true;
  });
