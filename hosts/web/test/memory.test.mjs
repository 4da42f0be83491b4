import assert from "node:assert/strict";
import { it } from "node:test";
import { BYTES, withMorePages } from "./engine.mjs";

/** What a new instance of a module exports. */
const instantiate = (bytes) =>
  /** @type {any} */ (new WebAssembly.Instance(new WebAssembly.Module(bytes)).exports);

/** Numbers from 0 to 2^32, the same each time. */
function* numbers(seed) {
  for (;;) {
    seed = (Math.imul(seed, 1664525) + 1013904223) >>> 0;
    yield seed;
  }
}

it("blocks are aligned, apart, and keep what is in them", () => {
  for (const seed of [1, 2, 3]) {
    const { memory, allocate, release } = instantiate(BYTES);
    const random = numbers(seed);
    const next = (below) => Math.floor((random.next().value / 2 ** 32) * below);
    const held = [];
    const filled = ({ at, size, byte }) =>
      Buffer.from(memory.buffer, Number(at), size).equals(Buffer.alloc(size, byte));
    for (let turn = 0; turn < 20_000; turn += 1) {
      if (held.length < 50 || (held.length < 400 && next(2))) {
        const size = next(2) ? next(100) : next(2) ? next(2_000) : next(60_000);
        const at = allocate(BigInt(size));
        assert.equal(at % 16n, 0n);
        assert.notEqual(at, 0n);
        const byte = next(256);
        new Uint8Array(memory.buffer, Number(at), size).fill(byte);
        held.push({ at, size, byte });
      } else {
        const [block] = held.splice(next(held.length), 1);
        assert.ok(filled(block));
        release(block.at);
      }
    }
    assert.ok(held.every(filled));
    const sorted = [...held].sort((left, right) => Number(left.at - right.at));
    for (const [number, { at, size }] of sorted.entries()) {
      assert.ok(number + 1 === sorted.length || at + BigInt(size) <= sorted[number + 1].at);
    }
    for (const { at } of held) {
      release(at);
    }
    // All of it is one block again.
    const length = memory.buffer.byteLength;
    const most = BigInt(length - 2 ** 20) / 2n;
    release(allocate(most));
    assert.equal(memory.buffer.byteLength, length);
  }
});

it("a growth that is refused is an answer, and leaves the heap as it is", () => {
  const { memory, allocate, release } = instantiate(withMorePages(20));
  const first = allocate(100n);
  const length = memory.buffer.byteLength;
  for (const size of [2n ** 21n, 2n ** 33n, 2n ** 40n, 2n ** 41n, 2n ** 63n - 1n, 2n ** 64n - 1n]) {
    assert.equal(allocate(size), 0n);
  }
  assert.equal(memory.buffer.byteLength, length);
  const held = [];
  for (let at = allocate(1000n); at !== 0n; at = allocate(1000n)) {
    held.push(at);
  }
  assert.ok(held.length > (20 * 65_536) / 1_100);
  for (const at of [first, ...held]) {
    release(at);
  }
  const whole = allocate(BigInt(19 * 65_536));
  assert.notEqual(whole, 0n);
});
