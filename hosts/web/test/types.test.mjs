/** The types that tsc makes of the modules, as a program in TypeScript sees them. */
import assert from "node:assert/strict";
import { execFile, spawnSync } from "node:child_process";
import { cp, mkdir, mkdtemp, rm } from "node:fs/promises";
import { tmpdir } from "node:os";
import { join } from "node:path";
import { describe, it } from "node:test";
import { fileURLToPath } from "node:url";
import { promisify } from "node:util";

const WEB = fileURLToPath(new URL("..", import.meta.url));

const SETTINGS = {
  strict: true,
  noUnusedLocals: false,
  noEmit: true,
  target: "es2022",
  module: "nodenext",
  lib: ["es2022", "dom", "dom.iterable"],
};

/** The arguments of tsc for the settings. */
const WORDS = Object.entries(SETTINGS).flatMap(([name, value]) => [`--${name}`, String(value)]);

const skip = spawnSync("tsc", ["--version"]).error ? "there is no tsc" : false;

/** What tsc finds; nothing where it finds no fault. */
async function compile(folder, ...words) {
  const said = (error) => error.stdout || error.message;
  return promisify(execFile)("tsc", words, { cwd: folder }).then(({ stdout }) => stdout, said);
}

describe("the types of the package", { skip }, () => {
  it("allow what a program may do, and refuse what it may not", async (t) => {
    const folder = await mkdtemp(join(tmpdir(), "hedit-types-"));
    t.after(() => rm(folder, { recursive: true }));
    const module = join(folder, "node_modules", "hedit");
    await mkdir(module, { recursive: true });
    await cp(join(WEB, "package.json"), join(module, "package.json"));
    await cp(join(WEB, "test", "program.ts"), join(folder, "program.mts"));
    const declarations = ["-p", join(WEB, "tsconfig.declarations.json"), "--outDir", join(module, "src")];
    assert.equal(await compile(WEB, ...declarations), "");
    assert.equal(await compile(folder, ...WORDS, "program.mts"), "");
  });
});
