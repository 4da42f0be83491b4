#!/usr/bin/env node
/**
 * What a key costs in a page of 5,000 paragraphs, in a region and in an element that the browser
 * itself edits, and what a region adds to a page's load, in Chromium and in Firefox:
 *
 *     node bench/keys.mjs [PARAGRAPHS] [ROUNDS]
 *
 * The two are measured in turn, in one run of each browser. A key's time goes from its event to the end
 * of the frame that shows what it did, with frames that wait for no screen. Next to it is the CPU time of
 * the page's main thread, which doesn't depend on what else the machine does. Each has the median and the
 * middle half, and the ratio of the region's to the browser's own. The load of the machine before and
 * after is printed too. It ends with status 1 if a target is missed: a key takes no longer than the
 * browser's own, and no more CPU time, and a load at most 100 ms more.
 */
import { loadavg } from "node:os";
import { argv, exit } from "node:process";
import { BROWSERS } from "../hosts/web/test/browsers.mjs";
import { serve } from "../hosts/web/test/server.mjs";

const [PARAGRAPHS, ROUNDS] = [Number(argv[2] ?? 5000), Number(argv[3] ?? 5)];

const KINDS = ["browser", "region"];

/** The keys of a round, with how often each is pressed. */
const KEYS = [
  ["a character", "x", 30],
  ["Backspace", "Backspace", 15],
  ["Enter", "Enter", 10],
];

const WARMING = 5;

const MOST_LOAD = 100;

const SMALL = 3;

/** How often a page of so few paragraphs is loaded, of each kind in turn. */
const LOADS = 11;

function quantile(times, part) {
  const sorted = [...times].sort((left, right) => left - right);
  return sorted[Math.min(sorted.length - 1, Math.floor(sorted.length * part))];
}

/** A median with the middle half around it. */
function shown([low, middle, high]) {
  return `${middle.toFixed(1).padStart(7)} ms (${low.toFixed(1)} to ${high.toFixed(1)})`;
}

const tellLoad = (when) => console.log(`load ${when}: ${loadavg().map((each) => each.toFixed(1))}`);

async function open(browser, address, kind, paragraphs) {
  const page = await browser.open(`${address}?kind=${kind}&paragraphs=${paragraphs}`);
  const opened = await page.until(() => window.opened);
  return { page, opened };
}

/** Presses a key some times, and gives how long each took, and how much of the processor. */
async function strike(page, key, times) {
  await page.evaluate(() => void window.times.splice(0));
  const before = await page.processor();
  for (let count = 1; count <= times; count += 1) {
    await page.strike(key);
    await page.until((wanted) => window.times.length >= wanted, count);
  }
  const each = ((await page.processor()) - before) / times;
  const taken = await page.evaluate(() => window.times.splice(0));
  return taken.map((time) => ({ time, processor: each }));
}

async function measureKeys(browser, address, kind, found) {
  const { page, opened } = await open(browser, address, kind, PARAGRAPHS);
  found.push({ what: "opening", time: opened });
  await page.click(`#host > p:nth-child(${Math.ceil(PARAGRAPHS / 2)})`);
  await strike(page, "x", WARMING);
  for (const [what, key, times] of KEYS) {
    found.push(...(await strike(page, key, times)).map((taken) => ({ what, ...taken })));
  }
  await page.close();
}

async function measureLoads(browser, address, found) {
  for (let round = 0; round < LOADS; round += 1) {
    for (const kind of KINDS) {
      const { page, opened } = await open(browser, address, kind, SMALL);
      found[kind].push({ what: "load", time: opened });
      await page.close();
    }
  }
}

async function measureAll({ Browser }, address) {
  const browser = await Browser.launch({ isPaced: false });
  const found = { browser: [], region: [] };
  for (let round = 0; round < ROUNDS; round += 1) {
    for (const kind of KINDS) {
      await measureKeys(browser, address, kind, found[kind]);
    }
  }
  await measureLoads(browser, address, found);
  await browser.close();
  return found;
}

/** The quartiles of what something took, wall-clock and in CPU time. */
function quartilesOf(found, what) {
  const taken = found.filter((each) => each.what === what);
  const of = (name) => [0.25, 0.5, 0.75].map((part) => quantile(taken.map((each) => each[name]), part));
  return { time: of("time"), processor: taken[0].processor === undefined ? null : of("processor") };
}

/** Whether what the region takes misses the aim. */
function isMissed(what, [own, ours]) {
  if (what === "opening") {
    return false;
  }
  const most = what === "load" ? own.time[1] + MOST_LOAD : own.time[1];
  return ours.time[1] > most || (ours.processor && ours.processor[1] > own.processor[1]);
}

/** Prints what was found, and gives the aims that are missed. */
function judge(found) {
  const missed = [];
  for (const what of [...KEYS.map(([name]) => name), "opening", "load"]) {
    const halves = KINDS.map((kind) => quartilesOf(found[kind], what));
    const [own, ours] = halves;
    for (const name of ["time", "processor"].filter((each) => own[each])) {
      const told = halves.map((half, place) => `${KINDS[place]} ${shown(half[name])}`);
      const times = (ours[name][1] / own[name][1]).toFixed(2);
      console.log(`  ${what.padEnd(12)} ${name.padEnd(9)} ${told.join(", ")}: ${times} times`);
    }
    if (isMissed(what, halves)) {
      missed.push(what);
    }
  }
  return missed;
}

const server = await serve("keys.html");
const missed = [];
tellLoad("before");
console.log(`keys in a page of ${PARAGRAPHS} paragraphs, of ${ROUNDS} rounds`);
for (const each of BROWSERS) {
  console.log(each.skip ? `${each.name} is skipped: ${each.skip}` : each.name);
  const found = each.skip ? null : await measureAll(each, server.address);
  missed.push(...(found ? judge(found) : []).map((what) => `${each.name}: ${what}`));
}
server.close();
tellLoad("after");
console.log(missed.length === 0 ? "no aim is missed" : `missed: ${missed.join("; ")}`);
exit(missed.length === 0 ? 0 : 1);
