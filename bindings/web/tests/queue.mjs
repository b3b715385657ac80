/**
 * Runs the page's queue over workers that don't load, that are stopped as they load, and that decode: each that is not used any
 * more has to be ended. Files that take long hold up no others, up to four of them.
 *
 * usage: node bindings/web/tests/queue.mjs
 */
import { FileQueue } from "../queue.js";

const FILES = 5;
// Longer than all takes on a busy computer.
const OPTIONS = { seconds: 1000 };
const MOST_TRIES = 12_000;
let first = null;
let alive = 0;

const NONE = "no workers here";
// The first byte of a file that is never done.
const SLOW = 1;

const fileOf = (name, isSlow = false) => ({ name, arrayBuffer: async () => Uint8Array.of(isSlow ? SLOW : 0).buffer });

/** A worker that says `first` when it is made, if that is something, and then that each file is done, unless it is slow. */
globalThis.Worker = class {
  constructor() {
    if (first === NONE) throw new Error(NONE);
    alive++;
    if (first) setTimeout(() => this.onmessage({ data: first }), 1);
  }

  postMessage({ bytes }) {
    if (new Uint8Array(bytes)[0] !== SLOW) setTimeout(() => this.onmessage({ data: { isDone: true } }), 1);
  }

  terminate() {
    alive--;
  }
};

/** How many workers are alive, and the faults that were shown, after some files, each of which is stopped if it is to be. */
async function afterFiles(said, isStopped) {
  [first, alive] = [said, 0];
  const faults = [];
  await new Promise((end) => {
    const begin = (_, stop) => {
      if (isStopped) setTimeout(stop, 1);
      return { page() {}, fail: (fault) => faults.push(fault), end() {} };
    };
    const queue = new FileQueue({ begin, change: (running) => running.length || end() });
    for (let index = 0; index < FILES; index++) queue.add(fileOf("a file"), OPTIONS);
  });
  return `${alive} alive, ${faults.length} faults, ${faults[0] ?? "none"}`;
}

/** What runs, waits and is done as slow files come before others, and after all are stopped. */
async function besideSlowFiles(slow, quick) {
  [first, alive] = [{ isReady: true }, 0];
  const done = [];
  let seen;
  const begin = (name) => ({ page() {}, fail: () => done.push(`${name} stopped`), end: () => done.push(name) });
  const queue = new FileQueue({ begin, change: (running, waiting) => (seen = { running, waiting }) });
  const isOver = (condition) => until(condition, `${seen.running} run, ${seen.waiting} wait`);
  for (let index = 0; index < slow; index++) queue.add(fileOf(`slow ${index}`, true), OPTIONS);
  for (let index = 0; index < quick; index++) queue.add(fileOf(`quick ${index}`), OPTIONS);
  const begun = `${seen.running} runs, ${seen.waiting} wait`;
  await isOver(() => seen.running.length === Math.min(slow, 4) && (slow > 3 || seen.waiting === 0));
  const said = `${begun}; then ${seen.running.length} run, ${seen.waiting} wait, ${done.length} done`;
  queue.stopAll();
  await isOver(() => seen.running.length === 0);
  return `${said}; at last ${done.length} done, ${alive} alive`;
}

/** Waits until a condition holds. */
async function until(condition, text) {
  for (let tries = 0; !condition(); tries++) {
    if (tries === MOST_TRIES) return console.log(`queue: no end: ${text}`);
    await new Promise((resolve) => setTimeout(resolve, 50));
  }
}

const CASES = [
  [{ error: "no module" }, false, "0 alive, 5 faults, the decoder could not be loaded: no module"],
  [null, true, "0 alive, 5 faults, stopped"],
  [{ isReady: true }, false, "1 alive, 0 faults, none"],
  [NONE, false, "0 alive, 5 faults, no workers here"],
];
let failed = 0;
for (const [said, isStopped, meant] of CASES) {
  const made = await afterFiles(said, isStopped);
  if (made !== meant) failed++, console.log(`queue: ${made}, not ${meant}`);
}
const BESIDE = [
  [1, 3, "slow 0 runs, 3 wait; then 1 run, 0 wait, 3 done; at last 5 done, 1 alive"],
  [5, 2, "slow 0 runs, 6 wait; then 4 run, 3 wait, 0 done; at last 8 done, 0 alive"],
];
for (const [slow, quick, meant] of BESIDE) {
  const made = await besideSlowFiles(slow, quick);
  if (made !== meant) failed++, console.log(`queue: ${made}, not ${meant}`);
}
const count = CASES.length + BESIDE.length;
console.log(`queue: ${count - failed} of ${count} runs of files are as they are meant`);
process.exit(failed ? 1 : 0);
