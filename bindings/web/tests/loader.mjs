/**
 * Calls the loader with wrong arguments of all kinds, at random and one by one: it has to refuse them by an error that
 * says so, and to decode as before after each.
 *
 * usage: node bindings/web/tests/loader.mjs
 */
import { readFileSync } from "node:fs";
import { Decoder, Jbig2Error, isFile } from "../hayro_jbig2.js";
import { module } from "./module.mjs";
import { randomNumbers } from "./random.mjs";

const CALLS = 20000;
// A decoder that is spoiled fails at all that comes after.
const SHOWN = 20;
const file = new Uint8Array(readFileSync(new URL("../../../crates/jbig2_decode/data/t88-h1.jb2", import.meta.url)));
const decoder = await Decoder.load(module);
let failed = 0;

function check(holds, name) {
  if (holds) return;
  failed++;
  if (failed <= SHOWN) console.log(`loader: ${name}`);
}

/** What a call comes to: the sum of what it returns, or its error. */
function outcome(call) {
  try {
    const made = call();
    if (typeof made === "number") return String(made);
    const sum = made.data.reduce((sum, byte) => (31 * sum + byte) >>> 0, 0);
    return `${made.width} ${made.height} ${sum}`;
  } catch (error) {
    return error;
  }
}

const meant = [0, 1, 2].map((page) => outcome(() => decoder.decode(file, { page })));

/** Whether the decoder is as it was. */
function isWhole() {
  return decoder.held === 0 && meant.every((page, index) => outcome(() => decoder.decode(file, { page: index })) === page);
}

const isRefused = (made) => made instanceof TypeError || made instanceof Jbig2Error;

/** Bytes of a file as an ArrayBuffer, and as a view of it that begins later. */
function checkBytes() {
  const buffer = file.buffer.slice(file.byteOffset, file.byteOffset + file.length);
  const moved = new Uint8Array(file.length + 6);
  moved.set(file, 5);
  const shared = new SharedArrayBuffer(file.length);
  new Uint8Array(shared).set(file);
  const even = new Uint8Array(file.length + 1);
  even.set(file);
  const sources = {
    "an ArrayBuffer": buffer,
    "a DataView": new DataView(moved.buffer, 5, file.length),
    "a Uint8ClampedArray": new Uint8ClampedArray(buffer),
    "a SharedArrayBuffer": shared,
    "a Uint16Array, by its bytes": new Uint16Array(even.buffer, 0, even.length >> 1),
    "a Buffer": Buffer.from(moved.buffer, 5, file.length),
  };
  for (const [name, source] of Object.entries(sources)) {
    check(outcome(() => decoder.decode(source, { page: 1 })) === meant[1], `${name} is not decoded`);
    check(outcome(() => decoder.pageCount(source)) === "3" && isFile(source), `${name} is not read as a file`);
    check(isWhole(), `after ${name} the decoder is not as it was`);
  }
}

const OBJECTS = [{}, { length: 8 }, { length: -1 }, { byteLength: 9 }, [0x97, 0x4a, 0x42, 0x32], () => 1, new Date(0)];
const NO_BYTES = [undefined, null, "\x97JB2", "", 5, NaN, 5n, true, Symbol("bytes"), ...OBJECTS];
const NO_PAGES = [0.5, NaN, Infinity, "1", "x", null, {}, [], true, 2n ** 64n, 1n, 2 ** 53];

function checkWrong() {
  for (const source of NO_BYTES) {
    const name = `${typeof source} ${Array.isArray(source) ? "[..]" : String(source)} as bytes`;
    check(outcome(() => decoder.decode(source)) instanceof TypeError, `${name}: not a TypeError`);
    check(outcome(() => decoder.pageCount(source)) instanceof TypeError, `${name}: pageCount is not a TypeError`);
    check(outcome(() => isFile(source)) instanceof TypeError, `${name}: isFile is not a TypeError`);
    if (source !== null && source !== undefined)
      check(outcome(() => decoder.decode(file, { globals: source })) instanceof TypeError, `${name} of globals: not a TypeError`);
    check(isWhole(), `after ${name} the decoder is not as it was`);
  }
  for (const page of NO_PAGES) {
    check(outcome(() => decoder.decode(file, { page })) instanceof TypeError, `page ${typeof page} ${String(page)}: not a TypeError`);
    check(isWhole(), `after page ${String(page)} the decoder is not as it was`);
  }
  check(outcome(() => decoder.decode(file, { page: -1 })).error === "NO_SUCH_PAGE", "page -1");
  for (const globals of [null, new Uint8Array()]) {
    const [first, second] = [0, 1].map((page) => outcome(() => decoder.decode(blankPage(8, 1), { page, globals })));
    check(typeof first === "string" && second.error === "NO_SUCH_PAGE", `page 1 of an embedded page: ${second}`);
  }
}

/** What is true in JavaScript is true for the module, whose bool may be 0 or 1 alone. */
function checkTruth() {
  const damaged = file.slice(0, file.length - 1);
  const [lenient, strict] = [false, true].map((strict) => outcome(() => decoder.pageCount(damaged, { strict })));
  check(lenient === "3" && strict instanceof Jbig2Error, "a file that is cut off is refused by strict reading alone");
  for (const truth of ["yes", 2, 256, {}, [], -1, 0.5]) {
    const made = outcome(() => decoder.pageCount(damaged, { strict: truth }));
    check(made.error === strict.error, `strict: ${String(truth)} is not strict`);
  }
  for (const untruth of [0, "", null, undefined, NaN]) {
    const made = outcome(() => decoder.pageCount(damaged, { strict: untruth }));
    check(made === "3", `strict: ${untruth} is strict`);
  }
}

/** An embedded page without a region. */
function blankPage(width, height) {
  const page = Buffer.from("00000000300001000000130000000000000000" + "00".repeat(11), "hex");
  page.writeUInt32BE(width, 11);
  page.writeUInt32BE(height, 15);
  return page;
}

/** What was decoded earlier takes no room from a page: pages of many sizes, of which each has room alone. */
async function checkRoom() {
  const small = await Decoder.load(module, 6 << 20);
  for (let width = 1000; width < 8000; width += 500) {
    const made = outcome(() => small.decode(blankPage(width, 2000)));
    check(typeof made === "string", `a page of ${width} by 2000 after others: ${made.message}`);
  }
}

/**
 * A module of one call, which doesn't return: a memory, and hayro_jbig2_globals_new_within that comes to an
 * `unreachable`.
 */
const trapping = () => {
  const text = (word) => [word.length, ...Buffer.from(word)];
  const section = (number, ...bytes) => [number, bytes.length, ...bytes];
  const [I32, I64] = [0x7f, 0x7e];
  return Uint8Array.from([
    ...[0, 0x61, 0x73, 0x6d, 1, 0, 0, 0],
    ...section(1, 1, 0x60, 6, I64, I32, I64, I64, I64, I64, 1, I32),
    ...section(3, 1, 0),
    ...section(5, 1, 0, 1),
    ...section(7, 2, ...text("memory"), 2, 0, ...text("hayro_jbig2_globals_new_within"), 0, 0),
    ...section(10, 1, 3, 0, 0, 0x0b),
  ]);
};

/** After a call that doesn't return, a decoder says that another one is to be loaded. */
async function checkTrap() {
  const broken = await Decoder.load(trapping());
  const made = [1, 2].map(() => outcome(() => broken.decode(file, { globals: file })));
  check(made[0] instanceof WebAssembly.RuntimeError && /load another/.test(made[1].message), `after a trap: ${made[1]}`);
}

/** All that the module may come as. */
async function checkSources() {
  const compiled = await WebAssembly.compile(module);
  const response = () => new Response(module, { headers: { "content-type": "application/wasm" } });
  const shared = new SharedArrayBuffer(module.length);
  new Uint8Array(shared).set(module);
  const promised = [module, compiled, response()].map((source) => Promise.resolve(source));
  const sources = [module, compiled, response(), shared, new DataView(shared), ...promised];
  for (const [index, source] of sources.entries()) {
    const made = await Decoder.load(source).then((loaded) => loaded.pageCount(file), String);
    check(made === 3, `source ${index} of the module: ${made}`);
  }
  const missing = await Decoder.load(Promise.resolve(new Response("", { status: 404 }))).catch((error) => error.message);
  check(/could not be loaded: 404/.test(missing), `a module that is not there: ${missing}`);
}

/** A decoder has as much memory as it may have, and no wrong number lifts that. */
async function checkMost() {
  for (const most of [NaN, -1, "1", null, {}, 5n]) {
    const made = await Decoder.load(module, most).catch((error) => error);
    check(made instanceof TypeError, `${String(most)} as the most bytes of memory: not a TypeError`);
  }
}

/** Random calls with right and wrong arguments: each returns, or throws an error that is meant. */
function checkRandomCalls() {
  const random = randomNumbers(1);
  const pick = (values) => values[random(values.length)];
  const bytes = () => {
    const kind = random(4);
    if (kind === 0) return pick(NO_BYTES);
    if (kind === 1) return file;
    const some = file.slice(0, random(file.length + 1));
    // Not its sizes, whose pages take long.
    if (some.length > 60) some[60 + random(some.length - 60)] ^= 1 << random(8);
    return kind === 2 ? some : new DataView(some.buffer);
  };
  const option = () => pick([undefined, false, true, 1, 0, "yes", null]);
  for (let call = 0; call < CALLS; call++) {
    const workLimit = pick([undefined, null, 0, 1000, 1e6, Infinity]);
    const page = pick([0, 1, 2, 3, undefined, ...NO_PAGES]);
    const globals = pick([undefined, null, null, null, bytes()]);
    const options = { strict: option(), salvage: option(), workLimit, page, globals };
    const made = outcome(() => (random(4) ? decoder.decode(bytes(), options) : decoder.pageCount(bytes(), options)));
    check(typeof made === "string" || isRefused(made), `a random call: ${made?.stack ?? made}`);
    if (call % 100 === 0) check(isWhole(), `after ${call} random calls the decoder is not as it was`);
  }
  check(isWhole(), "after the random calls the decoder is not as it was");
}

checkBytes();
checkWrong();
checkTruth();
await checkMost();
await checkRoom();
await checkTrap();
await checkSources();
checkRandomCalls();
console.log(`loader: ${CALLS} random calls, and each wrong argument: ${failed} faults`);
process.exit(failed ? 1 : 0);
