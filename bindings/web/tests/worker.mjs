/**
 * Runs the page's worker in Node: a file of many pages is read once, and after a call that doesn't return the worker decodes the
 * next file.
 *
 * usage: node bindings/web/tests/worker.mjs
 */
import { readFileSync } from "node:fs";
import { ERRORS } from "../errors.js";
import { counts, fileOf, trap } from "./watched.mjs";
import { module } from "./module.mjs";

const PAGES = 300;
const TEXTS = Object.fromEntries(Object.values(ERRORS));
const example = readFileSync(new URL("../../../crates/jbig2_decode/data/t88-h1.jb2", import.meta.url));
let messages = [];
let done = () => {};
let failed = 0;
let checks = 0;

globalThis.onmessage = null;
// What can't be closed is told there.
console.error = () => {};
globalThis.fetch = async () => new Response(module, { headers: { "content-type": "application/wasm" } });
globalThis.postMessage = (message) => {
  messages.push(message);
  if (message.isDone || message.isReady) done();
};

function check(holds, name) {
  checks++;
  if (!holds) failed++, console.log(`worker: ${name}`);
}

/** What the worker says of a file. */
async function saidOf(bytes, salvage = false) {
  messages = [];
  const end = new Promise((resolve) => (done = resolve));
  globalThis.onmessage({ data: { bytes: Uint8Array.from(bytes).buffer, salvage, isLimited: true } });
  await end;
  return messages;
}

const pagesOf = (messages) => messages.filter(({ rows }) => rows).map(({ number, width }) => `${number} ${width}`);
const errorsOf = (messages) => messages.filter(({ error }) => error).map(({ number, error }) => `${number ?? "file"} ${error}`);

async function checkReadings() {
  counts.clear();
  const said = await saidOf(fileOf(PAGES));
  const meant = Array.from({ length: PAGES }, (_, at) => `${at + 1} ${8 + (at % 100)}`);
  const readings = counts.get("hayro_jbig2_file_new_within");
  check(String(pagesOf(said)) === String(meant) && errorsOf(said).length === 0, `${PAGES} pages: ${errorsOf(said)}`);
  check(readings === 1, `${PAGES} pages take ${readings} readings`);
}

/** Globals that the images of a PDF file share are decoded once, also where they have a fault. */
async function checkGlobals() {
  const object = (number, words, data) => `${number} 0 obj<<${words}/Length ${data.length / 2}>>stream\n${Buffer.from(data, "hex").toString("latin1")}\nendstream endobj\n`;
  const image = `0000000030000100000013000000080000000100${"00".repeat(10)}`;
  for (const [globals, errors] of [["000000010000010000000F00010000000100000001" + "5F80800040", 0], ["0000000100A00000000000", PAGES]]) {
    const images = Array.from({ length: PAGES }, (_, at) => object(at + 2, "/Filter/JBIG2Decode/DecodeParms<</JBIG2Globals 1 0 R>>", image));
    counts.clear();
    const said = await saidOf(Buffer.from(`%PDF-1.5\n${object(1, "", globals)}${images.join("")}`, "latin1"));
    const readings = counts.get("hayro_jbig2_globals_new_within");
    check(pagesOf(said).length === PAGES - errors && errorsOf(said).length === errors, `${PAGES} images: ${errorsOf(said)[0]}`);
    check(readings === 1, `the globals of ${PAGES} images are read ${readings} times`);
  }
}

/** A file is none of PDF, also where it has the words that such a file begins with. */
async function checkWords() {
  const said = await saidOf(Buffer.concat([example, Buffer.from("%PDF-1.5\n")]));
  check(pagesOf(said).length === 3, `a file with the words of a PDF file: ${errorsOf(said)}`);
}

/** An error as the page tells it. */
const told = (error) => `${error}: ${TEXTS[error]}`;

/** Pages that can't begin are told, also where the file has no other ones; and segments that no page lacks. */
async function checkLeftOut() {
  const page = (number, width) => `0000000${number}30000${number}00000013${width}00000001${"00".repeat(11)}`;
  const left = `file left out of this file: 1 page (${told("FORMAT_EMPTY_PAGE")})`;
  // A region without an operator, and bytes that are no segment.
  const region = `000000102600010000001A0000000100000001${"00".repeat(8)}050003FFFDFF02FEFEFE`;
  const [end, junk] = ["00000011310001" + "00".repeat(4), "20".repeat(16)];
  const rest = `file left out of this file: what comes from a segment on (segment 538976288, ${told("SEGMENT_INVALID_REFERENCE")})`;
  const dictionary = "000000020000010000000F00090000000100000001" + "5F80800040";
  const cut = `file left out of this file: what comes from a segment on (${told("PARSE_UNEXPECTED_EOF")})`;
  const inInformation = cut.replace("(PARSE", "(segment 1, PARSE");
  const cases = [
    ["", "file no JBIG2 page in this file"],
    [page(1, "00000000"), left],
    [page(1, "00000008") + page(2, "00000000"), left],
    // None of these pages says where the list of segments ends early; those after them do.
    [page(1, "00000008") + end + junk, rest],
    [page(1, "00000008") + region + end + junk, rest],
    [page(1, "00000008") + junk, ""],
    [page(1, "00000008") + region + junk, ""],
    // Where no page begins, none says it: page information is cut off, or the only page has no width.
    [page(1, "00000008").slice(0, -2), `${inInformation},file no JBIG2 page in this file`],
    [page(1, "00000008").slice(0, -2), `${inInformation},file no JBIG2 page in this file`, false],
    [page(1, "00000000") + end + "000000", `${left},${cut}`],
    // A page that fails says nothing of it: a dictionary wants a table which isn't there, and the rest is cut off.
    [page(1, "00000008") + dictionary + end + "000000", `1 ${told("HUFFMAN_INVALID_SELECTION")},${cut}`, false],
  ];
  for (const [pages, meant, salvage = true] of cases) {
    const said = await saidOf(Buffer.from(`974A42320D0A1A0A03${pages}`, "hex"), salvage);
    check(String(errorsOf(said)) === meant, `what is left out of a file: ${errorsOf(said)}`);
  }
}

async function checkTrap(name, after) {
  Object.assign(trap, { name, after });
  const said = await saidOf(example);
  trap.name = null;
  const next = await saidOf(example);
  const isWhole = pagesOf(said).length === 3;
  check(isWhole || (/unreachable/.test(errorsOf(said)[0]) && errorsOf(said).length < 3), `${name} doesn't return: ${errorsOf(said)}`);
  check(pagesOf(next).length === 3 && errorsOf(next).length === 0, `the file after ${name}: ${errorsOf(next)}`);
  return said;
}

await import("../worker.js");
check(messages.some(({ isReady }) => isReady), "the worker is not ready");
await checkReadings();
await checkGlobals();
await checkWords();
await checkLeftOut();
const said = await checkTrap("hayro_jbig2_file_draw", 1);
check(pagesOf(said).length === 1, `${pagesOf(said).length} pages before a call that doesn't return`);
await checkTrap("hayro_jbig2_file_new_within", 0);
await checkTrap("jbig2_c_release", 0);
const whole = await checkTrap("jbig2_c_release", 3);
check(pagesOf(whole).length === 3 && errorsOf(whole).length === 0, "a file that can't be closed lacks pages");
globalThis.fetch = async () => new Response("", { status: 404 });
Object.assign(trap, { name: "hayro_jbig2_file_draw", after: 0 });
await saidOf(example);
check(/404/.test(errorsOf(await saidOf(example))[0]), "a decoder that can't be loaded again");
console.log(`worker: ${checks - failed} checks passed, ${failed} failed`);
process.exit(failed ? 1 : 0);
