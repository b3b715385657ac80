/**
 * Decodes all files of a folder in Node, and compares the pages with those of its answers.json.
 *
 * usage: node bindings/web/tests/node.mjs FOLDER
 */
import { createHash } from "node:crypto";
import { existsSync, readFileSync } from "node:fs";
import { join } from "node:path";
import { ERRORS } from "../errors.js";
import { Decoder, Jbig2Error, isFile } from "../hayro_jbig2.js";
import { Pdf, isPdf } from "../pdf.js";
import { module } from "./module.mjs";

const folder = process.argv[2];
const answers = JSON.parse(readFileSync(join(folder, "answers.json"), "utf8"));
const decoder = await Decoder.load(module);
const { FORMAT_MISSING_PAGE_INFO, OUT_OF_MEMORY } = Object.fromEntries(Object.values(ERRORS));
// The program has no limit.
const workLimit = Infinity;
let passed = 0;
let failed = 0;

function check(holds, name) {
  if (holds) passed++;
  else failed++, console.log(`differs: ${name}`);
}

/** The sum of a page's packed rows. All its pixels have to be black or white. */
function sumOf({ width, height, data }) {
  const pixels = new Uint32Array(data.buffer);
  const stride = Math.ceil(width / 8);
  const rows = new Uint8Array(stride * height);
  for (let y = 0, at = 0; y < height; y++)
    for (let x = 0; x < width; x++, at++) {
      if (pixels[at] === 0xff000000) rows[y * stride + (x >> 3)] |= 128 >> (x & 7);
      else if (pixels[at] !== 0xffffffff) return "neither black nor white";
    }
  return createHash("sha256").update(rows).digest("hex");
}

/** What decoding comes to, as answers.json has it: width, height and sum, or the text of the error. */
function outcome(work) {
  let page;
  try {
    page = work();
  } catch (error) {
    if (!(error instanceof Jbig2Error)) throw error;
    return error.message;
  }
  return typeof page === "number" ? page : [page.width, page.height, sumOf(page)];
}

const isSame = (some, others) => JSON.stringify(some) === JSON.stringify(others);

/** The bytes of the suite's globals of an embedded page, or null. */
function globalsOf(name) {
  const file = join(folder, name.replace(/\.page\.jb2$/, ".globals.jb2"));
  return file !== join(folder, name) && existsSync(file) ? readFileSync(file) : null;
}

function checkFile(name, bytes, strict, pages) {
  const label = `${name}${strict ? ", strictly" : ""}`;
  if (!isFile(bytes)) {
    const [page] = pages;
    check(isSame(outcome(() => decoder.decode(bytes, { globals: globalsOf(name), strict, workLimit })), page), label);
    return;
  }
  const count = outcome(() => decoder.pageCount(bytes, { strict, workLimit }));
  check(count === (typeof pages === "string" ? pages : pages.length), `${label}, the number of pages`);
  for (const [index, page] of typeof pages === "string" ? [] : pages.entries())
    check(isSame(outcome(() => decoder.decode(bytes, { page: index, strict, workLimit })), page), `${label}, page ${index}`);
  const beyond = typeof pages === "string" ? pages : "no such page";
  check(outcome(() => decoder.decode(bytes, { page: pages.length, strict, workLimit })) === beyond, `${label}, a page too many`);
  check(decoder.held === 0, `${label}: memory is not given back`);
}

async function checkPdf(name, bytes, pages) {
  check(isPdf(bytes), name);
  const found = [];
  const pdf = await Pdf.open(bytes);
  for (const number of pdf.images()) {
    const { bytes: stream, globals } = await pdf.streams(number);
    found.push(outcome(() => decoder.decode(stream, { globals, workLimit })));
  }
  check(isSame(found.map(String).sort(), pages.map(String).sort()), name);
}

const hex = (digits) => Uint8Array.from(digits.replace(/ /g, "").match(/../g), (byte) => parseInt(byte, 16));

// Pages of 8 by 1: page information, a region of one black pixel, a dictionary that wants a table which isn't there, and bytes
// that are a header which refers to its own number.
const PAGE = "00000000 30 00 01 00000013 00000008 00000001" + "00".repeat(11);
const OPEN = PAGE.replace("00000001", "FFFFFFFF");
const REGION = "00000002 26 00 01 0000001A 00000001 00000001" + "00".repeat(9) + "00 03FFFDFF02FEFEFE";
const BAD_SYMBOLS = "00000001 00 00 01 0000000F 0009 00000001 00000001 5F80800040";
const JUNK = "20".repeat(16);
const HEADER = "974A42320D0A1A0A 03";

/** What salvage gives of a page: its height, its first pixel, and what was left out, as texts. */
function salvaged(bytes, options = {}) {
  const { height, data, passedOver, leftOut } = decoder.decode(bytes, { ...options, salvage: true });
  const texts = [leftOut.passedOver.error, leftOut.firstPage, leftOut.cutOff?.error].map((error) => error?.error ?? "");
  const fields = [passedOver.count, passedOver.error?.error ?? "", leftOut.passedOver.count, leftOut.pages, ...texts];
  return [height, data[0] === 0 ? "black" : "white", ...fields].join(" ").trim();
}

/** Damaged pages, globals and files, which lenient reading refuses. */
function checkDamaged() {
  const reference = "SEGMENT_INVALID_REFERENCE";
  const selection = "HUFFMAN_INVALID_SELECTION";
  const damaged = [
    [PAGE + REGION + JUNK, {}, `1 black 1 ${reference} 0 0   ${reference}`],
    [PAGE + BAD_SYMBOLS + REGION, {}, `1 black 1 ${selection} 0 0`],
    [OPEN + REGION, {}, "1 black 0  0 0"],
    [PAGE + REGION, { globals: hex(JUNK) }, `1 black 0  0 0   ${reference}`],
    [PAGE + REGION, { globals: hex(BAD_SYMBOLS) }, `1 black 0  1 0 ${selection}`],
    [HEADER + PAGE + REGION + PAGE.replace("30 00 01", "30 00 02").replace("00000008", "00000000"), {}, "1 black 0  0 1  FORMAT_EMPTY_PAGE"],
  ];
  for (const [digits, options, meant] of damaged) {
    check(typeof outcome(() => decoder.decode(hex(digits), options)) === "string", `lenient reading refuses ${digits}`);
    check(salvaged(hex(digits), options) === meant, `${digits} in salvage: ${salvaged(hex(digits), options)}`);
    check(decoder.held === 0, `${digits} in salvage: memory is not given back`);
  }
  check(outcome(() => decoder.decode(new Uint8Array(0), { salvage: true })) === FORMAT_MISSING_PAGE_INFO, "no page");
}

/** What lenient reading reads, salvage reads in the same way, unless its segments end early: see `cut_off.mjs`. */
function checkSame(name, bytes, pages) {
  const globals = isFile(bytes) ? null : globalsOf(name);
  for (const [page, meant] of typeof pages === "string" ? [] : pages.entries()) {
    if (typeof meant === "string") continue;
    const { leftOut } = decoder.decode(bytes, { globals, page, workLimit });
    const made = outcome(() => decoder.decode(bytes, { globals, page, salvage: true, workLimit }));
    check(leftOut.cutOff ? typeof made !== "string" : isSame(made, meant), `${name}, page ${page}, in salvage`);
  }
}

/** Each amount of memory gives the page or that error, and neither keeps any. */
async function checkMemory(name) {
  const bytes = readFileSync(join(folder, name));
  const seen = new Set();
  for (let most = 0; most <= 4 << 20; most += 32 << 10) {
    const other = await Decoder.load(module, most);
    for (let page = 0; page < 3; page++) {
      const made = outcome(() => other.decode(bytes, { page }));
      check(made === OUT_OF_MEMORY || isSame(made, answers.files[name].lenient[page]), `${name} with ${most} bytes`);
      check(other.held === 0, `${name} with ${most} bytes: memory is not given back`);
      seen.add(typeof made === "string" ? made : "a picture");
    }
  }
  check(isSame([...seen], [OUT_OF_MEMORY, "a picture"]), `${name}: want of memory, then pictures: ${[...seen]}`);
}

for (const [name, { lenient, strict }] of Object.entries(answers.files)) {
  const bytes = readFileSync(join(folder, name));
  checkFile(name, bytes, false, lenient);
  checkFile(name, bytes, true, strict);
  checkSame(name, bytes, lenient);
}
for (const [name, pages] of Object.entries(answers.pdf)) await checkPdf(name, new Uint8Array(readFileSync(join(folder, name))), pages);
checkDamaged();
await checkMemory("t88-h1.jb2");
const counts = `${Object.keys(answers.files).length} files, ${Object.keys(answers.pdf).length} PDF files`;
console.log(`node: ${counts}: ${passed} checks passed, ${failed} failed`);
process.exit(failed ? 1 : 0);
