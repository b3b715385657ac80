/**
 * Pages that are cut off, that refer to what isn't there, or whose faults are forgiven: `isComplete`, and what they lack.
 *
 * usage: node bindings/web/tests/incomplete.mjs FILE, which is t88-h1.jb2
 */
import { readFileSync } from "node:fs";
import { Decoder, Jbig2Error } from "../hayro_jbig2.js";
import { module } from "./module.mjs";

const decoder = await Decoder.load(module);
const book = readFileSync(process.argv[2]);
let checks = 0;
let failed = 0;

function check(holds, name) {
  checks++;
  if (!holds) failed++, console.log(`incomplete: ${name}`);
}

const hex = (digits) => Buffer.from(digits.replace(/ /g, ""), "hex");
const joined = (...pieces) => Buffer.concat(pieces.map((piece) => (typeof piece === "string" ? hex(piece) : piece)));

// A page of 8 by 1, regions of one black pixel, numbers 2 to 5, a dictionary of one black symbol, number 1, and a text region,
// number 2, which refers to it; and one that refers to number 0 besides.
const PAGE = hex("00000000 30 00 01 00000013 00000008 00000001" + "00".repeat(11));
const REGION = (number) => `0000000${number} 26 00 01 0000001A 00000001 00000001 000000000000000000 00 03FFFDFF02FEFEFE`;
const REGIONS = joined(PAGE, ...[2, 3, 4, 5].map(REGION));
const SYMBOLS = hex("00000001 00 00 01 0000000F 0001 00000001 00000001 5F80800040");
const DATA = `01 0000002D 00000008 00000001 ${"00".repeat(9)} 0011 0000 00000001 01 ${"00".repeat(17)} 0004`;
const TEXT = joined(PAGE, "00000002 06 20 01", DATA);
const OTHER_TEXT = joined(PAGE, "00000002 06 40 00 01", DATA);

// What strict reading refuses, and lenient reading draws or skips: segments, the first byte of the row, the number of the one
// that counts, and its error.
const AREA = `00000008 00000001 ${"00".repeat(9)}`;
const CELL =
  "00000001 10 00 01 00000007 00 01 01 00000002" +
  `00000002 16 20 01 01 00000029 ${AREA} 01 00000001 00000001 ${"00".repeat(12)}`;
const FORGIVEN = [
  ["MMR data", `00000001 26 00 01 00000013 ${AREA} 01 26`, 0, 1, "REGION_INVALID_MMR_DATA"],
  ["MMR data of an intermediate region", `00000001 24 00 01 00000013 ${AREA} 01 26`, 0, 1, "REGION_INVALID_MMR_DATA"],
  ["a gray value without a pattern", `${CELL} 26A880`, 128, 2, "REGION_GRAY_SCALE_OUT_OF_RANGE"],
  ["an id without a symbol", `00000002 06 00 01 0000001B ${AREA} 0010 00000001 A943FFAC`, 0, 2, "SYMBOL_OUT_OF_RANGE"],
  ["an extension", "00000001 3E 00 01 00000004 80000000", 0, 1, "UNSUPPORTED"],
  ["a type that is not listed", "00000001 3F 00 01 00000000", 0, 1, "SEGMENT_UNKNOWN_TYPE"],
];

const END = "PARSE_UNEXPECTED_EOF";
const REFERENCE = "SEGMENT_INVALID_REFERENCE";
const READINGS = [{}, { salvage: true }];

/** What is known of a page: its first row, and of what it lacks a count, the first number and the first error. */
function known({ rows, isComplete, passedOver: { count, segment, error } }) {
  check(isComplete === (count === 0), "a page is complete where it lacks nothing");
  return `${rows[0]} ${count} ${segment} ${error?.error ?? ""}`.trim();
}

function isRefused(bytes, options) {
  try {
    decoder.decode(bytes, { ...options, strict: true });
  } catch (error) {
    return error instanceof Jbig2Error;
  }
  return false;
}

function checkStreams() {
  const length = REGIONS.length;
  const globals = SYMBOLS;
  const cases = [
    ["a whole page", REGIONS, {}, "128 0 null"],
    ["a page of a third", REGIONS.subarray(0, length / 3), {}, `0 1 2 ${END}`],
    ["half a page", REGIONS.subarray(0, length / 2), {}, `128 1 3 ${END}`],
    ["a page without its last byte", REGIONS.subarray(0, length - 1), {}, `128 1 5 ${END}`],
    ["a page that ends in a number", joined(TEXT, "000000"), { globals }, `128 1 null ${END}`],
    ["a page with the end of a line", joined(TEXT, "0A"), { globals: joined(SYMBOLS, "0D0A") }, "128 0 null"],
    ["a page with other ends of a line", joined(TEXT, "0D0A"), { globals: joined(SYMBOLS, "0A") }, "128 0 null"],
    ["a page with three ends of a line", joined(TEXT, "0A0A0A"), { globals }, `128 1 null ${END}`],
    ["a page without its globals", TEXT, {}, "0 1 2 HUFFMAN_INVALID_CODE"],
    ["a page with one of two dictionaries", OTHER_TEXT, { globals }, `128 1 2 ${REFERENCE}`],
    ...FORGIVEN.map(([name, segments, row, segment, error]) => [name, joined(PAGE, segments), {}, `${row} 1 ${segment} ${error}`]),
  ];
  for (const [name, bytes, options, meant] of cases) {
    for (const reading of READINGS) {
      const found = known(decoder.decode(bytes, { ...options, ...reading }));
      check(found === meant, `${name}, ${JSON.stringify(reading)}: ${found}`);
    }
    check(meant.includes(" 0 ") || isRefused(bytes, options), `${name} is not refused strictly`);
    check(decoder.held === 0, `${name}: memory is not given back`);
  }
}

/** The segment at which a list ends early has its number. */
function checkCutOff() {
  for (const reading of READINGS) {
    const { cutOff } = decoder.decode(REGIONS.subarray(0, REGIONS.length - 1), reading).leftOut;
    check(cutOff.segment === 5 && cutOff.error.error === END, "the segment that is cut off");
    const inNumber = decoder.decode(joined(PAGE, "0000"), reading).leftOut.cutOff;
    check(inNumber.segment === null && inNumber.error.error === END, "a segment that is cut off in its number");
    check(decoder.decode(REGIONS, reading).leftOut.cutOff === null, "nothing is cut off");
  }
}

/** A dictionary of the globals that refers to number 0, which isn't there: its symbols may be others. */
function checkGlobals() {
  const globals = joined("00000001 00 20 00", SYMBOLS.subarray(6));
  for (const reading of READINGS) {
    const { isComplete, passedOver, leftOut } = decoder.decode(TEXT, { globals, ...reading });
    check(!isComplete && passedOver.count === 0, "a page whose globals lack something is incomplete");
    const { count, segment, error } = leftOut.passedOver;
    check(count === 1 && segment === 1 && error.error === REFERENCE, "what globals lack");
  }
}

/** A dictionary that pages share lacks something, and their list ends with the same error, in salvage. */
function checkTwoFaults() {
  const lacking = joined("00000001 00 20 00 00", SYMBOLS.subarray(7));
  const end = joined("00000004 31 00 01 00000000", "20".repeat(16));
  const segments = joined(PAGE, lacking, TEXT.subarray(PAGE.length), end);
  const known = [
    decoder.decode(TEXT, { globals: joined(lacking, "20".repeat(16)), salvage: true }),
    decoder.decode(joined("974A42320D0A1A0A 01 00000001", segments), { salvage: true }),
    decoder.decode(joined("974A42320D0A1A0A 03", segments), { salvage: true }),
  ];
  for (const { rows, isComplete, passedOver, leftOut } of known) {
    check(rows[0] === 128 && !isComplete && passedOver.count === 0, "a page whose shared segments lack something");
    const { passedOver: shared, cutOff } = leftOut;
    check(shared.count === 1 && shared.segment === 1 && shared.error.error === REFERENCE, "what pages share lacks");
    check(cutOff.segment === 0x20202020 && cutOff.error.error === REFERENCE, "where the list ends with the same error");
  }
}

/** The first page of a file is complete, since its end is there; the second one isn't. */
function checkFile() {
  const end = book.indexOf(hex("31 00 02 00000000"));
  const cut = book.subarray(0, end - 5);
  for (const reading of READINGS) {
    const [first, second] = [0, 1].map((page) => decoder.decode(cut, { page, ...reading }));
    check(first.isComplete && Buffer.from(first.rows).equals(decoder.decode(book).rows), "the first page is complete");
    check(!second.isComplete && second.passedOver.count === 1, "the second page is not complete");
    check(second.passedOver.segment === second.leftOut.cutOff.segment, "the segment that the second page lacks");
  }
  for (const page of [0, 1, 2]) check(decoder.decode(book, { page }).isComplete, `page ${page} is complete`);
}

checkStreams();
checkCutOff();
checkGlobals();
checkTwoFaults();
checkFile();
console.log(`incomplete pages: ${checks - failed} checks passed, ${failed} failed`);
process.exit(failed ? 1 : 0);
