/**
 * Pages in all their forms, the limit of work, and the interface of pdf.js.
 *
 * usage: node bindings/web/tests/pages.mjs FOLDER
 */
import { readFileSync, readdirSync } from "node:fs";
import { join } from "node:path";
import { inflateSync } from "node:zlib";
import { Decoder, Jbig2Error, WorkLimitReached, isFile } from "../hayro_jbig2.js";
import { Jbig2Image } from "../jbig2_image.js";
import { pngOf } from "../png.js";
import { module } from "./module.mjs";

// Of the processor.
const SECONDS = 5;
const MEASURED = 500;
const decoder = await Decoder.load(module);
let checks = 0;
let failed = 0;

function check(holds, name) {
  checks++;
  if (!holds) failed++, console.log(`pages: ${name}`);
}

const thrown = (call) => {
  try {
    return call() && null;
  } catch (error) {
    return error;
  }
};

const isSame = (some, others) => Buffer.from(some.buffer, some.byteOffset, some.byteLength).equals(Buffer.from(others));

/** Each pixel by itself, from the packed rows. */
function pixelsOf({ width, height, rows }) {
  const stride = Math.ceil(width / 8);
  return Uint8Array.from({ length: width * height }, (_, at) => {
    const [x, y] = [at % width, Math.floor(at / width)];
    return rows[y * stride + (x >> 3)] & (128 >> (x & 7)) ? 0 : 255;
  });
}

/** The remainder by its definition, a bit at a time. */
function crcOf(bytes) {
  let sum = 0xffffffff;
  for (const byte of bytes) {
    sum ^= byte;
    for (let bit = 0; bit < 8; bit++) sum = (sum & 1 ? 0xedb88320 : 0) ^ (sum >>> 1);
  }
  return ~sum >>> 0;
}

/** The kinds of a PNG file's chunks and their data; null where a sum is wrong. */
function chunksOf(png) {
  const chunks = [];
  for (let place = 8; place < png.length; ) {
    const length = png.readUInt32BE(place);
    const [kind, data] = [png.toString("latin1", place + 4, place + 8), png.subarray(place + 8, place + 8 + length)];
    if (crcOf(png.subarray(place + 4, place + 8 + length)) !== png.readUInt32BE(place + 8 + length)) return null;
    chunks.push([kind, data]);
    place += length + 12;
  }
  return chunks;
}

/** Whether a PNG file has a page: its size, one bit for each pixel, and the rows, white 1, each after a zero. */
function hasPage(png, { width, height, rows }) {
  const [[, header], [, data], ...rest] = chunksOf(png) ?? [["", ""], ["", ""]];
  const stride = Math.ceil(width / 8);
  const lines = Buffer.alloc((stride + 1) * height);
  for (let at = 0; at < rows.length; at++) lines[at + Math.floor(at / stride) + 1] = rows[at] ^ 255;
  const size = [header.readUInt32BE(0), header.readUInt32BE(4)];
  const isHeader = size[0] === width && size[1] === height && header.toString("hex", 8) === "0100000000";
  return isHeader && inflateSync(data).equals(lines) && rest.length === 1 && rest[0][0] === "IEND";
}

async function checkForms(name, page) {
  const pixels = pixelsOf(page);
  check(isSame(page.toGray(), pixels), `${name}: grey`);
  const colours = Uint8Array.from({ length: 4 * pixels.length }, (_, at) => (at % 4 === 3 ? 255 : pixels[at >> 2]));
  check(isSame(page.toRgba(), colours), `${name}: RGBA`);
  check(page.data === page.data && isSame(page.data, page.toRgba()), `${name}: data`);
  check(hasPage(Buffer.from(await pngOf(page)), page), `${name}: PNG`);
  checkGiven(name, page, pixels, colours);
}

/** Pixels in an array that is handed in: at its place in its buffer, over what is there, and nothing beside it. */
function checkGiven(name, page, pixels, colours) {
  for (const [form, Pixels, meant] of [["toGray", Uint8Array, pixels], ["toRgba", Uint8ClampedArray, colours]]) {
    for (const place of [8, 5]) {
      const around = new Uint8Array(meant.length + 12).fill(7);
      const given = new Pixels(around.buffer, place, meant.length);
      let made;
      const error = thrown(() => (made = page[form](given)));
      const beside = [...around.subarray(0, place), ...around.subarray(place + meant.length)];
      const isFilled = made === given && isSame(given, meant) && isSame(Uint8Array.from(beside), Array(12).fill(7));
      check(isFilled, `${name}: ${form}, given at ${place}: ${error}`);
    }
  }
}

/** An array of another kind or size is refused. */
function checkWrongArrays() {
  const small = decoder.decode(hex(page("00000003", "00000002")));
  for (const given of [new Uint8ClampedArray(23), new Uint8Array(24), new Int32Array(24), [], 24, "", new ArrayBuffer(24)]) {
    check(thrown(() => small.toRgba(given)) instanceof TypeError, `toRgba of ${Object.prototype.toString.call(given)}`);
  }
  for (const given of [new Uint8ClampedArray(6), new Uint8Array(5), {}, 6]) {
    check(thrown(() => small.toGray(given)) instanceof TypeError, `toGray of ${Object.prototype.toString.call(given)}`);
  }
  check(small.toRgba(null).length === 24 && small.toGray(undefined).length === 6, "null in place of an array");
}

const hex = (digits) => Uint8Array.from(Buffer.from(digits.replace(/ /g, ""), "hex"));
const FILE = "974A42320D0A1A0A 01 00000001";
const page = (width, height) => `00000000 30 00 01 00000013 ${width} ${height} ${"00".repeat(11)}`;
const END = "00000002 31 00 01 00000000 00000003 33 00 00 00000000";
// 106 bytes: a page of 1 by 65535 with a region of 65535 by 65535, which would take minutes.
const REGION = `00000001 26 00 01 0000001E 0000FFFF 0000FFFF ${"00".repeat(9)} 04 03FFFDFF02FEFEFE 0000FFAC`;
const WIDE = hex(`${FILE} ${page("00000001", "0000FFFF")} ${REGION} ${END}`);

function checkLimit() {
  const blank = hex(page("00000008", "00000001"));
  check(WIDE.length === 106, "the file of 106 bytes");
  for (const options of [{}, { salvage: true }, { strict: true }, { workLimit: 1e6 }, { workLimit: 0 }]) {
    const began = process.cpuUsage();
    const error = thrown(() => decoder.decode(WIDE, options));
    const { user, system } = process.cpuUsage(began);
    const seconds = (user + system) / 1e6;
    const isLimit = error instanceof WorkLimitReached && error instanceof Jbig2Error;
    const isNamed = error?.name === "WorkLimitReached" && error.error === "WORK_LIMIT_REACHED";
    check(isLimit && isNamed && seconds < SECONDS, `a wide region, ${JSON.stringify(options)}: ${error}, ${seconds} s`);
  }
  check(thrown(() => decoder.decode(blank, { workLimit: 100 })) instanceof WorkLimitReached, "a page over a small limit");
  check(decoder.decode(blank, { workLimit: Infinity }).width === 8, "a page without a limit");
  check(decoder.decode(blank, { workLimit: 1e4 }).width === 8, "a page below a small limit");
  for (const workLimit of [NaN, -1, 0.5, "1", 5n, {}, true]) {
    for (const name of ["decode", "pageCount"]) {
      const error = thrown(() => decoder[name](WIDE, { workLimit }));
      check(error instanceof TypeError, `${name}, workLimit: ${String(workLimit)} is not refused`);
    }
  }
  check(decoder.held === 0, "memory is not given back after the limit");
}

/** What pages share has the limit too, in a file and as globals. */
function checkSharedLimit(name, bytes) {
  const reached = (options) => thrown(() => decoder.pageCount(bytes, options)) instanceof WorkLimitReached;
  check(reached({ workLimit: 1000 }) && !reached({}) && !reached({ workLimit: Infinity }), `${name}: what its pages share is not limited`);
}

/** Where memory is wanting, the error is another one. */
async function checkMemory() {
  const small = await Decoder.load(module, 2 ** 21);
  const error = thrown(() => small.decode(hex(page("0000FFFF", "0000FFFF"))));
  check(error?.error === "OUT_OF_MEMORY" && error.name === "Jbig2Error", `want of memory: ${error}`);
}

/** The bytes of a PDF file are refused with what to do. */
function checkPdfFiles(stream) {
  const file = new TextEncoder().encode("%PDF-1.4\n1 0 obj");
  const calls = {
    decode: () => decoder.decode(file),
    salvage: () => decoder.decode(file, { salvage: true }),
    globals: () => decoder.decode(stream, { globals: file }),
    pageCount: () => decoder.pageCount(file),
  };
  for (const [name, call] of Object.entries(calls)) {
    const error = thrown(call);
    check(error?.error === "FORMAT_INVALID_HEADER" && /a PDF file/.test(error.message), `a PDF file, ${name}: ${error}`);
  }
}

/** pdf.js's interface, by its use there. */
async function checkImage(file, stream, globals) {
  check(/load\(\)/.test(thrown(() => new Jbig2Image().parse(file))?.message), "Jbig2Image before it is loaded");
  await Jbig2Image.load(module);
  const image = new Jbig2Image();
  const [first, embedded] = [decoder.decode(file), decoder.decode(stream, { globals })];
  check(isSame(image.parse(file), first.toGray()), "Jbig2Image.parse");
  check(image.width === first.width && image.height === first.height, "the size of Jbig2Image");
  const around = (bytes) => ({ data: Uint8Array.from([1, 2, 3, ...bytes, 4]), start: 3, end: bytes.length + 3 });
  const rows = image.parseChunks([around(globals), around(stream)]);
  check(rows instanceof Uint8ClampedArray && isSame(rows, embedded.rows), "Jbig2Image.parseChunks");
  const blank = image.parseChunks([{ data: hex(page("00000008", "00000001")), start: 0, end: 30 }]);
  check(isSame(blank, [0]), "Jbig2Image.parseChunks of one chunk");
  check(thrown(() => image.parse(stream))?.error === "FORMAT_INVALID_HEADER", "Jbig2Image.parse of other bytes");
}

const folder = process.argv[2];
const names = readdirSync(folder).filter((name) => name.endsWith(".jb2") && !/\.(page|globals)\./.test(name));
let forms = 0;
for (const name of names) {
  const bytes = new Uint8Array(readFileSync(join(folder, name)));
  let made;
  try {
    made = isFile(bytes) && decoder.decode(bytes);
  } catch {
    continue;
  }
  if (made && made.width * made.height < 1e5 && forms < MEASURED) await checkForms(name, made), forms++;
}
check(forms > 100, `only ${forms} pages`);
const read = (name) => new Uint8Array(readFileSync(join(folder, name)));
const embedded = readdirSync(folder).find((name) => name.endsWith(".globals.jb2")).replace(".globals.jb2", "");
checkLimit();
checkSharedLimit("t88-h1.jb2", read("t88-h1.jb2"));
await checkMemory();
checkWrongArrays();
checkPdfFiles(read(`${embedded}.page.jb2`));
await checkImage(read("t88-h1.jb2"), read(`${embedded}.page.jb2`), read(`${embedded}.globals.jb2`));
const count = `${checks - failed} checks passed, ${failed} failed`;
console.log(`pages: ${forms} in all forms, the limit of work, pdf.js's interface: ${count}`);
process.exit(failed ? 1 : 0);
