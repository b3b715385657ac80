/**
 * Reads PDF files that are damaged, odd or made to mislead, each of one kind, and PDF files of a folder with random
 * damage.
 *
 * usage: node bindings/web/tests/pdf.mjs FOLDER
 */
import { readFileSync, readdirSync } from "node:fs";
import { join } from "node:path";
import { deflateSync } from "node:zlib";
import { Pdf, isPdf } from "../pdf.js";
import { file, stream } from "./hostile_files.mjs";
import { randomNumbers } from "./random.mjs";

const SECONDS = 10;
// A damaged file of some KB is read in a few hundredths of a second.
const MOST_SECONDS = 5;
let checks = 0;
let failed = 0;

function check(holds, name) {
  checks++;
  if (!holds) failed++, console.log(`PDF: ${name}`);
}

/** What a file has: the number, the bytes and the globals of each image, or an error's text; or the file's error. */
async function contentsOf(bytes) {
  let pdf;
  try {
    pdf = await Pdf.open(bytes);
  } catch (error) {
    return String(error.message);
  }
  const text = (part) => Buffer.from(part).toString("latin1");
  const images = [];
  for (const number of pdf.images()) {
    const made = await pdf.streams(number).then(({ bytes, globals }) => text(bytes) + (globals ? ` with ${text(globals)}` : ""), (error) => error.message);
    images.push(`${number} ${made}`);
  }
  return [...images, ...(pdf.faults ?? []).map((fault) => `fault: ${fault.split(":")[0]}`)].join("; ");
}

const IMAGE = stream(5, "/Filter/JBIG2Decode", "right");
const image = (number, data, words = "") => stream(number, `/Filter/JBIG2Decode${words}`, data);
/** An object stream of one object. */
const objects = (number, text, words = "") => stream(number, `/Type/ObjStm/N 1/First 4${words}`, text);
const inner = image(5, "wrong").toString("latin1");

/** A file, and its contents. */
const FILES = {
  "an image": [file(IMAGE), "5 right"],
  "an object stream that is damaged": [
    file(stream(7, "/Type/ObjStm/N 1/First 4/Filter/FlateDecode", "no zlib"), IMAGE, objects(8, "9 0 5"), stream(6, "/Filter/JBIG2Decode/DecodeParms<</JBIG2Globals 5 0 R>>", "x")),
    "5 right; 6 x with right; fault: object stream 7",
  ],
  "an object stream of another filter": [file(objects(7, "9 0 5", "/Filter/LZWDecode"), IMAGE), "5 right; fault: object stream 7"],
  "an object stream without numbers": [file(stream(7, "/Type/ObjStm", "9 0 5"), IMAGE), "5 right; fault: object stream 7"],
  "an object stream with fewer objects than it says": [file(stream(7, "/Type/ObjStm/N 3/First 8", "9 0 8 1 /JBIG2Decode"), stream(4, "/Filter 9 0 R", "x")), "fault: object stream 7"],
  "an object stream after a damaged one": [
    file(stream(7, "/Type/ObjStm/N 1/First 4/Filter/FlateDecode", "no zlib"), objects(8, "9 0 /JBIG2Decode"), stream(4, "/Filter 9 0 R", "x")),
    "4 x; fault: object stream 7",
  ],
  "words of an object in a stream": [file(IMAGE, stream(6, "", inner)), "5 right"],
  "words of an object in a stream whose length comes later": [
    file(IMAGE, `6 0 obj<</Length 8 0 R>>stream\n`, inner, `endstream endobj 8 0 obj ${inner.length} endobj `),
    "5 right",
  ],
  "words of an object in a stream that has the words of another length": [
    file(IMAGE, `6 0 obj<</Length 8 0 R>>stream\n`, inner, "8 0 obj 3 endobj ", `endstream endobj 8 0 obj ${inner.length + 17} endobj `),
    "5 right",
  ],
  "words of an object in a string": [file(IMAGE, "6 0 obj(5 0 obj 7 endobj)endobj "), "5 right"],
  "words of an object in a comment": [file(IMAGE, "% 5 0 obj 7 endobj\n"), "5 right"],
  "a later object of the same number": [file(inner, IMAGE), "5 right"],
  "a later object that is no image": [file(inner, "5 0 obj null endobj "), ""],
  "an object in a stream that is later than another": [file("9 0 obj 7 endobj ", objects(7, "9 0 /JBIG2Decode"), stream(4, "/Filter 9 0 R", "x")), "4 x"],
  "an object that is later than one in a stream": [file(objects(7, "9 0 7"), "9 0 obj /JBIG2Decode endobj ", stream(4, "/Filter 9 0 R", "x")), "4 x"],
  "a reference to an encryption": [file(IMAGE, "trailer<</Root 1 0 R/Encrypt 3 0 R>>"), "the PDF file is encrypted"],
  "a direct encryption": [file(IMAGE, "trailer<</Encrypt<</Filter/Standard/V 1>>/Root 1 0 R>>"), "the PDF file is encrypted"],
  "an encryption of nothing": [file(IMAGE, "trailer<</Encrypt<<>>>>"), "the PDF file is encrypted"],
  "an encryption in a stream of references": [file(IMAGE, stream(9, "/Type/XRef/Encrypt 3 0 R", "")), "the PDF file is encrypted"],
  "an encryption that is null": [file(IMAGE, "trailer<</Encrypt null>>"), "5 right"],
  "the word of an encryption in a string": [file(IMAGE, "1 0 obj<</Title(/Encrypt 1 0 R)>>endobj trailer<</ID(/Encrypt 1 0 R)>>"), "5 right"],
  "the word of an encryption in another dictionary": [file(IMAGE, "1 0 obj<</Encrypt 1 0 R>>endobj "), "5 right"],
  "the word of an encryption in a stream": [file(IMAGE, stream(6, "", "trailer<</Encrypt 1 0 R>>")), "5 right"],
  "a length that is too short": [file("5 0 obj<</Filter/JBIG2Decode/Length 2>>stream\nright\r\nendstream"), "5 right"],
  "a length that is too long": [file("5 0 obj<</Filter/JBIG2Decode/Length 2000>>stream\r\nright\nendstream"), "5 right"],
  "no length": [file("5 0 obj<</Filter/JBIG2Decode>>stream\nright\nendstream"), "5 right"],
  "a length of another kind": [file("5 0 obj<</Filter/JBIG2Decode/Length[5]>>stream\nright\nendstream"), "5 right"],
  "no end of a stream": [file("5 0 obj<</Filter/JBIG2Decode>>stream\nright"), "5 right"],
  "a stream that ends with its object": [file("5 0 obj<</Filter/JBIG2Decode>>stream\nright\nendobj ", image(6, "x")), "5 right; 6 x"],
  "no end of an object": [file("4 0 obj<</Length 6 ", IMAGE, image(6, "x")), "5 right; 6 x"],
  "ends without white space": [file("4 0 obj 7 endobj5 0 obj<</Filter/JBIG2Decode/Length 5>>stream\nrightendstreamendobj6 0 obj 7 endobj%%EOF9 0 obj 1 endobj"), "5 right"],
  "an object after the end of the file": [file("%%EOF", IMAGE), "5 right"],
  "brackets and strings between objects": [file("( << [ ", IMAGE, ") ( < ", image(6, "x")), "5 right; 6 x"],
  "a string that doesn't close": [file("4 0 obj<</Title(a (b)>>endobj ", IMAGE), "5 right"],
  "too many brackets": [file("4 0 obj", "[".repeat(1e5), " endobj ", IMAGE), "5 right"],
  "too long an object": [file("4 0 obj[", "1 ".repeat(1e5), "]endobj ", IMAGE), "5 right"],
  "names with digits": [file("5 0 obj<</F#69lter/JBIG2D#65code/Length 5>>stream\nright\nendstream"), "5 right"],
  "a name that is too long": [file(`5 0 obj<</A/${"B".repeat(1e5)}/Filter/JBIG2Decode/Length 5>>stream\nright\nendstream`), "5 right"],
  "a long array in a dictionary": [file(`5 0 obj<</A[${"1 ".repeat(1000)}]/Filter/JBIG2Decode/Length 5>>stream\nright\nendstream`), "5 right"],
  "a string in an object stream that doesn't close": [
    file(stream(7, "/Type/ObjStm/N 2/First 8", "8 0 9 2 ( /JBIG2Decode endobj"), stream(4, "/Filter 9 0 R", "x")),
    "4 x",
  ],
  "words that mean nothing": [file("5 0 obj<</A what/Filter/JBIG2Decode/Length 5>>stream\nright\nendstream"), "5 right"],
  "a comment in a dictionary": [file("5 0 obj<</A 1%/Length 2\n/Filter/JBIG2Decode/Length 5>>stream\nright\nendstream"), "5 right"],
  "a filter around the image": [file(stream(5, "/Filter[/FlateDecode/JBIG2Decode]", deflateSync("right"))), "5 right"],
  "zlib with bytes after its end": [file(stream(5, "/Filter[/Fl/JBIG2Decode]", Buffer.concat([deflateSync("right"), Buffer.from("junk")]))), "5 right"],
  "a filter that is not read": [file(stream(5, "/Filter[/LZWDecode/JBIG2Decode]", "")), "5 the filter LZWDecode is not read here"],
  "a filter after that of JBIG2": [file(stream(5, "/Filter[/JBIG2Decode/FlateDecode]", "")), "5 the filter JBIG2Decode is not read here"],
  "many filters": [file(stream(5, "/Filter[/FlateDecode/FlateDecode/FlateDecode/JBIG2Decode]", "")), "5 more than 3 filters"],
  "two filters around globals": [
    file(stream(6, "/Filter[/Fl/Fl]", deflateSync(deflateSync("shared"))), image(5, "right", "/DecodeParms<</JBIG2Globals 6 0 R>>")),
    "5 right with shared",
  ],
  "many filters around globals": [
    file(stream(6, "/Filter[/Fl/Fl/Fl]", deflateSync("x")), image(5, "right", "/DecodeParms<</JBIG2Globals 6 0 R>>")),
    "5 more than 2 filters",
  ],
  "a predictor": [
    file(stream(5, "/Filter[/FlateDecode/JBIG2Decode]/DecodeParms[<</Predictor 12>>null]", deflateSync("right"))),
    "5 predictors of Flate are not read here",
  ],
  globals: [file(stream(6, "", "shared"), image(5, "right", "/DecodeParms<</JBIG2Globals 6 0 R>>")), "5 right with shared"],
  "globals by parameters elsewhere": [
    file("7 0 obj[8 0 R]endobj 8 0 obj<</JBIG2Globals 6 0 R>>endobj ", stream(6, "", "shared"), image(5, "right", "/DecodeParms 7 0 R")),
    "5 right with shared",
  ],
  "globals that are not there": [file(image(5, "right", "/DecodeParms<</JBIG2Globals 6 0 R>>")), "5 the image's globals are not in the file"],
  "globals that are no stream": [file("6 0 obj 7 endobj ", image(5, "right", "/DecodeParms<</JBIG2Globals 6 0 R>>")), "5 the image's globals are not in the file"],
  "globals that are null": [file(image(5, "right", "/DecodeParms<</JBIG2Globals null>>")), "5 right"],
};

/** One random change of some bytes: bits, a piece left out, doubled, or moved, an end cut off. */
function damaged(bytes, random) {
  const [one, other] = [random(bytes.length), random(bytes.length)].sort((one, other) => one - other);
  const [before, piece, after] = [bytes.subarray(0, one), bytes.subarray(one, other), bytes.subarray(other)];
  switch (random(5)) {
    case 0:
      return Buffer.concat([before, after]);
    case 1:
      return Buffer.concat([before, piece, piece, after]);
    case 2:
      return Buffer.concat([before, piece.subarray(random(piece.length + 1)), after]);
    case 3:
      return Buffer.concat([before, piece]);
    default: {
      const changed = Buffer.from(bytes);
      for (let change = 0; change < 20; change++) changed[random(changed.length)] = random(256);
      return changed;
    }
  }
}

/** Damages files at random, and looks whether each is read in time, or refused by an error that is meant. */
async function checkDamage(files) {
  const random = randomNumbers(2);
  const end = performance.now() + SECONDS * 1000;
  let count = 0;
  for (; performance.now() < end; count++) {
    const [name, whole] = files[random(files.length)];
    let bytes = whole;
    for (let change = random(4); change >= 0; change--) bytes = damaged(bytes, random);
    const began = process.cpuUsage();
    const wrong = [];
    const note = (error) => error.name === "PdfError" || wrong.push(error);
    const pdf = await Pdf.open(bytes).catch(note);
    for (const number of pdf?.images?.() ?? []) await pdf.streams(number).catch(note);
    const { user, system } = process.cpuUsage(began);
    check(wrong.length === 0, `${name}, damaged (${count}): ${wrong[0]?.stack}`);
    check((user + system) / 1e6 < MOST_SECONDS, `${name}, damaged (${count}): ${(user + system) / 1e6} s`);
  }
  return count;
}

for (const [name, [bytes, meant]] of Object.entries(FILES)) {
  const contents = await contentsOf(bytes);
  check(isPdf(bytes) && contents === meant, `${name}: ${JSON.stringify(contents)}, but it has ${JSON.stringify(meant)}`);
}
// An object stream of as many objects as are read, and one that can't be unpacked: that isn't tried.
const most = stream(7, `/Type/ObjStm/N ${2 ** 20}/First ${2 ** 22}/Filter/Fl`, deflateSync("1 0 ".repeat(2 ** 20) + "7"));
const contents = await contentsOf(file(IMAGE, most, stream(8, "/Type/ObjStm/N 1/First 4/Filter/Fl", "no zlib")));
check(contents === "5 right; fault: the file has more than 1048576 objects", `after the most objects: ${contents}`);
const buffer = Uint8Array.from(FILES["an image"][0]).buffer;
check(isPdf(buffer) && (await contentsOf(buffer)) === "5 right", "an ArrayBuffer is not read");
const folder = process.argv[2];
const files = readdirSync(folder)
  .filter((name) => name.endsWith(".pdf"))
  .map((name) => [name, readFileSync(join(folder, name))]);
const count = await checkDamage([...files, ...Object.entries(FILES).map(([name, [bytes]]) => [name, bytes])]);
console.log(`PDF files: ${Object.keys(FILES).length} odd ones, ${count} with random damage: ${checks - failed} checks passed, ${failed} failed`);
process.exit(failed ? 1 : 0);
