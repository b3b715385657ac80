/** PDF files that ask for more time or memory than they are worth: each made by a function of its size in bytes. */
import { deflateSync } from "node:zlib";

const HEAD = "%PDF-1.5\n";
const latin1 = (text) => Buffer.from(text, "latin1");
const times = (text, size) => text.repeat(Math.ceil(size / text.length));
/** An object that is a stream. */
export const stream = (number, words, data) =>
  Buffer.concat([latin1(`${number} 0 obj <<${words}/Length ${data.length}>>stream\n`), Buffer.from(data, "latin1"), latin1("\nendstream endobj\n")]);
/** A file of these parts, texts or bytes. */
export const file = (...parts) => Buffer.concat([HEAD, ...parts].map((part) => Buffer.from(part, "latin1")));
const image = (number, words, data = "") => stream(number, `${words}/Filter/JBIG2Decode`, data);

/** Streams of zlib in one another, `rounds` of them, around `size` zeros. */
export function packed(size, rounds) {
  let data = Buffer.alloc(size);
  for (let round = 0; round < rounds; round++) data = deflateSync(data, { level: 9 });
  return data;
}

const OBJECT_STREAM = "/Type/ObjStm/N 1/First 4";
const numbered = (count, text) => Array.from({ length: Math.ceil(count) }, (_, at) => text(at + 1)).join("");

const TWICE = "/Filter[/FlateDecode/FlateDecode]";
/** A file of an object stream that is packed twice. */
const packedObjects = (count, head, ...parts) =>
  file(stream(1, `/Type/ObjStm/N ${count}/First ${head.length}${TWICE}`, deflateSync(deflateSync(Buffer.concat([latin1(head), ...parts])))));
/** The same of `count` objects of one text. */
const packedCopies = (count, text) => packedObjects(count, numbered(count, (at) => `${at} ${(at - 1) * text.length} `), Buffer.alloc(count * text.length, text));

/** Whose reading takes a time in proportion to their size, at most. */
export const GROWING = {
  "a run of digits": (size) => file(times("1", size)),
  "a run of digits in parameters": (size) => file(image(1, `/DecodeParms ${times("1", size)}`)),
  "objects that don't end": (size) => file(times("1 0 obj ", size)),
  "streams that don't end": (size) => file(times("1 0 obj <</Type/ObjStm/N 1/First 4>>stream\n", size)),
  "object streams without a length": (size) => file(numbered(size / 60, (at) => `${at} 0 obj <<${OBJECT_STREAM}>>stream\n9 0 7\nendstream endobj\n`)),
  "packed object streams": (size) => {
    const one = stream(1, "/Type/ObjStm/N 1/First 4/Filter/FlateDecode", deflateSync("9 0 7")).toString("latin1");
    return file(numbered(size / one.length, (at) => one.replace("1", String(at))));
  },
  "lengths that are not there": (size) => file(numbered(size / 50, (at) => `${at} 0 obj <</Length 9999999 0 R>>stream\nendstream\n`)),
  "lengths that are one long array": (size) =>
    file(`1 0 obj[${times(`/${"A".repeat(200)}`, size / 2)}]endobj `, numbered(size / 100, (at) => `${at + 1} 0 obj<</Length 1 0 R>>stream\n \nendstream endobj\n`)),
  "predictors that are one long array": (size) => {
    const one = stream(1, "/Type/ObjStm/N 1/First 4/Filter/Fl/DecodeParms 2 0 R", deflateSync("9 0 7")).toString("latin1");
    const many = numbered(size / 600, (at) => one.replace("1", String(at + 3)));
    return file(`2 0 obj<</Predictor 3 0 R>>endobj 3 0 obj[${times(`/${"A".repeat(200)}`, size / 2)}]endobj `, many);
  },
  "lengths that come later": (size) => file(numbered(size / 70, (at) => `${2 * at} 0 obj<</Length ${2 * at + 1} 0 R>>stream\nendobj endstream\n${2 * at + 1} 0 obj 6 endobj\n`)),
  "strings that don't close": (size) => file(times("1 0 obj(endobj ", size)),
  "strings that don't close in one object": (size) => file("1 0 obj[", times("(", size)),
  "strings with escapes that don't close": (size) => file("1 0 obj[", times("\\(endobj 1 0 obj[", size)),
  "arrays in arrays": (size) => file("1 0 obj", times("[", size)),
  "dictionaries in dictionaries": (size) => file("1 0 obj", times("<</N", size)),
  "brackets that close nothing": (size) => file("1 0 obj", times(">>]", size)),
  "many small dictionaries": (size) => file(numbered(size / 30, (at) => `${at} 0 obj<</N<</N<</N 1>>>>>>endobj `)),
  "a long name": (size) => file("1 0 obj<</Type/", times("A#41", size), ">>endobj"),
  "comments": (size) => file(times("%\n% 1 0 obj", size)),
  "words that are nearly an end": (size) => file("1 0 obj<<>>stream\n", times("endstrea", size)),
  "a long list of filters": (size) =>
    file(`1 0 obj[${times("/FlateDecode", size / 2)}]endobj `, numbered(size / 120, (at) => `${at + 1} 0 obj<</Filter 1 0 R>>stream\n \nendstream endobj\n`)),
  "objects at one place of an object stream": (size) => {
    const head = numbered(size / 12, (at) => `${at + 10} 0 `);
    return file(stream(1, `/Type/ObjStm/N ${Math.ceil(size / 12)}/First ${head.length}`, `${head}[${times("1 ", size / 2)}]`));
  },
  "an object stream of one long array": (size) => file(stream(1, OBJECT_STREAM, `9 0 [${times("<<>>", size)}`)),
};

/** Which are small. */
export const SMALL = {
  "10^15 objects in an object stream": () => file(stream(1, "/Type/ObjStm/N 999999999999999/First 4", "9 0 null")),
  "an image that unpacks to 300 MB": () => file(stream(1, "/Filter[/FlateDecode/FlateDecode/JBIG2Decode]", packed(300 << 20, 2))),
  "an object stream that unpacks to 300 MB": () => file(stream(1, `${OBJECT_STREAM}/Filter[/FlateDecode/FlateDecode]`, packed(300 << 20, 2))),
  "20 images that unpack to 60 MB each": () => {
    const data = packed(60 << 20, 2);
    return file(...Array.from({ length: 20 }, (_, at) => stream(at + 1, "/Filter[/FlateDecode/FlateDecode/JBIG2Decode]", data)));
  },
  "an object stream that unpacks to 100 MB of numbers": () =>
    file(stream(1, "/Type/ObjStm/N 50000000/First 100000000/Filter[/FlateDecode/FlateDecode]", deflateSync(deflateSync(Buffer.alloc(100e6, "9 "))))),
  "an object stream of 50000 strings that don't close": () => packedObjects(50000, numbered(50000, (at) => `${at} ${2 * at} `), Buffer.alloc(1e5, "( "), Buffer.alloc(50e6)),
  "an object stream of a name of 200 MB": () => packedObjects(1, "9 0 ", latin1("<</Type/"), Buffer.alloc(200e6, "A")),
  "an object stream of 50 MB of long names": () => packedCopies(1e5, `<</Type/${"A".repeat(480)}>>`),
  "an object stream of 40 MB of arrays": () => packedCopies(3000, `[${"/AB".repeat(4090)}]`),
  "500 images that share globals of 20 MB": () =>
    file(stream(1, TWICE, packed(20 << 20, 2)), ...Array.from({ length: 500 }, (_, at) => image(at + 2, "/DecodeParms<</JBIG2Globals 1 0 R>>", "x"))),
  "an object stream that unpacks to 200 MB of objects": () => {
    const head = numbered(1e5, (at) => `${at} ${10 * at} `);
    const data = Buffer.concat([latin1(head), Buffer.alloc(150e6, "<</N 1>>")]);
    return file(stream(1, `/Type/ObjStm/N 100000/First ${head.length}/Filter[/FlateDecode/FlateDecode]`, deflateSync(deflateSync(data))));
  },
};
