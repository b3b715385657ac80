/**
 * Pages that are written decode to what they were written of, what is wrong is refused, and nothing stays in memory, also where
 * a request for memory is refused.
 *
 * usage: node bindings/web/tests/encode.mjs
 */
import { Decoder, Jbig2Error } from "../hayro_jbig2.js";
import { module } from "./module.mjs";

const hex = (digits) => new Uint8Array(Buffer.from(digits.replace(/ /g, ""), "hex"));
// A letter of 5 by 8 pixels, as another encoder writes it: by template 0 with typical prediction, and by MMR.
const LETTER = hex("F0888888F0808080");
const INFORMATION = "00000000 70 00 00000001 00000013 00000005 00000008 0000000000000000 01 0000";
const LETTER_PAGE = hex(
  `${INFORMATION} 00000001 66 00 00000001 00000020 00000005 00000008 000000000000000000 08 03FFFDFF02FEFEFE 082E04D7FFAC`,
);
const LETTER_BY_MMR = hex(
  `${INFORMATION} 00000001 66 00 00000001 0000001D 00000005 00000008 000000000000000000 01 26AF04BFF0782FE0020020`,
);
const decoder = await Decoder.load(module);
let checks = 0;
let failed = 0;

function check(holds, name) {
  checks++;
  if (!holds) failed++, console.log(`encode: ${name}`);
}

const isSame = (some, others) => Buffer.from(some).equals(Buffer.from(others));

const thrown = (call) => {
  try {
    return call() && null;
  } catch (error) {
    return error;
  }
};

/** Rows of noise, of which every third is as the one above; the bits past the width are 0. */
function noise(width, height) {
  const stride = (width + 7) >> 3;
  const rows = new Uint8Array(stride * height);
  let state = width * 65537 + height;
  for (let place = 0; place < rows.length; place++) {
    state = (Math.imul(state, 1664525) + 1013904223) >>> 0;
    rows[place] = Math.floor(place / stride) % 3 === 2 ? rows[place - stride] : state >>> 24;
    if (width % 8 && place % stride === stride - 1) rows[place] &= 0xff << (8 - (width % 8));
  }
  return rows;
}

const codings = [...[0, 1, 2, 3].map((template) => ({ template, typical: template % 2 === 0 })), { coding: "mmr" }];
for (const [width, height] of [[1, 1], [8, 2], [9, 3], [64, 64], [65, 7], [300, 41]])
  for (const coding of codings)
    for (const file of [false, true]) {
      const rows = noise(width, height);
      const coded = decoder.encode(rows, width, height, { ...coding, file });
      const page = decoder.decode(coded, { strict: true });
      const isRead = page.width === width && page.height === height && isSame(page.rows, rows);
      check(isRead, `${width} by ${height}, ${JSON.stringify(coding)}`);
    }

check(isSame(decoder.encode(LETTER, 5, 8), LETTER_PAGE), "the letter");
check(isSame(decoder.encode(LETTER, 5, 8, { coding: "arithmetic" }), LETTER_PAGE), "the letter by the arithmetic coder");
check(isSame(decoder.encode(LETTER, 5, 8, { coding: "mmr" }), LETTER_BY_MMR), "the letter by MMR");
check(isSame(decoder.encode(LETTER.map((byte) => byte | 7).buffer, 5, 8), LETTER_PAGE), "bits past the width");
const stated = new DataView(decoder.encode(LETTER, 5, 8, { xResolution: 0x01020304, yResolution: 2 ** 32 - 1 }).buffer);
check(stated.getUint32(22) === 0x01020304 && stated.getUint32(26) === 2 ** 32 - 1, "the resolution");

for (const [width, height] of [[0, 8], [8, 0], [65536, 1], [1, 65536], [-1, 8], [2 ** 40, 1]])
  check(thrown(() => decoder.encode(new Uint8Array(8), width, height))?.error === "INVALID_SIDES", `${width} by ${height}`);
for (const size of [0, 7, 9]) check(thrown(() => decoder.encode(new Uint8Array(size), 5, 8))?.error === "OTHER_SIZE", `${size} bytes`);
check(thrown(() => decoder.encode(LETTER, 5, 8, { template: 4 }))?.error === "NO_SUCH_TEMPLATE", "template 4");
check(thrown(() => decoder.encode(LETTER, 5, 8, { coding: "mmr", template: 4 })) === null, "template 4 by MMR");
for (const options of [{ template: "1" }, { template: -1 }, { xResolution: 0.5 }, { yResolution: 2 ** 32 }])
  check(thrown(() => decoder.encode(LETTER, 5, 8, options)) instanceof TypeError, JSON.stringify(options));
for (const coding of ["huffman", "MMR", null, 1])
  check(thrown(() => decoder.encode(LETTER, 5, 8, { coding })) instanceof TypeError, `coding ${coding}`);
for (const words of [["text", 5, 8], [LETTER, "5", 8], [LETTER, 5], [LETTER, 5, 8.5]])
  check(thrown(() => decoder.encode(...words)) instanceof TypeError, JSON.stringify(words));
check(decoder.held === 0, "something is held");

for (const most of [0, 100, 1000, 5000, 20000])
  for (const coding of ["arithmetic", "mmr"]) {
    const small = await Decoder.load(module, most);
    const error = thrown(() => small.encode(noise(400, 300), 400, 300, { coding }));
    check(error instanceof Jbig2Error && error.error === "OUT_OF_MEMORY" && small.held === 0, `${most} bytes, ${coding}`);
  }

console.log(`${checks} checks of pages that are written, ${failed} failed`);
process.exitCode = failed ? 1 : 0;
