/**
 * Files and globals that stay open: each is read once, its pages are those of `decode`, and what it holds is freed, also where a
 * request for memory is refused. Calls that don't return break the decoder, whichever they are.
 *
 * usage: node bindings/web/tests/open_files.mjs
 */
import { readFileSync } from "node:fs";
import { counts, fileOf, trap } from "./watched.mjs";
import { Decoder, Jbig2Error, WorkLimitReached } from "../hayro_jbig2.js";
import { Heap } from "../heap.js";
import { SharedGlobals } from "../shared_globals.js";
import { module } from "./module.mjs";

const READING = "hayro_jbig2_file_new_within";
const PAGES = 300;
const file = new Uint8Array(readFileSync(new URL("../../../crates/jbig2_decode/data/t88-h1.jb2", import.meta.url)));
const decoder = await Decoder.load(module);
// Row R9.2 of crates/jbig2_rows/README.md: a text region whose symbol is in the globals.
const hex = (digits) => new Uint8Array(Buffer.from(digits.replace(/ /g, ""), "hex"));
const GLOBALS = hex("00000001 00 00 01 0000000F 0001 00000001 00000001 5F80800040");
const TEXT = hex(
  `00000000 30 00 01 00000013 00000008 00000001 ${"00".repeat(11)} 00000002 06 20 01 01 0000002D 00000008 00000001` +
    `000000000000000000 0011 0000 00000001 01 ${"00".repeat(17)} 0004`,
);
const LINE_END = hex("0D0A");
let checks = 0;
let failed = 0;

function check(holds, name) {
  checks++;
  if (!holds) failed++, console.log(`open files: ${name}`);
}

const thrown = (call) => {
  try {
    return call() && null;
  } catch (error) {
    return error;
  }
};

const isSame = (one, other) => one.width === other.width && Buffer.from(one.rows).equals(Buffer.from(other.rows));

/** A file of blank pages of these widths, 2000 pixels high. */
const blankPages = (sizes) => {
  const number = (value) => value.toString(16).padStart(8, "0");
  const pages = sizes.map((width, at) => `${number(at)}3000${(at + 1).toString(16).padStart(2, "0")}00000013${number(width)}000007d0${"00".repeat(11)}`);
  return new Uint8Array(Buffer.from(`974A42320D0A1A0A01${number(sizes.length)}${pages.join("")}`, "hex"));
};

function checkPages() {
  for (const options of [{}, { strict: true }, { salvage: true }]) {
    const open = decoder.open(file, options);
    const isWhole = [2, 0, 1, 2].every((page) => isSame(open.decode(page), decoder.decode(file, { page, ...options })));
    check(open.pageCount === 3 && isWhole, `the pages, ${JSON.stringify(options)}`);
    check(decoder.held > 0, "an open file holds nothing");
    check(thrown(() => open.decode(3))?.error === "NO_SUCH_PAGE", "page 3");
    check(thrown(() => open.decode(-1))?.error === "NO_SUCH_PAGE", "page -1");
    for (const page of [undefined, "1", 0.5, NaN]) check(thrown(() => open.decode(page)) instanceof TypeError, `page ${page}`);
    check(JSON.stringify(open.leftOut) === JSON.stringify(open.decode(0).leftOut), "what was left out of a file");
    open.close();
    open.close();
    check(decoder.held === 0, "a closed file holds something");
    check(/closed/.test(thrown(() => open.decode(0))?.message), "a closed file decodes");
    check(/closed/.test(thrown(() => open.leftOut)?.message), "a closed file says what was left out");
  }
}

// Segments of page 1, and the errors of page 0 by each reading: of a file that has them, and where they are embedded.
const INFORMATION = (width, height) => `00000000 30 00 01 00000013 0000000${width} 0000000${height} ${"00".repeat(11)}`;
const END = "00000001 31 00 01 00000000";
const [NONE, MISSING, EMPTY, CUT] = ["NO_SUCH_PAGE", "FORMAT_MISSING_PAGE_INFO", "FORMAT_EMPTY_PAGE", "PARSE_UNEXPECTED_EOF"];
const PAGES_THAT_FAIL = [
  ["", [NONE, NONE, NONE], [MISSING, MISSING, MISSING]],
  [END, [MISSING, MISSING, MISSING], [MISSING, MISSING, MISSING]],
  [INFORMATION(0, 1) + END, [EMPTY, EMPTY, EMPTY], [EMPTY, EMPTY, EMPTY]],
  [INFORMATION(8, 0) + END, [EMPTY, EMPTY, EMPTY], [EMPTY, EMPTY, EMPTY]],
  [INFORMATION(8, 1).slice(0, -2), [CUT, NONE, NONE], [CUT, MISSING, MISSING]],
];

/** A page that can't begin has its own error, also where salvage leaves it out. A file that names no page has no such page. */
function checkPagesThatFail() {
  const openAndDecode = (bytes, { page, ...options }) => {
    const open = decoder.open(bytes, options);
    try {
      return open.decode(page);
    } finally {
      open.close();
    }
  };
  for (const [segments, ofFile, embedded] of PAGES_THAT_FAIL) {
    for (const [at, options] of [{ strict: true }, {}, { salvage: true }].entries()) {
      const name = `${segments}, ${JSON.stringify(options)}`;
      const [file, stream] = [hex(`974A42320D0A1A0A 03 ${segments}`), hex(segments)];
      const found = [decoder.decode.bind(decoder), openAndDecode].map((decode) => thrown(() => decode(file, { page: 0, ...options })).error);
      check(found.every((error) => error === ofFile[at]), `a file of ${name}: ${found}`);
      check(thrown(() => decoder.decode(stream, options)).error === embedded[at], `a stream of ${name}`);
      if (options.salvage) check(thrown(() => decoder.decode(file, { page: 1, ...options })).error === NONE, `page 1 of ${name}`);
      check(decoder.held === 0, `${name}: memory is not given back`);
    }
  }
}

/** Two files at once, and a page between. */
function checkSeveral() {
  const [one, other] = [decoder.open(file), decoder.open(fileOf(3))];
  check(isSame(one.decode(0), decoder.decode(file)) && other.decode(1).width === 9, "two files at once");
  one.close();
  check(other.decode(2).width === 10, "a file after another one is closed");
  other.close();
  check(decoder.held === 0, "two closed files hold something");
}

function checkRefusals() {
  for (const bytes of ["x", null, 5, {}]) check(thrown(() => decoder.open(bytes)) instanceof TypeError, `${bytes} as bytes`);
  check(thrown(() => decoder.open(file, { workLimit: -1 })) instanceof TypeError, "a limit below 0");
  check(thrown(() => decoder.open(file, { workLimit: 1000 })) instanceof WorkLimitReached, "what pages share has no limit");
  check(thrown(() => decoder.open(new TextEncoder().encode("%PDF-1.4"))) instanceof Jbig2Error, "a PDF file");
  const open = decoder.open(blankPages([60000]), { workLimit: 1e5, salvage: true });
  check(thrown(() => open.decode(0)) instanceof WorkLimitReached, "a page has no limit");
  open.close();
  check(decoder.held === 0, "refused files hold something");
}

const joined = (...parts) => new Uint8Array(Buffer.concat(parts));

function checkGlobals() {
  for (const options of [{}, { strict: true }, { salvage: true }]) {
    for (const end of options.strict ? [new Uint8Array()] : [new Uint8Array(), LINE_END.subarray(1), LINE_END]) {
      const [globals, text] = [joined(GLOBALS, end), joined(TEXT, end)];
      const open = decoder.openGlobals(globals, options);
      for (let turn = 0; turn < 3; turn++) {
        const [page, meant] = [open.decode(text), decoder.decode(text, { globals, ...options })];
        check(isSame(page, meant) && page.rows[0] === 128 && page.isComplete, `a page over open globals, ${JSON.stringify(options)}`);
      }
      open.close();
      check(decoder.held === 0 && /closed/.test(thrown(() => open.decode(text))?.message), "closed globals hold something, or decode");
    }
  }
  const cut = decoder.openGlobals(GLOBALS.subarray(0, -1));
  const [page, meant] = [cut.decode(TEXT), decoder.decode(TEXT, { globals: GLOBALS.subarray(0, -1) })];
  check(JSON.stringify(page.leftOut) === JSON.stringify(meant.leftOut) && !page.isComplete, "globals that are cut off");
  check(cut.leftOut.cutOff?.error.error === "PARSE_UNEXPECTED_EOF", "what was left out of globals");
  cut.close();
  check(thrown(() => decoder.openGlobals("x")) instanceof TypeError, "a text as globals");
  check(thrown(() => decoder.openGlobals(GLOBALS, { workLimit: 1 })) instanceof WorkLimitReached, "globals have no limit");
  check(decoder.held === 0, "globals that are refused hold something");
}

/** Each request for memory is refused in turn: nothing stays held. */
function checkRefusedRequests() {
  const uses = {
    "an open file": () => {
      const open = decoder.open(file);
      try {
        open.decode(1);
      } finally {
        open.close();
      }
    },
    "open globals": () => {
      const open = decoder.openGlobals(joined(GLOBALS, LINE_END));
      try {
        open.decode(joined(TEXT, LINE_END));
      } finally {
        open.close();
      }
    },
    "a page with globals": () => decoder.decode(joined(TEXT, LINE_END), { globals: joined(GLOBALS, LINE_END) }),
  };
  const { take } = Heap.prototype;
  for (const [name, use] of Object.entries(uses)) {
    let error = "none";
    for (let refused = 0; error; refused++) {
      let left = refused;
      Heap.prototype.take = function (size) {
        return left-- === 0 ? 0 : take.call(this, size);
      };
      error = thrown(use);
      Heap.prototype.take = take;
      const isTold = !error || error.error === "OUT_OF_MEMORY";
      check(isTold && decoder.held === 0, `${name}, request ${refused} refused: ${error}, ${decoder.held} bytes are held`);
      if (!isTold) break;
    }
  }
}

/** Globals stay open while there is room, those that were used last the longest, and so do their errors. */
function checkSharedGlobals() {
  const said = [];
  const fake = {
    held: 0,
    room: Infinity,
    decode: (bytes) => `${bytes} alone`,
    openGlobals(globals) {
      said.push(`+${globals}`);
      if (globals === "bad") throw new Jbig2Error(16);
      fake.held += 2 ** 27;
      return { decode: (bytes) => fake.draw(bytes, globals), close: () => ((fake.held -= 2 ** 27), said.push(`-${globals}`)) };
    },
    draw(bytes, globals) {
      if (fake.held > fake.room) throw new Jbig2Error(41);
      return `${bytes} over ${globals}`;
    },
  };
  const shared = new SharedGlobals(fake, {});
  const turn = (globals) => String(thrown(() => (said.push(shared.decode("page", globals)), true)) ?? "");
  for (const globals of ["a", "a", "b", "c", "a", "d", null]) turn(globals);
  const errors = [turn("bad"), turn("bad")];
  const meant = "+a,page over a,page over a,+b,page over b,+c,page over c,page over a,-b,+d,page over d,page alone,-c,+bad";
  check(String(said) === meant && errors[0] === errors[1], `shared globals: ${said}; ${errors}`);
  said.length = 0;
  fake.room = 2 ** 27;
  turn("d");
  shared.close();
  check(String(said) === "-a,-d,+d,page over d,-d" && fake.held === 0, `shared globals without room: ${said}`);
}

/** A file is read once, however many pages it has. */
function checkReadings() {
  const bytes = fileOf(PAGES);
  counts.clear();
  const open = decoder.open(bytes);
  for (let page = 0; page < open.pageCount; page++) open.decode(page);
  open.close();
  check(open.pageCount === PAGES && counts.get(READING) === 1, `${PAGES} pages take ${counts.get(READING)} readings`);
}

/** Pages of many sizes, of which each has room alone, have it one after the other while their file is open. */
async function checkRoom() {
  const small = await Decoder.load(module, 6 << 20);
  const open = small.open(blankPages(Array.from({ length: 14 }, (_, at) => 1000 + 500 * at)), { salvage: true });
  for (let page = 0; page < open.pageCount; page++) {
    check(thrown(() => open.decode(page)) === null, `page ${page} of an open file has no room`);
  }
}

/** Whichever call doesn't return, the decoder is broken, and says so from then on. */
async function checkTraps() {
  counts.clear();
  const use = (decoder) => {
    const open = decoder.open(file);
    open.decode(1);
    open.close();
    const globals = decoder.openGlobals(GLOBALS);
    globals.decode(TEXT);
    globals.close();
    decoder.decode(file, { page: 1 });
    return decoder.pageCount(file);
  };
  use(decoder);
  const uses = new Map(counts);
  for (const [name, count] of uses) {
    for (let after = 0; after < count; after++) {
      const other = await Decoder.load(module);
      Object.assign(trap, { name, after });
      const first = thrown(() => use(other));
      trap.name = null;
      const second = thrown(() => other.decode(file));
      const isTold = first instanceof WebAssembly.RuntimeError && other.isBroken && /load another/.test(second?.message);
      check(isTold, `${name} doesn't return after ${after} others: ${first}; then ${second}`);
    }
  }
  check(uses.size > 8 && !decoder.isBroken, `only ${uses.size} calls`);
}

/** An array that is too large is want of memory, and the decoder goes on. */
function checkLargeArrays() {
  const { slice } = Uint8Array.prototype;
  Uint8Array.prototype.slice = () => {
    throw new RangeError("Array buffer allocation failed");
  };
  const error = thrown(() => decoder.decode(file));
  Uint8Array.prototype.slice = slice;
  check(error?.error === "OUT_OF_MEMORY" && decoder.held === 0 && thrown(() => decoder.decode(file)) === null, `too large an array: ${error}`);
}

checkPages();
checkPagesThatFail();
checkSeveral();
checkRefusals();
checkGlobals();
checkSharedGlobals();
checkRefusedRequests();
checkReadings();
checkLargeArrays();
await checkRoom();
await checkTraps();
console.log(`open files: ${checks - failed} checks passed, ${failed} failed`);
process.exit(failed ? 1 : 0);
