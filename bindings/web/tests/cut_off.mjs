/**
 * Regions whose data is cut off: what salvage draws of them (docs/FORMAT.md, 12.7), and what is drawn leniently.
 *
 * usage: node bindings/web/tests/cut_off.mjs
 */
import { Decoder, Jbig2Error } from "../hayro_jbig2.js";
import { module } from "./module.mjs";

const decoder = await Decoder.load(module);
let checks = 0;
let failed = 0;

function check(holds, name) {
  checks++;
  if (!holds) failed++, console.log(`regions that are cut off: ${name}`);
}

const hex = (digits) => Buffer.from(digits.replace(/ /g, ""), "hex");

// Pages of 8 by 4, and regions of that size up to their coded data, which want more of it than is there. Number 1 of some pages
// is a dictionary of one black symbol, or of four patterns of one pixel, or an intermediate region, which lies two columns to the
// right and one row down.
const FILE = "974A42320D0A1A0A 01 00000001";
const PAGE = (height, flags) => `00000000 30 00 01 00000013 00000008 ${height} 0000000000000000 ${flags} 0000`;
const WHITE = PAGE("00000004", "00");
const BLACK = PAGE("00000004", "04");
const OPEN = PAGE("FFFFFFFF", "00");
const SYMBOL = "00000001 00 00 01 0000000F 0001 00000001 00000001 5F80800040";
const SIDES = "00000008 00000004 00000000 00000000";
const PATTERNS = "00000001 10 00 01 0000000A 00 01 01 00000003 0FFFAC";
const REFERENCE =
  "00000001 24 00 01 00000021 00000008 00000004 00000002 00000001 00 00 03FFFDFF02FEFEFE 352161B2BFFFAC";
const GENERIC = `00000001 26 00 01 000000FF ${SIDES} 00 00 03FFFDFF02FEFEFE`;
const REPLACING = `00000001 27 00 01 000000FF ${SIDES} 04 00 03FFFDFF02FEFEFE`;
const MMR = `00000001 26 00 01 000000FF ${SIDES} 04 01`;
const CODED = `${SYMBOL} 00000002 06 20 01 01 00000021 ${SIDES} 00 0010 00000008`;
const PREFIXED = `${SYMBOL} 00000002 07 20 01 01 00000036 ${SIDES} 00 0011 0000 00000008 01 ${"00".repeat(17)}`;
const REFINING = `00000001 2A 00 01 000000FF ${SIDES} 04 00 FFFFFFFF`;
const OF_REGION = `${REFERENCE} 00000002 2A 20 01 01 000000FF ${SIDES} 04 01`;
const HALFTONE = (flags) =>
  `${PATTERNS} 00000002 16 20 01 01 000000FF ${SIDES} 04 ${flags} 00000008 00000004 00000000 00000000 01000000`;
const FIRST_PLANE = "23A23A0412A492495A492549249280080080";

const END = "PARSE_UNEXPECTED_EOF";

/** The page with its region, the coded data that is there, the rows by salvage, and the rows without the region or an error. */
const PARTS = [
  [`${WHITE} ${GENERIC}`, "", "00000000", "00000000"],
  [`${WHITE} ${GENERIC}`, "BE3C87", "A5000000", "00000000"],
  [`${WHITE} ${GENERIC}`, "BE3C8727", "A53C0000", "00000000"],
  [`${WHITE} ${GENERIC}`, "BE3C8727FF", "A53C0000", "00000000"],
  [`${WHITE} ${GENERIC}`, "BE3C8727FFAC", "A53CCA56", "00000000"],
  [`${BLACK} ${REPLACING}`, "BE3C87", "A5FFFFFF", "FFFFFFFF"],
  [`${BLACK} ${MMR}`, "", "FFFFFFFF", "FFFFFFFF"],
  [`${BLACK} ${MMR}`, "9357", "00F0FFFF", "FFFFFFFF"],
  [`${BLACK} ${MMR}`, "9357E0", "00F0F0FF", "FFFFFFFF"],
  [`${BLACK} ${MMR}`, "26A88E8104A31B08", "A53CFFFF", "FFFFFFFF"],
  [`${BLACK} ${MMR}`, "26A88E8104A31B08EE825749600200", "A53CCA56", "FFFFFFFF"],
  [`${BLACK} ${REFINING}`, "B48D", "FFFFFFFF", "FFFFFFFF"],
  [`${BLACK} ${REFINING}`, "B48D5E", "A5FFFFFF", "FFFFFFFF"],
  [`${BLACK} ${REFINING}`, "B48D5ED43FFF", "A53CCAFF", "FFFFFFFF"],
  [`${BLACK} ${OF_REGION}`, "C59D", "000F2926", "FFFFFFFF"],
  [`${BLACK} ${OF_REGION}`, "C59DF4", "A50F2926", "FFFFFFFF"],
  [`${BLACK} ${OF_REGION}`, "C59DF4A3FF", "A53C2926", "FFFFFFFF"],
  [`${BLACK} ${HALFTONE("40")}`, "1C8954", "00000000", "FFFFFFFF"],
  [`${BLACK} ${HALFTONE("40")}`, "1C895433F5D55C", "A5000000", "FFFFFFFF"],
  [`${BLACK} ${HALFTONE("40")}`, "1C895433F5D55C9FFF", "A53C0000", "FFFFFFFF"],
  [`${BLACK} ${HALFTONE("41")}`, FIRST_PLANE, "00000000", "FFFFFFFF"],
  [`${BLACK} ${HALFTONE("41")}`, `${FIRST_PLANE}26A88E8104A31B08`, "A53C0000", "FFFFFFFF"],
  [`${BLACK} ${HALFTONE("41")}`, `${FIRST_PLANE}26A88E8104A31B08EE825749600200`, "A53CCA56", "FFFFFFFF"],
  [`${BLACK} ${HALFTONE("40").replace(PATTERNS, "")}`, "1C895433F5D55C", "FFFFFFFF", "FFFFFFFF"],
  [`${WHITE} ${CODED}`, "A95A0E", "00000000", "00000000"],
  [`${WHITE} ${CODED}`, "A95A0EC664D129", "81140000", "00000000"],
  [`${WHITE} ${CODED}`, "A95A0EC664D129E4", "81144000", "00000000"],
  [`${WHITE} ${CODED}`, "A95A0EC664D129E4FF", "81144000", "00000000"],
  [`${WHITE} ${PREFIXED}`, "0008", "80000000", "00000000"],
  [`${WHITE} ${PREFIXED}`, "0008640368AFC82401", "81144200", "00000000"],
  [`${OPEN} ${GENERIC}`, "BE3C87", "A5000000", "FORMAT_UNKNOWN_PAGE_HEIGHT"],
];

/** The rows of a page that lacks this segment, or the name of an error. */
function drawn(bytes, options, number) {
  try {
    const { rows, passedOver, leftOut } = decoder.decode(bytes, options);
    for (const { segment, error } of [passedOver, leftOut.cutOff]) {
      check(segment === number && error.error === END, "the segment that is cut off");
    }
    check(passedOver.count === 1, "how many segments are passed over");
    return Buffer.from(rows).toString("hex").toUpperCase();
  } catch (error) {
    return error instanceof Jbig2Error ? error.error : String(error);
  }
}

for (const [page, data, meant, below] of PARTS) {
  const number = page.includes("00000002") ? 2 : 1;
  for (const header of ["", FILE]) {
    const bytes = hex(header + page + data);
    const name = `${header && "a file of "}${page.slice(-40)} and ${data}`;
    const rows = drawn(bytes, { salvage: true }, number);
    check(rows === meant, `${name}: ${rows}, not ${meant}`);
    const lenient = drawn(bytes, {}, number);
    check(lenient === below, `${name}, leniently: ${lenient}, not ${below}`);
    check(decoder.held === 0, `${name}: memory is not given back`);
  }
}
console.log(`regions that are cut off: ${checks - failed} checks passed, ${failed} failed`);
process.exit(failed ? 1 : 0);
