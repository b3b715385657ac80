/**
 * Unpacks streams that are damaged at their end, have bytes after it, or are cut off: all that is there has to come out. It runs in
 * Node, and in browsers by browser.py.
 */
import { Room, inflated } from "../pdf/unpacking.js";
import { randomNumbers } from "./random.mjs";

const SIZES = [0, 1000, 65536 + 300, 300_000];
const random = randomNumbers(4);
const made = (size, byte) => new Uint8Array(size).map((_, at) => byte(at));
/** Bytes of several kinds: in stored, in fixed and in other blocks, with copies from near and from far. */
const KINDS = {
  zeros: (size) => new Uint8Array(size),
  "random bytes": (size) => made(size, () => random(256)),
  "a few letters": (size) => made(size, () => 65 + random(5) * random(5)),
  "copies from far": (size) => {
    const bytes = made(size, () => random(256));
    for (let at = 32768; at < size; at += 2000) bytes.copyWithin(at, at - 32768, at - 31768);
    return bytes;
  },
};

const bytesOf = (digits) => Uint8Array.from(digits.match(/../g), (byte) => parseInt(byte, 16));
// Blocks of two letters whose codes zlib refuses, so that nothing comes out; and codes of few words, which it takes.
const REFUSED = {
  "too many lengths of words": "789cf5e0010900000080206cf3ff299f48",
  "too many distances": "789c05fe010900000080206cf3ff29750901",
  "a code for lengths that lacks words": "789c05e00109000000002064b37f2925",
  "a code that lacks words": "789c05e0010900000080206cebffa90401",
  "a code for distances that lacks words": "789c05e1010900000080206cf3ff298b",
  "a code without the end of the block": "789c05e0010900000080206cd3ffa724",
};
const TAKEN = { "one distance": ["789c05e0010900000080206cf3ff2925", 2], "no distance": ["789c05e0010900000080206cf3ff2921", 2], "the end alone": ["789c05e001090000008020fc7f2d", 0] };

async function deflated(bytes) {
  const packed = new Blob([bytes]).stream().pipeThrough(new CompressionStream("deflate"));
  return new Uint8Array(await new Response(packed).arrayBuffer());
}

function withTail(bytes, tail) {
  const whole = new Uint8Array(bytes.length + tail);
  whole.set(bytes);
  return whole.fill(0x55, bytes.length);
}

function withWrongSum(bytes) {
  const wrong = bytes.slice();
  wrong[wrong.length - 1] ^= 1;
  return wrong;
}

/** What a stream unpacks to, and what was counted; or an error's text. */
async function outcome(packed) {
  let counted = 0;
  try {
    const bytes = await inflated(packed, (size) => (counted += size));
    return { bytes, counted };
  } catch (error) {
    return error.message;
  }
}

const isSame = ({ bytes, counted }, meant) => counted === meant.length && bytes.length === meant.length && meant.every((byte, at) => byte === bytes[at]);

/** The faults of a stream that is whole but for its end. */
async function faultsOf(name, bytes) {
  const packed = await deflated(bytes);
  const forms = { "as it is": packed, "4 bytes after its end": withTail(packed, 4), "many bytes after its end": withTail(packed, 200_000), "a wrong sum": withWrongSum(packed), "no sum": packed.subarray(0, -4) };
  const faults = [];
  for (const [form, stream] of Object.entries(forms)) {
    const result = await outcome(stream);
    if (typeof result === "string" || !isSame(result, bytes)) faults.push(`${name}, ${form}: ${result.bytes?.length ?? result}`);
  }
  // Of one that is cut off, a part comes out that grows with what is left of it.
  const half = await outcome(packed.subarray(0, packed.length >> 1));
  const isBegin = half.bytes && half.bytes.length >= bytes.length / 2 - 70_000 && isSame(half, bytes.subarray(0, half.bytes.length));
  if (!isBegin && bytes.length > 1000) faults.push(`${name}, half of it: ${half.bytes?.length ?? half}`);
  return faults;
}

/** A stream counts once, however often it is unpacked, one after the other or at once. */
function faultsOfRoom() {
  const [room, one, other] = [new Room(), {}, {}];
  const [first, second] = [room.begin(one), room.begin(one)];
  const third = room.begin(other);
  try {
    for (let part = 0; part < 16; part++) first(2 ** 23), second(2 ** 23), room.begin(one)(2 ** 20);
    third(2 ** 27);
  } catch (error) {
    return [`streams that are unpacked at once: ${error.message}`];
  }
  try {
    second(1);
    return ["more than all room is given"];
  } catch {
    return [];
  }
}

async function faultsOfCodes() {
  const faults = [];
  for (const [name, digits] of Object.entries(REFUSED)) {
    const result = await outcome(bytesOf(`${digits}00000000`));
    if (typeof result !== "string") faults.push(`${name}: ${result.bytes.length} bytes come out`);
  }
  for (const [name, [digits, size]] of Object.entries(TAKEN)) {
    const result = await outcome(bytesOf(`${digits}00000000`));
    if (result.bytes?.length !== size) faults.push(`${name}: ${result.bytes?.length ?? result}`);
  }
  return faults;
}

export async function faultsOfUnpacking() {
  const faults = faultsOfRoom();
  for (const [kind, make] of Object.entries(KINDS)) {
    for (const size of SIZES) faults.push(...(await faultsOf(`${size} of ${kind}`, make(size))));
  }
  for (const bytes of [[], [0x78], [0x78, 0x9c], [0x78, 0x9c, 7], [0x78, 0x9d, 3, 0], [0x50, 0x44, 0x46]]) {
    const result = await outcome(Uint8Array.from(bytes));
    if (typeof result !== "string" && result.bytes.length > 0) faults.push(`${bytes} unpack to ${result.bytes.length} bytes`);
  }
  return [...faults, ...(await faultsOfCodes())];
}

export const COUNT = Object.keys(KINDS).length * SIZES.length;
