/**
 * What is left of damaged bytes of zlib (RFC 1950 and 1951). A `DecompressionStream` that ends in an error drops what it has not
 * handed out yet, and how much that is differs from one engine to the next.
 */

const [CODED_BY_DEFLATE, HAS_DICTIONARY] = [8, 0x20];
const [STORED, FIXED] = [0, 1];
const END_OF_BLOCK = 256;
const LONGEST_CODE = 15;
// How far back a copy reaches, the longest copy, and how much is handed out at a time.
const [WINDOW, LONGEST_COPY, PART] = [1 << 15, 258, 1 << 16];
// The order in which a block has the lengths of the codes for lengths.
const ORDER = [16, 17, 18, 0, 8, 7, 9, 6, 10, 5, 11, 4, 12, 3, 13, 2, 14, 1, 15];

/** Pairs of a first value and a number of bits that are added to it, where each pair goes on from the one before. */
function ranges(first, bits) {
  return bits.map((count) => {
    const range = [first, count];
    first += 2 ** count;
    return range;
  });
}

const steps = (from, to, each) => Array.from({ length: (to - from + 1) * each }, (_, at) => from + Math.floor(at / each));
// The last length has no bits, and is one less than would follow.
const LENGTHS = [...ranges(3, [...steps(0, 0, 8), ...steps(1, 5, 4)]).slice(0, 28), [LONGEST_COPY, 0]];
const DISTANCES = ranges(1, [0, 0, ...steps(0, 13, 2)]);
// With the bytes and the end of the block.
const MOST_LITERALS = END_OF_BLOCK + 1 + LENGTHS.length;

class Damage extends Error {}

/** Throws where something that the bytes have to keep to doesn't hold. */
function check(holds) {
  if (!holds) throw new Damage();
}

/** Bytes, read by bits, the lowest first. */
class Bits {
  #bytes;
  #place;
  #held = 0;
  #count = 0;

  constructor(bytes, place) {
    this.#bytes = bytes;
    this.#place = place;
  }

  next(count) {
    while (this.#count < count) {
      check(this.#place < this.#bytes.length);
      this.#held |= this.#bytes[this.#place++] << this.#count;
      this.#count += 8;
    }
    const value = this.#held & ((1 << count) - 1);
    this.#held >>>= count;
    this.#count -= count;
    return value;
  }

  /** Drops what is left of a byte. No whole byte is held. */
  align() {
    this.#held = this.#count = 0;
  }
}

/** A prefix code by the lengths of its words: how many words have each length, and the symbols in the words' order. */
class Code {
  #counts = new Uint16Array(LONGEST_CODE + 1);
  #symbols;

  /** Where words are missing, zlib takes the code only if it has none, or if one word of one bit `mayBeAlone`. */
  constructor(lengths, mayBeAlone = true) {
    for (const length of lengths) if (length) this.#counts[length]++;
    const longest = Math.max(...lengths);
    let left = 1;
    const places = [0, 0];
    for (let length = 1; length <= LONGEST_CODE; length++) {
      left = 2 * left - this.#counts[length];
      check(left >= 0);
      places.push(places[length] + this.#counts[length]);
    }
    check(left === 0 || longest === 0 || (longest === 1 && mayBeAlone));
    this.#symbols = new Uint16Array(lengths.length);
    lengths.forEach((length, symbol) => length && (this.#symbols[places[length]++] = symbol));
  }

  read(bits) {
    let [word, first, place] = [0, 0, 0];
    for (let length = 1; length <= LONGEST_CODE; length++) {
      word |= bits.next(1);
      const count = this.#counts[length];
      if (word - first < count) return this.#symbols[place + word - first];
      place += count;
      first = (first + count) << 1;
      word <<= 1;
    }
    throw new Damage();
  }
}

const FIXED_CODES = [
  new Code([...steps(8, 8, 144), ...steps(9, 9, 112), ...steps(7, 7, 24), ...steps(8, 8, 8)]),
  new Code(steps(5, 5, 32)),
];

/** The two codes of a block that brings its own. */
function codesOf(bits) {
  const [literals, distances, count] = [bits.next(5) + 257, bits.next(5) + 1, bits.next(4) + 4];
  check(literals <= MOST_LITERALS && distances <= DISTANCES.length);
  const ofLengths = Array(ORDER.length).fill(0);
  for (let at = 0; at < count; at++) ofLengths[ORDER[at]] = bits.next(3);
  const code = new Code(ofLengths, false);
  const lengths = [];
  while (lengths.length < literals + distances) {
    const symbol = code.read(bits);
    if (symbol < 16) lengths.push(symbol);
    else {
      const [least, size] = [[3, 2], [3, 3], [11, 7]][symbol - 16];
      check(symbol > 16 || lengths.length > 0);
      const length = symbol > 16 ? 0 : lengths.at(-1);
      for (let left = least + bits.next(size); left > 0; left--) lengths.push(length);
    }
  }
  check(lengths.length === literals + distances && lengths[END_OF_BLOCK] > 0);
  return [new Code(lengths.slice(0, literals)), new Code(lengths.slice(literals))];
}

/** What comes out, in parts: the last bytes of the part before stay, since copies reach back to them. */
class Parts {
  #bytes = new Uint8Array(WINDOW + PART + LONGEST_COPY);
  #kept = 0;
  #end = 0;

  get isFull() {
    return this.#end - this.#kept >= PART;
  }

  add(byte) {
    this.#bytes[this.#end++] = byte;
  }

  copy(distance, length) {
    check(distance <= this.#end);
    for (let end = this.#end + length; this.#end < end; this.#end++) this.#bytes[this.#end] = this.#bytes[this.#end - distance];
  }

  /** The bytes that came since the last part. */
  next() {
    const part = this.#bytes.slice(this.#kept, this.#end);
    const begin = Math.max(this.#end - WINDOW, 0);
    this.#bytes.copyWithin(0, begin, this.#end);
    this.#kept = this.#end -= begin;
    return part;
  }
}

function* storedBlock(bits, parts) {
  bits.align();
  const length = bits.next(16);
  check(bits.next(16) === (length ^ 0xffff));
  for (let left = length; left > 0; left--) {
    parts.add(bits.next(8));
    if (parts.isFull) yield parts.next();
  }
}

function* codedBlock(bits, parts, [literals, distances]) {
  for (;;) {
    const symbol = literals.read(bits);
    if (symbol === END_OF_BLOCK) return;
    if (symbol < END_OF_BLOCK) parts.add(symbol);
    else {
      const valueOf = (range) => (check(range), range[0] + bits.next(range[1]));
      const length = valueOf(LENGTHS[symbol - END_OF_BLOCK - 1]);
      parts.copy(valueOf(DISTANCES[distances.read(bits)]), length);
    }
    if (parts.isFull) yield parts.next();
  }
}

function* blocks(bytes, parts) {
  const [method, flags] = bytes;
  check(bytes.length >= 2 && (method & 15) === CODED_BY_DEFLATE && method >> 4 <= 7);
  check(((method << 8) | flags) % 31 === 0 && !(flags & HAS_DICTIONARY));
  const bits = new Bits(bytes, 2);
  for (let isLast = 0; !isLast; ) {
    isLast = bits.next(1);
    const kind = bits.next(2);
    check(kind < 3);
    if (kind === STORED) yield* storedBlock(bits, parts);
    else yield* codedBlock(bits, parts, kind === FIXED ? FIXED_CODES : codesOf(bits));
  }
}

/** What bytes unpack to, in parts, up to the end or to the damage. It returns whether it came to the end. The sum after that isn't read. */
export function* partsOf(bytes) {
  const parts = new Parts();
  let isWhole = true;
  try {
    yield* blocks(bytes, parts);
  } catch (error) {
    if (!(error instanceof Damage)) throw error;
    isWhole = false;
  }
  const last = parts.next();
  if (last.length > 0) yield last;
  return isWhole;
}
