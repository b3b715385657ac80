/** The memory of the module. */

const PAGE = 65536;
// The sizes of blocks: 16, 32, 48, 64, and four in each doubling from there on.
const ROOMS = [16, 32, 48, 64];
for (let step = 16; step < 2 ** 30; step *= 2) ROOMS.push(5 * step, 6 * step, 7 * step, 8 * step);

/** The place in ROOMS of the size for a request, of at most 2^32 bytes. */
function kindOf(size) {
  if (size <= 64) return Math.max(size - 1, 0) >> 4;
  const shift = 29 - Math.clz32(size - 1);
  return 4 * shift + ((size - 1) >>> shift) - 16;
}

// What the module hands over, as a number. Number of a BigInt would take V8 six times as long.
const WORD = new BigUint64Array(1);
const HALVES = new Uint32Array(WORD.buffer);
function numberOf(word) {
  WORD[0] = word;
  return HALVES[0] + 2 ** 32 * HALVES[1];
}

/**
 * The heap that the module asks for memory: blocks that are given back wait by size, others are cut off the end. When
 * nothing is held any more, or nothing but what stays, it begins anew, so that blocks of earlier sizes take no room.
 */
export class Heap {
  held = 0;
  // How much is held beyond what stays.
  #beyond = 0;
  #most;
  #memory;
  #view;
  #first;
  #start;
  #end;
  #limit;
  // For each size the block that was given back last, or 0. Its first bytes name the one before.
  #free = new Uint32Array(ROOMS.length);
  // The same of the free blocks among what stays.
  #between = new Uint32Array(ROOMS.length);

  constructor(most) {
    this.#most = Math.min(most, 2 ** 32);
  }

  /** What the module imports. */
  get imports() {
    const jbig2_c_take = (place, _memory, size, align) => this.#answer(numberOf(place), numberOf(size), numberOf(align));
    const jbig2_c_give_back = (_memory, block, size) => this.give(numberOf(block), numberOf(size));
    return { heap: { jbig2_c_take, jbig2_c_give_back } };
  }

  /** Takes over the memory from its present end on. */
  begin(memory) {
    this.#memory = memory;
    this.#view = new DataView(memory.buffer);
    this.#first = this.#start = this.#end = this.#limit = memory.buffer.byteLength;
  }

  /** Lets stay what is held now: an open file's. */
  stay() {
    this.#start = this.#end;
    this.#beyond = 0;
    for (let kind = 0; kind < ROOMS.length; kind += 1) {
      for (let block = this.#pop(this.#free, kind); block; block = this.#pop(this.#free, kind)) {
        this.#push(this.#between, kind, block);
      }
    }
  }

  /** A block aligned to 16, or 0 where there is no memory for it. */
  take(size) {
    if (size > this.#most) return 0;
    const kind = kindOf(size);
    const block = this.#pop(this.#between, kind) || this.#pop(this.#free, kind) || this.#cut(ROOMS[kind]);
    if (block) this.held += ROOMS[kind];
    if (block >= this.#start) this.#beyond += ROOMS[kind];
    return block;
  }

  give(block, size) {
    const kind = kindOf(size);
    this.held -= ROOMS[kind];
    if (block >= this.#start) this.#beyond -= ROOMS[kind];
    this.#push(block >= this.#start ? this.#free : this.#between, kind, block);
    if (this.held === 0) {
      this.#between.fill(0);
      this.#start = this.#first;
    }
    if (this.#beyond === 0) {
      this.#free.fill(0);
      this.#end = this.#start;
    }
  }

  #push(blocks, kind, block) {
    this.#view.setUint32(block, blocks[kind], true);
    blocks[kind] = block;
  }

  /** The block of a size that was given back last, or 0. */
  #pop(blocks, kind) {
    const block = blocks[kind];
    if (block) blocks[kind] = this.#view.getUint32(block, true);
    return block;
  }

  /** A block off the end, or 0. */
  #cut(room) {
    const block = this.#end;
    const end = block + room;
    if (end > this.#most || (end > this.#limit && !this.#grow(end - this.#limit))) return 0;
    this.#end = end;
    return block;
  }

  /** Takes a block for the module, and writes there whether there is one, and where. */
  #answer(place, size, align) {
    const block = align <= 16 ? this.take(size) : 0;
    this.#view.setUint8(place, block ? 1 : 0);
    this.#view.setUint32(place + 8, block || place, true);
    this.#view.setUint32(place + 12, 0, true);
  }

  #grow(missing) {
    const pages = Math.max(Math.ceil(missing / PAGE), 16);
    try {
      this.#memory.grow(pages);
    } catch {
      return false;
    }
    this.#view = new DataView(this.#memory.buffer);
    this.#limit += pages * PAGE;
    return true;
  }
}
