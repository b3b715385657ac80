/**
 * The heap, beside a list of the blocks that are held: blocks at random are aligned, overlap no other one, and keep what is
 * written into them, while the memory grows. Blocks that stay are handed out again once they are given back.
 *
 * usage: node bindings/web/tests/heap.mjs
 */
import { Heap } from "../heap.js";
import { randomNumbers } from "./random.mjs";

const [ROUNDS, STEPS, PAGE] = [20, 5000, 65536];
const random = randomNumbers(1);
let failed = 0;

function check(holds, name) {
  if (!holds) failed++, console.log(`heap: ${name}`);
}

/** A heap over a memory of one page, which the module would have for itself. */
function begun(most) {
  const memory = new WebAssembly.Memory({ initial: 1, maximum: 1000 });
  const heap = new Heap(most);
  heap.begin(memory);
  return { heap, memory };
}

// Sizes around each that the heap tells apart, and of all magnitudes.
const SIZES = [0, 1, 16, 17, 64, 65, 80, 81, 128, 129, 1000, 4096, 4097, PAGE];
const someSize = () => (random(2) ? SIZES[random(SIZES.length)] : random(2 ** random(17)));

/** Gives a block back, one of those that are held. */
function giveSome(heap, memory, held) {
  const [{ block, size, mark }] = held.splice(random(held.length), 1);
  const isKept = new Uint8Array(memory.buffer, block, size).every((byte) => byte === mark);
  check(isKept, `a block of ${size} bytes is not as it was left`);
  heap.give(block, size);
}

/** Takes a block by the call of the module, which hands over words, and marks it. */
function takeSome(heap, memory, held, mark) {
  const size = someSize();
  heap.imports.heap.jbig2_c_take(8n, 0n, BigInt(size), 8n);
  const view = new DataView(memory.buffer);
  const block = Number(view.getBigUint64(16, true));
  const isOver = held.every((other) => block + size <= other.block || other.block + other.size <= block);
  check(view.getUint8(8) === 1 && block % 16 === 0 && block >= PAGE, `no block for ${size} bytes: ${block}`);
  check(isOver && block + size <= memory.buffer.byteLength, `a block of ${size} bytes overlaps another one`);
  new Uint8Array(memory.buffer, block, size).fill(mark);
  held.push({ block, size, mark });
}

/** What is given back among what stays is handed out again, and what comes after it begins anew. */
function checkStaying() {
  const { heap } = begun(PAGE + 8192);
  const staying = [1024, 2048, 512].map((size) => heap.take(size));
  heap.give(staying[1], 2048);
  heap.stay();
  for (let size = 256; size <= 8192; size += 256) {
    const wanted = 256 + (size % 4096);
    const block = heap.take(wanted);
    check(block !== 0 && (block === staying[1]) === (wanted === 2048), `${wanted} bytes while others stay`);
    heap.give(block, wanted);
  }
  // What is held beyond what stays is not handed out again, even where as much of that was given back.
  const beyond = heap.take(1024);
  heap.give(staying[0], 1024);
  const after = heap.take(3072);
  check(after >= beyond + 1024, "a block that is held is handed out again");
  heap.give(after, 3072);
  heap.give(beyond, 1024);
  check(heap.held === 512 && heap.take(1024) === staying[0], "what stayed and was given back is lost");
  heap.give(staying[0], 1024);
  heap.give(staying[2], 512);
  check(heap.held === 0 && heap.take(8192) === PAGE, "nothing is held, and not all is free");
}

for (let round = 0; round < ROUNDS; round++) {
  const { heap, memory } = begun(2 ** 26);
  const held = [];
  for (let step = 0; step < STEPS; step++) {
    if (held.length > 0 && random(held.length > 200 ? 2 : 5) === 0) giveSome(heap, memory, held);
    else if (held.length < 300) takeSome(heap, memory, held, step % 255);
  }
  const size = memory.buffer.byteLength;
  while (held.length > 0) giveSome(heap, memory, held);
  check(heap.held === 0 && heap.take(1) === PAGE && memory.buffer.byteLength === size, "the heap doesn't begin anew");
}

checkStaying();

// What can't be had: more than the most, than the memory may grow to, than a word of 32 bits says, or another alignment.
for (const [size, align] of [[2 ** 25, 8], [2 ** 32, 8], [2 ** 32 + 16, 8], [2 ** 64 - 1, 8], [16, 32]]) {
  const { heap, memory } = begun(size === 2 ** 25 ? 2 ** 25 : Infinity);
  const word = size === 2 ** 64 - 1 ? 2n ** 64n - 1n : BigInt(size);
  heap.imports.heap.jbig2_c_take(0n, 0n, word, BigInt(align));
  check(new Uint8Array(memory.buffer)[0] === 0 && heap.held === 0, `a block of ${size} bytes, aligned to ${align}`);
  check(heap.take(16) === PAGE, `the heap after a block of ${size} bytes that it has not`);
}
console.log(`heap: ${ROUNDS * STEPS} steps, what stays, and what can't be had: ${failed} faults`);
process.exit(failed ? 1 : 0);
