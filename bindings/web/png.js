/** Pages as PNG files of one bit for each pixel. */

const SIGNATURE = [0x89, 0x50, 0x4e, 0x47, 0x0d, 0x0a, 0x1a, 0x0a];
const POLYNOMIAL = 0xedb88320;

const remainders = Uint32Array.from({ length: 256 }, (_, byte) => {
  for (let bit = 0; bit < 8; bit++) byte = byte & 1 ? (byte >>> 1) ^ POLYNOMIAL : byte >>> 1;
  return byte;
});

/** The check sum of a chunk (CRC-32). */
function sumOf(bytes) {
  let sum = -1;
  for (const byte of bytes) sum = remainders[(sum ^ byte) & 255] ^ (sum >>> 8);
  return ~sum;
}

/** A chunk: its length, its kind, its data and its sum. */
function chunkOf(kind, data) {
  const chunk = new Uint8Array(data.length + 12);
  const view = new DataView(chunk.buffer);
  view.setUint32(0, data.length);
  for (let place = 0; place < 4; place++) chunk[4 + place] = kind.charCodeAt(place);
  chunk.set(data, 8);
  view.setUint32(chunk.length - 4, sumOf(chunk.subarray(4, -4)));
  return chunk;
}

/** The rows as PNG has them: each after a byte that names no filter, and 0 for black. */
function unfiltered({ width, height, rows }) {
  const stride = (width + 7) >> 3;
  const lines = new Uint8Array((stride + 1) * height);
  for (let y = 0, from = 0, to = 0; y < height; y++) {
    lines[to++] = 0;
    for (const end = to + stride; to < end; ) lines[to++] = ~rows[from++];
  }
  return lines;
}

/** A page, as `Decoder.decode` gives it, as the bytes of a PNG file. */
export async function pngOf(page) {
  const header = new Uint8Array(13);
  const view = new DataView(header.buffer);
  view.setUint32(0, page.width);
  view.setUint32(4, page.height);
  // One bit, grey, by the only method of packing.
  header[8] = 1;
  const packed = new Blob([unfiltered(page)]).stream().pipeThrough(new CompressionStream("deflate"));
  const data = new Uint8Array(await new Response(packed).arrayBuffer());
  const parts = [SIGNATURE, chunkOf("IHDR", header), chunkOf("IDAT", data), chunkOf("IEND", [])];
  return new Uint8Array(await new Blob(parts.map((part) => Uint8Array.from(part))).arrayBuffer());
}
