/**
 * Draws an image of a PDF file by pdf.js's decoder, which conformance/peers/pdfjs has fetched.
 *
 * usage: node pdfjs.mjs STREAM GLOBALS WIDTH HEIGHT OUT: OUT is a PBM file; GLOBALS may be empty
 */
import { readFileSync, writeFileSync } from "node:fs";
import { loadJbig2Image } from "./pdfjs_decoder.mjs";

/** The rows by the size that the image's dictionary has, as a viewer takes them. */
async function rowsOf(names, size) {
  const chunks = names.map((name) => new Uint8Array(readFileSync(name))).filter(({ length }) => length);
  const Jbig2Image = await loadJbig2Image();
  const rows = new Jbig2Image().parseChunks(chunks.map((data) => ({ data, start: 0, end: data.length })));
  if (!rows) throw new Error("no page information");
  const all = new Uint8Array(size);
  all.set(rows.subarray(0, size));
  return all;
}

const [stream, globals, width, height, out] = process.argv.slice(2);
try {
  const rows = await rowsOf([globals, stream], ((Number(width) + 7) >> 3) * Number(height));
  writeFileSync(out, Buffer.concat([Buffer.from(`P4\n${width} ${height}\n`), rows]));
} catch (error) {
  console.error(`error: ${error.message}`);
  process.exit(1);
}
