/**
 * Draws the image of each page of a PDF file by pdf.js, and prints its width, its height and the sum of its packed rows.
 *
 * usage: node written_pdfjs.mjs BUILD FILE.pdf: BUILD is the folder with pdf.js and pdf.worker.js, of Debian's package libjs-pdf
 */
import { createHash } from "node:crypto";
import { readFileSync } from "node:fs";
import { createRequire } from "node:module";
import { join } from "node:path";

/** pdf.js has packed rows, white 1. */
function sumOf({ width, height, data }) {
  const stride = (width + 7) >> 3;
  const rows = Uint8Array.from(data.subarray(0, stride * height), (byte) => byte ^ 255);
  const past = (0xff00 >> (((width - 1) & 7) + 1)) & 255;
  for (let last = stride - 1; last < rows.length; last += stride) rows[last] &= past;
  return `${width} ${height} ${createHash("sha256").update(rows).digest("hex")}`;
}

const [build, name] = process.argv.slice(2);
const pdfJs = createRequire(import.meta.url)(join(build, "pdf.js"));
pdfJs.GlobalWorkerOptions.workerSrc = join(build, "pdf.worker.js");
const data = new Uint8Array(readFileSync(name));
const file = await pdfJs.getDocument({ data, verbosity: 0, isEvalSupported: false }).promise;
for (let number = 1; number <= file.numPages; number++) {
  const page = await file.getPage(number);
  const { fnArray, argsArray } = await page.getOperatorList();
  const [image] = argsArray[fnArray.indexOf(pdfJs.OPS.paintImageXObject)];
  const drawn = await new Promise((resolve) => page.objs.get(image, resolve));
  console.log(drawn ? sumOf(drawn) : "no image");
  page.cleanup();
}
process.exit(0);
