/**
 * Puts ../jbig2_image.js in the place of pdf.js's own decoder, has pdf.js read PDF files of a folder, and compares the
 * images.
 *
 * usage: node bindings/web/tests/pdfjs.mjs BUILD FOLDER
 *
 * BUILD is the folder with pdf.js and pdf.worker.js, of Debian's package libjs-pdf.
 */
import { createHash } from "node:crypto";
import { copyFileSync, mkdtempSync, readFileSync, rmSync, writeFileSync } from "node:fs";
import { createRequire } from "node:module";
import { tmpdir } from "node:os";
import { join } from "node:path";
import { Jbig2Image } from "../jbig2_image.js";
import { module } from "./module.mjs";

const FILES = /^(plain-.*|packed-0050)[.]pdf$/;
// A page takes milliseconds, and on a busy computer many more. What never ends takes longer still.
const MOST_MILLISECONDS = 600_000;
const OWN_DECODER = "exports.Jbig2Image = Jbig2Image;";

/** pdf.js with our decoder. */
async function pdfJsWithOurs(build, room) {
  const worker = readFileSync(join(build, "pdf.worker.js"), "utf8");
  if (!worker.includes(OWN_DECODER)) throw new Error("pdf.js has its decoder elsewhere");
  await Jbig2Image.load(module, { workLimit: Infinity });
  globalThis.hayroJbig2Image = Jbig2Image;
  writeFileSync(join(room, "pdf.worker.js"), worker.replace(OWN_DECODER, "exports.Jbig2Image = globalThis.hayroJbig2Image;"));
  copyFileSync(join(build, "pdf.js"), join(room, "pdf.js"));
  const pdfJs = createRequire(import.meta.url)(join(room, "pdf.js"));
  pdfJs.GlobalWorkerOptions.workerSrc = join(room, "pdf.worker.js");
  return pdfJs;
}

/** An image as answers.json has it. pdf.js has packed rows, white 1. */
function pageOf({ width, height, data }) {
  const stride = Math.ceil(width / 8);
  const rows = Uint8Array.from(data.subarray(0, stride * height), (byte) => byte ^ 255);
  const past = (0xff00 >> (((width - 1) & 7) + 1)) & 255;
  for (let last = stride - 1; last < rows.length; last += stride) rows[last] &= past;
  return [width, height, createHash("sha256").update(rows).digest("hex")];
}

/** The image of a page. */
async function imageOf(page, { OPS }) {
  const { fnArray, argsArray } = await page.getOperatorList();
  const [name] = argsArray[fnArray.indexOf(OPS.paintImageXObject)];
  return pageOf(await new Promise((resolve) => page.objs.get(name, resolve)));
}

function withinTime(work) {
  const late = new Promise((_, reject) => setTimeout(() => reject(new Error("no end")), MOST_MILLISECONDS));
  return Promise.race([work, late]);
}

const [build, folder] = process.argv.slice(2);
const answers = JSON.parse(readFileSync(join(folder, "answers.json"), "utf8")).pdf;
const room = mkdtempSync(join(tmpdir(), "pdfjs-"));
let [same, other] = [0, 0];
try {
  const pdfJs = await pdfJsWithOurs(build, room);
  for (const name of Object.keys(answers).filter((name) => FILES.test(name))) {
    const data = new Uint8Array(readFileSync(join(folder, name)));
    const file = await pdfJs.getDocument({ data, verbosity: 0, isEvalSupported: false }).promise;
    for (const [at, answer] of answers[name].entries()) {
      const made = await withinTime(file.getPage(at + 1).then((page) => imageOf(page, pdfJs))).catch(String);
      if (JSON.stringify(made) === JSON.stringify(answer)) same++;
      else other++, console.log(`pdf.js: ${name}, page ${at + 1}: ${made}`);
    }
    await file.destroy();
  }
} finally {
  rmSync(room, { recursive: true });
}
console.log(`pdf.js with our decoder: ${same} images are as they are meant, ${other} not`);
process.exit(other || !same ? 1 : 0);
