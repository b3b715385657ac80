/**
 * Times the module of bindings/web/ beside pdf.js's decoder, in turns, and compares their rows.
 *
 * usage: node testing/benchmarks/pdfjs.mjs [--runs N] FILE.jb2 ..
 *
 * conformance/peers/pdfjs has to fetch pdf.js first. Times are milliseconds of the processor, the best of N runs (5), of the
 * first page of a sequential file. Both get the stream that a PDF file has, and pdf.js's rows are not widened. So `RGBA` is
 * our rows with their pixels of four bytes beside pdf.js's rows alone, in a new array and in one that is used again.
 */
import { readFileSync } from "node:fs";
import { basename } from "node:path";
import { loadJbig2Image } from "../../conformance/peers/pdfjs_decoder.mjs";
import { Decoder } from "../../bindings/web/hayro_jbig2.js";

const HEADER = 13;
const words = process.argv.slice(2);
const runs = words[0] === "--runs" ? Number(words.splice(0, 2)[1]) : 5;
const theirs = await loadJbig2Image();
const ours = await Decoder.load();

function timed(call) {
  const before = process.cpuUsage();
  const made = call();
  const { user, system } = process.cpuUsage(before);
  return [made, (user + system) / 1000];
}

/** What a file comes to: the best time of each call, which take turns, and what they made last. */
function measured(calls) {
  const [best, made] = [{}, {}];
  for (let run = 0; run < runs; run++) {
    for (const [name, call] of Object.entries(calls)) {
      let time;
      [made[name], time] = timed(call);
      best[name] = Math.min(best[name] ?? Infinity, time);
      globalThis.gc?.();
    }
  }
  return [best, made];
}

/** pdf.js's rows, or null where it refuses the page. */
function rowsOfTheirs(bytes) {
  try {
    return new theirs().parseChunks([{ data: bytes, start: HEADER, end: bytes.length }]);
  } catch {
    return null;
  }
}

const worst = { packed: 0, rgba: 0, again: 0 };
console.log("| Page | pdf.js | ours, packed | of pdf.js | ours, RGBA | of pdf.js | used again | of pdf.js |\n|---|---|---|---|---|---|---|---|");
for (const file of words) {
  const bytes = new Uint8Array(readFileSync(file));
  const stream = bytes.subarray(HEADER);
  const decode = () => ours.decode(stream, { workLimit: Infinity });
  const given = decode().toRgba();
  const [best, made] = measured({
    theirs: () => rowsOfTheirs(bytes),
    packed: () => decode().rows,
    rgba: () => decode().toRgba(),
    again: () => decode().toRgba(given),
  });
  const isSame = made.theirs && Buffer.from(made.theirs.buffer).equals(made.packed);
  const note = isSame ? "" : made.theirs ? " (pdf.js draws another page)" : " (pdf.js refuses it)";
  const cells = [best.theirs.toFixed(1)];
  for (const name of Object.keys(worst)) {
    const ratio = best[name] / best.theirs;
    if (isSame) worst[name] = Math.max(worst[name], ratio);
    cells.push(best[name].toFixed(1), ratio.toFixed(2));
  }
  console.log(`| ${basename(file)}${note} | ${cells.join(" | ")} |`);
}
const largest = Object.entries(worst).map(([name, ratio]) => `${name} ${ratio.toFixed(2)}`);
console.log(`\nThe largest ratios where the rows are the same: ${largest.join(", ")}`);
