/**
 * Reads hostile PDF files in processes of their own, and looks at the time and the memory that each takes.
 *
 * usage: node bindings/web/tests/hostile.mjs
 */
import { spawnSync } from "node:child_process";
import { fileURLToPath } from "node:url";
import { Pdf } from "../pdf.js";
import { GROWING, SMALL } from "./hostile_files.mjs";

const SIZES = [250e3, 1e6];
// Seconds of the processor and MiB for the larger size, and for a small file that unpacks to as much as it may.
const MOST = { growing: { seconds: 10, memory: 500 }, small: { seconds: 20, memory: 1200 } };
// Of the processor; on a busy machine many more of the clock.
const KILLED_AFTER = 40;

/** Reads a file with all its images, and returns what it took. */
async function reading(bytes) {
  const before = process.cpuUsage();
  const errors = [];
  try {
    const pdf = await Pdf.open(bytes);
    for (const number of pdf.images()) await pdf.streams(number).catch((error) => errors.push(error));
  } catch (error) {
    errors.push(error);
  }
  const { user, system } = process.cpuUsage(before);
  const wrong = errors.find((error) => error.name !== "PdfError");
  const memory = process.resourceUsage().maxRSS >> 10;
  return { seconds: (user + system) / 1e6, memory, error: wrong ? String(wrong.stack) : null };
}

/** The same in a process of its own. */
function measured(kind, name, size) {
  const words = [fileURLToPath(import.meta.url), kind, name, String(size)];
  const limited = ["-c", `ulimit -t ${KILLED_AFTER}; exec "$@"`, "sh", process.execPath, ...words];
  const options = { timeout: 15 * KILLED_AFTER * 1000, killSignal: "SIGKILL", encoding: "utf8" };
  const { status, stdout, stderr } = spawnSync("sh", limited, options);
  if (status === 0) return JSON.parse(stdout);
  const error = status === null ? `no end in ${KILLED_AFTER} s` : stderr.slice(-400);
  return { seconds: Infinity, memory: Infinity, error };
}

const shown = ({ seconds, memory }) => `${seconds.toFixed(2)} s, ${memory} MiB`;

/** The fault of a reading, or null. */
function faultOf({ seconds, memory, error }, most) {
  if (error) return error;
  return seconds > most.seconds || memory > most.memory ? "too much time or memory" : null;
}

/** Whether a larger file takes more than its part of the time, beyond what a busy machine does to short times. */
const isSteep = (small, large) => large.seconds > (1.5 * SIZES[1] * small.seconds) / SIZES[0] + 0.3;

function main() {
  let failed = 0;
  const complain = (name, fault, ...readings) => {
    failed++;
    console.log(`hostile PDF file, ${name}: ${fault}: ${readings.map(shown).join("; ")}`);
  };
  for (const name of Object.keys(GROWING)) {
    const [small, large] = SIZES.map((size) => measured("growing", name, size));
    const fault = faultOf(large, MOST.growing) ?? (isSteep(small, large) ? "not in proportion to the size" : null);
    if (fault) complain(name, fault, small, large);
    else if (process.env.SHOW) console.log(name, shown(small), "|", shown(large));
  }
  for (const name of Object.keys(SMALL)) {
    const reading = measured("small", name, 0);
    const fault = faultOf(reading, MOST.small);
    if (fault) complain(name, fault, reading);
    else if (process.env.SHOW) console.log(name, shown(reading));
  }
  const count = Object.keys(GROWING).length + Object.keys(SMALL).length;
  console.log(`hostile PDF files: ${count - failed} of ${count} are read in time and memory in proportion`);
  return failed ? 1 : 0;
}

const [kind, name, size] = process.argv.slice(2);
if (kind) console.log(JSON.stringify(await reading((kind === "growing" ? GROWING : SMALL)[name](Number(size)))));
else process.exit(main());
