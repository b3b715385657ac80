/** The page: files that are dropped or chosen are decoded, and their pages shown. */
import { FileQueue } from "./queue.js";
import { FileSection } from "./sections.js";

// A timer of 2^31 milliseconds or more ends at once.
const MOST_SECONDS = 2_000_000;

const element = (id) => document.querySelector(`#${id}`);
const [files, note, stopAll] = ["files", "note", "stop-all"].map(element);

element("unloaded").remove();
let sections = [];
// The file that was begun last.
let last;

const counted = (count, what) => `${count} ${what}${count === 1 ? "" : "s"}`;
const summed = (key) => sections.reduce((sum, section) => sum + section[key], 0);

/** What is shown of all files. */
function summary() {
  const [pages, incomplete, errors] = ["pageCount", "incompleteCount", "errorCount"].map(summed);
  const parts = [counted(pages, "page")];
  if (incomplete) parts.push(`${incomplete} incomplete`);
  if (errors) parts.push(counted(errors, "error"));
  return `${counted(sections.length, "file")}: ${parts.join(", ")}.`;
}

const queue = new FileQueue({
  begin(file, stop) {
    last = file;
    const section = new FileSection(file, stop);
    sections.push(section);
    files.append(section.element);
    return section;
  },
  change(running, waiting) {
    const isRunning = running.length > 0;
    stopAll.disabled = !isRunning;
    files.setAttribute("aria-busy", String(isRunning));
    const decoded = `${running.join(", ")} ${running.length === 1 ? "is" : "are"} being decoded.`;
    const done = sections.length > 0 ? `${last} is done. ${summary()}` : "";
    const text = isRunning ? `${decoded}${waiting ? ` Files that wait: ${waiting}.` : ""}` : done;
    // A screen reader reads it again where it is set.
    if (note.textContent !== text) note.textContent = text;
  },
});

function take(chosen) {
  const [salvage, isLimited] = ["salvage", "limited"].map((id) => element(id).checked);
  const seconds = Math.min(Math.max(element("seconds").valueAsNumber || 0, 1), MOST_SECONDS);
  const options = { salvage, isLimited, seconds };
  for (const file of chosen) queue.add(file, options);
}

element("choose").addEventListener("change", ({ target }) => {
  take(target.files);
  // So that the same file can be chosen again.
  target.value = "";
});
stopAll.addEventListener("click", () => queue.stopAll());
element("clear").addEventListener("click", () => {
  queue.stopAll();
  files.replaceChildren();
  sections = [];
  note.textContent = "";
});

function zoom() {
  const { value } = element("zoom");
  files.classList.toggle("fit", value === "fit");
  files.classList.toggle("pixelated", Number(value) > 1);
  if (value !== "fit") files.style.setProperty("--zoom", value);
}

element("zoom").addEventListener("change", zoom);
// Browsers keep what was chosen where a user comes back, and Firefox where the page is loaded again. Chromium sets it late.
addEventListener("pageshow", zoom);
// Firefox keeps too that a button could be pressed.
stopAll.disabled = true;
for (const kind of ["dragenter", "dragover"]) {
  document.addEventListener(kind, (event) => (event.preventDefault(), document.body.classList.add("over")));
}
document.addEventListener("dragleave", () => document.body.classList.remove("over"));
document.addEventListener("drop", (event) => {
  event.preventDefault();
  document.body.classList.remove("over");
  take(event.dataTransfer.files);
});
