/** A section for each file: its name, how far it is decoded, links to its pages by their numbers, and the pages. */

import { figureOf } from "./figures.js";

let sectionCount = 0;
let figureCount = 0;

export class FileSection {
  #nav = document.createElement("nav");
  #running = document.createElement("p");
  #progress = document.createElement("progress");
  #name;
  // The page that is being decoded.
  #label = {};
  element = document.createElement("section");
  pageCount = 0;
  incompleteCount = 0;
  errorCount = 0;

  /** `stop` stops the file. */
  constructor(file, stop) {
    this.#name = file;
    const heading = document.createElement("h2");
    heading.id = `file-${++sectionCount}`;
    heading.textContent = file;
    this.element.setAttribute("aria-labelledby", heading.id);
    this.#nav.setAttribute("aria-label", `Pages of ${file}`);
    this.#progress.setAttribute("aria-label", `Pages of ${file} that are decoded`);
    const button = Object.assign(document.createElement("button"), { type: "button", className: "stop", textContent: "Stop" });
    button.setAttribute("aria-label", `Stop ${file}`);
    button.addEventListener("click", stop);
    this.#running.append(this.#progress, " ", button);
    this.element.append(heading, this.#running, this.#nav);
  }

  /** Takes what the worker sends: that a page begins, a page, or an error. */
  page(data) {
    if (data.begins) {
      this.#label = data.begins;
      [this.#progress.max, this.#progress.value] = [this.#label.count, this.#label.number - 1];
    } else this.#add(data);
  }

  /** Says why the file is not decoded any further. */
  fail(error) {
    this.#add({ ...this.#label, error });
  }

  end() {
    this.#running.remove();
  }

  /** Adds a page, or an error, of the file. */
  #add(data) {
    const figure = figureOf({ file: this.#name, ...data });
    figure.id = `page-${++figureCount}`;
    if (data.number) this.#nav.append(this.#linkTo(figure, data));
    this.element.append(figure);
    if (data.error) this.errorCount++;
    else this.pageCount++;
    if (data.lacks) this.incompleteCount++;
  }

  #linkTo(figure, { number, name, error, lacks }) {
    const link = document.createElement("a");
    link.href = `#${figure.id}`;
    link.className = figure.className;
    link.textContent = `${number}${error || lacks ? "!" : ""}`;
    link.setAttribute("aria-label", `${name}${error ? ", not shown" : lacks ? ", incomplete" : ""}`);
    return link;
  }
}
