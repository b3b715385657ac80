/**
 * Pages as figures: a caption, a button that saves the page, and a picture that is drawn while it is near what is seen.
 */

import { DecodedPage } from "./decoded_page.js";
import { pngOf } from "./png.js";

// A page that is narrower than this is shown enlarged, by a whole number.
const NARROW = 400;

function made(kind, properties = {}, ...children) {
  const element = Object.assign(document.createElement(kind), properties);
  element.append(...children);
  return element;
}

function canvasOf(page, label) {
  const className = page.width < NARROW ? "narrow" : "";
  const canvas = made("canvas", { width: page.width, height: page.height, className });
  canvas.setAttribute("role", "img");
  canvas.setAttribute("aria-label", label);
  const context = canvas.getContext("2d");
  context.putImageData(new ImageData(page.toRgba(), page.width, page.height), 0, 0);
  // A canvas that is too large for the browser stays clear.
  if (context.getImageData(0, 0, 1, 1).data[3] !== 255) throw new Error("too large for this browser to show");
  return canvas;
}

// How to draw each picture that has a place.
const drawings = new WeakMap();

function draw(picture) {
  if (picture.firstChild === null) picture.append(drawings.get(picture)());
}

// A picture of a scanned page takes 35 MB, its rows 1 MB: so only those near what is seen are there, but for printing.
const near = new WeakSet();
const observer = new IntersectionObserver(
  (entries) => {
    for (const { target, isIntersecting } of entries) {
      isIntersecting ? near.add(target) : near.delete(target);
      isIntersecting ? draw(target) : target.replaceChildren();
    }
  },
  { rootMargin: "100% 0px" },
);
const pictures = () => [...document.querySelectorAll(".picture")];
addEventListener("beforeprint", () => pictures().forEach(draw));
addEventListener("afterprint", () => pictures().forEach((picture) => near.has(picture) || picture.replaceChildren()));

/** The place of a page's picture, in a box that scrolls where it is enlarged. */
function pictureOf(page, label) {
  const picture = made("div", { className: "picture" });
  const enlarged = page.width < NARROW ? Math.floor(NARROW / page.width) * page.width : page.width;
  const sizes = { width: page.width, height: page.height, enlarged };
  for (const [name, value] of Object.entries(sizes)) picture.style.setProperty(`--${name}`, value);
  drawings.set(picture, () => {
    try {
      return canvasOf(page, label);
    } catch ({ message }) {
      return made("p", { textContent: `${message}. It can be saved.` });
    }
  });
  observer.observe(picture);
  const box = made("div", { className: "scroll", tabIndex: 0 }, picture);
  box.setAttribute("role", "group");
  box.setAttribute("aria-label", label);
  return box;
}

/** Saves a page as a PNG file. */
async function save(page, name) {
  const file = new Blob([await pngOf(page)], { type: "image/png" });
  const link = made("a", { download: name, href: URL.createObjectURL(file) });
  link.click();
  setTimeout(() => URL.revokeObjectURL(link.href), 60_000);
}

function saveButton(page, file, name) {
  const button = made("button", { type: "button", textContent: "Save as PNG" });
  button.setAttribute("aria-label", `Save ${name} of ${file} as PNG`);
  const stem = file.replace(/\.[^.]*$/, "");
  const picture = `${stem}-${name.replace(/ of .*|,.*/, "").replaceAll(" ", "-")}.png`;
  button.addEventListener("click", () => {
    save(page, picture).catch(({ message }) => button.after(made("span", { className: "lacks", textContent: `Not saved: ${message}.` })));
  });
  return button;
}

/** The figure of a page, or of an error. */
export function figureOf({ file, name = "", error, lacks, milliseconds, width, height, rows }) {
  const figure = made("figure", { className: error ? "error" : lacks ? "damaged" : "" });
  figure.dataset.file = file;
  if (error) {
    figure.append(made("figcaption", { textContent: name ? `${name}: ${error}` : error }));
    return figure;
  }
  const page = new DecodedPage(width, height, rows, {});
  const caption = made("figcaption", {}, made("b", { textContent: name }));
  caption.append(made("span", { textContent: `${width} by ${height} pixels, ${milliseconds.toFixed(1)} ms` }));
  if (lacks) caption.append(made("span", { className: "lacks", textContent: `Incomplete: ${lacks}.` }));
  caption.append(saveButton(page, file, name));
  figure.append(caption, pictureOf(page, `${name} of ${file}${lacks ? ", incomplete" : ""}`));
  return figure;
}
