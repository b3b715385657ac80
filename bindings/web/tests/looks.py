"""
What a user of the page sees, hears, saves and prints: captions, links, names for screen readers, contrast, zoom, keys, files.
"""
import json
import pathlib
import re
import struct
import tempfile
import time
import zlib

from driven import SECONDS
from page import drop, set_checked, shown

# The page of the suite's file is drawn by one segment; without its last bytes it is blank.
CUT = "t88-h1.jb2"
# A blank page of 2480 by 3508 pixels, as scanners write it.
TALL = (
    bytes.fromhex("974A42320D0A1A0A 01 00000001 00000000 30 00 01 00000013 000009B0 00000DB4" + "00" * 11)
    + bytes.fromhex("00000001 31 00 01 00000000 00000002 33 00 00 00000000")
)
# The roles that a user acts on. Each has to have a name.
ROLES = {"button", "link", "checkbox", "spinbutton", "combobox", "textbox", "progressbar", "img", "navigation", "region", "group"}
# What is read, with the least contrast that WCAG 2.1 asks for (AA).
READ = ["h1", "p", "label", "h2", "nav a", "figcaption b", "figcaption span", ".lacks", "figure.error figcaption", "#note"]
LEAST_CONTRAST = 4.5
# Where the Tab key goes from the field of files on, up to the first page's picture. Nothing can be stopped then.
REACHED = ["choose", "Options", "salvage", "limited", "seconds", "zoom", "clear", "1", "2", "3", "Save as PNG", ""]
CONTRAST = """((selectors) => {
  const numbers = (text) => text.match(/[\\d.]+/g).map(Number);
  const luminance = (colour) => {
    const [red, green, blue] = numbers(colour).map((part) => part / 255).map((part) => part <= 0.04045 ? part / 12.92 : ((part + 0.055) / 1.055) ** 2.4);
    return 0.2126 * red + 0.7152 * green + 0.0722 * blue;
  };
  const probe = document.body.appendChild(document.createElement("div"));
  probe.style.background = "Canvas";
  const ground = luminance(getComputedStyle(probe).backgroundColor);
  probe.remove();
  return selectors.map((selector) => {
    const element = document.querySelector(selector);
    if (!element) return 0;
    const text = luminance(getComputedStyle(element).color);
    return (Math.max(text, ground) + 0.05) / (Math.min(text, ground) + 0.05);
  });
})"""


def faults_of_looks(browser, folder):
    """What is wrong with the page, as texts."""
    whole = folder / CUT
    cut, text = folder / "ends early.jb2", folder / "no page.txt"
    # Without the ends of the page and of the file, of 11 bytes each, and the last byte before them.
    cut.write_bytes(whole.read_bytes()[:-23])
    text.write_text("This is neither a JBIG2 file nor a PDF file.\n")
    set_checked(browser, "salvage", True)
    faults = []
    drop(browser, [whole, cut, text])
    for look in captions, names, contrast, zoom, pictures_out_of_sight:
        faults += look(browser)
    faults += saved(browser, whole) + not_saved(browser)
    faults += keyboard(browser)
    shown(browser)
    return faults + printed(browser, folder) + name_of_saved(browser, folder)


def captions(browser):
    """A caption stands above its picture and has the page's number; a page that lacks something is marked, in its link too."""
    figures = json.loads(
        browser.evaluate(
            """JSON.stringify([...document.querySelectorAll("figure")].map((figure) => [
                 figure.dataset.file, figure.className, figure.firstChild.tagName, figure.firstChild.textContent]))"""
        )
    )
    links = browser.evaluate('[...document.querySelectorAll("nav a")].map((link) => link.textContent).join(" ")')
    faults = []
    if [figure[1] for figure in figures] != ["", "", "", "", "", "damaged", "error"]:
        faults.append(f"a page is marked wrongly: {figures}")
    if any(figure[2] != "FIGCAPTION" for figure in figures) or not figures[1][3].startswith("page 2 of 3"):
        faults.append(f"captions: {figures}")
    if "Incomplete: 1 segment missing or damaged (segment " not in figures[5][3] or "neither a JBIG2 file nor a PDF file" not in figures[6][3]:
        faults.append(f"what a page lacks isn't said: {figures[5:]}")
    if links != "1 2 3 1 2 3! 1!":
        faults.append(f"links to pages: {links}")
    note = browser.evaluate('document.querySelector("#note").textContent')
    if "3 files: 6 pages, 1 incomplete, 1 error." not in note:
        faults.append(f"the sum of all: {note}")
    return faults


def names(browser):
    """What a screen reader reads has a name."""
    browser.evaluate('document.querySelector("details").open = true')
    found = browser.roles()
    faults = [f"a {role} without a name" for role, name in found if role in ROLES and not name.strip()]
    missing = {"button", "link", "checkbox", "combobox", "navigation", "region", "status", "banner", "main"} - {role for role, _ in found}
    return faults + ([f"no {', '.join(sorted(missing))}"] if missing else [])


def contrast(browser):
    faults = []
    for scheme in "light", "dark":
        browser.set_scheme(scheme)
        ratios = browser.evaluate(f"{CONTRAST}({json.dumps(READ)})")
        weak = [(what, ratio) for what, ratio in zip(READ, ratios) if ratio < LEAST_CONTRAST]
        faults += [f"{what} has a contrast of {ratio:.1f} ({scheme})" for what, ratio in weak]
    browser.set_scheme("")
    return faults


def zoom(browser):
    """Widths of the first picture, of 64 pixels, by what is chosen."""
    faults = []
    for value, width in ("2", 128), ("0.5", 32), ("fit", 384):
        set_zoom(browser, value)
        seen = browser.evaluate('document.querySelector(".picture").getBoundingClientRect().width')
        if seen != width:
            faults.append(f"zoom {value}: {seen} pixels wide, not {width}")
    return faults


def set_zoom(browser, value):
    browser.evaluate(
        f"""(() => {{ const box = document.querySelector("#zoom"); box.value = "{value}";
        box.dispatchEvent(new Event("change")); }})()"""
    )


def loaded_again(browser):
    """Pages are enlarged as the box says, and nothing can be stopped, also where a browser keeps what was so before."""
    faults = []
    for way in browser.load_again, browser.come_back:
        set_zoom(browser, "2")
        browser.evaluate('void (document.querySelector("#stop-all").disabled = false)')
        way()
        chosen, fits, stops = browser.evaluate(
            """[document.querySelector("#zoom").value, document.querySelector("#files").matches(".fit"),
                !document.querySelector("#stop-all").disabled]"""
        )
        set_zoom(browser, "fit")
        if fits != (chosen == "fit"):
            faults.append(f"after the page was loaded again ({way.__name__}) {chosen!r} is not what is shown")
        if stops:
            faults.append(f"after the page was loaded again ({way.__name__}) nothing runs that can be stopped")
    return faults


def pictures_out_of_sight(browser):
    """A picture that is out of sight takes no memory, and its place stays."""
    browser.resize(900, 400)
    drawn = '[...document.querySelectorAll(".picture")].map((picture) => picture.childElementCount).join("")'
    try:
        browser.evaluate("scrollTo(0, document.body.scrollHeight)")
        browser.wait_for(f"{drawn}.startsWith('00')")
        browser.evaluate("scrollTo(0, 0)")
        browser.wait_for(f"{drawn}.startsWith('1') && {drawn}.endsWith('00')")
    except RuntimeError as error:
        return [f"pictures out of sight: {error}"]
    finally:
        browser.resize(900, 900)
    return []


def keyboard(browser):
    """What a user acts on is reached by the Tab key in the page's order, and acts by Enter."""
    focus = "(({ id, textContent }) => id || textContent)(document.activeElement)"
    browser.evaluate('document.querySelector("#choose").focus()')
    reached = []
    for _ in REACHED:
        reached.append(browser.evaluate(focus))
        browser.press("Tab")
    faults = [] if reached == REACHED else [f"the Tab key goes from {' to '.join(reached)}"]
    browser.evaluate('document.querySelector("#clear").focus()')
    browser.press("Enter")
    left = browser.evaluate('document.querySelectorAll("figure").length')
    return faults + ([f"Enter on Clear leaves {left} pages"] if left else [])


def printed(browser, folder):
    """A scanned page is printed on one sheet with its caption."""
    tall = folder / "tall.jb2"
    tall.write_bytes(TALL)
    drop(browser, [tall])
    data = browser.printed()
    shown(browser)
    parts = [data]
    for begin in re.finditer(rb"stream\r?\n", data):
        try:
            parts.append(zlib.decompressobj().decompress(data[begin.end() :]))
        except zlib.error:
            pass
    sheets = sum(len(re.findall(rb"/Type\s*/Page\b", part)) for part in parts)
    return [] if sheets == 1 else [f"a page is printed on {sheets} sheets"]


def saved(browser, file):
    """The second page is saved as a PNG file with its pixels."""
    with tempfile.TemporaryDirectory() as folder:
        browser.save_to(folder)
        browser.evaluate('document.querySelectorAll("figcaption button")[1].click()')
        path = pathlib.Path(folder, f"{file.stem}-page-2.png")
        end = time.monotonic() + SECONDS
        while not (path.exists() and path.stat().st_size > 0) and time.monotonic() < end:
            time.sleep(0.05)
        if not path.exists():
            return [f"no PNG file was saved, but {[other.name for other in path.parent.iterdir()]}"]
        size, rows = read_png(path.read_bytes())
    black = browser.evaluate(
        """(() => { dispatchEvent(new Event("beforeprint"));
          const canvas = document.querySelectorAll("canvas")[1];
          const { data } = canvas.getContext("2d").getImageData(0, 0, canvas.width, canvas.height);
          return [...data].filter((_, at) => at % 4 === 0).map((byte) => byte ? 0 : 1).join(""); })()"""
    )
    return [] if size == (64, 56) and rows == black else [f"the PNG file has another page, of {size}"]


def name_of_saved(browser, folder):
    """The name of a picture has no space that its file's name hasn't."""
    page = folder / "a page.jb2"
    page.write_bytes(TALL[13:43])
    drop(browser, [page])
    name = browser.evaluate(
        """new Promise((resolve) => {
          const link = HTMLAnchorElement.prototype, { click } = link;
          link.click = function () { link.click = click; resolve(this.download); };
          document.querySelector("figcaption button").click(); })"""
    )
    shown(browser)
    return [] if name == "a page-embedded-page-1.png" else [f"a picture is saved as {name!r}"]


def read_png(data):
    """The size of a PNG file of one bit for each pixel, and its pixels from left to right as digits, 1 is black."""
    width, height = struct.unpack(">II", data[16:24])
    length = struct.unpack(">I", data[33:37])[0]
    lines = zlib.decompress(data[41 : 41 + length])
    stride = (width + 7) // 8
    rows = [lines[y * (stride + 1) + 1 : (y + 1) * (stride + 1)] for y in range(height)]
    digits = ["".join(f"{byte ^ 255:08b}" for byte in row)[:width] for row in rows]
    return (width, height), "".join(digits)


def not_saved(browser):
    """Where a page can't be saved, the button says so."""
    browser.evaluate(
        """(() => { const whole = CompressionStream;
          self.CompressionStream = class { constructor() { throw new Error("no room"); } };
          document.querySelector("figcaption button").click();
          self.CompressionStream = whole; })()"""
    )
    try:
        browser.wait_for("document.querySelector('figcaption').textContent.endsWith('Not saved: no room.')")
    except RuntimeError as error:
        return [f"nothing says that a page was not saved: {error}"]
    return []
