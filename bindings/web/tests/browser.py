#!/usr/bin/env python3
"""Opens ../index.html in each browser that is installed, headless, hands it files, and compares what it shows with the
folder's answers.json.

usage: bindings/web/tests/browser.py [--only chromium|firefox] FOLDER
       bindings/web/tests/browser.py [--only chromium|firefox] --picture PICTURE.png WIDTH FILE ..

The second drops files onto the page, and saves a picture of it as a window of this width shows it. The page loads from this
computer alone.
"""
import argparse
import hashlib
import json
import pathlib
import re
import subprocess
import sys
import tempfile

from chromium import Chromium, chromium
from firefox import Firefox, firefox
from looks import faults_of_looks, loaded_again, names
from page import FILES, WEB, Server, choose, drop, open_page, set_checked, shown, wait_until_shown

FILES_AT_ONCE = 100


def is_same(page, meant):
    """Whether a page is shown as it is meant: a picture, or a text that ends with the error's."""
    return page.endswith(meant) if isinstance(page, str) and isinstance(meant, str) else page == meant


def are_same(pages, meant, in_order):
    if not in_order:
        pages, meant = sorted(map(str, pages)), sorted(map(str, meant))
    return len(pages) == len(meant) and all(map(is_same, pages, meant))


def meant_of_file(lenient, strict):
    """What a file is meant to show. Strict reading refuses one without pages where its segments end early, which is shown first."""
    if isinstance(lenient, str):
        return [lenient]
    ends = [f"PARSE_UNEXPECTED_EOF: {strict})"] if strict else []
    return lenient or [*ends, "no JBIG2 page in this file"]


def meant_of(folder):
    """What each file of the folder is meant to show, by its name. An embedded page with globals can't be handed over alone."""
    answers = json.loads((folder / "answers.json").read_text())
    meant = {}
    for name, readings in answers["files"].items():
        if not (folder / name.replace(".page.", ".globals.")).exists() or ".page." not in name:
            meant[name] = meant_of_file(readings["lenient"], readings["strict"])
    return {**meant, **answers["pdf"]}


# A page of 8 by 1, a dictionary that wants a table which isn't there, a region of one black pixel, and bytes that are no segment.
DAMAGED = (
    bytes.fromhex("00000000 30 00 01 00000013 00000008 00000001" + "00" * 11)
    + bytes.fromhex("00000001 00 00 01 0000000F 0009 00000001 00000001 5F80800040")
    + bytes.fromhex("00000002 26 00 01 0000001A 00000001 00000001 000000000000000000 00 03FFFDFF02FEFEFE")
    + b" " * 16
)
TEXTS = dict(re.findall(r'\["(\w+)", "([^"]*)"\]', (WEB / "errors.js").read_text("utf-8")))
LACKS = [f"{error}: {TEXTS[error]}" for error in ("HUFFMAN_INVALID_SELECTION", "SEGMENT_INVALID_REFERENCE")]


def shows_what_is_left(browser, folder):
    """Whether a damaged page is shown with what it lacks, and refused where the page isn't asked for what is left."""
    outcomes = []
    for salvage in True, False:
        file = folder / f"damaged, {'left' if salvage else 'refused'}.jb2"
        file.write_bytes(DAMAGED)
        set_checked(browser, "salvage", salvage)
        drop(browser, [file])
        text = browser.evaluate('document.querySelector("figcaption").textContent')
        [page] = shown(browser)[file.name]
        outcomes.append((page, [lack in text for lack in LACKS]))
    dot = [8, 1, hashlib.sha256(b"\x80").hexdigest()]
    return outcomes[0] == (dot, [True, True]) and isinstance(outcomes[1][0], str)


# A page of 1 by 65535 pixels with a region of 65535 by 65535, which runs for minutes.
SLOW = (
    bytes.fromhex("974A42320D0A1A0A 01 00000001")
    + bytes.fromhex("00000000 30 00 01 00000013 00000001 0000FFFF" + "00" * 11)
    + bytes.fromhex("00000001 26 00 01 0000001E 0000FFFF 0000FFFF" + "00" * 9 + "04 03FFFDFF02FEFEFE 0000FFAC")
    + bytes.fromhex("00000002 31 00 01 00000000 00000003 33 00 00 00000000")
)


def goes_on(browser, folder):
    """What is wrong where a file can't be read, takes long or is stopped: the files after it have to be shown all the same."""
    slow, good = folder / "slow.jb2", folder / "good.jb2"
    slow.write_bytes(SLOW)
    good.write_bytes((folder / "t88-h1.jb2").read_bytes())
    unreadable = folder / "a folder"
    unreadable.mkdir(exist_ok=True)
    faults = []

    def look(name, file, text):
        wait_until_shown(browser, [good])
        pages = shown(browser)
        said = [text in page for page in pages.get(file.name, []) if isinstance(page, str)]
        if said != [True] or len(pages.get(good.name, [])) != 3:
            faults.append(f"{name}: {pages}")

    set_seconds(browser, 1000)
    if browser.drops_folders:
        browser.drop([unreadable, good])
        look("a folder", unreadable, "can't be read")
    browser.drop([slow, good])
    look("a file of too much work", slow, "WORK_LIMIT_REACHED: more work than the limit of 16777216 units")
    set_checked(browser, "limited", False)
    # A busy machine may take more than a second for the good file too.
    set_seconds(browser, 1)
    browser.drop([slow])
    set_seconds(browser, 1000)
    browser.drop([good])
    look("a slow file", slow, "page 1 of 1: stopped, since a page took more than 1 seconds")
    browser.drop([slow, good])
    # The good file is shown while the slow one runs, which can be stopped then.
    browser.wait_for('document.querySelectorAll("section:last-child figure").length === 3 && document.querySelectorAll(".stop").length === 1')
    faults += names(browser)
    browser.evaluate('document.querySelector(".stop").click()')
    look("a file that is stopped", slow, "stopped")
    return faults + clears(browser, slow, good)


def set_seconds(browser, seconds):
    browser.evaluate(f'document.querySelector("#seconds").value = {seconds}')


def clears(browser, slow, good):
    """What is wrong where all is cleared away while a file runs and another waits: a later file has to be shown all the same."""
    browser.drop([slow, slow])
    # After two seconds the second one is decoded beside the first.
    browser.wait_for('/^slow.jb2.* being decoded/.test(document.querySelector("#note").textContent)')
    browser.evaluate('document.querySelector("#clear").click()')
    browser.wait_for('document.querySelector("#stop-all").disabled')
    note = browser.evaluate('document.querySelector("#note").textContent')
    drop(browser, [good])
    pages = shown(browser)
    is_shown = note == "" and list(pages) == [good.name] and len(pages[good.name]) == 3
    return [] if is_shown else [f"all is cleared away: {note!r}, {pages}"]


def faults_from_a_folder(browser, folder):
    """What is wrong with the page of one file, which is opened without a server, and with the page that needs one."""
    page, file = folder / "one file.html", folder / "t88-h1.jb2"
    made = subprocess.run([sys.executable, WEB / "one_file.py"], check=True, stdout=subprocess.PIPE)
    page.write_bytes(made.stdout)
    faults = []
    browser.open(page.as_uri())
    browser.wait_for('location.protocol === "file:" && document.querySelector("#choose") && !document.querySelector("#unloaded")')
    # The worker has its place once for all files: what has one stays in memory.
    browser.evaluate('void (URL.createObjectURL = () => { throw new Error("another copy"); })')
    drop(browser, [file])
    pages = shown(browser)
    if pages != {file.name: meant_of(folder)[file.name]}:
        faults.append(f"the page of one file shows {pages}")
    browser.open((WEB / "index.html").as_uri())
    # Where a browser loads no modules from a folder, the page says so.
    if not browser.loads_from_folders:
        hint = 'document.querySelector("#unloaded")'
        browser.wait_for(f'{hint} && getComputedStyle({hint}).visibility === "visible"')
    return faults


def test(browser, folder):
    """Compares all that is shown, and returns the status."""
    meant = meant_of(folder)
    again = loaded_again(browser)
    shows_damage = shows_what_is_left(browser, folder)
    if not shows_damage:
        print("a damaged page is not shown as it is meant")
    faults = [f"the page doesn't go on after {fault}" for fault in goes_on(browser, folder)] + faults_of_looks(browser, folder)
    for fault in again + faults:
        print(fault)
    # What jbig2-decode draws leniently, without a limit of work.
    set_checked(browser, "salvage", False)
    names, wrong = list(meant), []
    for begin in range(0, len(names), FILES_AT_ONCE):
        some = names[begin : begin + FILES_AT_ONCE]
        # By turns in the two ways that a user has.
        give = drop if begin // FILES_AT_ONCE % 2 else choose
        give(browser, [folder / name for name in some])
        pages = shown(browser)
        wrong += [name for name in some if not are_same(pages.get(name, []), meant[name], name.endswith(".jb2"))]
    for name in wrong:
        print(f"differs: {name}")
    others = Server.asked - {f"GET {name}" for name in FILES}
    if others:
        print(f"the page has asked for more than its own files: {others}")
    for fault in (without_server := faults_from_a_folder(browser, folder)):
        print(fault)
    print(f"{browser.name}: {len(names) - len(wrong)} files are shown as they are meant, {len(wrong)} not")
    return 1 if wrong or others or not names or not shows_damage or again or faults or without_server else 0


def take_picture(browser, picture, width, files):
    browser.resize(width, 900)
    drop(browser, files)
    # As the page looks at its pictures for the first time it takes those away that are out of sight.
    browser.evaluate("new Promise((resolve) => setTimeout(resolve, 500))")
    browser.evaluate('dispatchEvent(new Event("beforeprint"))')
    pathlib.Path(picture).write_bytes(browser.picture())


def in_browser(kind, do):
    """What `do` returns for a browser of this kind that shows the page."""
    with tempfile.TemporaryDirectory(ignore_cleanup_errors=True) as profile:
        browser = kind(profile)
        try:
            open_page(browser)
            return do(browser)
        finally:
            browser.close()


def installed(wanted):
    """The browsers that are installed, or the one of them that is wanted."""
    kinds = []
    for program, kind in (chromium, Chromium), (firefox, Firefox):
        if wanted in (None, kind.name.lower()):
            if program():
                kinds.append(kind)
            else:
                print(f"bindings/web/test: skipped: the page in {kind.name}, which is not installed")
    return kinds


def main():
    parser = argparse.ArgumentParser(usage=__doc__.split("usage: ")[1])
    parser.add_argument("--only", choices=("chromium", "firefox"))
    parser.add_argument("--picture", nargs=2)
    parser.add_argument("paths", nargs="+", type=pathlib.Path)
    options = parser.parse_args()
    kinds = installed(options.only)
    if options.picture:
        picture, width = options.picture
        in_browser(kinds[0], lambda browser: take_picture(browser, picture, int(width), options.paths))
        return 0
    return max([in_browser(kind, lambda browser: test(browser, *options.paths)) for kind in kinds], default=0)


if __name__ == "__main__":
    sys.exit(main())
