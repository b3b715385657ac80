#!/usr/bin/env python3
"""Prints the page as one file, which a browser opens from a folder, without a server: python3 bindings/web/one_file.py
>jbig2.html

Browsers load no modules from a folder, and Chromium no worker that is a module. So each module becomes a function that
returns what it exports, after those that it imports. The worker's text and the WebAssembly module are in the file too.
"""
import base64
import pathlib
import re
import sys

WEB = pathlib.Path(__file__).resolve().parent
IMPORT = re.compile(r'^import (\{[^}]*\}) from "([^"]+)";\n', re.M)
EXPORT = re.compile(r"^export (?=(?:async )?(?:function\*?|class|const) )", re.M)
EXPORTED = re.compile(r"^export (?:async )?(?:function\*?|class|const) (\w+|\[[^\]]*\])|^export \{([^}]*)\};$", re.M)
MODULE = 'new URL("hayro_jbig2.wasm", import.meta.url)'
WORKER = 'new Worker(new URL("worker.js", import.meta.url), { type: "module" })'
POLICY = re.compile(r'(http-equiv="Content-Security-Policy" content=)"[^"]*"')
# Nothing comes from elsewhere: the scripts and the style are in the file, the worker and the module in its scripts.
ALLOWED = "; ".join(
    [
        "default-src 'none'",
        "script-src 'unsafe-inline' 'wasm-unsafe-eval' blob:",
        "worker-src blob:",
        "connect-src data:",
        "style-src 'unsafe-inline'",
        "img-src data:",
    ]
)


def read(name):
    return (WEB / name).read_text(encoding="utf-8")


def name_of(path):
    """The name of what a module exports, as one of a variable."""
    return "module_" + re.sub(r"\W", "_", str(path))


def imported(path, text):
    """The paths of the modules that a module imports."""
    return [str((WEB / path).parent.joinpath(source).resolve().relative_to(WEB)) for _, source in IMPORT.findall(text)]


def without_imports(path, text):
    """A module's text with what it imports taken from the variables of these modules."""
    paths = iter(imported(path, text))
    return IMPORT.sub(lambda found: f"const {found[1]} = {name_of(next(paths))};\n", text)


def exports_of(text):
    """The names that a module exports."""
    names = [one or several for one, several in EXPORTED.findall(text)]
    return [name.strip() for part in names for name in part.strip("[]").split(",") if name.strip()]


def bundled(path, done):
    """A module after those that it imports, each once."""
    text = read(path)
    before = [bundled(other, done) for other in imported(path, text) if other not in done]
    if path in done:
        return "".join(before)
    done.add(path)
    body = re.sub(r"^export \{[^}]*\};\n", "", EXPORT.sub("", without_imports(path, text)), flags=re.M)
    whole = f"const {name_of(path)} = (() => {{\n{body}return {{ {', '.join(exports_of(text))} }};\n}})();\n"
    return "".join(before) + whole


def script(path):
    """The text of a script with all that it imports."""
    text, done = read(path), set()
    before = "".join(bundled(other, done) for other in imported(path, text) if other not in done)
    return before + without_imports(path, text)


def escaped(text):
    """A script's text within HTML, which would end at such a word."""
    if re.search(r"</script|<!--", text, re.I):
        sys.exit("bindings/web/one_file.py: a script has a word that ends it within HTML")
    return text


def replaced(text, old, new):
    if old not in text:
        sys.exit(f"bindings/web/one_file.py: nothing has {old}")
    return text.replace(old, new)


def main():
    module = base64.b64encode((WEB / "hayro_jbig2.wasm").read_bytes()).decode()
    worker = f'const MODULE = "data:application/wasm;base64,{module}";\n{replaced(script("worker.js"), MODULE, "MODULE")}'
    # One copy of it for all workers: the browser keeps what has an address.
    place = 'const WORKER = URL.createObjectURL(new Blob([document.querySelector("#worker").textContent]));\n'
    page = place + replaced(script("page.js"), WORKER, "new Worker(WORKER)")
    scripts = f'<script type="text/plain" id="worker">\n"use strict";\n(async () => {{\n{escaped(worker)}}})();\n</script>\n'
    scripts += f'    <script type="module">\n{escaped(page)}</script>'
    html = POLICY.sub(rf'\1"{ALLOWED}"', read("index.html"))
    html = replaced(html, '<link rel="stylesheet" href="page.css">', f"<style>\n{read('page.css')}</style>")
    sys.stdout.write(replaced(html, '<script type="module" src="page.js"></script>', scripts))


if __name__ == "__main__":
    main()
