#!/usr/bin/env python3
"""Runs unpacking.mjs in each browser that is installed, headless, and prints its faults. What unpacks is the browser's own.

usage: bindings/web/tests/unpacking.py
"""
import functools
import http.server
import json
import pathlib
import queue
import shutil
import subprocess
import sys
import tempfile
import threading

from chromium import chromium

WEB = pathlib.Path(__file__).resolve().parents[1]
SECONDS = 300
PAGE = b"""<!doctype html><script type="module">
const send = (faults) => fetch("/faults", { method: "POST", body: JSON.stringify(faults) });
import("/tests/unpacking.mjs").then(({ faultsOfUnpacking }) => faultsOfUnpacking()).then(send, (error) => send([String(error)]));
</script>"""
faults = queue.Queue()


class Server(http.server.SimpleHTTPRequestHandler):
    """Serves the page with its modules, and takes what it finds."""

    extensions_map = {**http.server.SimpleHTTPRequestHandler.extensions_map, ".mjs": "text/javascript"}

    def log_message(self, _form, *_words):
        pass

    def do_GET(self):
        if self.path != "/unpacking.html":
            super().do_GET()
            return
        self.send_response(200)
        self.send_header("Content-Type", "text/html")
        self.end_headers()
        self.wfile.write(PAGE)

    def do_POST(self):
        faults.put(json.loads(self.rfile.read(int(self.headers["Content-Length"]))))
        self.send_response(204)
        self.end_headers()


def browsers():
    """The words that start each browser with a profile, or None where it isn't installed."""
    firefox = shutil.which("firefox") or shutil.which("firefox-esr")
    return {
        "Chromium": chromium()
        and [chromium(), "--headless=new", "--no-sandbox", "--disable-gpu", "--no-first-run", "--user-data-dir="],
        "Firefox": firefox and [firefox, "--headless", "--no-remote", "--profile", ""],
    }


def faults_in(words, address):
    """What the page finds in a browser."""
    with tempfile.TemporaryDirectory(ignore_cleanup_errors=True) as profile:
        words = [*words[:-1], words[-1] + profile, address]
        process = subprocess.Popen(words, stdout=subprocess.DEVNULL, stderr=subprocess.DEVNULL)
        try:
            return faults.get(timeout=SECONDS)
        except queue.Empty:
            return [f"no result after {SECONDS} seconds"]
        finally:
            process.terminate()
            process.wait(SECONDS)


def main():
    server = http.server.ThreadingHTTPServer(("127.0.0.1", 0), functools.partial(Server, directory=WEB))
    threading.Thread(target=server.serve_forever, daemon=True).start()
    address = f"http://127.0.0.1:{server.server_port}/unpacking.html"
    status = 0
    for name, words in browsers().items():
        if not words:
            print(f"bindings/web/test: skipped: unpacking in {name}, which is not installed")
            continue
        found = faults_in(words, address)
        for fault in found:
            print(f"unpacking in {name}: {fault}")
        print(f"unpacking in {name}: {len(found)} faults")
        status = status or int(bool(found))
    return status


if __name__ == "__main__":
    sys.exit(main())
