"""The page in a browser: how it is served, handed files, and read."""
import functools
import http.server
import json
import pathlib
import threading

WEB = pathlib.Path(__file__).resolve().parents[1]
FILES = {
    "/" + str(path.relative_to(WEB))
    for kind in ("html", "css", "js", "wasm")
    for path in WEB.rglob(f"*.{kind}")
    if "tests" not in path.relative_to(WEB).parts
}
# All that is shown: the file, the text and the size of each picture, and the sum of its packed rows, black 1.
SHOWN = """(async () => {
  const sumOf = async (canvas) => {
    const { data } = canvas.getContext("2d").getImageData(0, 0, canvas.width, canvas.height);
    const pixels = new Uint32Array(data.buffer);
    const [white, black] = new Uint32Array(new Uint8Array([255, 255, 255, 255, 0, 0, 0, 255]).buffer);
    const stride = Math.ceil(canvas.width / 8);
    const rows = new Uint8Array(stride * canvas.height);
    for (let y = 0, at = 0; y < canvas.height; y++)
      for (let x = 0; x < canvas.width; x++, at++) {
        if (pixels[at] !== white && pixels[at] !== black) return "neither black nor white";
        if (pixels[at] === black) rows[y * stride + (x >> 3)] |= 128 >> (x & 7);
      }
    const sum = new Uint8Array(await crypto.subtle.digest("SHA-256", rows));
    return [...sum].map((byte) => byte.toString(16).padStart(2, "0")).join("");
  };
  const shown = [];
  // Pictures that are out of sight are drawn then.
  dispatchEvent(new Event("beforeprint"));
  const figures = [...document.querySelectorAll("figure")].map((figure) => [figure, figure.querySelector("canvas")]);
  for (const [figure, canvas] of figures) {
    const page = canvas ? [canvas.width, canvas.height, await sumOf(canvas)] : figure.textContent;
    shown.push([figure.dataset.file, page]);
  }
  return JSON.stringify(shown);
})()"""


class Server(http.server.SimpleHTTPRequestHandler):
    """Serves the page, and notes what it asks for."""

    asked = set()

    def log_message(self, _form, *words):
        if self.path != "/favicon.ico":
            self.asked.add(f"{self.command} {self.path}")


def serve():
    """Serves the page, and returns its address."""
    server = http.server.ThreadingHTTPServer(("127.0.0.1", 0), functools.partial(Server, directory=WEB))
    threading.Thread(target=server.serve_forever, daemon=True).start()
    return f"http://127.0.0.1:{server.server_port}/index.html"


def open_page(browser):
    browser.open(serve())
    browser.wait_for('document.readyState === "complete" && !!document.querySelector("#choose")')


def wait_until_shown(browser, files):
    name = json.dumps(f"{files[-1].name} is done.")
    browser.wait_for(f'document.querySelector("#note").textContent.startsWith({name})')


def choose(browser, files):
    """Hands the page files as a user's choice."""
    browser.choose("#choose", files)
    wait_until_shown(browser, files)


def drop(browser, files):
    """Drops files onto the page, and waits for their pages."""
    browser.drop(files)
    wait_until_shown(browser, files)


def shown(browser):
    """The pages that the page shows, by their file's name, and takes them away."""
    pages = {}
    for file, page in json.loads(browser.evaluate(SHOWN)):
        pages.setdefault(file, []).append(page)
    browser.evaluate('document.querySelector("#clear").click()')
    return pages


def set_checked(browser, box, checked):
    browser.evaluate(f'document.querySelector("#{box}").checked = {json.dumps(checked)}')
