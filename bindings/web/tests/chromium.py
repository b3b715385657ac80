"""Headless Chromium, by its debugging protocol over a pipe."""
import base64
import json
import os
import select
import shutil
import subprocess

from driven import SECONDS, Driven


def chromium():
    """The browser's program, or None."""
    return next(filter(None, map(shutil.which, ("chromium", "chromium-browser", "google-chrome"))), None)


# The codes of keys, and the texts that they write.
KEYS = {"Tab": (9, ""), "Enter": (13, "\r")}


class Chromium(Driven):
    """A browser with one empty page."""

    name = "Chromium"
    drops_folders = True
    loads_from_folders = False

    def __init__(self, profile):
        to_child, self.into = os.pipe()
        self.out, from_child = os.pipe()

        def place_pipes():
            # Neither may lie where the other is going to.
            ends = os.dup(to_child), os.dup(from_child)
            os.dup2(ends[0], 3)
            os.dup2(ends[1], 4)

        words = [chromium(), "--headless=new", "--no-sandbox", "--disable-gpu", "--window-size=900,900", "--no-first-run"]
        words += ["--hide-scrollbars", "--remote-debugging-pipe", "--disable-features=BackForwardCache"]
        words += [f"--user-data-dir={profile}"]
        self.process = subprocess.Popen(words, preexec_fn=place_pipes, close_fds=False, stderr=subprocess.DEVNULL)
        os.close(to_child)
        os.close(from_child)
        self.number, self.pending, self.session = 0, b"", None
        target = self.call("Target.createTarget", url="about:blank")["targetId"]
        self.session = self.call("Target.attachToTarget", targetId=target, flatten=True)["sessionId"]
        self.call("Page.enable")

    def call(self, method, **parameters):
        """What the browser returns for a command."""
        self.number += 1
        message = {"id": self.number, "method": method, "params": parameters}
        if self.session:
            message["sessionId"] = self.session
        os.write(self.into, json.dumps(message).encode() + b"\0")
        while True:
            answer = self.read()
            if answer.get("id") == self.number:
                if "error" in answer:
                    raise RuntimeError(f"{method}: {answer['error']}")
                return answer["result"]

    def read(self):
        """The next message."""
        while b"\0" not in self.pending:
            if not select.select([self.out], [], [], SECONDS)[0]:
                raise RuntimeError(f"the browser has said nothing for {SECONDS} seconds")
            some = os.read(self.out, 1 << 20)
            if not some:
                raise RuntimeError("the browser has ended")
            self.pending += some
        line, self.pending = self.pending.split(b"\0", 1)
        return json.loads(line)

    def evaluate(self, expression):
        """The value of an expression of JavaScript, or what its promise comes to."""
        answer = self.call("Runtime.evaluate", expression=expression, returnByValue=True, awaitPromise=True)
        if "exceptionDetails" in answer:
            raise RuntimeError(answer["exceptionDetails"])
        return answer["result"].get("value")

    def open(self, url):
        self.call("Page.navigate", url=url)

    def choose(self, selector, files):
        """Hands a field files as a user's choice."""
        root = self.call("DOM.getDocument")["root"]["nodeId"]
        node = self.call("DOM.querySelector", nodeId=root, selector=selector)["nodeId"]
        self.call("DOM.setFileInputFiles", nodeId=node, files=[str(file.resolve()) for file in files])

    def drop(self, files):
        """Drops files onto the page."""
        data = {"items": [], "files": [str(file.resolve()) for file in files], "dragOperationsMask": 1}
        for kind in ("dragEnter", "dragOver", "drop"):
            self.call("Input.dispatchDragEvent", type=kind, x=200, y=200, data=data)

    def press(self, key):
        """Presses a key of KEYS, and lets it go."""
        code, text = KEYS[key]
        for kind in "keyDown", "keyUp":
            self.call("Input.dispatchKeyEvent", type=kind, key=key, code=key, windowsVirtualKeyCode=code, text=text)

    def resize(self, width, height):
        """Gives the page this size."""
        self.call("Emulation.setDeviceMetricsOverride", width=width, height=height, deviceScaleFactor=1, mobile=False)

    def set_scheme(self, scheme):
        """Sets the colours that a user prefers, or none."""
        features = [{"name": "prefers-color-scheme", "value": scheme}] if scheme else []
        self.call("Emulation.setEmulatedMedia", features=features)

    def save_to(self, folder):
        """Where files are saved."""
        self.call("Page.setDownloadBehavior", behavior="allow", downloadPath=str(folder))

    def roles(self):
        """The role and the name of what a screen reader reads."""
        nodes = self.call("Accessibility.getFullAXTree")["nodes"]
        return [(node["role"]["value"].lower(), node.get("name", {}).get("value", "")) for node in nodes if not node["ignored"]]

    def printed(self):
        """The page as a PDF file."""
        return base64.b64decode(self.call("Page.printToPDF")["data"])

    def picture(self):
        """The whole page as a PNG file: the window is as high, since a part outside of it may be missing in a picture."""
        self.resize(self.evaluate("innerWidth"), self.evaluate("document.documentElement.scrollHeight"))
        self.evaluate("new Promise((resolve) => requestAnimationFrame(() => requestAnimationFrame(resolve)))")
        return base64.b64decode(self.call("Page.captureScreenshot")["data"])

    def close(self):
        """Ends the browser with its child processes, so that its profile can be removed."""
        self.session = None
        try:
            self.call("Browser.close")
            self.process.wait(SECONDS)
        except (RuntimeError, OSError, subprocess.TimeoutExpired):
            self.process.kill()
            self.process.wait()
