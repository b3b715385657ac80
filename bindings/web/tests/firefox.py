"""Headless Firefox, by its own protocol, Marionette."""
import base64
import json
import pathlib
import shutil
import socket
import subprocess
import time

from driven import SECONDS, Driven

# Its profile: any free port, files are saved without a question, and no page is kept for a user who comes back.
PREFERENCES = {
    "marionette.port": 0,
    "browser.download.folderList": 2,
    "browser.download.always_ask_before_handling_new_types": False,
    "browser.download.alwaysOpenPanel": False,
    "browser.sessionhistory.max_total_viewers": 0,
}
# The elements that have a role and a name, but for pictures, which come and go.
NAMED = "button, a, input, select, progress, nav, header, main, section, [role]:not(canvas)"
# Keys, as WebDriver writes them.
KEYS = {"Tab": "\ue004", "Enter": "\ue007"}
SCHEMES = {"dark": 0, "light": 1, "": 2}


def firefox():
    """The browser's program, or None."""
    return shutil.which("firefox") or shutil.which("firefox-esr")


class Firefox(Driven):
    """A browser with one empty page."""

    name = "Firefox"
    drops_folders = False
    # That which is driven does, others don't.
    loads_from_folders = True

    def __init__(self, profile):
        lines = [f"user_pref({json.dumps(name)}, {json.dumps(value)});\n" for name, value in PREFERENCES.items()]
        pathlib.Path(profile, "user.js").write_text("".join(lines))
        words = [firefox(), "--headless", "--no-remote", "--marionette", "--remote-allow-system-access", "--profile", profile]
        self.process = subprocess.Popen(words, stdout=subprocess.DEVNULL, stderr=subprocess.DEVNULL)
        self.socket = socket.create_connection(("127.0.0.1", self.port(pathlib.Path(profile, "MarionetteActivePort"))))
        self.socket.settimeout(SECONDS)
        self.number, self.pending = 0, b""
        self.read()
        self.call("WebDriver:NewSession", capabilities={})
        self.call("WebDriver:SetTimeouts", script=1000 * SECONDS, pageLoad=1000 * SECONDS, implicit=0)
        self.resize(900, 900)

    def port(self, path):
        """The port that it writes to its profile when it is ready."""
        for _ in range(20 * SECONDS):
            if path.exists() and (text := path.read_text()):
                return int(text)
            time.sleep(0.05)
        raise RuntimeError(f"Firefox has not started within {SECONDS} seconds")

    def read(self):
        """The next message, which begins with its length."""
        while b":" not in self.pending:
            self.receive()
        length, self.pending = self.pending.split(b":", 1)
        while len(self.pending) < int(length):
            self.receive()
        message, self.pending = self.pending[: int(length)], self.pending[int(length) :]
        return json.loads(message)

    def receive(self):
        some = self.socket.recv(1 << 20)
        if not some:
            raise RuntimeError("the browser has ended")
        self.pending += some

    def call(self, method, **parameters):
        """What the browser returns for a command."""
        self.number += 1
        message = json.dumps([0, self.number, method, parameters]).encode()
        self.socket.sendall(b"%d:%s" % (len(message), message))
        _, _, error, result = self.read()
        if error:
            raise RuntimeError(f"{method}: {error['message']}")
        return result

    def value(self, method, **parameters):
        return self.call(method, **parameters)["value"]

    def evaluate(self, expression):
        """The value of an expression of JavaScript, or what its promise comes to."""
        return self.value("WebDriver:ExecuteScript", script=f"return ({expression})", args=[], sandbox=None)

    def prefer(self, kind, name, value):
        """Sets a preference of the browser."""
        self.call("Marionette:SetContext", value="chrome")
        script = f"Services.prefs.set{kind}Pref({json.dumps(name)}, {json.dumps(value)})"
        self.value("WebDriver:ExecuteScript", script=script, args=[])
        self.call("Marionette:SetContext", value="content")

    def open(self, url):
        self.call("WebDriver:Navigate", url=url)

    def elements(self, selector):
        found = self.call("WebDriver:FindElements", using="css selector", value=selector)
        return [identity for element in found for identity in element.values()]

    def choose(self, selector, files):
        """Hands a field files as a user's choice."""
        [field] = self.elements(selector)
        self.call("WebDriver:ElementSendKeys", id=field, text="\n".join(str(file.resolve()) for file in files))

    def drop(self, files):
        """Drops files onto the page: a script does, with files that a field of its own was handed."""
        self.evaluate("""document.body.append(Object.assign(document.createElement("input"), { type: "file", multiple: true, id: "dropped" }))""")
        self.choose("#dropped", files)
        self.evaluate(
            """(() => {
              const field = document.querySelector("#dropped");
              const dataTransfer = new DataTransfer();
              for (const file of field.files) dataTransfer.items.add(file);
              field.remove();
              document.body.dispatchEvent(new DragEvent("drop", { dataTransfer, bubbles: true, cancelable: true }));
            })()"""
        )

    def press(self, key):
        """Presses a key of KEYS, and lets it go."""
        presses = [{"type": kind, "value": KEYS[key]} for kind in ("keyDown", "keyUp")]
        self.call("WebDriver:PerformActions", actions=[{"type": "key", "id": "keyboard", "actions": presses}])

    def resize(self, width, height):
        """Gives the page this size."""
        extra = self.evaluate("[outerWidth - innerWidth, outerHeight - innerHeight]")
        self.call("WebDriver:SetWindowRect", width=width + extra[0], height=height + extra[1])

    def set_scheme(self, scheme):
        """Sets the colours that a user prefers, or none."""
        self.prefer("Int", "layout.css.prefers-color-scheme.content-override", SCHEMES[scheme])

    def save_to(self, folder):
        """Where files are saved."""
        self.prefer("String", "browser.download.dir", str(folder))

    def roles(self):
        """The role and the name of what a screen reader reads."""
        return [tuple(self.value(f"WebDriver:GetComputed{what}", id=node) for what in ("Role", "Label")) for node in self.elements(NAMED)]

    def printed(self):
        """The page as a PDF file."""
        return base64.b64decode(self.value("WebDriver:Print"))

    def picture(self):
        """The whole page as a PNG file."""
        return base64.b64decode(self.value("WebDriver:TakeScreenshot", full=True))

    def close(self):
        """Ends the browser, so that its profile can be removed."""
        try:
            self.call("Marionette:Quit", flags=["eForceQuit"])
            self.process.wait(SECONDS)
        except (RuntimeError, OSError, subprocess.TimeoutExpired):
            self.process.kill()
            self.process.wait()
        self.socket.close()
