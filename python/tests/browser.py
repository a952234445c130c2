"""A browser without a window, by the DevTools protocol over two pipes: Chromium, where the machine has it."""

import base64
import json
import os
import shutil
import subprocess
import sys
import tempfile

#: The first of these that is on the PATH.
NAMES = ("chromium", "chromium-browser", "google-chrome")
#: DevTools reads file descriptor 3 and writes 4, so the pipes are moved there before the browser is started.
START = """import fcntl, os, sys
to_read, to_write = (fcntl.fcntl(int(word), fcntl.F_DUPFD_CLOEXEC, 10) for word in sys.argv[1:3])
os.dup2(to_read, 3), os.dup2(to_write, 4)
os.execv(sys.argv[3], sys.argv[3:])"""


def found():
    """The browser's command, or None."""
    return next(filter(None, map(shutil.which, NAMES)), None)


class Browser:
    """One that is started, with one page. What a page says on its console and what it asks for is kept in `events`."""

    def __init__(self):
        self.folder = tempfile.mkdtemp()
        (to_read, self.to), (self.by, to_write) = os.pipe(), os.pipe()
        words = [sys.executable, "-c", START, str(to_read), str(to_write), found(), "--headless=new", "--no-sandbox",
                 "--disable-gpu", "--disable-dev-shm-usage", "--hide-scrollbars", "--remote-debugging-pipe",
                 "--disable-background-networking", "--no-first-run", f"--user-data-dir={self.folder}", "about:blank"]
        self.process = subprocess.Popen(words, pass_fds=(to_read, to_write), stdout=subprocess.DEVNULL,
                                        stderr=subprocess.DEVNULL)
        os.close(to_read)
        os.close(to_write)
        self.held, self.count, self.events, self.session = b"", 0, [], None
        target = self.call("Target.createTarget", url="about:blank")["targetId"]
        self.session = self.call("Target.attachToTarget", targetId=target, flatten=True)["sessionId"]
        for domain in ("Page", "Runtime", "Log", "Network"):
            self.call(domain + ".enable")

    def close(self):
        """Ends it."""
        self.session = None
        self.call("Browser.close")
        self.process.wait()
        os.close(self.to)
        os.close(self.by)
        shutil.rmtree(self.folder, ignore_errors=True)

    def heard(self):
        """The next message."""
        while b"\0" not in self.held:
            more = os.read(self.by, 1 << 16)
            if not more:
                raise OSError("the browser ended")
            self.held += more
        message, self.held = self.held.split(b"\0", 1)
        return json.loads(message)

    def call(self, method, **words):
        """What a method of the protocol gives."""
        self.count += 1
        message = {"id": self.count, "method": method, "params": words}
        if self.session:
            message["sessionId"] = self.session
        os.write(self.to, json.dumps(message).encode() + b"\0")
        while True:
            said = self.heard()
            if said.get("id") == self.count:
                if "error" in said:
                    raise OSError(f"{method}: {said['error']}")
                return said["result"]
            self.events.append(said)

    def open(self, path, width=1280, dark=False, printed=False):
        """Shows a page at a width, and keeps the events since."""
        self.events = []
        self.call("Emulation.setDeviceMetricsOverride", width=width, height=900, deviceScaleFactor=1, mobile=False)
        scheme = [{"name": "prefers-color-scheme", "value": "dark" if dark else "light"}]
        self.call("Emulation.setEmulatedMedia", media="print" if printed else "", features=scheme)
        self.call("Page.navigate", url=f"file://{path}")
        while not any(event.get("method") == "Page.loadEventFired" for event in self.events):
            self.events.append(self.heard())

    def evaluate(self, expression):
        """The value of an expression in the page."""
        found = self.call("Runtime.evaluate", expression=expression, returnByValue=True)
        if "exceptionDetails" in found:
            raise OSError(str(found["exceptionDetails"]))
        return found["result"]["value"]

    def picture(self, path, clip=None):
        """Writes a picture of the whole page, or of a part of it."""
        size = self.call("Page.getLayoutMetrics")["cssContentSize"]
        clip = clip or {"x": 0, "y": 0, "width": size["width"], "height": size["height"]}
        shot = self.call("Page.captureScreenshot", format="png", captureBeyondViewport=True, clip={**clip, "scale": 1})
        with open(path, "wb") as out:
            out.write(base64.b64decode(shot["data"]))
