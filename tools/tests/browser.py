"""A browser without a window, for the tests of pages. JavaScript expressions read the contents of a page.

It is a chromium (`--remote-debugging-pipe`), which reads commands from its file 3 and writes answers to its file 4,
each a JSON text with a zero byte after it."""
import base64
import fcntl
import json
import os
import shutil
import subprocess
import tempfile

NAMES = ("chromium", "chromium-browser", "google-chrome")
WORDS = ("--headless", "--no-sandbox", "--disable-gpu", "--hide-scrollbars", "--remote-debugging-pipe",
         "--window-size=1500,900", "--no-first-run", "--disable-extensions", "--disable-background-networking")
# Above the numbers that files of a process have at its beginning.
HIGH = 20


def found():
    """The browser that is installed, or None."""
    return next(filter(None, map(shutil.which, NAMES)), None)


def pipe():
    """The ends of a pipe, with high numbers: the one to read, and the one to write."""
    low = os.pipe()
    ends = [fcntl.fcntl(end, fcntl.F_DUPFD_CLOEXEC, HIGH) for end in low]
    for end in low:
        os.close(end)
    return ends


class Fault(Exception):
    """The browser answered with an error; says which."""


class Browser:
    """A page in a browser."""

    def __init__(self, program, words=()):
        (its_in, given), (written, its_out) = pipe(), pipe()
        self.folder = tempfile.TemporaryDirectory(ignore_cleanup_errors=True)

        def joined():
            os.dup2(its_in, 3)
            os.dup2(its_out, 4)
        self.process = subprocess.Popen([program, *WORDS, *words, f"--user-data-dir={self.folder.name}", "about:blank"],
                                        stdin=subprocess.DEVNULL, stdout=subprocess.DEVNULL, stderr=subprocess.DEVNULL,
                                        preexec_fn=joined, pass_fds=(3, 4))
        os.close(its_in)
        os.close(its_out)
        self.given, self.written, self.count, self.waiting, self.session = given, written, 0, b"", None
        page = next(it for it in self.ask("Target.getTargets")["targetInfos"] if it["type"] == "page")
        self.session = self.ask("Target.attachToTarget", targetId=page["targetId"], flatten=True)["sessionId"]

    def ask(self, method, **how):
        """What the browser answers to a command."""
        self.count += 1
        command = {"id": self.count, "method": method, "params": how}
        if self.session:
            command["sessionId"] = self.session
        os.write(self.given, json.dumps(command).encode() + b"\0")
        while True:
            answer = self.next()
            if answer.get("id") == self.count:
                if "error" in answer:
                    raise Fault(f"{method}: {answer['error']['message']}")
                return answer["result"]

    def next(self):
        """The next thing that the browser says."""
        while b"\0" not in self.waiting:
            more = os.read(self.written, 65536)
            if not more:
                raise Fault("the browser ended")
            self.waiting += more
        text, _, self.waiting = self.waiting.partition(b"\0")
        return json.loads(text)

    def open(self, address):
        """Opens a page again from the start, and waits until it is loaded."""
        self.ask("Page.enable")
        self.ask("Page.navigate", url="about:blank")
        self.ask("Page.navigate", url=address)
        self.value("new Promise(done => document.readyState === 'complete' ? done() : addEventListener('load', done))")
        self.frame()

    def frame(self):
        """Waits until the page was laid out and drawn."""
        self.value("new Promise(done => requestAnimationFrame(() => requestAnimationFrame(() => done(0))))")

    def value(self, expression):
        """The value of an expression in the page."""
        found = self.ask("Runtime.evaluate", expression=expression, returnByValue=True, awaitPromise=True)
        if "exceptionDetails" in found:
            raise Fault(found["exceptionDetails"].get("exception", {}).get("description", str(found)))
        return found["result"].get("value")

    def place(self, expression):
        """The middle of an element, for the pointer."""
        return self.value(f"(() => {{ const it = ({expression}).getBoundingClientRect();"
                          " return [it.left + it.width / 2, it.top + it.height / 2]; })()")

    def point(self, expression, is_click=False):
        """Moves the pointer to an element, and clicks there."""
        x, y = self.place(expression)
        self.ask("Input.dispatchMouseEvent", type="mouseMoved", x=x, y=y)
        for what in ("mousePressed", "mouseReleased") if is_click else ():
            self.ask("Input.dispatchMouseEvent", type=what, x=x, y=y, button="left", clickCount=1)
        self.frame()

    def press(self, key):
        """Presses a key."""
        text = {"text": key} if len(key) == 1 else {}
        self.ask("Input.dispatchKeyEvent", type="keyDown", key=key, **text)
        self.ask("Input.dispatchKeyEvent", type="keyUp", key=key)
        self.frame()

    def dark(self):
        """Has pages be dark."""
        self.ask("Emulation.setEmulatedMedia", features=[{"name": "prefers-color-scheme", "value": "dark"}])

    def picture(self, file):
        """Writes what is seen into a file."""
        with open(file, "wb") as out:
            out.write(base64.b64decode(self.ask("Page.captureScreenshot", format="png")["data"]))

    def close(self):
        """Ends the browser."""
        self.process.terminate()
        self.process.wait()
        os.close(self.given)
        os.close(self.written)
        self.folder.cleanup()
