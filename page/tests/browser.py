"""A browser without a window, driven over a pipe by the DevTools protocol."""
import base64
import json
import os
import select
import shutil
import signal
import subprocess
import tempfile

PAGE = os.path.dirname(os.path.dirname(os.path.abspath(__file__)))
ADDRESS = "file://" + PAGE + "/index.html"
# How long an answer of the browser may take.
SECONDS = 60


class Failed(Exception):
    """What the browser or the page says of an error."""


def chromium():
    """The command of Debian's Chromium, or None."""
    return shutil.which("chromium")


class Browser:
    """Chromium with one page. `with Browser() as page:` ends it, too."""

    def __init__(self):
        self.room = tempfile.mkdtemp()
        ours_in, theirs_out = os.pipe()
        theirs_in, ours_out = os.pipe()
        words = [chromium(), "--headless", "--disable-gpu", "--hide-scrollbars", "--force-device-scale-factor=1", "--force-color-profile=srgb",
                 "--font-render-hinting=none", "--disable-background-timer-throttling", "--disable-backgrounding-occluded-windows", "--disable-renderer-backgrounding",
                 "--user-data-dir=" + self.room, "--remote-debugging-pipe", "about:blank"]
        words += ["--no-sandbox"] if os.geteuid() == 0 else []

        def lay():
            # The protocol reads 3 and writes 4. The copies above keep the two from being closed over each other.
            high_in, high_out = os.dup2(theirs_in, 13), os.dup2(theirs_out, 14)
            os.dup2(high_in, 3)
            os.dup2(high_out, 4)
        self.process = subprocess.Popen(words, preexec_fn=lay, close_fds=False, start_new_session=True, stdin=subprocess.DEVNULL,
                                        stdout=subprocess.DEVNULL, stderr=subprocess.DEVNULL)
        os.close(theirs_in)
        os.close(theirs_out)
        self.out, self.given, self.number, self.session, self.errors = ours_out, os.fdopen(ours_in, "rb"), 0, None, []
        self.kept, self.is_loaded = b"", False
        target = self.call("Target.createTarget", url="about:blank")["targetId"]
        self.session = self.call("Target.attachToTarget", targetId=target, flatten=True)["sessionId"]
        self.call("Page.enable")
        self.call("Runtime.enable")

    def __enter__(self):
        return self

    def __exit__(self, *_):
        self.session = None
        try:
            self.call("Browser.close")
            self.process.wait(10)
        except (Failed, OSError, subprocess.TimeoutExpired):
            os.killpg(self.process.pid, signal.SIGKILL)
            self.process.wait()
        os.close(self.out)
        self.given.close()
        shutil.rmtree(self.room, ignore_errors=True)

    def message(self):
        """The next message of the browser."""
        while b"\0" not in self.kept:
            if not select.select([self.given], [], [], SECONDS)[0]:
                raise Failed("the browser says nothing for %d seconds" % SECONDS)
            piece = os.read(self.given.fileno(), 1 << 20)
            if not piece:
                raise Failed("the browser has ended")
            self.kept += piece
        whole, self.kept = self.kept.split(b"\0", 1)
        said = json.loads(whole)
        self.is_loaded = self.is_loaded or said.get("method") == "Page.loadEventFired"
        if said.get("method") == "Runtime.exceptionThrown":
            details = said["params"]["exceptionDetails"]
            self.errors.append(details.get("exception", {}).get("description", details["text"]))
        return said

    def call(self, method, **words):
        """Calls a method, and gives its result."""
        self.number += 1
        said = {"id": self.number, "method": method, "params": words}
        if self.session:
            said["sessionId"] = self.session
        text = json.dumps(said).encode() + b"\0"
        while text:
            text = text[os.write(self.out, text):]
        while True:
            answer = self.message()
            if answer.get("id") == self.number:
                if "error" in answer:
                    raise Failed(answer["error"]["message"])
                return answer["result"]

    def evaluate(self, code):
        """The value of an expression in the page, once it is there where it is a promise."""
        made = self.call("Runtime.evaluate", expression=code, awaitPromise=True, returnByValue=True)
        if "exceptionDetails" in made:
            details = made["exceptionDetails"]
            raise Failed(details.get("exception", {}).get("description", details["text"]))
        return made["result"].get("value")

    def open(self, address=ADDRESS, width=1280, height=860, dark=False):
        """Opens an address in a window of this size, and waits for the first answer."""
        scheme = [{"name": "prefers-color-scheme", "value": "dark" if dark else "light"}]
        self.call("Emulation.setEmulatedMedia", features=scheme)
        self.call("Emulation.setDeviceMetricsOverride", width=width, height=height, deviceScaleFactor=1, mobile=False)
        self.navigate(address)
        self.settle()

    def navigate(self, address):
        """Loads an address anew."""
        for url in ("about:blank", address):
            self.is_loaded = False
            self.call("Page.navigate", url=url)
            while not self.is_loaded:
                self.message()

    def wait(self, condition, seconds=20):
        """Waits until something is so in the page."""
        code = """new Promise((resolve) => {
            const end = performance.now() + %d;
            const look = () => { let so = false; try { so = %s; } catch {} if (so || performance.now() > end) resolve(!!so); else setTimeout(look, 10); };
            look();
        })""" % (1000 * seconds, condition)
        if not self.evaluate(code):
            raise Failed("it never comes that " + condition)

    def settle(self):
        """Waits until all runs are shown, and what is drawn later, too."""
        self.wait("STATE.done === STATE.turn && STATE.turn > 0 && STATE.core.waiting.size === 0")

    def key(self, name, shift=False, text=""):
        """Presses a key."""
        codes = {"Tab": 9, "Enter": 13, "Home": 36, "ArrowLeft": 37, "ArrowRight": 39, "ArrowDown": 40, " ": 32}
        words = {"key": name, "modifiers": 8 if shift else 0, "windowsVirtualKeyCode": codes.get(name, ord(name[0].upper()))}
        if name == "Tab" or len(name) > 1:
            words["code"] = name
        text = text or (name if len(name) == 1 else "\r" if name == "Enter" else "")
        self.call("Input.dispatchKeyEvent", type="keyDown" if text else "rawKeyDown", **words, **({"text": text} if text else {}))
        self.call("Input.dispatchKeyEvent", type="keyUp", **words)

    def picture(self):
        """The window as a PNG file."""
        return base64.b64decode(self.call("Page.captureScreenshot", format="png")["data"])
