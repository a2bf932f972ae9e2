"""Chromium without a window, by its DevTools over a pipe: pages are opened, pressed and photographed."""
import base64
import json
import os
import select
import shutil
import subprocess
import tempfile
import time

SECONDS = 30
CODES = {"Enter": 13, "Escape": 27, " ": 32, "End": 35, "Home": 36, "ArrowLeft": 37, "ArrowUp": 38, "ArrowRight": 39, "ArrowDown": 40}
WORDS = "--headless --no-sandbox --disable-gpu --hide-scrollbars --no-first-run --remote-debugging-pipe --disable-ipc-flooding-protection"


def found():
    """The browser of this machine, if it has one."""
    return shutil.which("chromium")


class Browser:
    """A browser with one tab."""

    def __init__(self):
        self.home = tempfile.mkdtemp(prefix="page-chromium-")
        (given, self.to), (self.answers, answered) = os.pipe(), os.pipe()
        # (the browser reads what it is told from 3, and answers on 4)
        script = f"exec {found()} {WORDS} --user-data-dir={self.home} 3<&{given} 4>&{answered}"
        quiet = {"stdin": subprocess.DEVNULL, "stdout": subprocess.DEVNULL, "stderr": subprocess.DEVNULL}
        self.run = subprocess.Popen(["bash", "-c", script], pass_fds=(given, answered), **quiet)
        os.close(given)
        os.close(answered)
        self.rest, self.number, self.events, self.session = b"", 0, [], None
        target = self.call("Target.createTarget", url="about:blank")["targetId"]
        self.session = self.call("Target.attachToTarget", targetId=target, flatten=True)["sessionId"]
        for domain in ("Page", "Runtime", "Network", "Log"):
            self.call(f"{domain}.enable")

    def close(self):
        try:
            self.session = None
            self.call("Browser.close")
            self.run.wait(20)
        except (OSError, EOFError, TimeoutError, subprocess.TimeoutExpired):
            self.run.kill()
            self.run.wait()
        os.close(self.to)
        os.close(self.answers)
        shutil.rmtree(self.home, ignore_errors=True)

    def message(self):
        while b"\0" not in self.rest:
            if not select.select([self.answers], [], [], SECONDS)[0]:
                raise TimeoutError("the browser does not answer")
            got = os.read(self.answers, 1 << 20)
            if not got:
                raise EOFError("the browser has ended")
            self.rest += got
        text, self.rest = self.rest.split(b"\0", 1)
        return json.loads(text)

    def call(self, method, **params):
        """Tells the tab something, and gives what it answers; what comes before the answer is kept."""
        self.number += 1
        told = {"id": self.number, "method": method, "params": params} | ({"sessionId": self.session} if self.session else {})
        os.write(self.to, json.dumps(told).encode() + b"\0")
        while True:
            message = self.message()
            if message.get("id") == self.number:
                if "error" in message:
                    raise RuntimeError(f"{method}: {message['error']}")
                return message["result"]
            self.events.append(message)

    def js(self, text):
        """The value of a text of the script's language, in the page."""
        ran = self.call("Runtime.evaluate", expression=text, returnByValue=True, awaitPromise=True)
        if "exceptionDetails" in ran:
            raise RuntimeError(ran["exceptionDetails"].get("exception", ran["exceptionDetails"]))
        return ran["result"].get("value")

    def size(self, width, height, scheme, paper=False, scale=1):
        how = {"width": width, "height": height, "deviceScaleFactor": scale, "mobile": width < 500}
        self.call("Emulation.setDeviceMetricsOverride", **how)
        media = {"media": "print" if paper else "", "features": [{"name": "prefers-color-scheme", "value": scheme}]}
        self.call("Emulation.setEmulatedMedia", **media)

    def open(self, url):
        """Opens a page anew, and waits until it stands."""
        self.call("Page.navigate", url="about:blank")
        self.until("location.href === 'about:blank'")
        self.events.clear()
        self.call("Page.navigate", url=url)
        self.until("location.href !== 'about:blank' && document.readyState === 'complete'")

    def until(self, text):
        end = time.monotonic() + SECONDS
        while not self.js(text):
            if time.monotonic() > end:
                raise TimeoutError(f"never: {text}")
            time.sleep(0.01)

    def picture(self, clip):
        """A part of the page, as a PNG file."""
        shot = self.call("Page.captureScreenshot", captureBeyondViewport=True, clip=clip)
        return base64.b64decode(shot["data"])

    def key(self, key, text=None):
        code = CODES.get(key, ord(key[0].upper()))
        self.call("Input.dispatchKeyEvent", type="keyDown", key=key, windowsVirtualKeyCode=code, **({"text": text} if text else {}))
        self.call("Input.dispatchKeyEvent", type="keyUp", key=key, windowsVirtualKeyCode=code)

    def mouse(self, kind, point):
        held = 0 if kind == "mouseReleased" else 1
        self.call("Input.dispatchMouseEvent", type=kind, x=point[0], y=point[1], button="left", clickCount=1, buttons=held)

    def click(self, point):
        self.mouse("mousePressed", point)
        self.mouse("mouseReleased", point)

    def drag(self, start, end):
        self.mouse("mousePressed", start)
        self.mouse("mouseMoved", [(a + b) / 2 for a, b in zip(start, end)])
        self.mouse("mouseMoved", end)
        self.mouse("mouseReleased", end)

    def touch(self, kind, *points):
        self.call("Input.dispatchTouchEvent", type=kind, touchPoints=[{"x": x, "y": y} for x, y in points])

    def faults(self, url):
        """What the page said on the console, what it threw, and what it asked for beside itself, since it was opened."""
        said = []
        for method, params in ((event.get("method"), event.get("params", {})) for event in self.events):
            if method == "Runtime.exceptionThrown":
                said.append(params["exceptionDetails"].get("exception", {}).get("description", "an exception"))
            if method == "Runtime.consoleAPICalled":
                said.append(str(params["args"])[:200])
            if method == "Log.entryAdded":
                said.append(params["entry"]["text"])
            if method == "Network.requestWillBeSent" and params["request"]["url"] not in (url, "data:,", "about:blank"):
                said.append(params["request"]["url"][:80])
        return said
