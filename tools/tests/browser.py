"""A headless Chromium that is driven by its own pipe: JSON ended by a zero byte, so no package is needed."""
import base64
import json
import os
import shutil
import subprocess
import tempfile
import threading
import time


def chromium():
    """Chromium's path, or None."""
    return next(filter(None, map(shutil.which, ("chromium", "chromium-browser", "google-chrome"))), None)


class Browser:
    """One tab. `evaluate` runs JavaScript in it and waits for its promise."""

    def __init__(self, width=1400, height=1000):
        self.room = tempfile.mkdtemp(prefix="flexray-browser-")
        their_in, self.out = os.pipe()
        self.into, their_out = os.pipe()
        # As root it needs --no-sandbox; it opens a file of this repository alone.
        words = [chromium(), "--headless=new", "--remote-debugging-pipe", "--no-sandbox", "--disable-gpu", "--no-first-run",
                 "--disable-dev-shm-usage", "--disable-background-networking", "--disable-component-update",
                 f"--user-data-dir={self.room}", "about:blank"]
        spelt = " ".join(f'"{word}"' for word in words)
        self.process = subprocess.Popen(["/bin/sh", "-c", f"exec {spelt} 3<&{their_in} 4>&{their_out}"],
                                        pass_fds=(their_in, their_out), stdin=subprocess.DEVNULL, stdout=subprocess.DEVNULL,
                                        stderr=subprocess.DEVNULL)
        os.close(their_in)
        os.close(their_out)
        self.number, self.kept, self.faults, self.tab = 0, b"", [], None
        # What hangs is ended, so that a read of the pipe ends too.
        self.watch = threading.Timer(900, self.process.kill)
        self.watch.daemon = True
        self.watch.start()
        target = self.send("Target.createTarget", url="about:blank")["targetId"]
        self.tab = self.send("Target.attachToTarget", targetId=target, flatten=True)["sessionId"]
        for name in ("Page.enable", "Runtime.enable", "Log.enable"):
            self.send(name)
        self.size(width, height)

    def read(self):
        while b"\0" not in self.kept:
            piece = os.read(self.into, 1 << 20)
            if not piece:
                raise RuntimeError("the browser ended")
            self.kept += piece
        text, _, self.kept = self.kept.partition(b"\0")
        found = json.loads(text)
        if found.get("method") == "Runtime.exceptionThrown":
            self.faults.append(found["params"]["exceptionDetails"])
        if found.get("method") == "Log.entryAdded" and found["params"]["entry"]["level"] == "error":
            self.faults.append(found["params"]["entry"])
        return found

    def send(self, method, **words):
        self.number += 1
        whole = {"id": self.number, "method": method, "params": words}
        if self.tab:
            whole["sessionId"] = self.tab
        data = json.dumps(whole).encode() + b"\0"
        while data:
            data = data[os.write(self.out, data):]
        while True:
            found = self.read()
            if found.get("id") == self.number:
                if "error" in found:
                    raise RuntimeError(f"{method}: {found['error']}")
                return found["result"]

    def size(self, width, height):
        self.send("Emulation.setDeviceMetricsOverride", width=width, height=height, deviceScaleFactor=1, mobile=width < 600)

    def dark(self, is_dark):
        self.send("Emulation.setEmulatedMedia",
                  features=[{"name": "prefers-color-scheme", "value": "dark" if is_dark else "light"}])

    def open(self, path):
        self.send("Page.navigate", url="file://" + os.path.abspath(path))

    def evaluate(self, text):
        found = self.send("Runtime.evaluate", expression=text, awaitPromise=True, returnByValue=True)
        if "exceptionDetails" in found:
            raise RuntimeError(found["exceptionDetails"]["exception"].get("description", "a fault in the page"))
        return found["result"].get("value")

    def until(self, text, seconds=60):
        """Waits until an expression is true."""
        end = time.monotonic() + seconds
        while not self.evaluate(text):
            if time.monotonic() > end:
                raise RuntimeError(f"after {seconds} s it is not so: {text}")
            time.sleep(0.03)

    def key(self, name, **words):
        code = {"Enter": 13, "ArrowRight": 39, "ArrowLeft": 37, "Tab": 9}[name]
        for kind in ("keyDown", "keyUp"):
            self.send("Input.dispatchKeyEvent", type=kind, key=name, code=name, windowsVirtualKeyCode=code, **words)

    def picture(self, path, whole=False):
        found = self.send("Page.captureScreenshot", format="png", captureBeyondViewport=whole)
        with open(path, "wb") as file:
            file.write(base64.b64decode(found["data"]))

    def close(self):
        self.watch.cancel()
        self.process.kill()
        self.process.wait()
        for end in (self.into, self.out):
            os.close(end)
        shutil.rmtree(self.room, ignore_errors=True)
