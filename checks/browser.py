"""A headless Chromium, driven through its pipe by the DevTools protocol: what checks/page needs of it."""
import base64
import json
import os
import select
import subprocess
import tempfile
import time


class Browser:
    """One page. `errors` has each exception, each error on the console and each resource that did not load; `loaded` each
    address that was asked for."""

    def __init__(self):
        self.room = tempfile.TemporaryDirectory(ignore_cleanup_errors=True)
        down, up = os.pipe(), os.pipe()
        command = ["chromium", "--headless=new", "--no-sandbox", "--disable-gpu", "--disable-dev-shm-usage", "--no-first-run", "--hide-scrollbars",
                   "--disable-background-networking", "--remote-debugging-pipe", f"--user-data-dir={self.room.name}", "about:blank"]
        # Chromium reads its commands at number 3 and writes at number 4.
        low, high = os.dup(down[0]), os.dup(up[1])
        self.process = subprocess.Popen(["bash", "-c", f'exec 3<&{low} 4>&{high}; exec "$@"', "bash", *command], pass_fds=(low, high),
                                        stdin=subprocess.DEVNULL, stdout=subprocess.DEVNULL, stderr=subprocess.DEVNULL)
        for one in (down[0], up[1], low, high):
            os.close(one)
        self.to, self.source, self.rest, self.last, self.errors, self.loaded, self.session = down[1], up[0], b"", 0, [], set(), None
        targets = self.call("Target.getTargets")["targetInfos"]
        page = next(it["targetId"] for it in targets if it["type"] == "page")
        self.session = self.call("Target.attachToTarget", targetId=page, flatten=True)["sessionId"]
        for domain in ("Page", "Runtime", "Log", "Network"):
            self.call(f"{domain}.enable")

    def call(self, method, **parameters):
        self.last += 1
        message = {"id": self.last, "method": method, "params": parameters, **({"sessionId": self.session} if self.session else {})}
        os.write(self.to, json.dumps(message).encode() + b"\0")
        while True:
            answer = self.message()
            if answer.get("id") == self.last:
                if "error" in answer:
                    raise RuntimeError(f"{method}: {answer['error']['message']}")
                return answer["result"]

    def message(self):
        """The next message; notes what went wrong in the page."""
        while b"\0" not in self.rest:
            if not select.select([self.source], [], [], 40)[0]:
                raise RuntimeError("chromium does not answer")
            more = os.read(self.source, 1 << 20)
            if not more:
                raise RuntimeError("chromium has ended")
            self.rest += more
        one, _, self.rest = self.rest.partition(b"\0")
        told = json.loads(one)
        what = told.get("params", {})
        if told.get("method") == "Network.requestWillBeSent":
            self.loaded.add(what["request"]["url"])
        if told.get("method") == "Runtime.exceptionThrown":
            self.errors.append(str(what["exceptionDetails"]))
        if told.get("method") == "Runtime.consoleAPICalled" and what["type"] in ("error", "warning", "assert"):
            self.errors.append(str(what["args"]))
        if told.get("method") == "Log.entryAdded" and what["entry"]["level"] in ("error", "warning"):
            self.errors.append(what["entry"]["text"])
        return told

    def do(self, code):
        """The value of a piece of JavaScript; a promise is awaited."""
        done = self.call("Runtime.evaluate", expression=code, awaitPromise=True, returnByValue=True)
        if "exceptionDetails" in done:
            raise RuntimeError(done["exceptionDetails"].get("exception", {}).get("description", code))
        return done["result"].get("value")

    def open(self, address, width=1280, height=800, dark=False):
        """Opens an address at a width, and waits until the page has its example."""
        self.call("Emulation.setDeviceMetricsOverride", width=width, height=height, deviceScaleFactor=1, mobile=width < 600)
        self.call("Emulation.setEmulatedMedia", features=[{"name": "prefers-color-scheme", "value": "dark" if dark else "light"}])
        self.call("Page.navigate", url="about:blank")
        self.call("Page.navigate", url=address)
        self.until("document.body && document.body.dataset.ready || ''")

    def until(self, code):
        """Waits until the value is true, for half a minute at most."""
        end = time.monotonic() + 30
        while not self.do(code):
            if time.monotonic() > end:
                raise RuntimeError(f"it never became true: {code}; {self.errors[:2]}")
            time.sleep(0.02)

    def press(self, key):
        for kind in ("keyDown", "keyUp"):
            self.call("Input.dispatchKeyEvent", type=kind, key=key, text=key if key == " " and kind == "keyDown" else "")

    def shot(self, path, whole=False):
        with open(path, "wb") as file:
            file.write(base64.b64decode(self.call("Page.captureScreenshot", format="png", captureBeyondViewport=whole)["data"]))

    def close(self):
        self.process.terminate()
        self.process.wait(20)
