"""A headless Chromium that is driven through a pipe, by its DevTools protocol.

It keeps what a page complains of: errors, warnings, violations of its policy and dialogs; and what it requests."""
import base64
import json
import os
import shutil
import subprocess
import time

SHIFT = 8
KEYS = {"ArrowLeft": 37, "ArrowUp": 38, "ArrowRight": 39, "ArrowDown": 40, "Enter": 13, "Escape": 27, "Tab": 9, "End": 35, "Home": 36}


class Browser:
    def __init__(self, folder):
        take, give = os.pipe()
        heard, said = os.pipe()
        # Chromium reads the third file and writes the fourth.
        start = ["bash", "-c", f'exec "$@" 3<&{take} 4>&{said} 2> /dev/null', "bash"]
        chromium = next(filter(shutil.which, ("chromium", "chromium-browser", "google-chrome")))
        words = [chromium, "--headless=new", "--no-sandbox", "--disable-gpu", "--no-first-run", "--remote-debugging-pipe",
                 f"--user-data-dir={folder}"]
        self.process = subprocess.Popen(start + words, pass_fds=(take, said))
        os.close(take)
        os.close(said)
        self.give, self.heard, self.rest = give, heard, b""
        self.count, self.session, self.events = 0, None, []
        target = self.call("Target.createTarget", url="about:blank")["targetId"]
        self.session = self.call("Target.attachToTarget", targetId=target, flatten=True)["sessionId"]
        for part in ("Page", "Runtime", "Log", "Network"):
            self.call(f"{part}.enable")

    def __enter__(self):
        return self

    def __exit__(self, *_):
        os.close(self.give)
        os.close(self.heard)
        self.process.terminate()
        self.process.wait()

    def message(self):
        while b"\0" not in self.rest:
            part = os.read(self.heard, 1 << 20)
            if not part:
                raise EOFError("the browser has ended")
            self.rest += part
        message, _, self.rest = self.rest.partition(b"\0")
        return json.loads(message)

    def call(self, method, **words):
        """What the browser answers to a command. Events that come before are kept."""
        self.count += 1
        number = self.count
        sent = {"id": number, "method": method, "params": words} | ({"sessionId": self.session} if self.session else {})
        left = json.dumps(sent).encode() + b"\0"
        while left:
            left = left[os.write(self.give, left):]
        while (message := self.message()).get("id") != number:
            self.hear(message)
        if "error" in message:
            raise RuntimeError(f"{method}: {message['error']['message']}")
        return message["result"]

    def hear(self, event):
        self.events.append(event)
        if event.get("method") == "Page.javascriptDialogOpening":
            self.count += 1
            closing = {"id": self.count, "method": "Page.handleJavaScriptDialog", "params": {"accept": True}, "sessionId": self.session}
            os.write(self.give, json.dumps(closing).encode() + b"\0")

    def open(self, path):
        """Opens a file, and gives the seconds until the page has been drawn."""
        start = time.perf_counter()
        self.call("Page.navigate", url=f"file://{path}")
        while not any(event.get("method") == "Page.loadEventFired" for event in self.events):
            self.hear(self.message())
        self.events = [event for event in self.events if event.get("method") != "Page.loadEventFired"]
        self.drawn()
        return time.perf_counter() - start

    def drawn(self):
        """Waits until what has happened is drawn."""
        self.value("new Promise((done) => requestAnimationFrame(() => requestAnimationFrame(() => done(0))))")

    def value(self, expression):
        told = self.call("Runtime.evaluate", expression=expression, returnByValue=True, awaitPromise=True)
        if "exceptionDetails" in told:
            raise RuntimeError(f"{expression}: {told['exceptionDetails']['exception'].get('description')}")
        return told["result"].get("value")

    def complaints(self):
        """What the pages have complained of since they were opened."""
        told = []
        for event in self.events:
            method, words = event.get("method"), event.get("params", {})
            if method in ("Runtime.exceptionThrown", "Page.javascriptDialogOpening"):
                told.append(f"{method}: {json.dumps(words)[:300]}")
            elif method == "Log.entryAdded":
                told.append(words["entry"]["text"])
            elif method == "Runtime.consoleAPICalled" and words["type"] in ("error", "warning", "assert"):
                told.append(json.dumps(words["args"])[:300])
        return told

    def requests(self):
        return [event["params"]["request"]["url"] for event in self.events if event.get("method") == "Network.requestWillBeSent"]

    def mouse(self, place, kind="mouseMoved", **words):
        self.call("Input.dispatchMouseEvent", type=kind, x=place[0], y=place[1], **words)
        self.drawn()

    def click(self, place):
        self.mouse(place)
        for kind in ("mousePressed", "mouseReleased"):
            self.mouse(place, kind, button="left", clickCount=1)

    def press(self, key, modifiers=0):
        """Presses a key: one of those with a name, or a letter."""
        words = {"key": key, "code": key, "modifiers": modifiers, "windowsVirtualKeyCode": KEYS.get(key, 0)}
        text = {"Enter": "\r"}.get(key, key if len(key) == 1 else None)
        self.call("Input.dispatchKeyEvent", type="keyDown" if text else "rawKeyDown", **words, **({"text": text} if text else {}))
        self.call("Input.dispatchKeyEvent", type="keyUp", **words)
        self.drawn()

    def look(self, width, height, scheme="light", scale=1):
        """Gives the window a size, and the page a color scheme."""
        self.call("Emulation.setDeviceMetricsOverride", width=width, height=height, deviceScaleFactor=scale, mobile=False)
        self.call("Emulation.setEmulatedMedia", features=[{"name": "prefers-color-scheme", "value": scheme}])

    def picture(self, path):
        with open(path, "wb") as file:
            file.write(base64.b64decode(self.call("Page.captureScreenshot", format="png")["data"]))
