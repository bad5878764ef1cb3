"""Chromium without a window, by the devtools protocol over two pipes."""

import base64
import json
import os
import subprocess
import tempfile

# The keys that the checks press: code and virtual key code.
KEYS = {
    "Tab": 9, "Enter": 13, "Escape": 27, " ": 32, "PageUp": 33, "PageDown": 34, "End": 35, "Home": 36,
    "ArrowLeft": 37, "ArrowUp": 38, "ArrowRight": 39, "ArrowDown": 40,
}


class Browser:
    """A browser with one page."""

    def __init__(self, program="chromium"):
        self.folder = tempfile.TemporaryDirectory()
        to_browser, self.write = os.pipe()
        self.read, from_browser = os.pipe()

        def pipes():
            # the protocol's pipes are 3 and 4; both ends are moved out of the way first
            reading, writing = os.dup(to_browser), os.dup(from_browser)
            os.dup2(reading, 3)
            os.dup2(writing, 4)

        words = [program, "--headless=new", "--no-sandbox", "--disable-gpu", "--disable-extensions", "--hide-scrollbars",
                 "--remote-debugging-pipe", f"--user-data-dir={self.folder.name}", "about:blank"]
        quiet = {"stdin": subprocess.DEVNULL, "stdout": subprocess.DEVNULL, "stderr": subprocess.DEVNULL}
        self.process = subprocess.Popen(words, preexec_fn=pipes, close_fds=False, **quiet)
        os.close(to_browser)
        os.close(from_browser)
        self.rest = b""
        self.number = 0
        self.events = []
        self.session = None
        targets = self.call("Target.getTargets")["targetInfos"]
        target = next(info["targetId"] for info in targets if info["type"] == "page")
        self.session = self.call("Target.attachToTarget", targetId=target, flatten=True)["sessionId"]
        self.call("Page.enable")
        self.call("Runtime.enable")
        self.call("Network.enable")

    def message(self):
        """The next message of the browser."""
        while b"\0" not in self.rest:
            part = os.read(self.read, 1 << 20)
            if not part:
                raise RuntimeError("the browser has gone")
            self.rest += part
        text, self.rest = self.rest.split(b"\0", 1)
        return json.loads(text)

    def call(self, method, **parameters):
        """Calls a method of the protocol; what it answers. Events that come before it are kept."""
        self.number += 1
        request = {"id": self.number, "method": method, "params": parameters}
        if self.session:
            request["sessionId"] = self.session
        os.write(self.write, json.dumps(request).encode() + b"\0")
        while True:
            message = self.message()
            if message.get("id") == self.number:
                if "error" in message:
                    raise RuntimeError(f"{method}: {message['error']}")
                return message["result"]
            self.events.append(message)

    def open(self, path, width, height, phone=False):
        """Opens a page of a file in a window of a size, and waits until it is there."""
        self.call("Emulation.setDeviceMetricsOverride", width=width, height=height, deviceScaleFactor=1, mobile=phone)
        self.call("Emulation.setTouchEmulationEnabled", enabled=phone)
        self.events.clear()
        self.call("Page.navigate", url="file://" + os.path.abspath(path))
        while not any(event.get("method") == "Page.loadEventFired" for event in self.events):
            self.events.append(self.message())

    def script(self, text):
        """The value of an expression in the page."""
        answer = self.call("Runtime.evaluate", expression=text, returnByValue=True, awaitPromise=True)
        if "exceptionDetails" in answer:
            raise RuntimeError(f"{text}: {answer['exceptionDetails']}")
        return answer["result"].get("value")

    def text(self, selector):
        """The text of an element, with single blanks; none where there is none or it is not shown."""
        found = f"document.querySelector({json.dumps(selector)})"
        return self.script(f"{found} && {found}.checkVisibility() ? {found}.textContent.replace(/\\s+/g,' ').trim() : null")

    def texts(self, selector):
        """The texts of all elements."""
        every = f"[...document.querySelectorAll({json.dumps(selector)})]"
        return self.script(f"{every}.map(found => found.textContent.replace(/\\s+/g,' ').trim())")

    def click(self, selector, offset=(0.5, 0.5)):
        """Clicks with the mouse at a part of an element."""
        found = f"document.querySelector({json.dumps(selector)})"
        self.script(f"{found}.scrollIntoView({{block:'center',inline:'center'}})")
        box = self.script(f"(b => [b.x,b.y,b.width,b.height])({found}.getBoundingClientRect())")
        place = {"x": box[0] + box[2] * offset[0], "y": box[1] + box[3] * offset[1]}
        for kind in ("mousePressed", "mouseReleased"):
            self.call("Input.dispatchMouseEvent", type=kind, button="left", clickCount=1, **place)

    def key(self, name, times=1, shift=False):
        """Presses a key."""
        for _ in range(times):
            said = {"key": name, "code": "Space" if name == " " else name, "windowsVirtualKeyCode": KEYS[name],
                    "modifiers": 8 if shift else 0}
            typed = {"Enter": "\r", " ": " "}.get(name)
            down = {"type": "keyDown", "text": typed} if typed else {"type": "rawKeyDown"}
            self.call("Input.dispatchKeyEvent", **down, **said)
            self.call("Input.dispatchKeyEvent", type="keyUp", **said)

    def picture(self, path, whole=True):
        """Makes a picture of the page, or of what the window shows."""
        answer = self.call("Page.captureScreenshot", format="png", captureBeyondViewport=whole)
        with open(path, "wb") as file:
            file.write(base64.b64decode(answer["data"]))

    def paper(self, path):
        """Prints the page to a PDF file; the number of its sheets."""
        answer = self.call("Page.printToPDF", preferCSSPageSize=True, printBackground=False)
        printed = base64.b64decode(answer["data"])
        with open(path, "wb") as file:
            file.write(printed)
        return printed.count(b"/Type /Page\n") + printed.count(b"/Type /Page/") + printed.count(b"/Type /Page ")

    def faults(self):
        """Errors of the page's script, and addresses other than the page's own that it asked for."""
        thrown = [event for event in self.events if event.get("method") == "Runtime.exceptionThrown"]
        asked = [event["params"]["request"]["url"] for event in self.events
                 if event.get("method") == "Network.requestWillBeSent"]
        return thrown + [address for address in asked if not address.startswith("file://")]

    def close(self):
        self.session = None
        self.call("Browser.close")
        self.process.wait()
        self.folder.cleanup()
