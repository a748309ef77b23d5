"""Headless Chromium for checks: it opens pages, presses keys, and is asked what is on them. It needs Debian's package chromium.
"""
import base64
import json
import os
import subprocess
import sys
import time

CODES = {"Enter": 13, "Tab": 9, "Escape": 27, "ArrowDown": 40, "ArrowUp": 38, "/": 191, "Backspace": 8}


class Browser:
    """Headless Chromium, which is told by its pipe what to do."""

    def __init__(self, room):
        told, tell = os.pipe()
        hear, heard = os.pipe()
        start = "chromium --headless --no-sandbox --disable-gpu --hide-scrollbars --remote-debugging-pipe about:blank"
        words = ["bash", "-c", f'exec 3<&{told} 4>&{heard}; exec {start} --user-data-dir="{room}"']
        self.process = subprocess.Popen(words, pass_fds=(told, heard), stdout=subprocess.DEVNULL, stderr=subprocess.DEVNULL)
        os.close(told)
        os.close(heard)
        self.tell, self.hear, self.count, self.held, self.session, self.thrown = tell, hear, 0, b"", None, []
        pages = [target for target in self.do("Target.getTargets")["targetInfos"] if target["type"] == "page"]
        self.session = self.do("Target.attachToTarget", targetId=pages[0]["targetId"], flatten=True)["sessionId"]
        self.do("Runtime.enable")

    def do(self, method, **given):
        self.count += 1
        told = {"id": self.count, "method": method, "params": given} | ({"sessionId": self.session} if self.session else {})
        text = json.dumps(told).encode() + b"\0"
        while text:
            text = text[os.write(self.tell, text) :]
        while True:
            while b"\0" not in self.held:
                piece = os.read(self.hear, 1 << 20)
                if not piece:
                    sys.exit("chromium has ended")
                self.held += piece
            line, self.held = self.held.split(b"\0", 1)
            answer = json.loads(line)
            if answer.get("method") == "Runtime.exceptionThrown":
                self.thrown.append(line.decode())
            if answer.get("id") == self.count:
                if "error" in answer:
                    sys.exit(f"{method}: {answer['error']}")
                return answer["result"]

    def asks(self, expression):
        answer = self.do("Runtime.evaluate", expression=expression, returnByValue=True, awaitPromise=True)
        if "exceptionDetails" in answer:
            sys.exit(f"{expression:.200}: {answer['exceptionDetails']}")
        return answer["result"].get("value")

    def opens(self, path, width=1360, height=900, scheme="light"):
        phone = width < 600
        self.do("Emulation.setDeviceMetricsOverride", width=width, height=height, deviceScaleFactor=2 if phone else 1, mobile=phone)
        self.do("Emulation.setEmulatedMedia", features=[{"name": "prefers-color-scheme", "value": scheme}])
        self.do("Page.navigate", url="about:blank")
        url = path if path.startswith("http:") else f"file://{path}"
        self.do("Page.navigate", url=url)
        while not self.asks("location.protocol !== 'about:' && document.readyState === 'complete'"):
            time.sleep(0.05)

    def presses(self, *keys):
        for key in keys:
            typed = {"text": "\r" if key == "Enter" else key} if len(key) == 1 or key == "Enter" else {}
            code = CODES.get(key) or ord(key.upper())
            for kind, more in (("keyDown", typed), ("keyUp", {})):
                self.do("Input.dispatchKeyEvent", type=kind, key=key, windowsVirtualKeyCode=code, **more)

    def waits(self, expression, seconds=20):
        end = time.monotonic() + seconds
        while not (found := self.asks(f"Boolean({expression})")) and time.monotonic() < end:
            time.sleep(0.02)
        return found

    def shows(self, path, whole=False):
        with open(path, "wb") as file:
            file.write(base64.b64decode(self.do("Page.captureScreenshot", format="png", captureBeyondViewport=whole)["data"]))

    def busy(self):
        """The seconds of its processor that the page's own thread has worked since this was asked first."""
        self.do("Performance.enable", timeDomain="threadTicks")
        told = {it["name"]: it["value"] for it in self.do("Performance.getMetrics")["metrics"]}
        return told["TaskDuration"]

    def ends(self):
        self.process.terminate()
        self.process.wait()
