"""A browser without a window, for checks/tools and docs/pictures: Chromium, which is told what to do over two pipes."""
import base64
import json
import os
import select
import shutil
import signal
import subprocess
import time

import tooling

# For how long a browser may run, in seconds.
SECONDS = 600


def found():
    """The browser of this machine, or None."""
    return shutil.which("chromium") or shutil.which("chromium-browser") or shutil.which("google-chrome")


class Browser:
    """Chromium, with one page."""

    def __init__(self, folder, chromium=None):
        into, self.write_end = os.pipe()
        self.read_end, out = os.pipe()
        words = [chromium or found(), "--headless", "--no-sandbox", "--disable-gpu", "--remote-debugging-pipe", f"--user-data-dir={folder / 'browser'}", "--window-size=1180,620", "about:blank"]

        def begin():
            os.dup2(into, 3)
            os.dup2(out, 4)
            signal.alarm(SECONDS)

        self.child = subprocess.Popen(words, stdin=subprocess.DEVNULL, stdout=subprocess.DEVNULL, stderr=subprocess.DEVNULL, preexec_fn=begin, pass_fds=(3, 4), start_new_session=True)
        os.close(into)
        os.close(out)
        self.number, self.left, self.session = 0, b"", None

    def do(self, method, **parameters):
        """What the browser answers to a command."""
        self.number += 1
        command = {"id": self.number, "method": method, "params": parameters} | ({"sessionId": self.session} if self.session else {})
        os.write(self.write_end, json.dumps(command).encode() + b"\0")
        end = time.monotonic() + SECONDS
        while time.monotonic() < end:
            while b"\0" in self.left:
                text, _, self.left = self.left.partition(b"\0")
                answer = json.loads(text)
                if answer.get("id") == self.number:
                    if "error" in answer:
                        raise ValueError(f"{method}: {answer['error']}")
                    return answer["result"]
            ready, _, _ = select.select([self.read_end], [], [], 1)
            self.left += os.read(self.read_end, 1 << 20) if ready else b""
        raise ValueError(f"{method} isn't answered")

    def open(self, url):
        target = self.do("Target.createTarget", url="about:blank")["targetId"]
        self.session = self.do("Target.attachToTarget", targetId=target, flatten=True)["sessionId"]
        self.do("Page.enable")
        self.do("Page.navigate", url=url)

    def resize(self, width, height, phone=False):
        """Has the page seen at a width and a height, as by a phone or not."""
        self.do("Emulation.setDeviceMetricsOverride", width=width, height=height, deviceScaleFactor=1, mobile=phone)

    def picture(self):
        """What the page looks like, as the octets of a PNG."""
        return base64.b64decode(self.do("Page.captureScreenshot", format="png")["data"])

    def holds(self, expression, seconds=tooling.WAIT):
        """Waits until an expression of the page is true, and says whether it came to that."""
        return tooling.until(lambda: self.value(expression), seconds)

    def press(self, selector):
        """Presses the left button of the mouse over an element, as a person does."""
        self.value(f"document.querySelector({json.dumps(selector)}).scrollIntoView({{block: 'center'}})")
        at = self.value(f"(() => {{ const it = document.querySelector({json.dumps(selector)}).getBoundingClientRect(); return [it.x + it.width / 2, it.y + it.height / 2]; }})()")
        for kind in ("mousePressed", "mouseReleased"):
            self.do("Input.dispatchMouseEvent", type=kind, x=at[0], y=at[1], button="left", clickCount=1)

    def value(self, expression):
        return self.do("Runtime.evaluate", expression=expression, returnByValue=True)["result"].get("value")

    def key(self, key, code):
        for kind in ("keyDown", "keyUp"):
            self.do("Input.dispatchKeyEvent", type=kind, key=key, windowsVirtualKeyCode=code, text="\r" if key == "Enter" else "")

    def close(self):
        self.session = None
        try:
            self.do("Browser.close")
            self.child.wait(10)
        except (OSError, ValueError, subprocess.TimeoutExpired):
            self.child.kill()
            self.child.wait()
        os.close(self.read_end)
        os.close(self.write_end)
