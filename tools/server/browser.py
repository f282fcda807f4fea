"""People: each has a headless Chromium with the page of the service, and a profile of their own."""

import base64
import json
import os
import shutil
import subprocess
import sys
import time

MOST_SECONDS = 60
CHROMIUM = shutil.which("chromium") or shutil.which("chromium-browser") or shutil.which("google-chrome")


class Browser:
    """A headless Chromium with one page, which is told what to do through a pair of pipes."""

    def __init__(self, folder, address, ready="document.querySelectorAll('#place option').length > 0"):
        told, self.telling = os.pipe()
        self.hearing, said = os.pipe()

        def wire():
            os.dup2(told, 3)
            os.dup2(said, 4)

        words = [CHROMIUM, "--headless=new", "--no-sandbox", "--disable-gpu", "--remote-debugging-pipe"]
        words += [f"--user-data-dir={folder}", "--window-size=1100,1000", "about:blank"]
        quiet = {"stdout": subprocess.DEVNULL, "stderr": subprocess.DEVNULL, "stdin": subprocess.DEVNULL}
        self.process = subprocess.Popen(words, preexec_fn=wire, pass_fds=(3, 4), **quiet)
        os.close(told)
        os.close(said)
        self.rest, self.number, self.session = b"", 0, None
        target = self.call("Target.createTarget", url=address)["targetId"]
        self.session = self.call("Target.attachToTarget", targetId=target, flatten=True)["sessionId"]
        if not self.waits_for(ready, 3 * MOST_SECONDS):
            sys.exit("the page doesn't come")

    def call(self, method, **parameters):
        """Makes a call and waits for its answer."""
        self.number += 1
        message = {"id": self.number, "method": method, "params": parameters}
        if self.session:
            message["sessionId"] = self.session
        os.write(self.telling, json.dumps(message).encode() + b"\0")
        while True:
            answer = json.loads(self.message())
            if answer.get("id") == self.number:
                return answer["result"]

    def message(self):
        while b"\0" not in self.rest:
            more = os.read(self.hearing, 65536)
            if not more:
                sys.exit("Chromium has ended")
            self.rest += more
        message, self.rest = self.rest.split(b"\0", 1)
        return message

    def value(self, expression):
        """What an expression of the page comes to."""
        return self.call("Runtime.evaluate", expression=expression, returnByValue=True)["result"].get("value")

    def waits_for(self, expression, seconds=MOST_SECONDS):
        """Whether an expression of the page becomes true in good time."""
        until = time.monotonic() + seconds
        while time.monotonic() < until:
            if self.value(expression):
                return True
            time.sleep(0.05)
        return False

    def fills(self, **fields):
        """Fills the form, as somebody who types."""
        for field, value in fields.items():
            at = f"document.getElementById({json.dumps(field)})"
            if field == "seconds":
                self.value(f"{at}.options[0].value = {json.dumps(value)}")
            self.value(f"{at}.value = {json.dumps(value)}; {at}.dispatchEvent(new Event('input', {{bubbles: true}}))")

    def books(self, clicks=1, **fields):
        """Fills the form and presses its button."""
        self.fills(**{"friend": "", "seconds": "3600", **fields})
        self.value(f"for (let n = 0; n < {clicks}; n++) document.querySelector('#trip button').click()")

    def trades(self, seat):
        """Presses the button of somebody's seat, once that may be pressed."""
        found = f"[...document.querySelectorAll('.seats button')].find((one) => !one.disabled && {says(seat + ' ')})"
        if self.waits_for(found + " !== undefined"):
            self.value(found + ".click()")

    def cancels(self, words):
        """Presses the button beside what somebody asked for, which the page tells with these words."""
        found = f"[...document.querySelectorAll('#mine p')].find((one) => {says(words)})?.querySelector('button')"
        if self.waits_for(f"!!{found}"):
            self.value(found + ".click()")

    def is_told(self, words, seconds=MOST_SECONDS):
        """Whether the page tells its owner this, in good time."""
        return self.waits_for(f"document.getElementById('mine').textContent.includes({json.dumps(words)})", seconds)

    def lines(self):
        """What the page tells its owner of each request, the last first."""
        texts = self.value("[...document.querySelectorAll('#mine p')].map((one) => one.textContent)")
        return [text.removeprefix("Cancel") for text in texts]

    def screenshot(self, path):
        """The page as far as there is anything on it."""
        height = self.value("document.body.getBoundingClientRect().bottom + 32")
        clip = {"x": 0, "y": 0, "width": 1100, "height": height, "scale": 1}
        with open(path, "wb") as picture:
            picture.write(base64.b64decode(self.call("Page.captureScreenshot", format="png", clip=clip)["data"]))

    def close(self):
        self.process.kill()
        self.process.wait()
        os.close(self.telling)
        os.close(self.hearing)


def says(words):
    return f"one.textContent.includes({json.dumps(words)})"
