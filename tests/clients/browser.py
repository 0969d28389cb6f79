"""Chromium without a window, which a test drives over two pipes by the DevTools protocol."""
import base64
import json
import os
import shutil
import subprocess
import time

from base import LIMIT

BROWSER = next(filter(None, map(shutil.which, ("chromium", "chromium-browser", "google-chrome"))), None)


class Browser:
    """A browser with one page. Its files are in a folder."""

    def __init__(self, folder):
        reading, theirs = os.pipe()
        given, self._writing = os.pipe()
        words = ["--headless", "--no-sandbox", "--disable-gpu", f"--user-data-dir={folder}", "--remote-debugging-pipe", "--window-size=1200,900"]
        # (the browser reads from its descriptor 3 and writes to 4)
        self._process = subprocess.Popen(
            ["/bin/sh", "-c", f'exec 3<&{given} 4>&{theirs}; exec "$@"', "sh", BROWSER, *words], pass_fds=(given, theirs), stdout=subprocess.DEVNULL,
            stderr=subprocess.DEVNULL)
        os.close(given)
        os.close(theirs)
        self._replies = open(reading, "rb")
        self._left, self._count, self._session = b"", 0, None
        # What the page's console said.
        self.said = []
        target = self.ask("Target.createTarget", url="about:blank")["targetId"]
        self._session = self.ask("Target.attachToTarget", targetId=target, flatten=True)["sessionId"]
        self.ask("Runtime.enable")
        self.ask("Page.enable")

    def ask(self, method, **params):
        """The result of a command. Raises `AssertionError` if it has none."""
        self._count += 1
        asked = {"id": self._count, "method": method, "params": params, **({"sessionId": self._session} if self._session else {})}
        os.write(self._writing, json.dumps(asked).encode() + b"\0")
        while True:
            reply = self._next()
            if reply.get("method") in ("Runtime.consoleAPICalled", "Runtime.exceptionThrown"):
                self.said.append(reply["params"])
            if reply.get("id") == self._count:
                assert "result" in reply, reply
                return reply["result"]

    def _next(self):
        while b"\0" not in self._left:
            read = self._replies.read1(1 << 16)
            assert read, "the browser ended"
            self._left += read
        line, _, self._left = self._left.partition(b"\0")
        return json.loads(line)

    def evaluate(self, expression):
        """The value of an expression on the page, or of its promise."""
        found = self.ask("Runtime.evaluate", expression=expression, returnByValue=True, awaitPromise=True)
        assert "exceptionDetails" not in found, found
        return found["result"].get("value")

    def wait(self, expression):
        """Waits until an expression on the page holds, and returns its value."""
        until = time.monotonic() + LIMIT
        while time.monotonic() < until:
            value = self.evaluate(expression)
            if value:
                return value
            time.sleep(0.05)
        raise AssertionError(f"{expression} never holds")

    def open(self, address):
        """Opens a page."""
        self.ask("Page.navigate", url=address)
        self.wait("document.readyState === 'complete'")

    def draw(self, path):
        """Writes an image of the page."""
        path.write_bytes(base64.b64decode(self.ask("Page.captureScreenshot")["data"]))

    def close(self):
        """Ends the browser."""
        self._process.kill()
        self._process.wait()
        self._replies.close()
        os.close(self._writing)
