"""A headless Chromium for web/test_page.py, spoken to through the pipe of its DevTools protocol."""

import json
import os
import select
import shutil
import subprocess
import tempfile
import time
from typing import Any, Optional

NAMES = ["chromium", "chromium-browser", "google-chrome"]
# The browser asks for nothing of its own with these, and needs no sandbox where it is started by root.
OPTIONS = [
    "--headless=new", "--no-sandbox", "--disable-gpu", "--no-first-run", "--disable-background-networking",
    "--disable-component-update", "--disable-sync", "--disable-dev-shm-usage", "--remote-debugging-pipe", "about:blank",
]
# How long an answer may take, also on a machine that is busy.
SECONDS = 300


class BrowserError(Exception):
    """The browser answers with an error, or doesn't answer."""


def find_browser() -> Optional[str]:
    """Returns the path of a Chromium, or None."""
    return next(filter(None, map(shutil.which, NAMES)), None)


class Browser:
    """One page of a browser. `events` has what it reported, each with its method and its parameters."""

    def __init__(self, path: str):
        self.profile = tempfile.TemporaryDirectory(prefix="page-test-", ignore_cleanup_errors=True)
        read, self.write = os.pipe()
        self.read, write = os.pipe()
        # The browser reads from its file 3 and writes to its file 4.
        command = ["sh", "-c", f'exec "$0" "$@" 3<&{read} 4>&{write}', path, f"--user-data-dir={self.profile.name}"]
        self.process = subprocess.Popen(
            command + OPTIONS, pass_fds=(read, write), stdout=subprocess.DEVNULL, stderr=subprocess.DEVNULL
        )
        os.close(read)
        os.close(write)
        self.buffer, self.count, self.attached = b"", 0, None
        self.events: "list[dict[str, Any]]" = []
        target = self.send("Target.createTarget", url="about:blank")["targetId"]
        self.attached = self.send("Target.attachToTarget", targetId=target, flatten=True)["sessionId"]
        for domain in ("Page", "Runtime", "Log", "Network", "DOM"):
            self.send(f"{domain}.enable")
        self.send("Target.setAutoAttach", autoAttach=True, waitForDebuggerOnStart=False, flatten=True)

    def send(self, method: str, **parameters: Any) -> "dict[str, Any]":
        """Calls a method of the protocol, and returns its result."""
        self.count += 1
        call = {"id": self.count, "method": method, "params": parameters}
        if self.attached:
            call["sessionId"] = self.attached
        os.write(self.write, json.dumps(call).encode() + b"\0")
        end = time.monotonic() + SECONDS
        while True:
            message = self.receive(end - time.monotonic())
            if message.get("id") == self.count:
                if "error" in message:
                    raise BrowserError(f"{method}: {message['error']}")
                return message["result"]
            if "method" in message:
                self.note(message)

    def note(self, message: "dict[str, Any]") -> None:
        """Keeps an event, and listens to a worker that the page started."""
        self.events.append(message)
        if message["method"] == "Target.attachedToTarget" and self.attached:
            worker = message["params"]["sessionId"]
            for domain in ("Runtime", "Log", "Network"):
                call = {"id": 0, "method": f"{domain}.enable", "sessionId": worker}
                os.write(self.write, json.dumps(call).encode() + b"\0")

    def receive(self, seconds: float) -> "dict[str, Any]":
        """Returns the next message."""
        while b"\0" not in self.buffer:
            ready, _, _ = select.select([self.read], [], [], max(seconds, 0))
            more = os.read(self.read, 1 << 20) if ready else b""
            if not more:
                raise BrowserError("the browser doesn't answer")
            self.buffer += more
        line, self.buffer = self.buffer.split(b"\0", 1)
        return json.loads(line)

    def evaluate(self, expression: str) -> Any:
        """Returns the value of an expression in the page."""
        found = self.send("Runtime.evaluate", expression=expression, returnByValue=True, awaitPromise=True)
        if "exceptionDetails" in found:
            raise BrowserError(f"{expression}: {found['exceptionDetails']}")
        return found["result"].get("value")

    def wait(self, expression: str, seconds: float = SECONDS) -> None:
        """Waits until an expression is true in the page."""
        end = time.monotonic() + seconds
        while not self.evaluate(expression):
            if time.monotonic() > end:
                raise BrowserError(f"{expression} isn't so after {seconds} seconds")
            time.sleep(0.05)

    def open(self, address: str, width: int, dark: bool = False) -> None:
        """Opens a page in a window of a width, light or dark."""
        size = {"width": width, "height": 900, "deviceScaleFactor": 1, "mobile": width < 600}
        self.send("Emulation.setDeviceMetricsOverride", **size)
        scheme = {"name": "prefers-color-scheme", "value": "dark" if dark else "light"}
        self.send("Emulation.setEmulatedMedia", features=[scheme])
        self.send("Page.navigate", url=address)
        self.wait("document.readyState === 'complete'")

    def choose(self, identity: str, path: str) -> None:
        """Chooses a file in a field, as a person would."""
        found = self.send("Runtime.evaluate", expression=f"document.getElementById('{identity}')")
        self.send("DOM.setFileInputFiles", files=[path], objectId=found["result"]["objectId"])

    def picture(self) -> str:
        """Returns the whole page as a PNG, in base64."""
        return self.send("Page.captureScreenshot", captureBeyondViewport=True)["data"]

    def close(self) -> None:
        """Ends the browser."""
        self.attached = None
        try:
            self.send("Browser.close")
        except (BrowserError, OSError):
            self.process.kill()
        self.process.wait(SECONDS)
        os.close(self.read)
        os.close(self.write)
        self.profile.cleanup()
