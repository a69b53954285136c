"""A headless Chromium, driven over a pipe by its debugging protocol."""
import base64
import json
import os
import select
import shutil
import subprocess
import time
from pathlib import Path

NAMES = ("chromium", "chromium-browser", "google-chrome", "google-chrome-stable")
INSTALL = "KEMIRONA_INSTALL_CHROMIUM"
PATIENCE = 60


def find() -> str | None:
    """The path of a Chromium. Where the environment asks for it, Debian's is installed."""
    found = next(filter(None, map(shutil.which, NAMES)), None)
    if found or not os.environ.get(INSTALL) or not shutil.which("apt-get"):
        return found
    for words in (["update"], ["install", "--yes", "--no-install-recommends", "chromium"]):
        quiet = {"stdout": subprocess.DEVNULL, "stderr": subprocess.DEVNULL}
        subprocess.run(["apt-get", "--quiet", *words], **quiet, check=False)
    return shutil.which(NAMES[0])


class BrowserError(Exception):
    """The browser does not do what it is asked."""


class Browser:
    """One tab of a Chromium with a profile of its own."""

    def __init__(self, program: str, profile: Path, width: int = 1200, height: int = 900):
        to_browser, self._to = os.pipe()
        self._from, from_browser = os.pipe()
        self.process = subprocess.Popen(
            ["sh", "-c", f'exec "$@" 3<&{to_browser} 4>&{from_browser}', "sh", program, "--headless", "--no-sandbox",
             "--disable-gpu", "--disable-dev-shm-usage", "--no-first-run", "--remote-debugging-pipe",
             f"--user-data-dir={profile}", f"--window-size={width},{height}", "about:blank"],
            pass_fds=(to_browser, from_browser), stdout=subprocess.DEVNULL, stderr=subprocess.DEVNULL)
        os.close(to_browser)
        os.close(from_browser)
        self._rest = b""
        self._number = 0
        self._session = None
        self.errors: list[str] = []
        self.requests: list[str] = []
        try:
            self._open_tab(width, height)
        except (BrowserError, OSError):
            self.close()
            raise

    def _open_tab(self, width: int, height: int) -> None:
        target = self.call("Target.createTarget", url="about:blank")["targetId"]
        self._session = self.call("Target.attachToTarget", targetId=target, flatten=True)["sessionId"]
        for domain in ("Page", "Runtime", "Log", "Network"):
            self.call(f"{domain}.enable")
        self.call("Emulation.setDeviceMetricsOverride", width=width, height=height, deviceScaleFactor=1, mobile=False)

    def call(self, method: str, **params) -> dict:
        self._number += 1
        message = {"id": self._number, "method": method, "params": params}
        if self._session:
            message["sessionId"] = self._session
        os.write(self._to, json.dumps(message).encode() + b"\0")
        while True:
            answer = self._next()
            if answer.get("id") == self._number:
                if "error" in answer:
                    raise BrowserError(f"{method}: {answer['error']}")
                return answer["result"]

    def _next(self) -> dict:
        while b"\0" not in self._rest:
            is_ready = select.select([self._from], [], [], PATIENCE)[0]
            piece = os.read(self._from, 1 << 20) if is_ready else b""
            if not piece:
                raise BrowserError("the browser has ended" if is_ready else "the browser does not answer")
            self._rest += piece
        text, _, self._rest = self._rest.partition(b"\0")
        message = json.loads(text)
        self._note(message.get("method"), message.get("params", {}))
        return message

    def _note(self, method: str | None, params: dict) -> None:
        if method == "Runtime.exceptionThrown":
            self.errors.append(params["exceptionDetails"].get("exception", {}).get("description", "an exception"))
        elif method == "Log.entryAdded" and params["entry"]["level"] == "error":
            self.errors.append(params["entry"]["text"])
        elif method == "Network.requestWillBeSent":
            self.requests.append(params["request"]["url"])

    def open(self, page: Path) -> None:
        self.call("Page.navigate", url=page.as_uri())
        end = time.monotonic() + PATIENCE
        while self.value("document.readyState") != "complete":
            if time.monotonic() > end:
                raise BrowserError("the page does not load")
            time.sleep(0.02)

    def value(self, expression: str):
        """What the expression gives; a promise is waited for."""
        result = self.call("Runtime.evaluate", expression=expression, returnByValue=True, awaitPromise=True)
        if "exceptionDetails" in result:
            raise BrowserError(result["exceptionDetails"].get("exception", {}).get("description", expression))
        return result["result"].get("value")

    def mouse(self, kind: str, x: float, y: float, is_down: bool = False) -> None:
        self.call("Input.dispatchMouseEvent", type=kind, x=x, y=y, button="left" if is_down else "none",
                  buttons=int(is_down), clickCount=1 if is_down else 0)

    def screenshot(self, **clip: float) -> bytes:
        """A PNG of the page, or of the box with these x, y, width and height."""
        part = {"clip": {**clip, "scale": 1}} if clip else {}
        return base64.b64decode(self.call("Page.captureScreenshot", format="png", **part)["data"])

    def close(self) -> None:
        try:
            os.write(self._to, b'{"id":0,"method":"Browser.close"}\0')
            self.process.wait(timeout=10)
        except (OSError, subprocess.TimeoutExpired):
            self.process.kill()
            self.process.wait()
        os.close(self._to)
        os.close(self._from)
