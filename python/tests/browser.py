"""Chromium without a window, by its DevTools protocol over two pipes."""
from __future__ import annotations

import base64
import json
import os
import select
import shutil
import subprocess
import tempfile
import time
from pathlib import Path
from typing import Any, Dict, Optional

SECONDS = 60


class Browser:
    """A browser with one page. It is a context manager, which ends it."""

    def __init__(self) -> None:
        self._folder = tempfile.mkdtemp()
        there, self._to = os.pipe()
        self._from, back = os.pipe()
        command = [
            "chromium",
            "--headless",
            "--no-sandbox",
            "--disable-gpu",
            "--hide-scrollbars",
            "--remote-debugging-pipe",
            f"--user-data-dir={self._folder}",
        ]
        # The browser reads from 3 and writes to 4.
        shell = f'exec "$@" 3<&{there} 4>&{back} 2>/dev/null'
        self._process = subprocess.Popen(
            ["bash", "-c", shell, "bash", *command],
            pass_fds=(there, back),
            stdin=subprocess.DEVNULL,
        )
        os.close(there)
        os.close(back)
        self._left, self._number, self._session = b"", 0, ""
        target = self.call("Target.createTarget", url="about:blank")["targetId"]
        self._session = self.call("Target.attachToTarget", targetId=target, flatten=True)[
            "sessionId"
        ]
        self.call("Page.enable")

    def call(self, method: str, **given: Any) -> Dict[str, Any]:
        """What a method gives."""
        self._number += 1
        message: Dict[str, Any] = {"id": self._number, "method": method, "params": given}
        if self._session:
            message["sessionId"] = self._session
        os.write(self._to, json.dumps(message).encode() + b"\0")
        answer = self._wait("id", self._number)
        assert "error" not in answer, (method, answer)
        result: Dict[str, Any] = answer["result"]
        return result

    def _wait(self, name: str, value: object) -> Dict[str, Any]:
        """The next message of which a field has a value."""
        end = time.monotonic() + SECONDS
        while True:
            while b"\0" not in self._left:
                assert select.select([self._from], [], [], end - time.monotonic())[0], value
                got = os.read(self._from, 1 << 16)
                assert got, "the browser has ended"
                self._left += got
            first, _, self._left = self._left.partition(b"\0")
            message: Dict[str, Any] = json.loads(first)
            if message.get(name) == value:
                return message

    def open(self, path: Path, width: int, scheme: str) -> None:
        """Opens a file in a window of a width, in a "light" or "dark" scheme."""
        size = {"width": width, "height": 900, "deviceScaleFactor": 1, "mobile": False}
        self.call("Emulation.setDeviceMetricsOverride", **size)
        features = [{"name": "prefers-color-scheme", "value": scheme}]
        self.call("Emulation.setEmulatedMedia", features=features)
        self.call("Page.navigate", url=path.as_uri())
        self._wait("method", "Page.loadEventFired")

    def value(self, expression: str) -> Any:
        """The value of an expression of JavaScript in the page."""
        given = {"expression": expression, "returnByValue": True, "awaitPromise": True}
        answer = self.call("Runtime.evaluate", **given)
        assert "exceptionDetails" not in answer, answer
        return answer["result"].get("value")

    def picture(self) -> bytes:
        """The whole page as PNG."""
        shown = self.call("Page.captureScreenshot", captureBeyondViewport=True)
        return base64.b64decode(shown["data"])

    def __enter__(self) -> Browser:
        return self

    def __exit__(self, *_: object) -> None:
        self._process.terminate()
        self._process.wait()
        os.close(self._to)
        os.close(self._from)
        # Processes of the browser may write there for a moment more.
        shutil.rmtree(self._folder, ignore_errors=True)
