"""A headless Chromium, driven by its DevTools protocol over a pair of pipes."""

from __future__ import annotations

import base64
import json
import os
import select
import shutil
import subprocess
import tempfile
import time
from collections.abc import Iterator
from contextlib import contextmanager
from pathlib import Path
from typing import Any

NAMES = ("chromium", "chromium-browser", "google-chrome")
ANSWER_WITHIN = 120.0
# The script of a page may not depend on a display or on a profile. As root there is no sandbox.
WORDS = [
    "--headless", "--no-sandbox", "--disable-gpu", "--hide-scrollbars", "--no-first-run",
    "--disable-background-networking", "--remote-debugging-pipe",
]
# The protocol: Chromium reads from descriptor 3, and writes to 4.
SHELL = ["sh", "-c", 'read=$1; write=$2; shift 2; eval "exec \\"\\$@\\" 3<&$read 4>&$write"', "sh"]


def chromium() -> str | None:
    """The program, if there is one."""
    return next((found for it in NAMES if (found := shutil.which(it))), None)


class Browser:
    """One page of a running browser."""

    def __init__(self, to: int, back: int) -> None:
        self.to, self.back = to, back
        self.pending, self.number = b"", 0
        self.session: str | None = None
        self.faults: list[str] = []         # what the page's script or its policy complained of

    def open(self, width: int, height: int, scheme: str) -> None:
        """Opens an empty page; `scheme` is light or dark."""
        target = self.call("Target.createTarget", url="about:blank")["targetId"]
        attached = self.call("Target.attachToTarget", targetId=target, flatten=True)
        self.session = attached["sessionId"]
        for domain in ("Page", "Runtime", "Log"):
            self.call(f"{domain}.enable")
        self.call(
            "Emulation.setDeviceMetricsOverride",
            width=width, height=height, deviceScaleFactor=1, mobile=False,
        )
        feature = {"name": "prefers-color-scheme", "value": scheme}
        self.call("Emulation.setEmulatedMedia", features=[feature])

    def go(self, address: str) -> None:
        self.call("Page.navigate", url=address)

    def value(self, script: str) -> Any:
        """The value of an expression in the page."""
        return self.call("Runtime.evaluate", expression=script)["result"].get("value")

    def wait(self, script: str, within: float) -> None:
        """Waits until an expression is true in the page."""
        end = time.monotonic() + within
        while not self.value(script):
            if time.monotonic() > end:
                raise TimeoutError(f"the page does not come to: {script}")
            time.sleep(0.2)

    def picture(self, file: Path) -> None:
        """Stores the whole page as PNG."""
        height = self.value("Math.ceil(document.body.getBoundingClientRect().height)")
        width = self.value("document.documentElement.clientWidth")
        clip = {"x": 0, "y": 0, "width": width, "height": height, "scale": 1}
        shot = self.call(
            "Page.captureScreenshot", format="png", clip=clip, captureBeyondViewport=True
        )
        file.write_bytes(base64.b64decode(shot["data"]))

    def call(self, method: str, **params: Any) -> dict[str, Any]:
        """The answer to a call of the protocol. What comes before it is noted."""
        self.number += 1
        message: dict[str, Any] = {"id": self.number, "method": method, "params": params}
        if self.session:
            message["sessionId"] = self.session
        os.write(self.to, json.dumps(message).encode() + b"\0")
        while (answer := self._next()).get("id") != self.number:
            self._note(answer)
        if "error" in answer:
            raise RuntimeError(f"{method}: {answer['error']}")
        result: dict[str, Any] = answer["result"]
        return result

    def _note(self, event: dict[str, Any]) -> None:
        params = event.get("params", {})
        if event.get("method") == "Runtime.exceptionThrown":
            details = params["exceptionDetails"]
            self.faults.append(str(details.get("exception", {}).get("description", details)))
        if event.get("method") == "Log.entryAdded" and params["entry"]["level"] == "error":
            self.faults.append(params["entry"]["text"])

    def _next(self) -> dict[str, Any]:
        end = time.monotonic() + ANSWER_WITHIN
        while b"\0" not in self.pending:
            if not select.select([self.back], [], [], max(0.0, end - time.monotonic()))[0]:
                raise TimeoutError("the browser does not answer")
            data = os.read(self.back, 1 << 16)
            if not data:
                raise RuntimeError("the browser has ended")
            self.pending += data
        text, self.pending = self.pending.split(b"\0", 1)
        message: dict[str, Any] = json.loads(text)
        return message


@contextmanager
def browser(program: str) -> Iterator[Browser]:
    """A browser without a profile, which ends with the block."""
    (read, to), (back, write) = os.pipe(), os.pipe()
    with tempfile.TemporaryDirectory(ignore_cleanup_errors=True) as profile:
        words = [*SHELL, str(read), str(write), program, *WORDS, f"--user-data-dir={profile}"]
        process = subprocess.Popen(
            words, pass_fds=(read, write), stdin=subprocess.DEVNULL,
            stdout=subprocess.DEVNULL, stderr=subprocess.DEVNULL,
        )
        os.close(read)
        os.close(write)
        try:
            yield Browser(to, back)
        finally:
            os.close(to)
            os.close(back)
            process.terminate()
            process.wait(30)
