"""Chromium without a window, spoken to by its protocol for developers over two pipes."""

from __future__ import annotations

import base64
import fcntl
import json
import os
import shutil
import subprocess
import tempfile
from pathlib import Path
from typing import Any

PATH = shutil.which("chromium")

A4 = {"preferCSSPageSize": True, "printBackground": True}


class Browser:
    """One page at a time; `asked` and `said` have what it asked of the network and said on the console."""

    def __init__(self) -> None:
        self._room = tempfile.TemporaryDirectory(ignore_cleanup_errors=True)
        (near_in, ours_out), (ours_in, near_out) = os.pipe(), os.pipe()
        self._out, self._in = os.fdopen(ours_out, "wb", 0), os.fdopen(ours_in, "rb")
        theirs = tuple(fcntl.fcntl(near, fcntl.F_DUPFD, 10) for near in (near_in, near_out))
        options = ["--headless", "--no-sandbox", "--disable-gpu", "--no-first-run", "--disable-dev-shm-usage"]
        options += ["--disable-background-networking", "--remote-debugging-pipe", f"--user-data-dir={self._room.name}"]
        # Chromium reads from 3 and writes to 4.
        command = f"exec {PATH} {' '.join(options)} 3<&{theirs[0]} 4>&{theirs[1]} {theirs[0]}<&- {theirs[1]}>&-"
        self._process = subprocess.Popen(
            ["bash", "-c", command], pass_fds=theirs, stdout=subprocess.DEVNULL, stderr=subprocess.DEVNULL
        )
        for handle in (near_in, near_out, *theirs):
            os.close(handle)
        self._number, self._session = 0, ""
        self.asked: list[str] = []
        self.said: list[str] = []
        target = self.call("Target.createTarget", url="about:blank")["targetId"]
        self._session = self.call("Target.attachToTarget", targetId=target, flatten=True)["sessionId"]
        for domain in ("Page", "Network", "Log", "Runtime"):
            self.call(f"{domain}.enable")

    def __enter__(self) -> Browser:
        return self

    def __exit__(self, *_: object) -> None:
        self._process.kill()
        self._process.wait()
        self._out.close()
        self._in.close()
        self._room.cleanup()

    def call(self, method: str, **values: Any) -> Any:
        self._number += 1
        message = {"id": self._number, "method": method, "params": values}
        if self._session:
            message["sessionId"] = self._session
        self._out.write(json.dumps(message).encode() + b"\0")
        while (heard := self._hear()).get("id") != self._number:
            pass
        if "error" in heard:
            raise RuntimeError(heard["error"])
        return heard["result"]

    def _hear(self) -> Any:
        text = bytearray()
        while (byte := self._in.read(1)) != b"\0":
            if not byte:
                raise EOFError
            text += byte
        heard = json.loads(text)
        if heard.get("method") == "Network.requestWillBeSent":
            self.asked.append(heard["params"]["request"]["url"])
        elif heard.get("method") in ("Log.entryAdded", "Runtime.consoleAPICalled", "Runtime.exceptionThrown"):
            self.said.append(json.dumps(heard["params"]))
        self._last = heard
        return heard

    def open(self, path: Path, width: int, height: int = 900) -> None:
        """Opens a page at a width."""
        sizes = {"width": width, "height": height, "deviceScaleFactor": 1, "mobile": width < 600}
        self.call("Emulation.setDeviceMetricsOverride", **sizes)
        self.call("Page.navigate", url=path.resolve().as_uri())
        while self._hear().get("method") != "Page.loadEventFired":
            pass

    def value(self, expression: str) -> Any:
        return self.call("Runtime.evaluate", expression=expression, returnByValue=True)["result"].get("value")

    def picture(self) -> bytes:
        """The whole page, as PNG."""
        return base64.b64decode(self.call("Page.captureScreenshot", captureBeyondViewport=True)["data"])

    def part(self, first: str, last: str, scale: float) -> bytes:
        """The page from one element to another, over its whole width, as PNG."""
        boxes = [f"document.querySelector({json.dumps(one)}).getBoundingClientRect()" for one in (first, last)]
        top, end = self.value(f"Math.max(0, {boxes[0]}.top - 16)"), self.value(f"{boxes[1]}.bottom + 8")
        width = self.value("document.documentElement.clientWidth")
        area = {"x": 0, "y": top, "width": width, "height": end - top, "scale": scale}
        return base64.b64decode(self.call("Page.captureScreenshot", captureBeyondViewport=True, clip=area)["data"])

    def printed(self) -> bytes:
        return base64.b64decode(self.call("Page.printToPDF", **A4)["data"])
