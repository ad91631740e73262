"""Chromium without a window, driven through its debugging pipe (Chrome DevTools Protocol, JSON texts that end in a zero byte)."""
from __future__ import annotations

import atexit
import base64
import json
import os
import shutil
import subprocess
import tempfile
from typing import Any

from tools import held_signals


class Browser:
    """A page in a Chromium of its own, which ends with its block."""

    def __init__(self, address: str, size: tuple[int, int] = (1280, 580)) -> None:
        with held_signals():
            self.room = tempfile.mkdtemp(prefix="adsplice-browser-")
            self.begin(size)
            atexit.register(self.close)  # (if a signal ends the script)
        self.held, self.count = b"", 0
        self.session: str | None = None
        target = next(it for it in self.ask("Target.getTargets")["targetInfos"] if it["type"] == "page")
        self.session = self.ask("Target.attachToTarget", targetId=target["targetId"], flatten=True)["sessionId"]
        self.ask("Emulation.setDeviceMetricsOverride", width=size[0], height=size[1], deviceScaleFactor=1, mobile=False)
        self.ask("Page.navigate", url=address)

    def begin(self, size: tuple[int, int]) -> None:
        """Starts the browser with a window of a size."""
        to_browser, self.requests = os.pipe()
        self.replies, from_browser = os.pipe()
        words = ["chromium", "--headless=new", "--no-sandbox", "--disable-gpu", "--mute-audio", "--no-first-run", "--disable-extensions",
                 "--autoplay-policy=no-user-gesture-required", f"--window-size={size[0]},{size[1]}", f"--user-data-dir={self.room}",
                 "--remote-debugging-pipe", "about:blank"]
        # (the pipe's ends have to be 3 and 4 in the browser; its sound's folder goes with its own)
        self.process = subprocess.Popen(["bash", "-c", f'exec "$@" 3<&{to_browser} 4>&{from_browser}', "bash", *words], pass_fds=(to_browser, from_browser),
                                        stdin=subprocess.DEVNULL, stdout=subprocess.DEVNULL, stderr=subprocess.DEVNULL, start_new_session=True,
                                        env={**os.environ, "PULSE_RUNTIME_PATH": f"{self.room}/pulse"})
        os.close(to_browser)
        os.close(from_browser)

    def __enter__(self) -> Browser:
        return self

    def __exit__(self, *_: object) -> None:
        self.close()

    def close(self) -> None:
        """Ends the browser, and takes its folder away."""
        atexit.unregister(self.close)
        try:
            self.session = None
            self.ask("Browser.close")
        except OSError:
            pass
        os.close(self.requests)
        os.close(self.replies)
        try:
            self.process.wait(10)
        except subprocess.TimeoutExpired:
            self.process.kill()
            self.process.wait()
        shutil.rmtree(self.room, ignore_errors=True)

    def next_text(self) -> dict[str, Any]:
        """The next text that the browser sends."""
        while b"\0" not in self.held:
            piece = os.read(self.replies, 1 << 20)
            if not piece:
                raise OSError("the browser has ended")
            self.held += piece
        text, self.held = self.held.split(b"\0", 1)
        found: dict[str, Any] = json.loads(text)
        return found

    def ask(self, method: str, **words: object) -> dict[str, Any]:
        """What a method of the protocol answers."""
        self.count += 1
        asked: dict[str, object] = {"id": self.count, "method": method, "params": words}
        if self.session:
            asked["sessionId"] = self.session
        os.write(self.requests, json.dumps(asked).encode() + b"\0")
        while True:
            text = self.next_text()
            if text.get("id") == self.count:
                if "error" in text:
                    raise OSError(f"{method}: {text['error']['message']}")
                result: dict[str, Any] = text["result"]
                return result

    def value(self, expression: str) -> Any:
        """The value of an expression of the page."""
        return self.ask("Runtime.evaluate", expression=expression, returnByValue=True)["result"].get("value")

    def take_picture(self, path: str) -> None:
        """Writes a picture of the page as PNG."""
        with open(path, "wb") as it:
            it.write(base64.b64decode(self.ask("Page.captureScreenshot", format="png")["data"]))
