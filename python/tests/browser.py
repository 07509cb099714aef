"""Chromium without a window, by the pipe of its DevTools protocol: it opens pages, and says what is measured there."""

import fcntl
import json
import os
import select
import shutil
import subprocess
import tempfile
from base64 import b64decode
from pathlib import Path

PROGRAM = "chromium"
_SECONDS = 60
# The program reads commands from the first of these descriptors, and writes to the second one.
_COMMANDS, _ANSWERS = 3, 4
_FIRST_FREE = 10


def is_installed():
    return shutil.which(PROGRAM) is not None


class Browser:
    """One tab of a browser, which ends with the block."""

    def __enter__(self):
        self._profile = tempfile.TemporaryDirectory(prefix="mpslp-browser-", ignore_cleanup_errors=True)
        theirs_in, self._commands = _pipe()
        self._answers, theirs_out = _pipe()

        def take_pipes():
            os.dup2(theirs_in, _COMMANDS)
            os.dup2(theirs_out, _ANSWERS)

        words = [PROGRAM, "--headless=new", "--remote-debugging-pipe", f"--user-data-dir={self._profile.name}"]
        words += ["--no-first-run", "--disable-gpu", "--disable-dev-shm-usage", "--hide-scrollbars"]
        words += ["--no-sandbox"] if os.geteuid() == 0 else []
        self._process = subprocess.Popen(
            words, stdout=subprocess.DEVNULL, stderr=subprocess.DEVNULL, preexec_fn=take_pipes, close_fds=False
        )
        for descriptor in (theirs_in, theirs_out):
            os.close(descriptor)
        self._number, self._unread, self._session = 0, b"", {}
        target = self._call("Target.createTarget", url="about:blank")["targetId"]
        session = self._call("Target.attachToTarget", targetId=target, flatten=True)["sessionId"]
        self._session = {"sessionId": session}
        self._call("Page.enable")
        return self

    def __exit__(self, *_):
        self._process.kill()
        self._process.wait()
        os.close(self._commands)
        os.close(self._answers)
        self._profile.cleanup()

    def open(self, path, width, media="screen", is_dark=False):
        """Opens a file in a window of this width."""
        self._call("Emulation.setDeviceMetricsOverride", width=width, height=800, deviceScaleFactor=1, mobile=False)
        scheme = {"name": "prefers-color-scheme", "value": "dark" if is_dark else "light"}
        self._call("Emulation.setEmulatedMedia", media=media, features=[scheme])
        self._call("Page.navigate", url=Path(path).resolve().as_uri())
        while self._receive().get("method") != "Page.loadEventFired":
            pass

    def value(self, expression):
        """The value of an expression of JavaScript on the page, as JSON has it."""
        answer = self._call("Runtime.evaluate", expression=expression, returnByValue=True)
        if "exceptionDetails" in answer:
            raise ValueError(answer["exceptionDetails"])
        return answer["result"].get("value")

    def picture(self, path):
        """Writes a PNG of the whole page."""
        answer = self._call("Page.captureScreenshot", captureBeyondViewport=True)
        Path(path).write_bytes(b64decode(answer["data"]))

    def _call(self, method, **parameters):
        self._number += 1
        message = {"id": self._number, "method": method, "params": parameters, **self._session}
        os.write(self._commands, json.dumps(message).encode() + b"\0")
        while (answer := self._receive()).get("id") != self._number:
            pass
        if "error" in answer:
            raise OSError(f"{method}: {answer['error']}")
        return answer["result"]

    def _receive(self):
        while b"\0" not in self._unread:
            ready, _, _ = select.select([self._answers], [], [], _SECONDS)
            piece = os.read(self._answers, 1 << 16) if ready else b""
            if not piece:
                raise OSError(f"{PROGRAM} does not answer")
            self._unread += piece
        message, _, self._unread = self._unread.partition(b"\0")
        return json.loads(message)


def _pipe():
    """A pipe whose descriptors are none of those that the program uses."""
    found = os.pipe()
    moved = [fcntl.fcntl(each, fcntl.F_DUPFD_CLOEXEC, _FIRST_FREE) for each in found]
    for each in found:
        os.close(each)
    return moved
