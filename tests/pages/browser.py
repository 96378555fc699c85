"""A headless Chromium, spoken to over a pair of pipes."""

import base64
import json
import os
import shutil
import subprocess
import tempfile


class Browser:
    """One page of a browser of our own."""

    def __init__(self) -> None:
        self.folder = tempfile.TemporaryDirectory(ignore_cleanup_errors=True)
        to_read, self.to = os.pipe()
        self.back, back_write = os.pipe()
        words = [
            find_chromium(),
            "--headless=new",
            "--no-sandbox",
            "--disable-gpu",
            "--disable-software-rasterizer",
            "--hide-scrollbars",
            "--remote-debugging-pipe",
            "--disable-extensions",
            "--no-first-run",
            "--disable-background-networking",
            f"--user-data-dir={self.folder.name}",
            "about:blank",
        ]

        def place() -> None:
            os.dup2(to_read, 63)
            os.dup2(back_write, 64)
            os.dup2(63, 3)
            os.dup2(64, 4)

        self.child = subprocess.Popen(
            words,
            stdin=subprocess.DEVNULL,
            stdout=subprocess.DEVNULL,
            stderr=subprocess.DEVNULL,
            close_fds=False,
            preexec_fn=place,
        )
        os.close(to_read)
        os.close(back_write)
        self.rest, self.number, self.session, self.faults = b"", 0, None, []
        target = self.call("Target.createTarget", url="about:blank")["targetId"]
        self.session = self.call("Target.attachToTarget", targetId=target, flatten=True)["sessionId"]
        for name in ("Page.enable", "Runtime.enable", "Log.enable", "Network.enable"):
            self.call(name)

    def close(self) -> None:
        """Ends the browser."""
        self.session = None
        self.send("Browser.close")
        self.child.wait()
        self.folder.cleanup()

    def message(self) -> dict:
        """The next message."""
        while b"\0" not in self.rest:
            part = os.read(self.back, 1 << 16)
            if not part:
                raise RuntimeError("the browser ended")
            self.rest += part
        told, self.rest = self.rest.split(b"\0", 1)
        return json.loads(told)

    def note(self, told: dict) -> None:
        """Keeps what went wrong in the page, and what it asked for outside its file."""
        method, params = told.get("method"), told.get("params", {})
        if method == "Runtime.exceptionThrown":
            self.faults.append(params["exceptionDetails"]["text"])
        elif method == "Log.entryAdded" and params["entry"]["level"] in ("error", "warning"):
            self.faults.append(params["entry"]["text"])
        elif method == "Page.javascriptDialogOpening":
            self.faults.append(f"a dialog: {params['message']}")
            self.send("Page.handleJavaScriptDialog", accept=True)
        elif method == "Network.requestWillBeSent" and not params["request"]["url"].startswith(("file:", "data:")):
            self.faults.append(f"asked for {params['request']['url']}")

    def send(self, method: str, **params) -> int:
        """Sends a command; its number."""
        self.number += 1
        told = {"id": self.number, "method": method, "params": params}
        if self.session:
            told["sessionId"] = self.session
        os.write(self.to, json.dumps(told).encode() + b"\0")
        return self.number

    def call(self, method: str, **params) -> dict:
        """What a command gives."""
        number = self.send(method, **params)
        while True:
            told = self.message()
            if told.get("id") == number:
                if "error" in told:
                    raise RuntimeError(f"{method}: {told['error']}")
                return told["result"]
            self.note(told)

    def wait(self, method: str) -> None:
        """Waits for an event."""
        while True:
            told = self.message()
            self.note(told)
            if told.get("method") == method:
                return

    def look(self, width: int, is_dark: bool = False, media: str = "screen") -> None:
        """Shows the page that is open at a width, in light or dark."""
        self.call("Emulation.setDeviceMetricsOverride", width=width, height=900, deviceScaleFactor=1, mobile=False)
        features = [{"name": "prefers-color-scheme", "value": "dark" if is_dark else "light"}]
        self.call("Emulation.setEmulatedMedia", media=media, features=features)

    def open(
        self,
        path: str,
        width: int,
        is_dark: bool = False,
        has_scripts: bool = True,
        media: str = "screen",
        fragment: str = "",
    ) -> None:
        """Opens a file at a width."""
        self.look(width, is_dark, media)
        self.call("Emulation.setScriptExecutionDisabled", value=not has_scripts)
        # A query, so that it is read anew where it is open.
        self.call("Page.navigate", url=f"file://{path}?{self.number}{fragment}")
        self.wait("Page.loadEventFired")

    def value(self, text: str):
        """What an expression gives in the page."""
        told = self.call("Runtime.evaluate", expression=text, returnByValue=True, awaitPromise=True)
        if "exceptionDetails" in told:
            raise RuntimeError(told["exceptionDetails"])
        return told["result"].get("value")

    def holds(self, text: str) -> bool:
        """Whether an expression is true in the page. One that fails is not."""
        try:
            return self.value(text) is True
        except RuntimeError:
            return False

    def key(self, name: str, code: int) -> None:
        """Strikes a key."""
        for kind in ("keyDown", "keyUp"):
            self.call("Input.dispatchKeyEvent", type=kind, key=name, code=name, windowsVirtualKeyCode=code)

    def picture(self, path: str, is_whole: bool = True) -> None:
        """Keeps a picture of the page."""
        told = self.call("Page.captureScreenshot", captureBeyondViewport=is_whole)
        with open(path, "wb") as file:
            file.write(base64.b64decode(told["data"]))


def find_chromium() -> str | None:
    """The browser, where there is one."""
    # Debian's script of that name adds words for a graphics card.
    plain = "/usr/lib/chromium/chromium"
    if os.access(plain, os.X_OK):
        return plain
    return shutil.which("chromium") or shutil.which("chromium-browser") or shutil.which("google-chrome")
