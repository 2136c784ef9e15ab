"""Chromium, Firefox and WebKit, driven by what they have built in, without packages: DevTools over a pipe, Marionette,
and WebKitGTK's own WebDriver."""
import base64
import glob
import json
import os
import shutil
import signal
import subprocess
import sys
import tempfile
import time
import urllib.request
from pathlib import Path
from typing import Any, Callable, Iterator, Optional, Union

from nginx import connected, free_port

QUIET = {"stdin": subprocess.DEVNULL, "stdout": subprocess.DEVNULL, "stderr": subprocess.DEVNULL}
PATIENCE = 240  # seconds for the longest step, on a machine with much other work


OPTIONS = (
    "--headless --disable-gpu --no-first-run --disable-background-networking --disable-dev-shm-usage "
    "--remote-debugging-pipe"
).split()
# Chromium reads from file descriptor 3 and writes to 4.
AT_3_AND_4 = """import os, sys
theirs, back = (os.dup(int(it)) for it in sys.argv[1:3])
while theirs < 5: theirs = os.dup(theirs)
while back < 5: back = os.dup(back)
os.dup2(theirs, 3), os.dup2(back, 4)
os.execvp(sys.argv[3], sys.argv[3:])"""


class Browser:
    """A browser without a window, with a new profile."""

    name: str
    programs: "tuple[str, ...]"
    packages: str  # of Debian

    @classmethod
    def program(cls) -> Optional[str]:
        return next(filter(None, map(shutil.which, cls.programs)), None)

    def __init__(self) -> None:
        self.folder = tempfile.mkdtemp(prefix="page-test-")
        self.process: "Optional[subprocess.Popen[bytes]]" = None

    def close(self) -> None:
        if self.process:
            self.process.terminate()
            try:
                self.process.wait(10)
            except subprocess.TimeoutExpired:
                self.process.kill()
                self.process.wait()
        shutil.rmtree(self.folder, ignore_errors=True)


class Chromium(Browser):
    name = packages = "chromium"
    programs = ("chromium", "chromium-browser", "google-chrome")

    def __init__(self, program: str) -> None:
        super().__init__()
        theirs, self.to = os.pipe()
        self.of, back = os.pipe()
        # Root may not have a sandbox in Chromium; the profile is thrown away.
        words = [program, *OPTIONS, f"--user-data-dir={self.folder}", *["--no-sandbox"] * (os.geteuid() == 0)]
        words = [sys.executable, "-c", AT_3_AND_4, str(theirs), str(back), *words, "about:blank"]
        self.process = subprocess.Popen(words, pass_fds=(theirs, back), **QUIET)
        os.close(theirs)
        os.close(back)
        self.number, self.buffer, self.session, self.events = 0, b"", None, []
        target = self.send("Target.createTarget", url="about:blank")["targetId"]
        self.session = self.send("Target.attachToTarget", targetId=target, flatten=True)["sessionId"]
        for domain in ("Page", "Runtime", "Log", "Network"):
            self.send(domain + ".enable")

    def message(self) -> dict[str, Any]:
        while b"\0" not in self.buffer:
            part = os.read(self.of, 1 << 20)
            if not part:
                raise OSError("the browser ended")
            self.buffer += part
        text, self.buffer = self.buffer.split(b"\0", 1)
        return json.loads(text)

    def send(self, method: str, **words: Any) -> dict[str, Any]:
        self.number += 1
        said = {"id": self.number, "method": method, "params": words}
        if self.session:
            said["sessionId"] = self.session
        os.write(self.to, json.dumps(said).encode() + b"\0")
        while True:
            got = self.message()
            if got.get("id") == self.number:
                if "error" in got:
                    raise RuntimeError(f"{method}: {got['error']}")
                return got["result"]
            if "method" in got:
                self.events.append(got)

    def open(self, url: str) -> None:
        self.send("Page.navigate", url=url)
        wait(lambda: self.run("document.readyState") == "complete")

    def run(self, expression: str) -> Any:
        """The value of an expression in the page, which may be a promise."""
        got = self.send("Runtime.evaluate", expression=expression, awaitPromise=True, returnByValue=True)
        if "exceptionDetails" in got:
            raise RuntimeError(json.dumps(got["exceptionDetails"])[:600])
        return got["result"].get("value")

    def press(self, key: str, text: str = "") -> None:
        code = {"Tab": 9, "Enter": 13, " ": 32, "ArrowDown": 40}[key]
        for kind in ("keyDown", "keyUp"):
            more = {"text": text} if text and kind == "keyDown" else {}
            self.send("Input.dispatchKeyEvent", type=kind, key=key, windowsVirtualKeyCode=code, **more)

    def type(self, text: str) -> None:
        self.send("Input.insertText", text=text)

    def size(self, width: int, height: int, dark: bool = False) -> None:
        self.send("Emulation.setDeviceMetricsOverride", width=width, height=height, deviceScaleFactor=1, mobile=False)
        scheme = {"name": "prefers-color-scheme", "value": "dark" if dark else "light"}
        self.send("Emulation.setEmulatedMedia", features=[scheme])

    def screenshot(self, file: Union[str, Path]) -> None:
        with open(file, "wb") as it:
            it.write(base64.b64decode(self.send("Page.captureScreenshot", format="png")["data"]))

    def forget(self) -> None:
        """Empties what the browser keeps of replies."""
        self.send("Network.clearBrowserCache")

    def asked_hosts(self) -> set[str]:
        sent = [it["params"]["request"]["url"] for it in self.events if it["method"] == "Network.requestWillBeSent"]
        return {it.split("/")[2] for it in sent if it.startswith("http")}

    def complaints(self) -> list[str]:
        """What the browser logged as an error, such as a breach of the policy. A file that is not there, as its icon,
        is none."""
        said = [it["params"]["entry"] for it in self.events if it["method"] == "Log.entryAdded"]
        return [it["text"] for it in said if it["level"] == "error" and it["source"] != "network"]


class Firefox(Browser):
    name, packages = "firefox", "firefox-esr"
    programs = ("firefox-esr", "firefox")

    def __init__(self, program: str) -> None:
        super().__init__()
        port = free_port()
        with open(os.path.join(self.folder, "user.js"), "w", encoding="ascii") as it:
            it.write(f'user_pref("marionette.port", {port});\nuser_pref("browser.shell.checkDefaultBrowser", false);\n')
        words = [program, "--headless", "--marionette", "--no-remote", "--profile", self.folder, "about:blank"]
        self.process = subprocess.Popen(words, env={**os.environ, "HOME": self.folder}, **QUIET)
        self.link = connected(port, self.process)
        self.link.settimeout(PATIENCE)
        self.number = 0
        self.message()
        self.send("WebDriver:NewSession")
        self.send("WebDriver:SetTimeouts", script=PATIENCE * 1000, pageLoad=60000)

    def message(self) -> Any:
        size = b""
        while not size.endswith(b":"):
            size += self.received(1)
        return json.loads(self.received(int(size[:-1])))

    def received(self, size: int) -> bytes:
        data = b""
        while len(data) < size:
            part = self.link.recv(size - len(data))
            if not part:
                raise OSError("the browser ended")
            data += part
        return data

    def send(self, command: str, **words: Any) -> Any:
        self.number += 1
        said = json.dumps([0, self.number, command, words]).encode()
        self.link.sendall(str(len(said)).encode() + b":" + said)
        while True:
            kind, number, fault, value = self.message()
            if kind == 1 and number == self.number:
                if fault:
                    raise RuntimeError(f"{command}: {fault['message']}")
                return value

    def open(self, url: str) -> None:
        self.send("WebDriver:Navigate", url=url)

    def size(self, width: int, height: int) -> None:
        self.send("WebDriver:SetWindowRect", width=width, height=height)

    def run(self, expression: str) -> Any:
        script = (
            "const done = arguments[0]; "
            f"(async () => ({expression}))().then(it => done([true, it]), it => done([false, String(it)]));"
        )
        well, value = self.send("WebDriver:ExecuteAsyncScript", script=script, args=[])["value"]
        if not well:
            raise RuntimeError(value)
        return value


class WebKit(Browser):
    """Plays the vectors alone. It has no headless form, so it runs below Xvfb."""

    name, packages = "webkit", "webkit2gtk-driver and xvfb"
    programs = ("WebKitWebDriver",)
    windows = "/usr/lib/*/webkit2gtk-4.*/MiniBrowser"

    def __init__(self, program: str) -> None:
        super().__init__()
        port = free_port()
        self.url = f"http://127.0.0.1:{port}/session"
        words, environment = ["xvfb-run", "-a", program, f"--port={port}"], {**os.environ, "HOME": self.folder}
        self.process = subprocess.Popen(words, start_new_session=True, env=environment, **QUIET)
        connected(port, self.process).close()
        options = {"binary": sorted(glob.glob(self.windows))[-1], "args": ["--automation"]}
        begun = self.send("", {"capabilities": {"alwaysMatch": {"webkitgtk:browserOptions": options}}})
        self.url += "/" + begun["sessionId"]

    def send(self, path: str, words: dict[str, Any], method: str = "POST") -> Any:
        request = urllib.request.Request(
            self.url + path, json.dumps(words).encode(), {"Content-Type": "application/json"}, method=method
        )
        with urllib.request.urlopen(request, timeout=PATIENCE) as reply:
            return json.load(reply)["value"]

    def open(self, url: str) -> None:
        self.send("/url", {"url": url})

    def run(self, expression: str) -> Any:
        return self.send("/execute/sync", {"script": f"return {expression}", "args": []})

    def close(self) -> None:
        try:
            self.send("", {}, "DELETE")
        finally:
            os.killpg(self.process.pid, signal.SIGTERM)
            super().close()

    @classmethod
    def program(cls) -> Optional[str]:
        return super().program() if shutil.which("xvfb-run") and glob.glob(cls.windows) else None


def wait(holds: Callable[[], object], seconds: float = 60) -> None:
    end = time.monotonic() + seconds
    while not holds():
        if time.monotonic() > end:
            raise TimeoutError("the page does not get there")
        time.sleep(0.02)


def each(*kinds: type[Browser]) -> Iterator[Browser]:
    """Each browser that is installed, of Chromium and Firefox if no kinds are named. One is closed before the next."""
    for kind in kinds or (Chromium, Firefox):
        program = kind.program()
        if not program:
            print(f"skipped: {kind.name} is not installed (Debian: {kind.packages})")
            continue
        browser = kind(program)  # type: ignore[call-arg]
        try:
            yield browser
        finally:
            browser.close()
