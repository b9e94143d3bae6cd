"""For the self-test of tools/page: Chromium without a window, driven by its protocol over two pipes."""
import base64
import json
import os
import shutil
import signal
import subprocess
import time
from typing import Any, Optional

NAMES = ("chromium", "chromium-browser", "google-chrome")
WORDS = [
    "--headless", "--no-sandbox", "--disable-gpu", "--disable-dev-shm-usage", "--no-first-run", "--disable-extensions",
    "--hide-scrollbars", "--disable-background-networking", "--disable-component-update", "--remote-debugging-pipe",
]
LONGEST_WAIT = 30.0  # seconds for an answer


def find_browser() -> Optional[str]:
    return next(filter(None, map(shutil.which, NAMES)), None)


class Browser:
    """A browser with one page."""

    def __init__(self, program: str, room: str):
        theirs, self.commands = os.pipe()
        self.answers, ours = os.pipe()
        # (the protocol's pipes are 3 and 4 there)
        words = ["sh", "-c", f'exec "$@" 3<&{theirs} 4>&{ours}', "sh", program, *WORDS, f"--user-data-dir={room}", "about:blank"]
        quiet = {"stdin": subprocess.DEVNULL, "stdout": subprocess.DEVNULL, "stderr": subprocess.DEVNULL}
        self.program = subprocess.Popen(words, pass_fds=(theirs, ours), start_new_session=True, **quiet)
        os.close(theirs)
        os.close(ours)
        self.held = b""
        self.number = 0
        self.session: Optional[str] = None
        self.events: list[dict] = []
        target = self.ask("Target.createTarget", url="about:blank")["targetId"]
        self.session = self.ask("Target.attachToTarget", targetId=target, flatten=True)["sessionId"]
        for domain in ("Page", "Runtime", "Log"):
            self.ask(f"{domain}.enable")

    def close(self) -> None:
        try:
            os.killpg(self.program.pid, signal.SIGKILL)
        except ProcessLookupError:
            pass
        self.program.wait()
        os.close(self.commands)
        os.close(self.answers)

    def ask(self, method: str, **words: Any) -> dict:
        """Sends a command, and waits for its answer."""
        self.number += 1
        command = {"id": self.number, "method": method, "params": words}
        if self.session:
            command["sessionId"] = self.session
        os.write(self.commands, json.dumps(command).encode() + b"\0")
        while True:
            told = self.next()
            if told.get("id") == self.number:
                if "error" in told:
                    raise RuntimeError(f"{method}: {told['error']}")
                return told["result"]
            self.events.append(told)

    def next(self) -> dict:
        while b"\0" not in self.held:
            more = os.read(self.answers, 1 << 20)
            if not more:
                raise RuntimeError("the browser has ended")
            self.held += more
        message, _, self.held = self.held.partition(b"\0")
        return json.loads(message)

    def open(self, address: str) -> float:
        """Opens a page; answers after how many seconds it was loaded."""
        self.events.clear()
        began = time.monotonic()
        self.ask("Page.navigate", url=address)
        while not any(event.get("method") == "Page.loadEventFired" for event in self.events):
            self.events.append(self.next())
        return time.monotonic() - began

    def run(self, script: str) -> Any:
        """The value of an expression in the page."""
        told = self.ask("Runtime.evaluate", expression=script, returnByValue=True, awaitPromise=True)
        if "exceptionDetails" in told:
            raise RuntimeError(json.dumps(told["exceptionDetails"])[:500])
        return told["result"].get("value")

    def wait_for(self, script: str) -> bool:
        """Waits until an expression is true."""
        ends = time.monotonic() + LONGEST_WAIT
        while time.monotonic() < ends:
            if self.run(script):
                return True
            time.sleep(0.05)
        return False

    def press(self, key: str, shift: bool = False) -> None:
        words = {"key": key, "code": key, "modifiers": 8 if shift else 0, "windowsVirtualKeyCode": CODES[key]}
        for kind in ("keyDown", "keyUp"):
            self.ask("Input.dispatchKeyEvent", type=kind, **words)

    def point(self, x: float, y: float) -> None:
        self.ask("Input.dispatchMouseEvent", type="mouseMoved", x=x, y=y)

    def click(self, x: float, y: float) -> None:
        for kind in ("mousePressed", "mouseReleased"):
            self.ask("Input.dispatchMouseEvent", type=kind, x=x, y=y, button="left", clickCount=1)

    def width(self, width: int, height: int = 900) -> None:
        self.ask("Emulation.setDeviceMetricsOverride", width=width, height=height, deviceScaleFactor=1, mobile=False)

    def busy(self) -> float:
        """For how many seconds the page has been busy, of the processor's time (behind Performance.enable)."""
        return next(it["value"] for it in self.ask("Performance.getMetrics")["metrics"] if it["name"] == "TaskDuration")

    def faults(self) -> list[str]:
        """What the page's scripts failed at, and what its policy refused."""
        return [json.dumps(event)[:400] for event in self.events if event.get("method") == "Runtime.exceptionThrown"
                or event.get("method") == "Log.entryAdded" and event["params"]["entry"]["level"] == "error"]

    def picture(self, is_whole: bool = True) -> bytes:
        """A picture of the page, as PNG."""
        return base64.b64decode(self.ask("Page.captureScreenshot", format="png", captureBeyondViewport=is_whole)["data"])

    def sheets(self) -> int:
        """How many sheets the page takes on paper."""
        printed = base64.b64decode(self.ask("Page.printToPDF", preferCSSPageSize=True, printBackground=True)["data"])
        return printed.count(b"/Type /Page\n") + printed.count(b"/Type /Page ") + printed.count(b"/Type/Page/")


CODES = {"ArrowLeft": 37, "ArrowRight": 39}
