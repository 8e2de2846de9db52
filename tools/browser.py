"""A page in a real browser: Chromium without a window, over its debugging pipe. Python's standard library alone."""
import base64
import contextlib
import fcntl
import json
import os
import select
import signal
import subprocess
import time

FLAGS = ("--headless=new", "--no-sandbox", "--disable-gpu", "--no-first-run", "--disable-background-networking", "--disable-component-update", "--disable-sync",
         "--disable-extensions", "--host-resolver-rules=MAP * ~NOTFOUND", "--remote-debugging-pipe")


class Silent(Exception):
    """The browser does not answer, or says that it cannot."""


def pipe():
    """A pipe whose ends are none of the low numbers that the browser's own have."""
    ends = os.pipe()
    high = [fcntl.fcntl(end, fcntl.F_DUPFD_CLOEXEC, 10) for end in ends]
    for end in ends:
        os.close(end)
    return high


class Browser:
    """One page at a time. Requests go to the browser's file 3, answers and events come from its file 4, each ended by a zero byte. It
    looks up no name, so that nothing leaves the machine, whatever a page asks for."""

    def __init__(self, profile, patience=60):
        self.patience, self.rest, self.events, self.number, self.page = patience, b"", [], 0, None
        (theirs_in, self.into), (self.out, theirs_out) = pipe(), pipe()
        command = ["bash", "-c", f'exec "$@" 3<&{theirs_in} 4>&{theirs_out}', "x", "chromium", *FLAGS, f"--user-data-dir={profile}", "about:blank"]
        self.program = subprocess.Popen(command, pass_fds=(theirs_in, theirs_out), stdin=subprocess.DEVNULL, stdout=subprocess.DEVNULL, stderr=subprocess.DEVNULL, start_new_session=True)
        os.close(theirs_in)
        os.close(theirs_out)
        target = self.ask("Target.createTarget", url="about:blank")["targetId"]
        self.page = self.ask("Target.attachToTarget", targetId=target, flatten=True)["sessionId"]
        for domain in ("Page", "Network", "Runtime", "Log"):
            self.ask(f"{domain}.enable")

    def __enter__(self):
        return self

    def __exit__(self, *_):
        self.page = None
        with contextlib.suppress(Silent, OSError, subprocess.TimeoutExpired):
            self.ask("Browser.close")
            self.program.wait(timeout=10)
        if self.program.poll() is None:
            os.killpg(self.program.pid, signal.SIGKILL)
            self.program.wait()
        os.close(self.into)
        os.close(self.out)

    def message(self):
        """The next answer or event."""
        until = time.monotonic() + self.patience
        while b"\0" not in self.rest:
            ready, _, _ = select.select([self.out], [], [], max(0, until - time.monotonic()))
            got = os.read(self.out, 1 << 16) if ready else b""
            if not got:
                raise Silent("no answer")
            self.rest += got
        first, self.rest = self.rest.split(b"\0", 1)
        return json.loads(first)

    def ask(self, method, **given):
        self.number += 1
        request = {"id": self.number, "method": method, "params": given, **({"sessionId": self.page} if self.page else {})}
        os.write(self.into, json.dumps(request).encode() + b"\0")
        while (got := self.message()).get("id") != self.number:
            self.events.append(got)
        if "error" in got:
            raise Silent(f"{method}: {got['error']['message']}")
        return got["result"]

    def open(self, address, width, height=900, phone=False):
        """Loads a page in a window of a size, and waits until all of it is there."""
        self.ask("Emulation.setDeviceMetricsOverride", width=width, height=height, deviceScaleFactor=1, mobile=phone)
        self.events.clear()
        got = self.ask("Page.navigate", url=address)
        if "errorText" in got:
            raise Silent(f"{address}: {got['errorText']}")
        while not any(event["method"] == "Page.loadEventFired" for event in self.events):
            self.events.append(self.message())

    def value(self, expression):
        """What a JavaScript expression is on the page."""
        got = self.ask("Runtime.evaluate", expression=expression, returnByValue=True, awaitPromise=True)
        if "exceptionDetails" in got:
            raise Silent(json.dumps(got["exceptionDetails"])[:400])
        return got["result"].get("value")

    def asked_for(self):
        """The addresses that the page has asked for since it was opened."""
        self.value("new Promise(done => setTimeout(done, 200))")
        return [event["params"]["request"]["url"] for event in self.events if event["method"] == "Network.requestWillBeSent"]

    def faults(self):
        """What the browser finds wrong with the page."""
        return [event["params"] for event in self.events if event["method"] in ("Log.entryAdded", "Runtime.exceptionThrown")]

    def picture(self):
        """The whole page as PNG."""
        return base64.b64decode(self.ask("Page.captureScreenshot", captureBeyondViewport=True)["data"])

    def printed(self):
        """The page on paper, as PDF."""
        return base64.b64decode(self.ask("Page.printToPDF", preferCSSPageSize=True, printBackground=False)["data"])
