"""A headless Chromium for tests, spoken to by its DevTools protocol over two pipes: messages of JSON, each ended by a byte 0."""
import base64
import contextlib
import fcntl
import json
import os
import select
import shutil
import signal
import subprocess
import tempfile
import time
import unittest

LIMIT = 120  # seconds for one answer
NAMES = ("chromium", "chromium-browser", "google-chrome")
WORDS = ["--headless", "--remote-debugging-pipe", "--no-first-run", "--no-default-browser-check", "--disable-gpu", "--disable-dev-shm-usage",
         "--disable-background-networking", "--disable-component-update", "--disable-sync", "--disable-extensions", "--no-proxy-server",
         "--host-resolver-rules=MAP * ~NOTFOUND , EXCLUDE 127.0.0.1", "--hide-scrollbars",
         "--no-sandbox"]  # it opens no page but our own, and has no sandbox to start where a container has none
KEYS = {"Tab": (9, None), "Enter": (13, "\r"), "Escape": (27, None), " ": (32, " "), "ArrowUp": (38, None), "ArrowDown": (40, None),
        "ArrowLeft": (37, None), "ArrowRight": (39, None), "Home": (36, None), "End": (35, None), "r": (82, "r")}


# Whether all is answered within so many milliseconds.
SETTLED = """new Promise(done => {
    const look = () => document.body?.getAttribute("aria-busy") === "false" && done(true);
    new MutationObserver(look).observe(document, {subtree: true, childList: true, attributeFilter: ["aria-busy"]});
    setTimeout(() => done(false), %d);
    look();
})"""


class PageFault(AssertionError):
    """The page threw something, asked for something from elsewhere, or never settled."""


class NoResult(PageFault):
    """A script didn't end."""


def path():
    """The path of a browser that starts, or None."""
    for name in NAMES:
        found = shutil.which(name)
        with contextlib.suppress(OSError, subprocess.SubprocessError):
            if found and subprocess.run([found, "--version"], capture_output=True, timeout=LIMIT).returncode == 0:
                return found
    return None


def need():
    """A Browser; tests that need one are skipped where none is there."""
    found = path()
    if not found:
        raise unittest.SkipTest("the page isn't tried in a browser, since there is no Chromium")
    return Browser(found)


def above_4(end):
    """The same end of a pipe, at a number that the browser's own two, 3 and 4, don't hide."""
    moved = fcntl.fcntl(end, fcntl.F_DUPFD_CLOEXEC, 20)
    os.close(end)
    return moved


class Browser:
    def __init__(self, program):
        self.home = tempfile.TemporaryDirectory(prefix="smoke-", ignore_cleanup_errors=True)
        hears, self.to = os.pipe()
        self.come, says = os.pipe()
        hears, says = above_4(hears), above_4(says)
        pipes = f"3<&{hears} 4>&{says} {hears}<&- {says}>&-"
        self.process = subprocess.Popen(["bash", "-c", f'exec "$0" "$@" {pipes}', program, *WORDS, f"--user-data-dir={self.home.name}", "about:blank"],
                                        pass_fds=(hears, says), start_new_session=True, env={**os.environ, "HOME": self.home.name},
                                        **dict.fromkeys(("stdin", "stdout", "stderr"), subprocess.DEVNULL))
        os.close(hears)
        os.close(says)
        self.rest, self.calls, self.events, self.front = b"", 0, [], None

    def close(self):
        with contextlib.suppress(PageFault, OSError, subprocess.SubprocessError):
            self.call("Browser.close")
            self.process.wait(LIMIT)
        with contextlib.suppress(ProcessLookupError):
            os.killpg(self.process.pid, signal.SIGKILL)
        self.process.wait()
        os.close(self.to)
        os.close(self.come)
        self.home.cleanup()

    def message(self):
        end = time.monotonic() + LIMIT
        while b"\0" not in self.rest:
            if not select.select([self.come], [], [], max(0, end - time.monotonic()))[0]:
                raise PageFault(f"the browser said nothing in {LIMIT} s")
            more = os.read(self.come, 1 << 20)
            if not more:
                raise PageFault("the browser has ended")
            self.rest += more
        message, self.rest = self.rest.split(b"\0", 1)
        return json.loads(message)

    def call(self, method, session=None, **given):
        """Calls a method, and gives its result. Events on the way are kept."""
        self.calls += 1
        number = self.calls
        message = {"id": number, "method": method, "params": given, **({"sessionId": session} if session else {})}
        os.write(self.to, json.dumps(message).encode() + b"\0")
        while True:
            message = self.message()
            if message.get("id") == number:
                if "error" in message:
                    raise NoResult(f"the browser, {method}: {message['error']}")
                return message["result"]
            self.events.append(message)


class Tab:
    """A tab with a page of a server."""

    def __init__(self, browser, url, width=1280, height=900, phone=False, dark=False, waits=True):
        self.browser, self.url = browser, url
        self.target = browser.call("Target.createTarget", url="about:blank")["targetId"]
        self.session = browser.call("Target.attachToTarget", targetId=self.target, flatten=True)["sessionId"]
        for domain in ("Page", "Runtime", "Network"):
            self.call(f"{domain}.enable")
        features = [{"name": "prefers-reduced-motion", "value": "reduce"}, {"name": "prefers-color-scheme", "value": "dark" if dark else "light"}]
        self.call("Emulation.setEmulatedMedia", features=features)
        self.call("Emulation.setFocusEmulationEnabled", enabled=True)
        self.size(width, height, phone)
        if waits:
            self.open("")

    def call(self, method, **given):
        return self.browser.call(method, self.session, **given)

    def close(self):
        self.browser.call("Target.closeTarget", targetId=self.target)

    def size(self, width, height, phone=False):
        self.call("Emulation.setDeviceMetricsOverride", width=width, height=height, deviceScaleFactor=2 if phone else 1, mobile=phone)
        self.call("Emulation.setTouchEmulationEnabled", enabled=phone)

    def open(self, fragment):
        """Opens the page at an address with a fragment."""
        self.call("Page.navigate", url="about:blank")
        self.call("Page.navigate", url=self.url + fragment)
        self.settle()

    def reload(self):
        self.value("window.old = true")
        self.call("Page.reload")
        end = time.monotonic() + LIMIT
        while self.value("window.old") and time.monotonic() < end:
            time.sleep(0.01)
        self.settle()

    def value(self, script):
        result = self.call("Runtime.evaluate", expression=script, returnByValue=True, awaitPromise=True)
        if "exceptionDetails" in result:
            raise PageFault(f"{script[:80]}: {result['exceptionDetails']}")
        return result["result"].get("value")

    def settle(self):
        """Waits until each request of the page has its answer. It may have thrown nothing, and asked nothing of any other place."""
        end = time.monotonic() + LIMIT
        while time.monotonic() < end:
            with contextlib.suppress(NoResult):  # it goes to another page
                if self.value(SETTLED % (LIMIT * 1000)):
                    return self.check()
        raise PageFault(f"the page waits for more than {LIMIT} s")

    def check(self):
        events = [event for event in self.browser.events if event.get("sessionId") == self.session]
        self.browser.events = [event for event in self.browser.events if event not in events]
        for event in events:
            if event["method"] == "Runtime.exceptionThrown":
                raise PageFault(f"the page threw {event['params']}")
            if event["method"] == "Runtime.consoleAPICalled" and event["params"]["type"] == "error":
                raise PageFault(f"the page said {event['params']['args']}")
            if event["method"] == "Network.requestWillBeSent":
                asked = event["params"]["request"]["url"]
                if not asked.startswith((self.url, "data:", "about:")):
                    raise PageFault(f"the page asks for {asked}")

    def box(self, selector):
        """Where an element is, scrolled into view: left, top, width, height."""
        return self.value(f"""(it => (it.scrollIntoView({{block: "center"}}), it = it.getBoundingClientRect(), [it.x, it.y, it.width, it.height]))(
            document.querySelector({json.dumps(selector)}))""")

    def middle(self, selector):
        if self.browser.front is not self:
            self.browser.front = self
            self.call("Page.bringToFront")
        x, y, width, height = self.box(selector)
        return x + width / 2, y + height / 2

    def mouse(self, kind, x, y, shift=False, held=False):
        button = {"button": "left", "clickCount": 1} if kind != "mouseMoved" else {"button": "left" if held else "none"}
        self.call("Input.dispatchMouseEvent", type=kind, x=x, y=y, modifiers=8 if shift else 0, buttons=1 if held else 0, **button)

    def click(self, selector, shift=False):
        at = self.middle(selector)
        self.mouse("mouseMoved", *at, shift)
        self.mouse("mousePressed", *at, shift, True)
        self.mouse("mouseReleased", *at, shift)
        self.settle()

    def point(self, selector):
        self.mouse("mouseMoved", *self.middle(selector))

    def drag(self, selector, to, shift=False):
        """Drags from the middle of one element to that of another that is in view with it."""
        self.box(to)
        begin, end = self.middle(selector), self.value(f"""(it => (it = it.getBoundingClientRect(), [it.x + it.width / 2, it.y + it.height / 2]))(
            document.querySelector({json.dumps(to)}))""")
        self.mouse("mousePressed", *begin, shift, True)
        for part in (0.3, 0.7, 1):
            self.mouse("mouseMoved", begin[0] + part * (end[0] - begin[0]), begin[1], shift, True)
        self.mouse("mouseReleased", end[0], begin[1], shift)
        self.settle()

    def tap(self, selector):
        x, y = self.middle(selector)
        self.call("Input.dispatchTouchEvent", type="touchStart", touchPoints=[{"x": x, "y": y}])
        self.call("Input.dispatchTouchEvent", type="touchEnd", touchPoints=[])
        time.sleep(0.05)
        self.settle()

    def key(self, key, shift=False):
        code, text = KEYS[key]
        for kind in ("keyDown", "keyUp"):
            more = {"text": text} if text and kind == "keyDown" else {}
            self.call("Input.dispatchKeyEvent", type=kind, key=key, windowsVirtualKeyCode=code, modifiers=8 if shift else 0, **more)
        self.settle()

    def write(self, selector, text):
        """Writes a text into a field, in place of what is there."""
        self.value(f"(it => (it.focus(), it.select()))(document.querySelector({json.dumps(selector)}))")
        if text:
            self.call("Input.insertText", text=text)
        else:
            self.call("Input.dispatchKeyEvent", type="keyDown", key="Backspace", windowsVirtualKeyCode=8)
            self.call("Input.dispatchKeyEvent", type="keyUp", key="Backspace", windowsVirtualKeyCode=8)
        time.sleep(0.25)
        self.settle()

    def text(self, selector):
        return self.value(f"document.querySelector({json.dumps(selector)})?.innerText")

    def picture(self, file):
        """Saves what is shown as a PNG file."""
        image = self.call("Page.captureScreenshot", format="png")
        with open(file, "wb") as out:
            out.write(base64.b64decode(image["data"]))
