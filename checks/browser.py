"""A page in Chromium, which is told what to do through a pipe, in its DevTools protocol."""

import base64
import fcntl
import json
import os
import select
import shutil
import subprocess

NAMES = ("chromium", "chromium-browser", "google-chrome")
FLAGS = ("--headless=new", "--no-sandbox", "--disable-gpu", "--no-first-run", "--remote-debugging-pipe",
         "--window-size=1000,800")
# How a browser starts with its commands at 3 and its answers at 4, as the protocol wants them.
START = 'exec "$0" "$@" 3<&{} 4>&{}'
ABOVE = 10  # the pipes' own numbers, which are to leave 3 and 4 free
SECONDS = 60  # the longest wait for an answer
SHOWN = """(() => {
  const text = (id) => document.getElementById(id).textContent;
  const state = [...document.getElementById('state').children].map((line) => line.textContent);
  return { entry: text('entry'), state, found: text('found') };
})()"""


class NotStarted(Exception):
    """There is no browser, or it doesn't start on this machine."""


def found():
    """Returns where a browser is."""
    path = next((it for it in map(shutil.which, NAMES) if it), None)
    if path is None:
        raise NotStarted(f"no {' or '.join(NAMES)}")
    return path


def pipe():
    """Returns the two ends of a pipe, above the numbers that the browser takes."""
    ends = os.pipe()
    higher = [fcntl.fcntl(end, fcntl.F_DUPFD_CLOEXEC, ABOVE) for end in ends]
    for end in ends:
        os.close(end)
    return higher


class Browser:
    """A browser with one page, whose errors are kept. It ends with the `with` block."""

    def __init__(self, folder):
        path = found()
        given, self.commands = pipe()
        self.answers, told = pipe()
        words = ["bash", "-c", START.format(given, told), path, *FLAGS, f"--user-data-dir={folder}/browser"]
        self.process = subprocess.Popen(
            [*words, "about:blank"], pass_fds=(given, told), stdin=subprocess.DEVNULL, stdout=subprocess.DEVNULL,
            stderr=subprocess.DEVNULL,
        )
        os.close(given), os.close(told)
        self.sent, self.rest, self.session, self.errors, self.loaded = 0, b"", None, [], False

    def __enter__(self):
        try:
            target = self.ask("Target.createTarget", url="about:blank")["targetId"]
        except OSError as error:
            self.__exit__()
            raise NotStarted(f"{self.process.args[3]} does not start: {error}") from error
        self.session = self.ask("Target.attachToTarget", targetId=target, flatten=True)["sessionId"]
        for it in ("Page", "Runtime", "Log"):
            self.ask(f"{it}.enable")
        return self

    def __exit__(self, *_):
        self.process.kill()
        self.process.wait()
        os.close(self.commands), os.close(self.answers)

    def next_message(self):
        while b"\0" not in self.rest:
            is_ready = select.select([self.answers], [], [], SECONDS)[0]
            some = os.read(self.answers, 1 << 16) if is_ready else b""
            if not some:
                raise OSError("the browser has ended" if is_ready else f"no answer within {SECONDS} s")
            self.rest += some
        message, self.rest = self.rest.split(b"\0", 1)
        return json.loads(message)

    def notice(self, message):
        """Keeps what the page said of an error, and that it was loaded."""
        method, told = message.get("method"), message.get("params", {})
        self.loaded = self.loaded or method == "Page.loadEventFired"
        if method == "Runtime.exceptionThrown":
            self.errors.append(told["exceptionDetails"]["text"])
        if method == "Log.entryAdded" and told["entry"]["level"] == "error":
            self.errors.append(told["entry"]["text"])
        if method == "Runtime.consoleAPICalled" and told["type"] in ("error", "assert"):
            self.errors.append(str(told["args"]))

    def ask(self, method, **words):
        """Sends a command, and returns its answer."""
        self.sent += 1
        message = {"id": self.sent, "method": method, "params": words}
        if self.session is not None:
            message["sessionId"] = self.session
        os.write(self.commands, json.dumps(message).encode() + b"\0")
        while True:
            answer = self.next_message()
            if answer.get("id") == self.sent:
                return answer["result"]
            self.notice(answer)

    def value(self, expression):
        """Returns what an expression is in the page."""
        return self.ask("Runtime.evaluate", expression=expression, returnByValue=True)["result"].get("value")

    def open(self, address):
        self.loaded = False
        self.ask("Page.navigate", url=address)
        while not self.loaded:
            self.notice(self.next_message())

    def press(self, key):
        for it in ("keyDown", "keyUp"):
            self.ask("Input.dispatchKeyEvent", type=it, key=key, text=key if len(key) == 1 and it == "keyDown" else "")

    def click(self, name):
        """Clicks in the middle of the element of this name."""
        place = self.value(f"(({{x, y, width, height}}) => [x + width / 2, y + height / 2])"
                           f"(document.getElementById({name!r}).getBoundingClientRect())")
        for it in ("mousePressed", "mouseReleased"):
            self.ask("Input.dispatchMouseEvent", type=it, x=place[0], y=place[1], button="left", clickCount=1)

    def shown(self):
        """Returns what the panel says: the entry, the state after it, and what a search found."""
        return self.value(SHOWN)

    def spoken(self):
        """Returns what a screen reader is given of the page: the names of all that it can read."""
        nodes = self.ask("Accessibility.getFullAXTree")["nodes"]
        return {node.get("name", {}).get("value", "") for node in nodes}

    def screenshot(self):
        """Returns a picture of the page as wide as the window, as a PNG file has it."""
        width, height = self.value("[innerWidth, document.body.getBoundingClientRect().bottom + 15]")
        clip = {"x": 0, "y": 0, "width": width, "height": height, "scale": 1}
        return base64.b64decode(self.ask("Page.captureScreenshot", format="png", clip=clip)["data"])
