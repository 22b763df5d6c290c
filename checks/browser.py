"""A headless Chromium for checks, over its debugging pipe: no driver, no port and no package. checks/page walks through the pages with it."""
import base64
import contextlib
import hashlib
import json
import os
import select
import shutil
import subprocess
import time
from typing import Any, Callable, Optional, Sequence

# a machine that proves on all its processors is slow
SECONDS = 120
# Chromium's numbers for keys that are not letters
KEYS = {"Tab": 9, "Enter": 13, "Escape": 27, " ": 32, "ArrowDown": 40, "ArrowUp": 38}
TEXTS = {"Enter": "\r", " ": " "}
KEPT_EVENTS = ("Runtime.exceptionThrown", "Log.entryAdded", "Network.requestWillBeSent")
WORDS = (
    "--headless=new",
    "--no-sandbox",
    "--disable-gpu",
    "--disable-dev-shm-usage",
    "--disable-background-networking",
    "--disable-component-update",
    "--disable-default-apps",
    "--disable-sync",
    "--hide-scrollbars",
    "--no-first-run",
    "--remote-debugging-pipe",
)


def program() -> Optional[str]:
    """Returns the path of Chromium, or None where it is not installed."""
    return next((found for it in ("chromium", "chromium-browser", "google-chrome") if (found := shutil.which(it))), None)


def key_hash(certificate: str) -> str:
    """Returns the hash of a certificate's public key, as Chromium names a key that it has to accept."""
    key = subprocess.run(["openssl", "x509", "-in", certificate, "-pubkey", "-noout"], capture_output=True, check=True).stdout
    der = subprocess.run(["openssl", "pkey", "-pubin", "-outform", "der"], input=key, capture_output=True, check=True).stdout
    return base64.b64encode(hashlib.sha256(der).digest()).decode()


class Thrown(Exception):
    """What a script of the page threw."""


class Left(RuntimeError):
    """The page was left for another one while Chromium looked at it."""


# what Chromium says then
IS_LEFT = ("Inspected target navigated or closed", "Cannot find default execution context", "Execution context was destroyed")


# a message of the debugging pipe, and what answers in place of a server: from an address and the fields of a request to a status and a body, or None
Message = dict[str, Any]
StandIn = Callable[[str, dict[str, str]], Optional[tuple[int, bytes]]]


class Browser:
    """One window. `home` is a folder of its own, which it fills; `host` is a name that it takes for this machine, with the certificate of its server."""

    def __init__(self, home: str, host: Optional[str] = None, certificate: Optional[str] = None) -> None:
        os.makedirs(home, exist_ok=True)
        words = [program() or "chromium", *WORDS, f"--user-data-dir={home}/profile"]
        if host and certificate:
            words += [f"--host-resolver-rules=MAP {host} 127.0.0.1, EXCLUDE localhost", f"--ignore-certificate-errors-spki-list={key_hash(certificate)}"]
        (to_child, self.to), (self.back, from_child) = os.pipe(), os.pipe()
        # Chromium reads from descriptor 3 and writes to 4
        start = ["bash", "-c", f'exec "$@" 3<&{to_child} 4>&{from_child}', "chromium", *words, "about:blank"]
        self.errors = f"{home}/errors"
        with open(self.errors, "wb") as errors:
            self.child = subprocess.Popen(
                start,
                pass_fds=(to_child, from_child),
                stdin=subprocess.DEVNULL,
                stdout=subprocess.DEVNULL,
                stderr=errors,
                env={**os.environ, "HOME": home},
                start_new_session=True,
            )
        os.close(to_child)
        os.close(from_child)
        self.number, self.held = 0, b""
        self.events: list[Message] = []
        self.session: Optional[str] = None
        target = self.call("Target.createTarget", url="about:blank")["targetId"]
        self.session = self.call("Target.attachToTarget", targetId=target, flatten=True)["sessionId"]
        for it in ("Page", "Runtime", "Network", "Log", "Accessibility", "DOM"):
            self.call(f"{it}.enable")

    # ---- messages

    def next_message(self, until: float) -> Message:
        while b"\0" not in self.held:
            if not select.select([self.back], [], [], max(0, until - time.monotonic()))[0]:
                raise TimeoutError("Chromium does not answer")
            piece = os.read(self.back, 1 << 20)
            if not piece:
                with open(self.errors, encoding="utf-8", errors="replace") as it:
                    raise EOFError(it.read()[-800:])
            self.held += piece
        message, _, self.held = self.held.partition(b"\0")
        found: Message = json.loads(message)
        return found

    def call(self, method: str, seconds: float = SECONDS, **params: Any) -> Any:
        """Returns the result of a call, and keeps the events that come before it."""
        self.number += 1
        message = {"id": self.number, "method": method, "params": params}
        if self.session:
            message["sessionId"] = self.session
        os.write(self.to, json.dumps(message).encode() + b"\0")
        until = time.monotonic() + seconds
        while True:
            got = self.next_message(until)
            if got.get("id") == message["id"]:
                if "error" in got:
                    is_left = any(it in got["error"].get("message", "") for it in IS_LEFT)
                    raise (Left if is_left else RuntimeError)(f"{method}: {got['error']}")
                return got["result"]
            if got.get("method") in KEPT_EVENTS:
                self.events.append(got)
            if got.get("method") == "Fetch.requestPaused":
                self.stand_in(got["params"])

    def answer_for(self, patterns: Sequence[str], reply: StandIn) -> None:
        """Answers requests for these addresses in place of the server. `reply` gives a status and a body for an address and the fields of a request,
        or None for a request that the server answers."""
        self.reply = reply
        self.call("Fetch.enable", patterns=[{"urlPattern": it} for it in patterns])

    def stand_in(self, paused: Message) -> None:
        given = self.reply(paused["request"]["url"], paused["request"]["headers"])
        method, params = "Fetch.continueRequest", {"requestId": paused["requestId"]}
        if given is not None:
            method, params = "Fetch.fulfillRequest", {**params, "responseCode": given[0], "body": base64.b64encode(given[1]).decode()}
        self.number += 1
        message = {"id": self.number, "method": method, "params": params, "sessionId": self.session}
        os.write(self.to, json.dumps(message).encode() + b"\0")

    def js(self, text: str, seconds: float = SECONDS) -> Any:
        """Returns the value of an expression in the page; a promise is waited for."""
        got = self.call("Runtime.evaluate", seconds=seconds, expression=text, awaitPromise=True, returnByValue=True, userGesture=True)
        if "exceptionDetails" in got:
            fault = got["exceptionDetails"]
            raise Thrown(fault.get("exception", {}).get("description") or fault.get("text"))
        return got["result"].get("value")

    def run(self, body: str, *given: object) -> Any:
        """Returns the value of a function's body in the page, with what is given as its `a`, `b`, `c`."""
        names = ", ".join("abcdef"[: len(given)])
        return self.js(f"(async ({names}) => {{ {body} }})({', '.join(json.dumps(it) for it in given)})")

    # ---- the page

    def go(self, url: str) -> None:
        self.call("Page.navigate", url=url)
        self.until("document.readyState === 'complete' && (document.documentElement.dataset.ready || !document.querySelector('script[type=module]'))")

    def until(self, holds: str, seconds: float = SECONDS) -> None:
        """Waits until an expression holds, also over a change of pages."""
        end = time.monotonic() + seconds
        while time.monotonic() < end:
            with contextlib.suppress(Thrown, Left):
                if self.js(f"Boolean({holds})"):
                    return
            time.sleep(0.02)
        raise TimeoutError(f"not within {seconds} s: {holds}\nThe page: {self.text('body')[:1500]}")

    def fill(self, name: str, text: str) -> None:
        """Puts a text into the field with this id, as pasting does."""
        self.run("const it = document.getElementById(a); it.focus(); it.value = b; it.dispatchEvent(new Event('input', { bubbles: true }))", name, text)

    def click(self, selector: str) -> None:
        self.run("const it = document.querySelector(a); if (!it) throw Error(`no ${a}`); it.click()", selector)

    def text(self, selector: str) -> str:
        """Returns what is seen of an element, or an empty text where there is none."""
        found: str = self.run("return document.querySelector(a)?.innerText ?? ''", selector)
        return found

    def texts(self, selector: str) -> list[str]:
        found: list[str] = self.run("return [...document.querySelectorAll(a)].map((it) => it.textContent)", selector)
        return found

    def key(self, key: str, shift: bool = False) -> None:
        number = KEYS.get(key) or ord(key.upper())
        params: dict[str, Any] = {"key": key, "code": key, "windowsVirtualKeyCode": number, "modifiers": 8 if shift else 0}
        text = TEXTS.get(key, key if len(key) == 1 else None)
        down: dict[str, Any] = {**params, "text": text} if text else params
        self.call("Input.dispatchKeyEvent", type="keyDown", **down)
        self.call("Input.dispatchKeyEvent", type="keyUp", **params)

    def type(self, text: str) -> None:
        for it in text:
            self.key(it)

    def focused(self) -> str:
        """Returns the name, as the accessibility tree has it, of what has the focus."""
        found: str = self.js("(() => { const it = document.activeElement; return it.id || it.textContent.trim().slice(0, 60) || it.tagName })()")
        return found

    def size(self, width: int, height: int = 900) -> None:
        self.call("Emulation.setDeviceMetricsOverride", width=width, height=height, deviceScaleFactor=1, mobile=False)

    def colours(self, scheme: str) -> None:
        """Sets light or dark."""
        self.call("Emulation.setEmulatedMedia", features=[{"name": "prefers-color-scheme", "value": scheme}])

    def shot(self, path: str, most: int = 6000) -> None:
        """Keeps a picture of the whole page as a PNG file."""
        size = self.call("Page.getLayoutMetrics")["cssContentSize"]
        clip = {"x": 0, "y": 0, "width": size["width"], "height": min(size["height"], most), "scale": 1}
        got = self.call("Page.captureScreenshot", format="png", captureBeyondViewport=True, clip=clip)
        with open(path, "wb") as it:
            it.write(base64.b64decode(got["data"]))

    def tree(self) -> list[tuple[str, ...]]:
        """Returns the accessibility tree as role, name and description of each node that is not ignored."""
        nodes = [it for it in self.call("Accessibility.getFullAXTree")["nodes"] if not it.get("ignored")]
        return [tuple(it.get(part, {}).get("value", "") for part in ("role", "name", "description")) for it in nodes]

    # ---- what happened

    def happened(self, method: str) -> list[Message]:
        self.js("0")
        return [it["params"] for it in self.events if it["method"] == method]

    def exceptions(self) -> list[str]:
        return [it["exceptionDetails"].get("exception", {}).get("description") or it["exceptionDetails"]["text"] for it in self.happened("Runtime.exceptionThrown")]

    def violations(self) -> list[str]:
        """Returns the messages on what the page's own security policy forbade."""
        return [it["entry"]["text"] for it in self.happened("Log.entryAdded") if it["entry"]["source"] in ("security", "violation") or "Content Security Policy" in it["entry"]["text"]]

    def addresses(self) -> list[str]:
        return [it["request"]["url"] for it in self.happened("Network.requestWillBeSent")]

    def close(self) -> None:
        with contextlib.suppress(Exception):
            self.session = None
            self.call("Browser.close", seconds=5)
        with contextlib.suppress(subprocess.TimeoutExpired):
            self.child.wait(8)
        if self.child.poll() is None:
            os.killpg(self.child.pid, 9)
            self.child.wait()
        os.close(self.to)
        os.close(self.back)

    def __enter__(self) -> "Browser":
        return self

    def __exit__(self, *_: object) -> None:
        self.close()
