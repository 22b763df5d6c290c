"""The lists of choices behind nginx, as deploy/choices/fill sets it up, and on a page of Chromium with and without its script."""
import contextlib
import os
import re
import subprocess
import tempfile
import time
from typing import Iterable, Iterator, Mapping, Optional
from urllib.parse import urlencode

import browser as chromium
from choices_load import Service, called
from choices_rules import TOKENS, begun
from deployed import Tally
from front import CLERK_AT, HOST, OTHER_AT, Front, Reply, called as ran, found, read_reply, request, text_of
from served import TOP, Wrong

FORM = "Content-Type: application/x-www-form-urlencoded"


@contextlib.contextmanager
def fronted() -> Iterator[tuple[str, Front, Service]]:
    """Gives nginx in front of a service over a small season, and afterwards the text of all logs."""
    with tempfile.TemporaryDirectory(prefix="choices-") as room:
        begun(room, numbers=False)
        front = Front(room, "127.0.0.1:1")
        # the service makes its socket as the user of the check, and nginx's workers are another one
        ran([f"{TOP}/deploy/choices/fill", f"{room}/conf", f"CHOICES=unix:{room}/choices.sock"])
        with front:
            with Service(room) as service:
                os.chmod(service.socket, 0o666)
                yield room, front, service


class Visitor:
    """A browser at an address, over TLS, that keeps its cookie."""

    def __init__(self, front: Front, source: str = OTHER_AT) -> None:
        self.front, self.source, self.cookie, self.form = front, source, "", ""

    def ask(self, method: str, path: str, form: Optional[Mapping[str, object]] = None, fields: Iterable[str] = ()) -> Reply:
        """Returns the reply to a request as a browser sends it."""
        lines = [f"Cookie: {self.cookie}"] if self.cookie else []
        lines += [FORM, f"Origin: {self.front.origin}"] if form is not None and not any(it.startswith("Origin") for it in fields) else [FORM] if form is not None else []
        came = self.front.ask(method, path, body=None if form is None else urlencode(form).encode(), fields=[*lines, *fields], source=self.source)
        if "set-cookie" in came.fields:
            self.cookie = came.fields["set-cookie"].split(";")[0]
        token = re.search(rb'name="form" value="([0-9a-f]{32})"', came.body)
        self.form = token[1].decode() if token else self.form
        return came

    def enter(self, number: int = 101) -> Reply:
        """Signs in, and looks at the page."""
        came = self.ask("POST", "/choices/enter", {"number": number, "token": TOKENS[number]})
        self.ask("GET", "/choices/")
        return came

    def save(self, codes: str, fields: Iterable[str] = ()) -> Reply:
        """Saves a list."""
        return self.ask("POST", "/choices/list", {"form": self.form, "list": codes, "do": "save"}, fields)


def is_lacking(tally: Tally, label: str, *programs: str) -> bool:
    """Returns whether a program is missing, and says so."""
    lacking = [it for it in programs if not found(it)]
    if lacking:
        tally.skips(label, ", ".join(lacking))
    return bool(lacking)


def front(tally: Tally) -> None:
    """Looks at what nginx lets through, keeps back and writes down."""
    if is_lacking(tally, "front", "nginx", "openssl"):
        return
    with fronted() as (room, nginx, service):
        who = Visitor(nginx)
        tally.same(who.enter().status, 303, "signing in through nginx")
        came = who.save("A B")
        tally.same((came.status, came.fields.get("location", "").split("=")[0]), (303, "/choices/?receipt"), "saving through nginx")
        headers(tally, who)
        for origin in ("https://evil.example", "null", f"http://{HOST}"):
            tally.same(who.save("B", [f"Origin: {origin}"]).status, 403, f"a form of {origin}")
        tally.same(who.save("B", ["Sec-Fetch-Site: same-site"]).status, 403, "a form of another page of the site")
        tally.same(who.ask("POST", "/choices/list", {"list": "A" * 70_000}).status, 413, "a body above the limit")
        tally.same(who.ask("PUT", "/choices/").status, 403, "another method")
        ways(tally, room, nginx)
        limits(tally, nginx)
        service.kill()
        came = who.save("B")
        tally.same((came.status, b"no receipt" in came.body, came.fields.get("retry-after")), (502, True, "5"), "a service that is started again")
        nginx.logged()
        logs = nginx.logs() + text_of(f"{room}/service.log")
        tally.same([it for it in (*TOKENS.values(), who.form, who.cookie.split("=")[1]) if it in logs], [], "no token and no cookie is in a log")
        tally.holds("/choices/enter" in logs, "requests are logged")


def headers(tally: Tally, who: Visitor) -> None:
    """Looks at the security fields, and at what a browser may keep."""
    page = who.ask("GET", "/choices/")
    policy = page.fields.get("content-security-policy", "")
    tally.holds("form-action 'self'" in policy and "default-src 'none'" in policy and "frame-ancestors 'none'" in policy, "the policy of the page", policy)
    for name, value in (("cache-control", "no-store"), ("x-content-type-options", "nosniff"), ("referrer-policy", "same-origin"), ("x-frame-options", "DENY")):
        tally.same(page.fields.get(name), value, f"the field {name}")
    for path in re.findall(rb'(?:href|src)="(/choices/choices-[^"]*)"', page.body):
        came = who.ask("GET", path.decode())
        tally.same((came.status, came.fields.get("cache-control")), (200, "public, max-age=31536000, immutable"), "a file with a hash in its name")


def ways(tally: Tally, room: str, nginx: Front) -> None:
    """Looks whether fill leaves nachodune.conf and the other pages as they are, and refuses a nachodune.conf that does not include its files."""
    before, call = text_of(f"{room}/conf/nachodune.conf"), f"{TOP}/deploy/choices/fill"
    ran([call, f"{room}/conf", f"CHOICES=unix:{room}/choices.sock"])
    tally.same(text_of(f"{room}/conf/nachodune.conf"), before, "fill leaves nachodune.conf as it is")
    policy = [re.findall("max-age=([0-9]+)", text_of(f"{room}/conf/{it}"))[0] for it in ("headers.conf", "choices-headers.conf")]
    tally.same(policy[1], policy[0], "how long browsers keep to TLS")
    tally.holds("form-action 'none'" in nginx.ask("GET", "/candidate/").fields.get("content-security-policy", ""), "the candidate's page keeps its policy")
    os.makedirs(f"{room}/older")
    with open(f"{room}/older/nachodune.conf", "w", encoding="utf-8") as it:
        it.write(re.sub(r".*/choices.*\n", "", before))
    came = subprocess.run([call, f"{room}/older"], capture_output=True, text=True)
    tally.holds(came.returncode == 2 and "deploy/site" in came.stderr and os.listdir(f"{room}/older") == ["nachodune.conf"], "fill with an older nachodune.conf", f"{came}")


def limits(tally: Tally, nginx: Front) -> None:
    """Looks at the limit on sign-ins of one address. nginx itself refuses most of them here, so that a slow machine reaches the limit too."""
    guess, held = Visitor(nginx, CLERK_AT), b""
    statuses: list[int] = []

    def enter() -> int:
        return guess.ask("POST", "/choices/enter", {"number": 101, "token": "guess000001"}).status

    before = enter()
    with nginx.connected(CLERK_AT) as link:
        while len(statuses) < 900 and statuses[-1:] != [429]:
            link.sendall(request("PUT", "/choices/enter", host=f"{HOST}:{nginx.port}"))
            reply, held = read_reply(link, held)
            statuses.append(reply.status)
    came = (before, enter(), set(statuses))
    tally.holds(came == (403, 429, {403, 429}) and len(statuses) > 250, "guesses from one address end at the limit", f"{len(statuses)}: {came}")
    tally.same(Visitor(nginx).enter().status, 303, "another address is not affected")


# ---- a browser


def browser(tally: Tally) -> None:
    """Makes a list in Chromium, with the page's script and without one."""
    if is_lacking(tally, "browser", "nginx", "openssl"):
        return
    if not chromium.program():
        tally.skips("browser", "chromium")
        return
    with fronted() as (room, nginx, service), chromium.Browser(f"{room}/browser", HOST, nginx.cert) as it:
        for is_scripted, number, language in ((True, 101, ""), (False, 102, "hi/")):
            visited(tally, it, nginx, number, language, is_scripted)
        it.call("Emulation.setScriptExecutionDisabled", value=False)
        tally.same(it.exceptions(), [], "nothing is thrown on the page")
        tally.same(it.violations(), [], "the policy forbids nothing that the page does")
        called("close", f"{room}/choices.db", f"{room}/lists")
        tally.same(text_of(f"{room}/lists/choices.csv"), "candidate,programmes\n101,C,A\n102,B\n103,B,A\n", "the lists that were made in the browser")


def press(it: chromium.Browser, selector: str) -> None:
    """Presses a button. The page may be another one before the call returns, and timers do not run without scripts."""
    with contextlib.suppress(RuntimeError):
        it.js(f"document.querySelector({selector!r}).click()")


def waits(it: chromium.Browser, holds: str) -> None:
    """Waits until an expression holds, also while the page becomes another one."""
    for _ in range(20):
        try:
            it.until(holds)
            return
        except RuntimeError:
            time.sleep(0.2)
    raise Wrong(f"the page does not come: {holds}")


def visited(tally: Tally, it: chromium.Browser, nginx: Front, number: int, language: str, is_scripted: bool) -> None:
    """Signs in, adds programmes, moves and removes one, saves, and signs out."""
    it.call("Emulation.setScriptExecutionDisabled", value=not is_scripted)
    label = "with a script" if is_scripted else "without a script"
    it.size(360, 740)
    it.call("Page.navigate", url=f"{nginx.origin}/choices/{language}")
    waits(it, "document.readyState === 'complete' && document.querySelector('#number')")
    it.js(f"document.querySelector('#number').value = '{number}'; document.querySelector('#token').value = '{TOKENS[number]}'")
    press(it, "form button.main")
    waits(it, "document.querySelector('#editor')")
    shots(it, f"{number}-signed-in")
    for code in ("A", "B", "C") if number == 101 else ("A", "B"):
        press(it, f'button[value="add {code}"]')
        waits(it, f"document.querySelector('button[value=\"out {code}\"]')")
    for button, wanted in (("up B", "B A C"), ("top C", "C B A"), ("out B", "C A")) if number == 101 else (("up B", "B A"), ("out A", "B")):
        press(it, f'button[value="{button}"]')
        waits(it, f"document.querySelector('#editor [name=list]').value === '{wanted}'")
    tally.same(it.js("document.querySelector('#unsaved').hidden"), False, f"a list that is not saved says so, {label}")
    press(it, 'button[value="save"]')
    waits(it, "document.querySelector('.say.good')")
    tally.same(it.js("document.querySelector('#unsaved').hidden"), True, f"a list that is saved says so, {label}")
    tally.same(it.js("document.documentElement.scrollWidth <= 360"), True, f"nothing is beside a screen of 360 pixels, {label}")
    shots(it, f"{number}-saved")
    press(it, ".visit button")
    waits(it, "document.querySelector('#token')")
    tally.same(it.js("document.cookie"), "", f"no cookie is in reach of a script, {label}")


def shots(it: chromium.Browser, name: str) -> None:
    """Keeps a picture if SHOTS names a folder."""
    if os.environ.get("SHOTS"):
        it.shot(f"{os.environ['SHOTS']}/{name}.png")


ALL = (front, browser)
