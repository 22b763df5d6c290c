"""Answers the requests of candidates: signing in, saving and locking a list, reporting what is wrong."""
import asyncio
import os
import re
import sys
from typing import Any, Optional

import visits
from asked import MOST_BODY, Reply, Request, Server, plain
from pages import LANGUAGES, Assets, Pages, Said, View, clock
from papers_read import Papers
from store import MOST_LISTED, Entry, Person, Refused, Store
from visits import Visit
from writer import NotKept, Writer

NO_STORE = ("Cache-Control", "no-store")
STAYS = ("Cache-Control", "public, max-age=31536000, immutable")
MOVES = {"up": -1, "down": 1}
# a list or a draft of one, and who asks: a visit with its candidate
Codes = tuple[str, ...]
Who = tuple[Visit, Person]


def codes_of(text: str) -> Codes:
    """Returns the codes of a text, with anything but their own signs between them."""
    return tuple(re.findall(r"[A-Za-z0-9-]+", text)[: MOST_LISTED + 1])


def changed(draft: Codes, do: str) -> Codes:
    """Returns a draft after one of its buttons, such as `up CSE`."""
    how, _, code = do.partition(" ")
    if how == "add" and code not in draft:
        return (*draft, *codes_of(code)[:1])
    if code not in draft:
        return draft
    rest, at = [it for it in draft if it != code], draft.index(code)
    if how == "top":
        rest.insert(0, code)
    elif how in MOVES:
        rest.insert(max(0, at + MOVES[how]), code)
    elif how != "out":
        return draft
    return tuple(rest)


def receipt_line(it: Entry) -> str:
    """Returns a receipt in one line, for programs."""
    return f"receipt {it.receipt} {it.kind} {it.at} {it.digest}"


class Service:
    """What candidates may ask. Reads happen here, and one thread does what is to be kept."""

    def __init__(self, path: str, papers: str, web: str, together: int) -> None:
        self.store, self.writer = Store(path), Writer(path, together)
        self.papers, self.assets = Papers(papers), Assets(web)
        self.pages = {it: Pages(it, self.assets, self.store.is_special) for it in LANGUAGES}
        self.asks = {"enter": self.enter, "list": self.list, "lock": self.lock, "report": self.report, "leave": self.leave}

    async def answer(self, asked: Request) -> Reply:
        """Answers a request."""
        if asked.path in self.assets.files:
            text, kind = self.assets.files[asked.path]
            return Reply(200, text, kind, (STAYS,)) if asked.method in ("GET", "HEAD") else plain(405, "only GET")
        language = "hi" if asked.path.startswith(LANGUAGES["hi"]) else "en"
        base = LANGUAGES[language]
        word = asked.path.removeprefix(base)
        if not asked.path.startswith(base) or word and word not in self.asks:
            return plain(404, "there is no such page")
        if not word:
            return self.home(self.pages[language], asked) if asked.method in ("GET", "HEAD") else plain(405, "only GET")
        if asked.method != "POST":
            return Reply(303, b"", fields=(("Location", base), NO_STORE)) if asked.method == "GET" else plain(405, "only POST")
        if asked.fields.get("sec-fetch-site", "same-origin") not in ("same-origin", "none"):
            return plain(403, "a page of another origin sent this")
        return await self.asks[word](self.pages[language], asked)

    # ---- who asks

    def visitor(self, asked: Request) -> Optional[Who]:
        """Returns the visit of a request with its candidate, or None."""
        visit = visits.visit_of(self.store.key, asked.fields)
        if not visit or self.store.is_signed_out(visit.name):
            return None
        person = self.store.person(visit.number)
        return (visit, person) if person else None

    def shown(self, pages: Pages, who: Who, status: int = 200, said: Optional[Said] = None, draft: Optional[Codes] = None, find: str = "") -> Reply:
        """Returns the page of a candidate, with the saved list unless there is a draft."""
        visit, person = who
        last = self.store.last(person.number)
        view = View(person, visits.form_token(self.store.key, visit), draft if draft is not None else last.codes if last else (), find, said)
        return Reply(status, pages.mine(self.store, self.papers, view), fields=(visits.cookie(self.store.key, visit), NO_STORE))

    def is_ours(self, visit: Visit, asked: Request) -> bool:
        """Returns whether a form is of this visit."""
        return visits.is_form_token(self.store.key, visit, asked.form.get("form", ""))

    def home(self, pages: Pages, asked: Request) -> Reply:
        """Returns the sign-in, or the page of the candidate who is signed in."""
        who = self.visitor(asked)
        return self.shown(pages, who, said=self.said_of(who[1], asked.query)) if who else Reply(200, pages.sign_in(), fields=(NO_STORE,))

    def said_of(self, person: Person, query: str) -> Optional[Said]:
        """Returns the message about the receipt that the address names, if it is the candidate's newest."""
        word, _, receipt = query.partition("=")
        if not re.fullmatch("[0-9]{1,15}", receipt):
            return None
        if word == "report":
            return Said(True, "reportKept", {"receipt": receipt}) if any(it[0] == int(receipt) for it in self.store.reports(person.number)) else None
        last = self.store.last(person.number)
        if word != "receipt" or not last or last.receipt != int(receipt):
            return None
        return Said(True, "saved" if last.kind != "lock" else "lockDone", {"receipt": receipt, "time": clock(last.at), "digest": last.digest})

    async def enter(self, pages: Pages, asked: Request) -> Reply:
        """Signs a candidate in."""
        number, token = (re.sub(r"[\s-]" if it == "token" else r"\s", "", asked.form.get(it, "")) for it in ("number", "token"))
        draft = codes_of(asked.form.get("list", ""))
        person = self.store.signed_in(number, token)
        if not person:
            return Reply(403, pages.sign_in(Said(False, "wrongSignIn"), number[:40], draft), fields=(NO_STORE,))
        visit = visits.began(person.number)
        if draft:
            return self.shown(pages, (visit, person), draft=draft)
        told = f"signed in; form {visits.form_token(self.store.key, visit)}\n".encode()
        return Reply(303, told, "text/plain", (("Location", pages.base), visits.cookie(self.store.key, visit), NO_STORE))

    async def leave(self, pages: Pages, asked: Request) -> Reply:
        """Signs a candidate out, for good."""
        visit = visits.visit_of(self.store.key, asked.fields)
        if visit and self.is_ours(visit, asked):
            try:
                await self.writer.done("sign_out", visit.name, visit.ends())
            except NotKept:
                pass
        return Reply(200, pages.sign_in(Said(True, "signedOut")), fields=(visits.no_cookie(), NO_STORE))

    # ---- what a candidate sends

    async def list(self, pages: Pages, asked: Request) -> Reply:
        """Changes the draft of a list, or saves it."""
        draft, do, who = codes_of(asked.form.get("list", "")), asked.form.get("do", ""), self.visitor(asked)
        if not who:
            said = Said(False, "signedOutList", {"count": len(draft)})
            return Reply(403, pages.sign_in(said, draft=draft), fields=(visits.no_cookie(), NO_STORE))
        if not self.is_ours(who[0], asked):
            return self.shown(pages, who, 403, Said(False, "oldForm"), draft)
        if do == "save":
            return await self.save(pages, who, draft)
        draft = codes_of(asked.form.get("codes", "")) if do == "take" else changed(draft, do)
        return self.shown(pages, who, draft=draft, find=asked.form.get("find", "")[:60])

    def wrong(self, person: Person, codes: Codes) -> Optional[Said]:
        """Returns what is wrong with a list, or None."""
        if len(codes) > MOST_LISTED:
            return Said(False, "tooLong", {"most": MOST_LISTED})
        open_to = self.store.open_to(person)
        seen: set[str] = set()
        for code in codes:
            if code not in open_to or code in seen:
                return Said(False, "twice" if code in seen else "unknown", {"code": code})
            seen.add(code)
        return None

    async def save(self, pages: Pages, who: Who, codes: Codes) -> Reply:
        """Saves a list. The reply has its receipt, and comes when the list is on the disk."""
        said = self.wrong(who[1], codes)
        if said:
            return self.shown(pages, who, 409, said, codes)
        return await self.kept(pages, who, codes, "notKept", "save", who[1].number, codes)

    async def lock(self, pages: Pages, asked: Request) -> Reply:
        """Locks the saved list."""
        who, receipt = self.visitor(asked), asked.form.get("receipt", "")
        if not who:
            return Reply(403, pages.sign_in(Said(False, "signedOut")), fields=(visits.no_cookie(), NO_STORE))
        if not self.is_ours(who[0], asked):
            return self.shown(pages, who, 403, Said(False, "oldForm"))
        if asked.form.get("sure") != "yes" or not re.fullmatch("[0-9]{1,15}", receipt):
            return self.shown(pages, who, 409, Said(False, "lockUnsure"))
        return await self.kept(pages, who, None, "notKeptOther", "lock", who[1].number, int(receipt))

    async def kept(self, pages: Pages, who: Who, draft: Optional[Codes], fails: str, *job: Any) -> Reply:
        """Does what gives a receipt, and returns it, or the page that says why there is none."""
        try:
            came = await self.writer.done(*job)
        except Refused as why:
            return self.shown(pages, who, 409, Said(False, str(why)), None if str(why) in ("isClosed", "isLocked", "hasAdmission") else draft)
        except NotKept:
            return self.shown(pages, who, 503, Said(False, fails), draft)
        return self.seen(pages, who, f"receipt={came.receipt}", receipt_line(came))

    def seen(self, pages: Pages, who: Who, query: str, line: str) -> Reply:
        """Sends a browser on to the page, so that loading it again sends nothing, and tells a program the receipt in one line."""
        fields = (("Location", f"{pages.base}?{query}"), visits.cookie(self.store.key, who[0]), NO_STORE)
        return Reply(303, f"{line}\n".encode(), "text/plain", fields)

    async def report(self, pages: Pages, asked: Request) -> Reply:
        """Keeps what a candidate reports as wrong."""
        who, text = self.visitor(asked), " ".join(asked.form.get("text", "").split())
        if not who:
            return Reply(403, pages.sign_in(Said(False, "signedOutReport")), fields=(visits.no_cookie(), NO_STORE))
        if not self.is_ours(who[0], asked):
            return self.shown(pages, who, 403, Said(False, "oldForm"))
        if not 1 <= len(text) <= 1_000 or not text.isprintable():
            return self.shown(pages, who, 409, Said(False, "reportEmpty"))
        try:
            receipt = await self.writer.done("report", who[1].number, text)
        except Refused as why:
            return self.shown(pages, who, 409, Said(False, str(why)))
        except NotKept:
            return self.shown(pages, who, 503, Said(False, "notKeptOther"))
        return self.seen(pages, who, f"report={receipt}", f"report {receipt}")


async def serve(store: str, socket: str, port: int, papers: str, web: str, together: int) -> None:
    """Serves until it is ended, at a socket in a folder or at a port of 127.0.0.1."""
    # the thread that writes is not kept waiting by one that computes
    sys.setswitchinterval(0.0005)
    service = Service(store, papers, web, together)
    server = Server(service.answer)
    if port:
        listening = await asyncio.start_server(server.speak, "127.0.0.1", port, limit=MOST_BODY, backlog=1024)
    else:
        if os.path.exists(socket):
            os.remove(socket)
        listening = await asyncio.start_unix_server(server.speak, socket, limit=MOST_BODY, backlog=1024)
        os.chmod(socket, 0o660)
    print("choices: serving", flush=True)
    async with listening:
        await asyncio.gather(listening.serve_forever(), server.sweep())
