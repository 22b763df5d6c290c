"""Writes the pages: the sign-in and a candidate's page, in English and Hindi. Every text that is not of this file is escaped."""
import datetime
import glob
import hashlib
import html
import json
import os
from typing import Any, NamedTuple, Optional

from papers_read import Papers
from season_file import Programme
from store import MOST_LISTED, Entry, Person, Store

HERE = os.path.dirname(os.path.realpath(__file__))
INDIA = datetime.timezone(datetime.timedelta(hours=5, minutes=30), "IST")
SHOWN = 60
LANGUAGES = {"en": "/choices/", "hi": "/choices/hi/"}
AS_TYPED = 'autocapitalize="off" spellcheck="false" required'
KINDS = {"list": "kindList", "lock": "kindLock", "unlock": "kindUnlock"}


def clock(at: int) -> str:
    """Returns a moment as people in India write it."""
    return datetime.datetime.fromtimestamp(at / 1000, INDIA).strftime("%d-%m-%Y %H:%M:%S IST")


def read(name: str) -> str:
    """Returns the text of a file of this folder."""
    with open(f"{HERE}/{name}", encoding="utf-8") as it:
        return it.read()


class Assets:
    """The sheet and the script, each under a name that has a hash of its content, and the sheet of the candidate's page if it is built."""

    def __init__(self, web: str) -> None:
        self.files: dict[str, tuple[bytes, str]] = {}
        self.sheet = self.named("choices.css", "text/css; charset=utf-8")
        self.script = self.named("choices.js", "text/javascript; charset=utf-8")
        built = sorted(glob.glob(f"{web}/assets/office-*.css"))
        self.shared = f"/assets/{os.path.basename(built[-1])}" if built else ""

    def named(self, name: str, kind: str) -> str:
        """Adds a file, and returns where it is served."""
        text = read(name).encode()
        stem, end = os.path.splitext(name)
        path = f"/choices/{stem}-{hashlib.sha256(text).hexdigest()[:16]}{end}"
        self.files[path] = (text, kind)
        return path


class Said(NamedTuple):
    """A message at the top of a page: good or bad, the name of its sentence, and what is put into that."""

    is_good: bool
    word: str
    values: dict[str, Any] = {}


class View(NamedTuple):
    """What a candidate's page shows."""

    person: Person
    token: str
    draft: tuple[str, ...]
    find: str = ""
    said: Optional[Said] = None


class Pages:
    """Writes the pages of one language."""

    def __init__(self, language: str, assets: Assets, is_special: bool) -> None:
        self.language, self.base, self.assets = language, LANGUAGES[language], assets
        self.words: dict[str, Any] = json.loads(read(f"words.{language}.json"))
        if is_special:
            self.words |= self.words["special"]
        self.others = [(code, base, json.loads(read(f"words.{code}.json"))["language"]) for code, base in LANGUAGES.items() if code != language]

    def w(self, name: str, **values: object) -> str:
        """Returns a sentence, escaped."""
        return html.escape(str(self.words[name]).format(**values))

    # ---- the frame

    def whole(self, body: str, said: Optional[Said], visit: str = "") -> bytes:
        """Returns a page around its body."""
        sheets = "".join(f'<link rel="stylesheet" href="{it}">' for it in (self.assets.shared, self.assets.sheet) if it)
        switch = " ".join(f'<a class="language" lang="{code}" hreflang="{code}" href="{base}">{html.escape(name)}</a>' for code, base, name in self.others)
        told = f'<div class="say {"good" if said.is_good else "bad"}" role="alert"><p>{self.w(said.word, **said.values)}</p></div>' if said else ""
        return (
            f'<!doctype html>\n<html lang="{self.language}">\n<head><meta charset="utf-8"><meta name="viewport" content="width=device-width, initial-scale=1">'
            f'<meta name="color-scheme" content="light dark"><title>{self.w("head")}</title>{sheets}'
            f'<script type="module" src="{self.assets.script}"></script></head>\n<body>\n<a class="skip" href="#main">{self.w("skip")}</a>\n'
            f'<header><p class="site">{self.w("site")}</p><p class="languages">{switch}</p>{visit}</header>\n'
            f'<main id="main" tabindex="-1">\n<h1>{self.w("title")}</h1>\n{told}{body}</main>\n<footer><p>{self.w("footer")}</p></footer>\n</body>\n</html>\n'
        ).encode()

    def sign_in(self, said: Optional[Said] = None, number: str = "", draft: tuple[str, ...] = ()) -> bytes:
        """Returns the page with the sign-in. A list that was not saved goes along, and is there again after it."""
        kept = f'<input type="hidden" name="list" value="{html.escape(" ".join(draft))}">' if draft else ""
        return self.whole(
            f'<p>{self.w("intro")}</p>\n<section aria-labelledby="door"><h2 id="door">{self.w("signInTitle")}</h2>'
            f'<form method="post" action="{self.base}enter" autocomplete="off">{kept}'
            f'<p><label for="number">{self.w("number")}</label><span class="hint" id="number-hint">{self.w("numberHint")}</span>'
            f'<input id="number" name="number" value="{html.escape(number)}" maxlength="40" autocomplete="off" {AS_TYPED} aria-describedby="number-hint"></p>'
            f'<p><label for="token">{self.w("token")}</label><span class="hint" id="token-hint">{self.w("tokenHint")}</span>'
            f'<input id="token" name="token" type="password" size="40" maxlength="80" autocomplete="one-time-code" {AS_TYPED} aria-describedby="token-hint"></p>'
            f'<p><button class="main">{self.w("signIn")}</button></p></form></section>\n',
            said,
        )

    # ---- a candidate's page

    def mine(self, store: Store, papers: Papers, view: View) -> bytes:
        """Returns the page of a candidate who is signed in."""
        entries, closed = store.entries(view.person.number), store.fixed("closed")
        last = entries[0] if entries else None
        admission = store.admission(view.person.number)
        is_open = not closed and not admission and not (last and last.kind == "lock")
        visit = (
            f'<form class="visit" method="post" action="{self.base}leave">{self.hidden(view)}<span>{self.w("signedIn", number=view.person.board)}</span> '
            f'<button class="small">{self.w("signOut")}</button></form>'
        )
        state = self.w("admission", programme=self.programme(store, papers, admission)) if admission else self.state_line(closed, last, store.fixed("announced"))
        parts = [f"<p>{state}</p>\n"]
        if is_open:
            parts.append(self.editor(store, papers, view, last))
            parts.append(self.lock(view, last) if last and last.codes == view.draft and last.codes else "")
        elif not admission:
            parts.append(f'<section aria-labelledby="list"><h2 id="list">{self.w("listTitle")}</h2>{self.settled(store, papers, last)}</section>\n')
        parts += [self.receipts(entries), self.mock(store, papers, view.person, last), self.entry(papers, view.person), self.report(store, view)]
        return self.whole("".join(parts), view.said, visit)

    def hidden(self, view: View) -> str:
        """Returns the field that shows that a form is of this visit."""
        return f'<input type="hidden" name="form" value="{view.token}">'

    def state_line(self, closed: Optional[int], last: Optional[Entry], announced: Optional[str]) -> str:
        """Returns how far the candidate's list is, in a sentence or two."""
        if closed:
            return self.w("closed", time=clock(closed))
        state = self.w("locked" if last and last.kind == "lock" else "unlocked")
        return f"{self.w('closes', time=announced)} {state}" if announced else state

    def programme(self, store: Store, papers: Papers, code: str, language: str = "") -> str:
        """Returns a programme as people call it: its name, its institute and its code, in the language of the page unless another is named."""
        of, spoken = store.programmes.get(code), language or self.language
        name, institute = papers.name("programmes", code, spoken), papers.name("institutes", of.institute, spoken) or of.institute if of else ""
        return f"{name}, {institute} ({code})" if name else f"{code}, {institute}" if institute else code

    def has_words(self, store: Store, papers: Papers, code: str, sought: list[str]) -> bool:
        """Returns whether all these words are in what a programme is called in some language."""
        text = " ".join(self.programme(store, papers, code, it) for it in LANGUAGES).lower()
        return all(it in text for it in sought)

    def settled(self, store: Store, papers: Papers, last: Optional[Entry]) -> str:
        """Returns a list that cannot be changed."""
        rows = "".join(f"<li>{html.escape(self.programme(store, papers, code))}</li>" for code in last.codes) if last else ""
        return f'<ol class="choices">{rows}</ol>' if rows else f"<p>{self.w('listEmpty')}</p>"

    def editor(self, store: Store, papers: Papers, view: View, last: Optional[Entry]) -> str:
        """Returns the form with the list and the programmes that may be added. Each button sends the form, so that it does without a script."""
        open_to = store.open_to(view.person)
        if not open_to and not view.draft:
            return f'<div class="say bad"><p>{self.w("noPlace")}</p></div>\n'
        is_saved = view.draft == (last.codes if last else ())
        rows = "".join(self.row(store, papers, code, "up", "down", "top", "out") for code in view.draft)
        return (
            f'<form id="editor" method="post" action="{self.base}list">{self.hidden(view)}<input type="hidden" name="list" value="{html.escape(" ".join(view.draft))}">'
            f'<button class="default" name="do" value="find" tabindex="-1" aria-hidden="true">{self.w("findButton")}</button>\n'
            f'<section aria-labelledby="list"><h2 id="list">{self.w("listTitle")}</h2>'
            f'<p id="empty"{" hidden" if view.draft else ""}>{self.w("listEmpty")}</p><ol class="choices" id="chosen">{rows}</ol>'
            f'<p class="hint"><span id="count">{len(view.draft)}</span> / {MOST_LISTED}</p>'
            f'<p id="unsaved" class="say bad"{" hidden" if is_saved else ""}>{self.w("unsaved")}</p>'
            f'<p><button class="main" name="do" value="save">{self.w("save")}</button></p></section>\n'
            f"{self.offered(store, papers, view, open_to)}</form>\n"
        )

    def row(self, store: Store, papers: Papers, code: str, *buttons: str) -> str:
        """Returns a programme with its buttons."""
        name, coded = self.programme(store, papers, code), html.escape(code)
        labels = {it: self.w("of", button=self.words[it], programme=name) for it in buttons}
        made = "".join(f'<button class="small" name="do" value="{it} {coded}" aria-label="{label}">{self.w(it)}</button> ' for it, label in labels.items())
        seats = store.vacant.get(code, 0)
        vacant = f'<span class="hint">{self.w("vacantOne" if seats == 1 else "vacant", count=seats)}</span> ' if seats else ""
        return f'<li data-code="{coded}"><span>{html.escape(name)}</span> {vacant}<span class="buttons">{made}</span></li>'

    def offered(self, store: Store, papers: Papers, view: View, open_to: dict[str, Programme]) -> str:
        """Returns the programmes that may be added, as far as they were searched, and a field for codes."""
        drafted, sought = set(view.draft), view.find.lower().split()
        found = [code for code in open_to if code not in drafted and (not sought or self.has_words(store, papers, code, sought))]
        rows = "".join(self.row(store, papers, code, "add") for code in found[:SHOWN])
        more = f"<p>{self.w('more', count=len(found) - SHOWN)}</p>" if len(found) > SHOWN else "" if found else f"<p>{self.w('nothing')}</p>"
        labels = html.escape(json.dumps({it: self.words[it] for it in ("up", "down", "top", "out", "add", "of")}, ensure_ascii=False))
        return (
            f'<section aria-labelledby="adding"><h2 id="adding">{self.w("addTitle")}</h2><p>{self.w("addIntro")}</p>'
            f'<p><label for="find">{self.w("find")}</label><span class="hint" id="find-hint">{self.w("findHint")}</span>'
            f'<input id="find" name="find" value="{html.escape(view.find)}" maxlength="60" aria-describedby="find-hint"> '
            f'<button name="do" value="find">{self.w("findButton")}</button></p><ul class="choices" id="offered" data-labels="{labels}">{rows}</ul>{more}'
            f'<details><summary>{self.w("writeTitle")}</summary><p><label for="codes">{self.w("writeHint")}</label>'
            f'<textarea id="codes" name="codes" rows="8" maxlength="17000" autocapitalize="off" spellcheck="false"></textarea></p>'
            f'<p><button name="do" value="take">{self.w("take")}</button></p></details></section>'
        )

    def lock(self, view: View, last: Entry) -> str:
        """Returns the form that locks the saved list."""
        return (
            f'<section aria-labelledby="locking"><h2 id="locking">{self.w("lockTitle")}</h2><p>{self.w("lockIntro")}</p>'
            f'<form method="post" action="{self.base}lock">{self.hidden(view)}<input type="hidden" name="receipt" value="{last.receipt}">'
            f'<p><label class="check"><input type="checkbox" name="sure" value="yes"> {self.w("lockSure")}</label></p>'
            f'<p><button class="grave">{self.w("lock")}</button></p></form></section>\n'
        )

    def receipts(self, entries: list[Entry]) -> str:
        """Returns the table of receipts, the newest first."""
        if not entries:
            return ""
        names = [self.w(it) for it in ("receiptNumber", "receiptTime", "receiptKind", "receiptCount", "receiptDigest")]
        head = "".join(f"<th>{it}</th>" for it in names)
        cells = [(str(it.receipt), clock(it.at), self.w(KINDS[it.kind]), str(len(it.codes)), f"<code>{it.digest}</code>") for it in entries]
        rows = "".join(f"<tr>{''.join(f'<td data-column={chr(34)}{name}{chr(34)}>{it}</td>' for name, it in zip(names, row))}</tr>" for row in cells)
        return (
            f'<section id="receipts" aria-labelledby="receipts-title"><h2 id="receipts-title">{self.w("receiptsTitle")}</h2><p>{self.w("receiptsIntro")}</p>'
            f'<table class="cards"><thead><tr>{head}</tr></thead><tbody>{rows}</tbody></table></section>\n'
        )

    def mock(self, store: Store, papers: Papers, person: Person, last: Optional[Entry]) -> str:
        """Returns the candidate's seat in the mock round, if one is published, and the links to its papers."""
        if store.is_special or not papers.has_mock():
            return ""
        seat = papers.mock_seat(person.number)
        told = self.w("mockNone")
        if seat:
            code, step = seat
            whole = code if code in store.programmes else code.removesuffix("-HS").removesuffix("-OS")
            choice = last.codes.index(whole) + 1 if last and whole in last.codes else None
            kind = self.words["steps"].get(step, step)
            told = self.w("mockSeat" if choice else "mockSeatOther", programme=self.programme(store, papers, whole), kind=kind, choice=choice)
        links = "".join(f'<li><a href="/season/{name}">{self.w(word)}</a></li>' for name, word in papers.mock_files())
        head = f'<section id="mock" aria-labelledby="mock-title"><h2 id="mock-title">{self.w("mockTitle")}</h2>'
        return f'{head}<p>{self.w("mockIntro")}</p><p>{told}</p><ul>{links}</ul></section>\n'

    def entry(self, papers: Papers, person: Person) -> str:
        """Returns the candidate's entry in the register."""
        category = {"GEN-EWS": "EWS", "OBC-NCL": "OBC"}.get(person.category, person.category)
        facts = [("entryNumber", person.board), ("entryName", person.name), ("entryCategory", self.words["categories"].get(category, category))]
        traits = ", ".join(self.words["traits"].get(it, it) for it in person.traits)
        facts += [("entryTraits", traits or self.words["none"]), ("entryState", person.state)]
        rows = [(self.w(word), html.escape(value)) for word, value in facts if value]
        for at, place in enumerate(person.places, 1):
            if place:
                told = self.w("relaxed", place=place[:-1]) if place.endswith("R") else place
                name = papers.name("lists", str(at), self.language)
                rows.append((self.w("entryPlaceIn", list=name) if name else self.w("entryPlace", list=at), told))
        table = "".join(f"<div><dt>{name}</dt><dd>{value}</dd></div>" for name, value in rows)
        return f'<section aria-labelledby="entry"><h2 id="entry">{self.w("entryTitle")}</h2><dl class="facts">{table}</dl></section>\n'

    def report(self, store: Store, view: View) -> str:
        """Returns the form for what is wrong, and what the candidate reported before."""
        before = store.reports(view.person.number)
        rows = "".join(f"<li>{self.w('reportRow', receipt=receipt, time=clock(at), text=text)}</li>" for receipt, at, text in before)
        told = f"<h3>{self.w('reportsTitle')}</h3><ul>{rows}</ul>" if rows else ""
        return (
            f'<section aria-labelledby="wrong"><h2 id="wrong">{self.w("reportTitle")}</h2><p>{self.w("reportIntro")}</p>'
            f'<form method="post" action="{self.base}report">{self.hidden(view)}<p><label for="text">{self.w("reportField")}</label>'
            f'<textarea id="text" name="text" rows="4" maxlength="1000"></textarea></p><p><button>{self.w("reportSend")}</button></p></form>{told}</section>\n'
        )
