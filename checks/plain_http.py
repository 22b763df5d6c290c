"""The plain office over HTTP: the rows of a script as messages, and its replies as statuses and bodies. Of the forms of docs/FORMATS.md it knows those of requests
that a script can spell, and of replies that the office gives; checks/served.py holds the program against it, and checks/openapi.py the examples of documents."""
import json
from typing import Callable, Optional, Sequence

from plain_office import Office, Season

# the members of a body in JSON
Members = dict[str, object]

PHRASES = {
    200: "OK",
    400: "Bad Request",
    403: "Forbidden",
    404: "Not Found",
    405: "Method Not Allowed",
    409: "Conflict",
    411: "Length Required",
    413: "Payload Too Large",
    431: "Request Header Fields Too Large",
    501: "Not Implemented",
    503: "Service Unavailable",
    507: "Insufficient Storage",
}
NOT_FOUND = ("UnknownCandidate", "UnknownProgramme", "NotChosen", "NoSuchRound")
# the members of the bodies that a POST needs, in the order of a script's row, and those that are numbers
MEMBERS = {"answer": ("cand", "window", "turn", "choice"), "cut": ("window",), "raise": ("window", "programme", "step", "seats")}
NUMBERS = ("cand", "window", "turn", "seats")
# the key under which a refusal carries what no word of its line names, and those that are texts
KEYS = {"Gone": "how"}
TEXTS = ("kept", "how", "standing")


def compact(value: Members) -> str:
    return json.dumps(value, sort_keys=True, separators=(",", ":"))


# ---- requests


def token_of(season: Season, by: str) -> Optional[str]:
    """The token of whom a row names: none for nobody, and one of no candidate for whom the register does not have."""
    if by in ("clerk", "nobody"):
        return season.clerk if by == "clerk" else None
    person = season.person(int(by))
    return person.token if person else "nobodyhasthis"


def asked(season: Season, row: str) -> tuple[str, str, Optional[str], bytes]:
    """The method, path, token and body of a request that a row of a script spells."""
    word, by, *fields = row.split(",")
    token = token_of(season, by)
    if word in MEMBERS:
        told = {name: int(it) if name in NUMBERS else it for name, it in zip(MEMBERS[word], fields)}
        return "POST", f"/v1/{word}", token, json.dumps(told, separators=(",", ":")).encode()
    return "GET", "/".join(["/v1", word, *fields]), token, b""


def row_of(season: Season, method: str, path: str, token: Optional[str], body: bytes) -> str:
    """The row of a script that asks what such a message asks."""
    _, _, word, *fields = path.split("/")
    by = "clerk" if token == season.clerk else next((str(it.id) for it in season.people if it.token == token), "nobody")
    if method == "POST":
        told = json.loads(body)
        fields = [str(told[it]) for it in MEMBERS[word]]
    return ",".join([word, by, *fields])


def message(method: str, path: str, token: Optional[str], body: bytes, fields: Sequence[str] = ()) -> bytes:
    """The bytes of a request. Its token alone says who asks."""
    lines = [f"{method} {path} HTTP/1.1", *fields]
    lines += [f"X-Office-Token: {token}"] if token else []
    lines += [f"Content-Length: {len(body)}"] if body or method == "POST" else []
    return "\r\n".join([*lines, "", ""]).encode() + body


# ---- replies


def replied(row: str, text: str) -> tuple[int, bytes]:
    """The status and the body of what the plain office replies to a row."""
    asks, _, *fields = row.split(",")
    word, *rest = text.split("\n", 1)[0].split(" ")
    if word == "refused":
        return refused(*rest)
    if asks == "round":
        return 200, compact({"reply": asks, "round": int(fields[0]), "text": text}).encode()
    of_word: dict[str, Callable[..., Members]] = {
        "noted": lambda cand, _, window, __, turn, choice: {"cand": int(cand), "choice": choice, "turn": int(turn), "window": int(window)},
        "raised": lambda code, step, _, window, __, seats: {"programme": code, "seats": int(seats), "step": step, "window": int(window)},
        "published": lambda number, _, seated: {"round": int(number), "seated": int(seated)},
        "final": lambda _, admitted: {"admitted": int(admitted)},
        "seat": seat_told,
        "choices": lambda cand, *codes: {"cand": int(cand), "programmes": codes},
        "register": register_told,
        "answers": lambda cand, *_: {"answers": [answer_told(it) for it in text.splitlines()[1:-1]], "cand": int(cand)},
        "why": lambda cand, code, *_: {"cand": int(cand), "programme": code, "text": text},
        "list": lambda number, code: {"programme": code, "round": int(number), "text": text},
        "cutoffs": lambda number, code: {"programme": code, "round": int(number), "text": text},
        "state": lambda _, now, __, rounds, ___, published: {"now": int(now), "published": int(published), "rounds": int(rounds)},
    }
    return 200, compact({**of_word[word](*rest), "reply": word}).encode()


def seat_told(cand: str, _: str, number: str, standing: str, code: str, step: Optional[str] = None) -> Members:
    """A seat; without one there is no step, and the word `none` is its code."""
    return {"cand": int(cand), "programme": code if step else None, "round": int(number), "standing": standing, "step": step}


def register_told(cand: str, category: str, traits: str, *places: str) -> Members:
    """An entry of the register; the word for no place is a dash."""
    return {"cand": int(cand), "category": category, "places": [None if it == "-" else it for it in places], "traits": traits}


def answer_told(receipt: str) -> Members:
    """An answer, from its receipt."""
    _, _, _, window, _, turn, choice = receipt.split(" ")
    return {"choice": choice, "turn": int(turn), "window": int(window)}


def refused(number: str, name: str, *detail: str) -> tuple[int, bytes]:
    status = 403 if name == "Denied" else 404 if name in NOT_FOUND else 409
    told: Members = {"name": name, "refused": int(number), "reply": "refused"}
    if detail:
        key = KEYS.get(name, detail[0])
        told[key] = detail[-1] if key in TEXTS else int(detail[-1])
    return status, compact(told).encode()


def reply_bytes(status: int, body: bytes = b"", closes: bool = False, allow: Optional[str] = None) -> bytes:
    """The bytes of a reply. One without a body is of a message that the office was not asked."""
    lines = [f"HTTP/1.1 {status} {PHRASES[status]}", *(["Content-Type: application/json"] if body else []), f"Content-Length: {len(body)}"]
    lines += [f"Allow: {allow}"] if allow else []
    lines += ["Connection: close"] if closes else []
    return "\r\n".join([*lines, "", ""]).encode() + body


class Served:
    """A plain office that is asked by messages."""

    def __init__(self, text: str) -> None:
        self.season = Season(text)
        self.office = Office(self.season)

    def reply(self, method: str, path: str, token: Optional[str], body: bytes) -> tuple[int, bytes]:
        row = row_of(self.season, method, path, token, body)
        return replied(row, self.office.reply(row))
