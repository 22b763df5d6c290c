"""Who is signed in. A visit is in a cookie that the service can check without keeping it, so that a restart signs nobody out."""
import hashlib
import hmac
import re
import secrets
from typing import NamedTuple, Optional

from store import now

COOKIE = "__Host-choices"
# a visit ends after half an hour without a request, and after twelve hours
IDLE, WHOLE = 30 * 60_000, 12 * 60 * 60_000
FORM = re.compile(r"([0-9]{1,9})\.([0-9]{1,15})\.([0-9]{1,15})\.([0-9a-f]{32})\.([0-9a-f]{64})")


class Visit(NamedTuple):
    """A candidate's visit: the office's number, when it began, when it was last seen, and its random name."""

    number: int
    began: int
    seen: int
    name: str

    def ends(self) -> int:
        """Returns when the visit is over in any case."""
        return self.began + WHOLE


def began(number: int) -> Visit:
    """Begins a visit."""
    at = now()
    return Visit(number, at, at, secrets.token_hex(16))


def mac(key: bytes, *parts: object) -> str:
    """Returns what shows that these parts were made by this service."""
    return hashlib.blake2b("|".join(map(str, parts)).encode(), key=key, digest_size=32).hexdigest()


def cookie(key: bytes, visit: Visit) -> tuple[str, str]:
    """Returns the field that gives a browser its visit, seen now."""
    visit = visit._replace(seen=now())
    value = ".".join(map(str, (*visit, mac(key, "visit", *visit))))
    return ("Set-Cookie", f"{COOKIE}={value}; Path=/; Secure; HttpOnly; SameSite=Strict")


def no_cookie() -> tuple[str, str]:
    """Returns the field that takes the visit from a browser."""
    return ("Set-Cookie", f"{COOKIE}=; Path=/; Secure; HttpOnly; SameSite=Strict; Max-Age=0")


def visit_of(key: bytes, fields: dict[str, str]) -> Optional[Visit]:
    """Returns the visit of a request, or None if it has none that is right and not over."""
    found = re.search(rf"(?:^|; ?){COOKIE}=([0-9a-f.]{{1,140}})(?:;|$)", fields.get("cookie", ""))
    parts = FORM.fullmatch(found[1]) if found else None
    if not parts:
        return None
    visit = Visit(int(parts[1]), int(parts[2]), int(parts[3]), parts[4])
    if not hmac.compare_digest(mac(key, "visit", *visit), parts[5]):
        return None
    return visit if visit.seen + IDLE > now() and visit.ends() > now() else None


def form_token(key: bytes, visit: Visit) -> str:
    """Returns the token that each form of a visit carries, so that no page of another origin can send one."""
    return mac(key, "form", visit.number, visit.name)[:32]


def is_form_token(key: bytes, visit: Visit, given: str) -> bool:
    """Returns whether a form was made for this visit."""
    return hmac.compare_digest(form_token(key, visit).encode(), given.encode())
