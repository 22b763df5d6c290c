"""The parts of checks/deploy that draw 12,000 requests from docs/openapi.json, right and wrong ones, and hold each reply against the document; and that send the raw
messages of checks/raw_messages.py to the office and through nginx."""
import contextlib
import json
import re
import socket
from typing import Any, Optional, Sequence, TypeVar

import openapi
import raw_messages
from deployed import CLERK, CUT, SECOND, THIRD, bundle_of, directly, part, tally
from deployed_front import STATE
from front import HOST, Front, Office, Recorder, Reply, read_reply
from plain_trials import Draw
from served import rest_of

MANY = 12_000
# values of another kind than a member has, as their text
ODD = ('"1"', "1.0", "1e0", "-1", "null", "true", "[1]", '{"a":1}', '""', '"' + "x" * 17 + '"', "99999999999999999999", '"\\u0000"', '"कखग"', "01")
# what is no number, and no code, in a path
NO_NUMBERS = ("0x1", "-1", "01", "1.0", "99999999999", "%31", "é", "")
SPOILED: dict[str, tuple[str, ...]] = {"prog": ("a" * 17, "A.B", "%41", "é", "")}
# statuses of replies, of the office's own and of those that nginx gives
STATUS = re.compile(rb"HTTP/1\.1 (\d{3}) ")
FRONTS = {100, 200, 301, 400, 403, 404, 405, 413, 414, 421, 501, 505}
TOKENS = (CLERK, SECOND, THIRD, "tok00001", "tok00009", "wrongwrong", "", "x" * 40, "tok0000é")

Item = TypeVar("Item")
# a request: method, path, token and body; whether it names a page, has its method, and its body is right
Asked = tuple[str, str, str, bytes, bool, bool, bool]


def one_of(draw: Draw, items: Sequence[Item]) -> Item:
    return items[draw.below(len(items))]


def drawn(draw: Draw, schema: openapi.Part) -> Any:
    """Returns a value that a schema allows."""
    schema = openapi.resolved(schema)
    if "enum" in schema:
        return one_of(draw, schema["enum"])
    if schema.get("type") == "integer":
        low, high = schema["minimum"], schema["maximum"]
        return one_of(draw, (low, high, min(low + draw.below(6), high), low + draw.below(high - low + 1)))
    return one_of(draw, ("A", "B", "C", "X-1", "a" * 16))


def drawn_path(draw: Draw, path: str) -> tuple[str, bool]:
    """Returns a path, and whether it names a page."""
    wrong = draw.below(8) == 0
    item = openapi.document()["paths"][path]
    given = {it["name"]: it["schema"] for it in next(iter(item.values())).get("parameters", item.get("parameters", []))}
    spoiled = one_of(draw, sorted(given)) if wrong and given else None

    def put(found: re.Match[str]) -> str:
        name = found[1]
        return one_of(draw, SPOILED.get(name, NO_NUMBERS)) if name == spoiled else str(drawn(draw, given[name]))

    made = re.sub(r"\{(\w+)\}", put, path)
    if wrong and not given:
        made += one_of(draw, ("/", "/x", "%20", "\\"))
    return made + ("?x=1" if draw.below(6) == 0 else ""), not wrong


def drawn_body(draw: Draw, schema: openapi.Part) -> tuple[bytes, bool]:
    """Returns the bytes of a body, and whether it is as the schema says."""
    schema = openapi.resolved(schema)
    members = {name: json.dumps(drawn(draw, it)) for name, it in schema["properties"].items()}
    how = draw.below(6)
    name = one_of(draw, sorted(members))
    if how == 0:
        del members[name]
    elif how == 1:
        members[name] = one_of(draw, ODD)
    elif how == 2:
        return one_of(draw, (b"", b"{", b"[]", b"null", b"\xff\xfe{}", b'{"window":0}}', b"{'window':0}", b"x" * 4096)), False
    elif how == 3:
        members["other"] = one_of(draw, ODD[:-1])
    text = "{" + ",".join(f'"{key}":{value}' for key, value in members.items()) + "}"
    try:
        value = json.loads(text)
        right = openapi.why_not({**schema, "additionalProperties": True}, value) is None and how not in (0,) and not re.search(r":(1\.0|1e0|01)[,}]", text.partition('"other"')[0])
    except ValueError:
        right = False
    return text.encode(), right


def drawn_request(draw: Draw) -> Asked:
    """Returns a request and what it should get: its method, path, token and body, whether it names a page, has its method, and its body is right."""
    method, path = one_of(draw, sorted(openapi.operations()))
    target, is_page = drawn_path(draw, path)
    asked = one_of(draw, ("GET", "POST", "PUT", "DELETE", "HEAD", "OPTIONS", "get")) if draw.below(12) == 0 else method
    schema = openapi.schema_of_body(method, path)
    body, right = drawn_body(draw, schema) if schema else (b"" if draw.below(3) else b"ignored", True)
    return asked, target, one_of(draw, TOKENS), body, is_page, asked == method, right


class Kept:
    """One connection after another, each with up to 99 requests."""

    def __init__(self, office: Office) -> None:
        self.office = office
        self.link: Optional[socket.socket] = None

    def ask(self, method: str, target: str, token: str, body: bytes) -> Reply:
        if not self.link:
            self.link, self.count, self.held = socket.create_connection(("127.0.0.1", self.office.port), timeout=30), 0, b""
        self.link.sendall(head(method, target, token, body) + body)
        came, self.held = read_reply(self.link, self.held, empty=method == "HEAD")
        self.count += 1
        if came.fields.get("connection") == "close":
            self.link.close()
            self.link = None
        return came


def head(method: str, target: str, token: str, body: bytes) -> bytes:
    lines = [f"{method} {target} HTTP/1.1", "Host: x"] + ([f"X-Office-Token: {token}"] if token else []) + [f"Content-Length: {len(body)}"]
    return "\r\n".join([*lines, "", ""]).encode()


def odd_of(asked: Asked, came: Reply) -> Optional[str]:
    """What is odd about a reply, or None."""
    method, target, _, _, is_page, has_method, right = asked
    if came.status >= 500:
        return "the office fails"
    if not is_page:
        return None if came.status in (400, 404) and not came.body or has_method is False else "a path that names no page"
    if not has_method:
        return None if came.status in (405, 400) and not came.body and (came.status == 400 or came.fields.get("allow") in ("GET", "POST")) else "another method"
    if (came.status == 400) == right:
        return "a right body is refused, or a wrong one taken"
    return openapi.fault_of(method, target, came.status, came.body)


@part("requests drawn from openapi.json")
def requests_drawn(room: str, program: str) -> None:
    draw = Draw(12)
    odd: list[str] = []
    seen: dict[int, int] = {}
    with Office(program, room) as office:
        office.start("new", bundle=bundle_of(), workers=4)
        directly(office, "POST", "/v1/cut", CLERK, CUT)
        kept = Kept(office)
        for number in range(MANY):
            asked = drawn_request(draw)
            came = kept.ask(*asked[:4])
            seen[came.status] = seen.get(came.status, 0) + 1
            why = odd_of(asked, came)
            if why:
                odd.append(f"{number}: {asked}: {came.status} {came.body[:80]!r}: {why}")
        raw(office)
    tally.holds(not odd, f"{MANY} requests drawn from openapi.json get replies that it has", f"{len(odd)} odd: {odd[:3]}")
    tally.holds({200, 400, 403, 404, 405, 409} <= set(seen), "the draws reach most statuses", f"{seen}")


# ---- raw messages


def raw(office: Office) -> None:
    """The raw messages have the same statuses after cuts."""
    before = directly(office, "GET", "/v1/state", None, None)
    for it in raw_messages.messages():
        with socket.create_connection(("127.0.0.1", office.port), timeout=30) as link:
            link.sendall(it.exchange()[0])
            link.shutdown(socket.SHUT_WR)
            came = rest_of(link)
        tally.same([int(status) for status in STATUS.findall(came)], it.all_statuses(), f"a raw message: {it.label}")
    tally.same(directly(office, "GET", "/v1/state", None, None), before, "no raw message is accepted")
    # of a key twice the last counts: this is the cut of window 0 again
    again = directly(office, "POST", "/v1/cut", CLERK, b'{"window":9,"window":0}')
    tally.holds(again.status == 200 and b'"round":1' in again.body, "of a key twice the last counts", f"{again}")


@part("raw messages through nginx", ["nginx", "openssl"])
def raw_through(room: str, program: str) -> None:
    """Whatever nginx makes of the raw messages, what reaches the office is one whole request with the fields that it gets, and never the cut that is hidden in many."""
    with Recorder(STATE) as office, Front(room, f"127.0.0.1:{office.port}") as nginx:
        host, end = f"Host: {HOST}:{nginx.port}".encode(), b"GET /v1/state HTTP/1.1\r\nHost: x\r\nConnection: close\r\n\r\n"
        came = b""
        for at, it in enumerate(raw_messages.messages()):
            with nginx.connected(f"127.0.2.{at % 250 + 1}") as link:
                link.sendall((it.exchange()[0] + end).replace(b"Host: x\r\n", host + b"\r\n").replace(b"Host: x\n", host + b"\n"))
                came += until_silent(link) + b"\n"
        statuses = {int(it) for it in STATUS.findall(came)}
        tally.holds(statuses <= FRONTS and {200, 400, 403, 405, 413} <= statuses, "nginx replies to raw messages as it does to others", f"{statuses}")
        odd = [it for it in office.seen if not is_plain(it)]
        tally.holds(len(office.seen) > 100 and not odd, "what reaches the office of raw messages is plain, and no cut", f"{len(odd)} of {len(office.seen)}: {odd[:3]}")


def until_silent(link: socket.socket) -> bytes:
    """Returns all that comes over a connection until it ends, or says nothing for a second: nginx may wait for the rest of a body."""
    link.settimeout(1)
    found = b""
    with contextlib.suppress(OSError):
        while piece := link.recv(1 << 16):
            found += piece
    return found


def is_plain(given: bytes) -> bool:
    """Whether a request that reached the office is whole, has the fields that nginx gives the office, and is no cut."""
    head, _, body = given.partition(b"\r\n\r\n")
    first, *lines = head.split(b"\r\n")
    fields = [it.partition(b": ") for it in lines]
    names = [name for name, _, _ in fields]
    length = next((int(value) for name, _, value in fields if name == b"Content-Length"), 0)
    is_known = set(names) <= {b"Host", b"Connection", b"X-Office-Token", b"Content-Length"} and len(set(names)) == len(names)
    return is_known and length == len(body) and b"/v1/cut" not in first.partition(b"?")[0] and re.fullmatch(rb"[A-Z]\S* \S+ HTTP/1\.1", first) is not None
