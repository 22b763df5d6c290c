"""Raw messages, their statuses, and whether the connection closes: what clients, scanners and smugglers send, by docs/FORMATS.md, section Requests over HTTP.

None of these messages may be accepted. So behind each one that ends its connection comes a cut with the clerk's token, which the office must not take,
and behind each other one a question, which must be the next that is answered."""
import dataclasses
from typing import Iterator, Union

from plain_http import compact, reply_bytes

CLOSES, STAYS = True, False
BODY = b'{"window":0}'
TWELVE = b"Content-Length: 12\r\n"
# the cut that nobody may get through, and the question that shows that the connection is still understood
SMUGGLED = b"POST /v1/cut HTTP/1.1\r\nHost: x\r\nX-Office-Token: clerk0001\r\n" + TWELVE + b"\r\n" + BODY
QUESTION = b"GET /v1/round/0 HTTP/1.1\r\nHost: x\r\n\r\n"
ANSWER = reply_bytes(404, compact({"name": "NoSuchRound", "published": 0, "refused": 14, "reply": "refused"}).encode())
# the bodies of replies: the state of the season of five candidates, and the refusal of a cut that is not the clerk's
BODIES = {
    200: compact({"now": 0, "published": 0, "reply": "state", "rounds": 2}).encode(),
    403: compact({"name": "Denied", "refused": 3, "reply": "refused", "rule": 2}).encode(),
}
Statuses = Union[int, tuple[int, ...]]
# a status, whether the connection closes, the bytes of a part of a message, and what is odd about it
Row = tuple[Statuses, bool, bytes, str]


@dataclasses.dataclass
class Raw:
    """A raw message: its name, its bytes, the statuses of the replies, and whether the connection closes after them."""

    label: str
    given: bytes
    statuses: tuple[int, ...]
    closes: bool

    def exchange(self) -> tuple[bytes, bytes]:
        """Returns the bytes that are sent with what follows them, and the bytes of all replies of an office that has made no cut."""
        last = len(self.statuses) - 1
        told = b"".join(reply_bytes(it, BODIES.get(it, b""), self.closes and at == last, "GET" if it == 405 else None) for at, it in enumerate(self.statuses))
        if not self.statuses:
            return self.given, b""
        return (self.given + SMUGGLED, told) if self.closes else (self.given + QUESTION, told + ANSWER)

    def all_statuses(self) -> list[int]:
        """Returns the statuses of all replies, also of what follows."""
        return [*self.statuses, *([404] if self.statuses and not self.closes else [])]


def line(text: bytes) -> bytes:
    """Returns a message with this first line."""
    return text + b"\r\nHost: x\r\n\r\n"


def asks(fields: bytes) -> bytes:
    """Returns a question for the state with these lines."""
    return b"GET /v1/state HTTP/1.1\r\nHost: x\r\n" + fields + b"\r\n"


def cuts(fields: bytes, body: bytes = BODY) -> bytes:
    """Returns a cut with these lines. Without a token nobody may make it."""
    return b"POST /v1/cut HTTP/1.1\r\nHost: x\r\n" + fields + b"\r\n" + body


def bodied(body: bytes) -> bytes:
    """Returns a cut with this body."""
    return cuts(b"Content-Length: %d\r\n" % len(body), body)


def carries(first: bytes) -> bytes:
    """Returns a message whose body is a cut of the clerk."""
    return first + b" HTTP/1.1\r\nHost: x\r\nContent-Length: %d\r\n\r\n" % len(SMUGGLED) + SMUGGLED


FIRST_LINES: list[Row] = [
    (200, STAYS, b"GET /v1/state HTTP/1.1", "as it is meant"),
    (200, CLOSES, b"GET /v1/state HTTP/1.0", "HTTP/1.0"),
    (400, CLOSES, b"GET /v1/state HTTP/1.2", "HTTP/1.2"),
    (400, CLOSES, b"GET /v1/state HTTP/2.0", "HTTP/2.0"),
    (400, CLOSES, b"GET /v1/state HTTP/0.9", "HTTP/0.9 by its name"),
    (400, CLOSES, b"GET /v1/state", "HTTP/0.9, which has no version"),
    (400, CLOSES, b"GET /v1/state ", "a blank and no version"),
    (400, CLOSES, b"GET /v1/state HTTP/1", "a version without its second number"),
    (400, CLOSES, b"GET /v1/state HTTP/1.10", "a version of two digits"),
    (400, CLOSES, b"GET /v1/state HTTP/01.1", "a version with a zero before it"),
    (400, CLOSES, b"GET /v1/state http/1.1", "a version in small letters"),
    (400, CLOSES, b"GET /v1/state HTTPS/1.1", "HTTPS"),
    (400, CLOSES, b"GET  /v1/state HTTP/1.1", "two blanks before the target"),
    (400, CLOSES, b"GET /v1/state  HTTP/1.1", "two blanks behind the target"),
    (400, CLOSES, b"GET /v1/state HTTP/1.1 ", "a blank at its end"),
    (400, CLOSES, b" GET /v1/state HTTP/1.1", "a blank at its beginning"),
    (400, CLOSES, b"GET\t/v1/state HTTP/1.1", "a tab before the target"),
    (400, CLOSES, b"GET /v1/state\tHTTP/1.1", "a tab behind the target"),
    (400, CLOSES, b"GET\x0b/v1/state HTTP/1.1", "a vertical tab"),
    (400, CLOSES, b"GET /v1/state HTTP/1.1 X-Office-Token: clerk0001", "a field in it"),
    (400, CLOSES, b"GET /v1/state HTTP/1.1\r", "two CR at its end"),
    (400, CLOSES, b"\rGET /v1/state HTTP/1.1", "a CR at its beginning"),
    (400, CLOSES, b"\xef\xbb\xbfGET /v1/state HTTP/1.1", "a byte order mark"),
    (400, CLOSES, b"/v1/state HTTP/1.1", "no method"),
    (400, CLOSES, b"GET HTTP/1.1", "no target"),
    (400, CLOSES, b"G(T /v1/state HTTP/1.1", "a sign that no method has"),
    (400, CLOSES, b"GET /v1/\x00state HTTP/1.1", "a zero byte"),
    (400, CLOSES, b"GET /v1/state\x7f HTTP/1.1", "a control byte"),
    (400, CLOSES, b"GET /v1/stat\xff HTTP/1.1", "a target that is no UTF-8"),
    (404, STAYS, "GET /v1/staté HTTP/1.1".encode(), "a target with a letter beyond ASCII"),
    (404, STAYS, b"CONNECT x:443 HTTP/1.1", "CONNECT"),
    (404, STAYS, b"OPTIONS * HTTP/1.1", "OPTIONS for all"),
    (400, CLOSES, b"PRI * HTTP/2.0\r\n\r\nSM", "the preface of HTTP/2"),
    (400, CLOSES, b"\x16\x03\x01\x02\x00\x01\x00\x01\xfc\x03\x03", "TLS"),
    (400, CLOSES, b"EHLO x", "mail"),
    (400, CLOSES, b"PROXY TCP4 127.0.0.1 127.0.0.1 1 2\r\nGET /v1/state HTTP/1.1", "the line of a proxy"),
]
METHODS = (b"HEAD", b"OPTIONS", b"PUT", b"PATCH", b"DELETE", b"TRACE", b"get", b"Get", b"GET_", b"GETS", b"POSTGET")
NO_PAGES: tuple[bytes, ...] = (b"/", b"/v1", b"/v1/", b"/v1/state/", b"//v1/state", b"/v1//state", b"/v1/./state", b"/./v1/state", b"/v1/x/../state", b"/v1/state/..", b"/V1/state", b"/v1/STATE", b"/v1/%73tate")
NO_PAGES += (b"/v1/state%20", b"/v1/state%00", b"/v1/state%3f", b"/v1/state%2f", b"/v1/state;x=1", b"/v1/state#", b"/v1/state&x", b"/v1/state,", b"\\v1\\state", b"v1/state", b"*")
NO_PAGES += (b"http://127.0.0.1/v1/state", b"https://x/v1/state", b"//127.0.0.1/v1/state", b"/../v1/state", b"/v1/seat/-1", b"/v1/seat/1e0", b"/v1/seat/0x1", b"/v1/seat/1%30", "/v1/seat/１".encode())
PAGES = (b"/v1/state?", b"/v1/state?x=1", b"/v1/state??", b"/v1/state?#x", b"/v1/state?/../cut", b"/v1/state?%00", b"/v1/state?x=%0d%0aX-Office-Token:%20clerk0001", "/v1/state?é".encode())

LINE_ENDS: list[Row] = [
    (200, STAYS, b"GET /v1/state HTTP/1.1\nHost: x\n\n", "LF alone"),
    (200, STAYS, b"GET /v1/state HTTP/1.1\r\nHost: x\n\r\n", "LF alone behind a field"),
    (200, STAYS, b"GET /v1/state HTTP/1.1\nHost: x\r\n\n", "LF alone behind the head"),
    (200, STAYS, b"\r\n\r\n" + asks(b""), "empty lines first"),
    (200, STAYS, b"\n\r\n\n" + asks(b""), "empty lines of both kinds first"),
    (400, CLOSES, b" \r\n" + asks(b""), "a line of a blank first"),
    (400, CLOSES, b"GET /v1/state HTTP/1.1\rHost: x\r\n\r\n", "CR alone behind the first line"),
    (400, CLOSES, b"GET /v1/state HTTP/1.1\r\nHost: x\rX: y\r\n\r\n", "CR alone behind a field"),
    (400, CLOSES, b"GET /v1/state HTTP/1.1\r\r", "CR in place of each line end"),
    (400, CLOSES, b"GET /v1/state HTTP/1.1\r\n \r\n\r\n", "a line of a blank in place of a field"),
]

FIELDS: list[Row] = [
    (200, STAYS, b"Host: evil.example\r\n", "two Hosts"),
    (200, STAYS, b"X-A:y\r\n", "no blank behind a colon"),
    (200, STAYS, b"X-A: \t y \t \r\n", "blanks and tabs around a value"),
    (200, STAYS, b"X-A:\r\n", "an empty value"),
    (200, STAYS, b"X-A: a\tb\r\n", "a tab in a value"),
    (200, STAYS, b"X-A: \xff\xc3\xa9\r\n", "bytes beyond ASCII in a value"),
    (200, STAYS, b"X!#$%&'*+-.^_`|~9: y\r\n", "a name of all signs that a name may have"),
    (200, STAYS, b"A: b\r\n" * 63, "64 fields"),
    (400, CLOSES, b"A: b\r\n" * 64, "65 fields"),
    (400, CLOSES, b"X-A\r\n", "a name without a colon"),
    (400, CLOSES, b": y\r\n", "no name"),
    (400, CLOSES, b"X-A : y\r\n", "a blank before a colon"),
    (400, CLOSES, b"X-A\t: y\r\n", "a tab before a colon"),
    (400, CLOSES, b"X-A: y\r\n z\r\n", "a folded line"),
    (400, CLOSES, b"X-A: y\r\n\tz\r\n", "a line that is folded by a tab"),
    (400, CLOSES, b"X\x00A: y\r\n", "a zero byte in a name"),
    (400, CLOSES, b"X-A: y\x00z\r\n", "a zero byte in a value"),
    (400, CLOSES, b"X-A: y\x1bz\r\n", "an escape in a value"),
    (400, CLOSES, b"X-A: y\x7f\r\n", "a control byte in a value"),
    (400, CLOSES, b"X-A: y\rz\r\n", "a CR in a value"),
    (400, CLOSES, b"X-A: y\r\r\n", "two CR behind a value"),
    (400, CLOSES, "X-é: y\r\n".encode(), "a letter beyond ASCII in a name"),
    (400, CLOSES, b"X(A): y\r\n", "a sign that no name has"),
    (400, CLOSES, b'"X-A": y\r\n', "a name in quotes"),
    (200, STAYS, b"Expect: 100-continue\r\n", "Expect"),
    (200, STAYS, b"Connection: Upgrade, HTTP2-Settings\r\nUpgrade: h2c\r\nHTTP2-Settings: AAMAAABkAAQAAP__\r\n", "an upgrade to HTTP/2"),
    (200, STAYS, b"Connection: Upgrade\r\nUpgrade: websocket\r\nSec-WebSocket-Key: dGhlIHNhbXBsZSBub25jZQ==\r\n", "an upgrade to a web socket"),
    (200, STAYS, b"TE: chunked, trailers\r\n", "TE"),
    (200, STAYS, b"Range: bytes=0-1\r\nIf-None-Match: *\r\nAccept: text/plain\r\nAccept-Encoding: gzip\r\n", "fields that ask for another form"),
    (200, STAYS, b"X-HTTP-Method-Override: POST\r\nX-Original-URL: /v1/cut\r\nX-Rewrite-URL: /v1/cut\r\n", "fields that name another request"),
]

# of a cut whose body has twelve bytes
LENGTHS: list[Row] = [
    (403, STAYS, TWELVE, "as it is meant"),
    (403, STAYS, b"content-length:12\r\n", "small letters, and no blank"),
    (403, STAYS, b"CONTENT-LENGTH: \t12\t \r\n", "capitals, and blanks and tabs"),
    (403, STAYS, b"Content-Length: 000000000000000012\r\n", "18 digits"),
    (403, STAYS, TWELVE + b"Content-Length: 012\r\n", "two that are equal"),
    (400, CLOSES, b"Content-Length: 0000000000000000012\r\n", "19 digits"),
    (400, CLOSES, TWELVE + b"Content-Length: 13\r\n", "two that differ"),
    (400, CLOSES, b"Content-Length: 0\r\n" + TWELVE, "none, and then twelve"),
    (400, CLOSES, TWELVE + b"Content-Length:\r\n", "one that is empty behind one that is not"),
    *((400, CLOSES, b"Content-Length: " + it + b"\r\n", f"written {it!r}") for it in (
        b"", b"+12", b"-12", b"-0", b"0x0c", b"0o14", b"12.0", b"1e1", b"1_2", b"12, 12", b"12,", b"12;", b"1 2", b'"12"', b"twelve", b"12\xc2\xa0", "１２".encode(),
    )),
    (411, CLOSES, b"", "none"),
    (411, CLOSES, b"Content_Length: 12\r\n", "a name with a low line"),
    (411, CLOSES, b"X-Content-Length: 12\r\n", "another name"),
    (411, CLOSES, b"Content-Lengths: 12\r\n", "a name with a letter more"),
    (400, CLOSES, b"Content-Length : 12\r\n", "a blank before its colon"),
    (400, CLOSES, b"Content-Length\x00: 12\r\n", "a zero byte behind its name"),
    (400, CLOSES, b"\x00Content-Length: 12\r\n", "a zero byte before its name"),
    (400, CLOSES, b"Content-Length: 12\x00\r\n", "a zero byte behind it"),
    (400, CLOSES, b"Content-Length: \x0b12\r\n", "a vertical tab before it"),
    (400, CLOSES, b"X-A: y\r\n Content-Length: 12\r\n", "folded onto another field"),
    (400, CLOSES, b"Content-Length:\r\n 12\r\n", "folded onto its own line"),
    (413, CLOSES, b"Content-Length: 4097\r\n", "a byte more than may come"),
    (413, CLOSES, b"Content-Length: 999999999999999999\r\n", "the largest number"),
]
LENGTHS_OF_OTHERS: list[Row] = [
    (200, STAYS, asks(b"Content-Length: 0\r\n"), "a question without a body"),
    (200, STAYS, asks(TWELVE) + BODY, "a question with a body"),
    (405, STAYS, b"HEAD /v1/state HTTP/1.1\r\nHost: x\r\n" + TWELVE + b"\r\n" + BODY, "HEAD with a body"),
    (404, STAYS, b"PUT /v1/none HTTP/1.1\r\nHost: x\r\n" + TWELVE + b"\r\n" + BODY, "a body for no page"),
    (413, CLOSES, asks(b"Content-Length: 4097\r\n"), "a question with a long body"),
    (400, CLOSES, asks(b"Content-Length: x\r\n"), "a question with a length that is none"),
    (400, CLOSES, asks(b"Content-Length: 0\r\n" + TWELVE), "a question with two lengths"),
]

CHUNKED = b"Transfer-Encoding: chunked\r\n"
# of a cut in chunks, of which the first ends and a cut of the clerk follows; its length is said to be twelve
CODINGS: list[Row] = [
    *((501, CLOSES, it + TWELVE, f"written {it!r}") for it in (
        CHUNKED, b"transfer-encoding:chunked\r\n", b"TRANSFER-ENCODING: CHUNKED\r\n", b"Transfer-Encoding:\tchunked\t\r\n", b"Transfer-Encoding: identity\r\n", b"Transfer-Encoding:\r\n",
        b"Transfer-Encoding: gzip, chunked\r\n", b"Transfer-Encoding: chunked, identity\r\n", b"Transfer-Encoding: xchunked\r\n", b'Transfer-Encoding: "chunked"\r\n',
        b"Transfer-Encoding: chunked;x=y\r\n", b"Transfer-Encoding: identity\r\n" + CHUNKED, CHUNKED + b"Transfer-Encoding: identity\r\n", b"Transfer-Encoding: chunked\n", b"X-A: y\n" + CHUNKED,
    )),
    (501, CLOSES, TWELVE + CHUNKED, "behind a length"),
    (501, CLOSES, CHUNKED, "without a length"),
    *((400, CLOSES, it + TWELVE, f"written {it!r}") for it in (
        b"Transfer-Encoding : chunked\r\n", b"Transfer-Encoding\t: chunked\r\n", b" Transfer-Encoding: chunked\r\n", b"X-A: y\r\n Transfer-Encoding: chunked\r\n", b"Transfer-Encoding\x00: chunked\r\n",
        b"\x00Transfer-Encoding: chunked\r\n", b"Transfer-Encoding: chunked\x00\r\n", b"Transfer-Encoding: \x0bchunked\r\n", b"Transfer-Encoding:\r\n chunked\r\n", b"X-A: y\rTransfer-Encoding: chunked\r\n",
        b":Transfer-Encoding: chunked\r\n", b"Transfer-Encoding\r\n: chunked\r\n", b"Transfer-Encoding chunked\r\n", b"Transfer-Encoding;: chunked\r\n",
    )),
]
OTHER_CODINGS: list[Row] = [
    (501, CLOSES, asks(CHUNKED) + b"0\r\n\r\n", "a question in chunks"),
    (403, STAYS, cuts(b"Transfer_Encoding: chunked\r\n" + TWELVE), "a name with a low line"),
    (403, STAYS, cuts(b"X-Transfer-Encoding: chunked\r\n" + TWELVE), "another name"),
    (403, STAYS, cuts(b"Content-Encoding: gzip\r\nContent-Type: text/plain\r\n" + TWELVE), "a coding and a type of the body"),
    (403, STAYS, cuts(b"Expect: 100-continue\r\n" + TWELVE), "a body that does not wait for 100"),
]

# what is looked at first
ORDER: list[Row] = [
    (431, CLOSES, b"GET /" + b"x" * 9000 + b" HTTP/1.1\r\nHost: x\r\n\r\n", "a long target"),
    (431, CLOSES, b"\r\n" * 4096 + asks(b""), "8,192 bytes of empty lines"),
    (431, CLOSES, b"POST /v1/cut HTTP/1.1\r\n" + CHUNKED + b"X-A: " + b"y" * 9000 + b"\r\n\r\n", "a long head before a coding"),
    (431, CLOSES, b"nothing\r\n" + b"A: b\r\n" * 1500 + b"\r\n", "a long head before what is no HTTP"),
    (400, CLOSES, cuts(CHUNKED + b"A: b\r\n" * 63), "65 fields before a coding"),
    (501, CLOSES, cuts(CHUNKED + b"Content-Length: x\r\n"), "a coding before a length that is none"),
    (501, CLOSES, cuts(CHUNKED + b"Content-Length: 4097\r\n"), "a coding before a long body"),
    (501, CLOSES, b"GET /v1/none HTTP/1.1\r\n" + CHUNKED + b"\r\n0\r\n\r\n", "a coding before no page"),
    (400, CLOSES, b"POST /v1/none HTTP/1.1\r\nContent-Length: x\r\n\r\n", "a length that is none before no page"),
    (411, CLOSES, b"POST /v1/none HTTP/1.1\r\n\r\n", "no length before no page"),
    (411, CLOSES, b"POST /v1/state HTTP/1.1\r\n\r\n", "no length before another method"),
    (413, CLOSES, b"PUT /v1/none HTTP/1.1\r\nContent-Length: 4097\r\n\r\n", "a long body before no page"),
    (404, STAYS, b"PUT /v1/none HTTP/1.1\r\n\r\n", "no page before another method"),
    (405, STAYS, b"POST /v1/state HTTP/1.1\r\nContent-Length: 1\r\n\r\nx", "another method before a body"),
    (400, STAYS, bodied(b"{}"), "a body before a token"),
]

CONNECTIONS: list[Row] = [
    *((200, CLOSES, it, f"written {it!r}") for it in (
        b"Connection: close\r\n", b"connection:CLOSE\r\n", b"Connection: keep-alive, Close\r\n", b"Connection: close,x\r\n", b"Connection: ,\tclose ,\r\n", b"Connection: x\r\nConnection: close\r\n",
    )),
    *((200, STAYS, it, f"written {it!r}") for it in (
        b"Connection: keep-alive\r\n", b"Connection: closed\r\n", b"Connection: x-close\r\n", b"Connection:\r\n", b'Connection: "close"\r\n', b"Connection: close;x\r\n", b"Proxy-Connection: close\r\n", b"X: close\r\n",
    )),
]
OTHER_CONNECTIONS: list[Row] = [
    (200, CLOSES, b"GET /v1/state HTTP/1.0\r\nConnection: keep-alive\r\n\r\n", "HTTP/1.0 that stays"),
    (411, CLOSES, b"POST /v1/cut HTTP/1.0\r\n\r\n", "HTTP/1.0 without a length"),
    (404, CLOSES, b"GET /v1/none HTTP/1.1\r\nConnection: close\r\n\r\n", "no page, and the end"),
    (405, CLOSES, b"PUT /v1/state HTTP/1.1\r\nConnection: close\r\n\r\n", "another method, and the end"),
    (400, CLOSES, cuts(b"Connection: close\r\nContent-Length: 2\r\n", b"{}"), "a wrong body, and the end"),
    (403, CLOSES, cuts(b"Connection: close\r\n" + TWELVE), "a refusal, and the end"),
    ((200, 200, 200), STAYS, asks(b"") * 3, "three messages at once"),
    ((404, 200, 403), STAYS, b"GET /v1/none HTTP/1.1\r\n\r\n" + asks(b"") + cuts(TWELVE), "a refusal, and then others"),
    ((200, 400), CLOSES, asks(b"") + b"nothing\r\n\r\n", "a message, and then none"),
    ((403, 400), CLOSES, cuts(TWELVE) + b"\x00" + asks(b""), "a byte behind a body"),
    ((200, 200), CLOSES, asks(b"") + asks(b"Connection: close\r\n") + asks(b""), "messages behind the end"),
    ((), CLOSES, b"", "nothing"),
    ((), CLOSES, b"\r\n\n\r\n", "empty lines alone"),
    ((), CLOSES, asks(b"")[:-1], "a head without its last byte"),
    ((), CLOSES, cuts(TWELVE)[:-1], "a body without its last byte"),
    ((200,), CLOSES, asks(b"Connection: close\r\n") + cuts(TWELVE)[:-1], "the end, and a part of a message"),
]

# of a cut whose body has twelve bytes
TOKENS: list[Row] = [
    *((403, STAYS, it + b"\r\n", f"written {it!r}") for it in (
        b"X-Office-Token:", b"X-Office-Token: CLERK0001", b"X-Office-Token: clerk000", b"X-Office-Token: clerk00011", b"X-Office-Token: clerk0001,", b"X-Office-Token: clerk0001, clerk0001",
        b"X-Office-Token: clerk 0001", b'X-Office-Token: "clerk0001"', b"X-Office-Token: Bearer clerk0001", b"X-Office-Token: clerk000%31", b"X-Office-Token: clerk0001\xc2\xa0",
        b"X-Office-Token: tok00002", b"X-Office-Token: " + b"c" * 4000, b"X_Office_Token: clerk0001", b"X-Office-Tokens: clerk0001", b"Office-Token: clerk0001",
        b"X-Office-Token: x\r\nX-Office-Token: clerk0001", b"Authorization: Bearer clerk0001", b"Cookie: X-Office-Token=clerk0001", b"X-Forwarded-For: 127.0.0.1\r\nX-Forwarded-User: clerk",
    )),
    *((400, CLOSES, it + b"\r\n", f"written {it!r}") for it in (b"X-Office-Token : clerk0001", b"X-A: y\r\n X-Office-Token: clerk0001", b"X-Office-Token:\r\n clerk0001", b"X-Office-Token: clerk0001\x00", b"\x00X-Office-Token: clerk0001")),
]

WRONG_BODIES = (
    b"", b"{}", b"[]", b"null", b"0", b'{"window":0', b'{"window":0}}', b'{"window":0}{"window":0}', b'[{"window":0}]', b'{"window":0,}', b'{"window":00}', b'{"window":+0}', b'{"window":0.0}', b'{"window":1e0}',
    b'{"window":"0"}', b'{"window":null}', b'{"window":[0]}', b'{"window":-1}', b'{"window":65536}', b'{"window":99999999999999999999}', b'{"window":NaN}', b'{"Window":0}', b'{"window ":0}', b"{'window':0}",
    b"{window:0}", b"window=0", b'{"window":0}\x00', b'\xef\xbb\xbf{"window":0}', b'/**/{"window":0}', b'{"window":0,"x":"\xff"}', b'{"window":0,"x":"\x01"}', '{"window":0}'.encode("utf-16"), b'{"window":0,"window":"x"}',
)
RIGHT_BODIES = (BODY, b' \t\r\n{ "window" : 0 }\r\n', b'{"window":65535}', b'{"window":"x","window":0}', b'{"\\u0077indow":0}', b'{"window":0,"token":"clerk0001","X-Office-Token":"clerk0001"}', BODY + b" " * 4084)

# a cut of the clerk in what is a body, or behind what is refused
HIDDEN: list[Row] = [
    (200, STAYS, carries(b"GET /v1/state"), "in the body of a question"),
    (405, STAYS, carries(b"HEAD /v1/state"), "in the body of HEAD"),
    (405, STAYS, carries(b"POST /v1/state"), "in the body of another method"),
    (404, STAYS, carries(b"POST /v1/none"), "in the body for no page"),
    (400, STAYS, carries(b"POST /v1/cut"), "in the body of a cut"),
    (411, CLOSES, cuts(b"", SMUGGLED), "behind a cut without a length"),
    (400, CLOSES, cuts(b"Content-Length: 0\r\nContent-Length: %d\r\n" % len(SMUGGLED), SMUGGLED), "behind two lengths"),
    (501, CLOSES, cuts(CHUNKED + b"Content-Length: %d\r\n" % (5 + len(SMUGGLED)), b"0\r\n\r\n" + SMUGGLED), "behind the last chunk, and within the length"),
    (501, CLOSES, cuts(CHUNKED + b"Content-Length: 4\r\n", b"%x\r\n%s\r\n0\r\n\r\n" % (len(SMUGGLED), SMUGGLED)), "in a chunk, and behind the length"),
    (501, CLOSES, cuts(CHUNKED, b"1;x\n" + SMUGGLED + b"\r\n0\r\n\r\n"), "behind a line of a chunk that LF ends"),
    (400, CLOSES, b"GET /v1/state HTTP/1.1\r\nHost: x\r\nX-A: y\r" + SMUGGLED, "behind a CR alone"),
    (413, CLOSES, cuts(b"Content-Length: 5000\r\n", SMUGGLED), "in a body that is too long"),
    (400, CLOSES, cuts(b"Content-Length: 0\x00\r\n", SMUGGLED), "behind a length with a zero byte"),
]


def rows() -> Iterator[tuple[str, Row]]:
    """Yields each message with the name of its group; what a row has is made into a whole message."""
    yield from (("a first line", (status, closes, line(part), label)) for status, closes, part, label in FIRST_LINES)
    yield from (("a method", (405, STAYS, line(it + b" /v1/state HTTP/1.1"), it.decode())) for it in METHODS)
    yield from (("no page", (404, STAYS, line(b"GET " + it + b" HTTP/1.1"), it.decode())) for it in NO_PAGES)
    yield from (("a page", (200, STAYS, line(b"GET " + it + b" HTTP/1.1"), it.decode())) for it in PAGES)
    yield from (("line ends", it) for it in LINE_ENDS)
    yield "a field", (200, STAYS, b"GET /v1/state HTTP/1.1\r\n\r\n", "no field")
    yield from (("a field", (status, closes, asks(part), label)) for status, closes, part, label in FIELDS)
    yield from (("a length", (status, closes, cuts(part), label)) for status, closes, part, label in LENGTHS)
    yield from (("a length", it) for it in LENGTHS_OF_OTHERS)
    yield from (("a coding", (status, closes, cuts(part, b"0\r\n\r\n" + SMUGGLED), label)) for status, closes, part, label in CODINGS)
    yield from (("a coding", it) for it in OTHER_CODINGS)
    yield from (("the order of checks", it) for it in ORDER)
    yield from (("a connection", (status, closes, asks(part), label)) for status, closes, part, label in CONNECTIONS)
    yield from (("a connection", it) for it in OTHER_CONNECTIONS)
    yield from (("a token", (status, closes, cuts(part + TWELVE), label)) for status, closes, part, label in TOKENS)
    yield "a token", (403, STAYS, cuts(TWELVE).replace(b"/v1/cut", b"/v1/cut?X-Office-Token=clerk0001&token=clerk0001"), "behind a question mark")
    yield from (("a body", (400, STAYS, bodied(it), f"wrong, {it!r:.60}")) for it in WRONG_BODIES)
    yield from (("a body", (403, STAYS, bodied(it), f"right, {it!r:.60}")) for it in RIGHT_BODIES)
    yield from (("a hidden cut", it) for it in HIDDEN)


def messages() -> list[Raw]:
    """Returns all raw messages."""
    return [Raw(f"{group}, {label}", given, status if isinstance(status, tuple) else (status,), closes) for group, (status, closes, given, label) in rows()]
