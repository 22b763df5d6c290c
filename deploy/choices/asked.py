"""Speaks HTTP/1.1 with the web server in front: whole requests of bounded size go to a function, and whole replies come back."""
import asyncio
import re
import sys
import time
from typing import Awaitable, Callable, NamedTuple, Optional
from urllib.parse import parse_qsl

MOST_HEAD, MOST_BODY, MOST_LINKS = 8_192, 65_536, 2_048
# seconds after which a connection on which nothing was answered ends; nginx keeps one for 60
SILENT = 75
FIRST = re.compile(rb"([A-Z]{1,16}) (/[!-~]{0,2047}) HTTP/1\.([01])")
NAMES = {
    200: "OK", 303: "See Other", 400: "Bad Request", 403: "Forbidden", 404: "Not Found", 405: "Method Not Allowed", 409: "Conflict",
    413: "Content Too Large", 431: "Request Header Fields Too Large", 500: "Internal Server Error", 503: "Service Unavailable",
}


class Request(NamedTuple):
    """A request: its method, its path, its query, its fields by small names, and the fields of its form."""

    method: str
    path: str
    query: str
    fields: dict[str, str]
    form: dict[str, str]


class Reply(NamedTuple):
    """A reply: its status, its text, what kind of text that is, and further fields."""

    status: int
    text: bytes
    kind: str = "text/html; charset=utf-8"
    fields: tuple[tuple[str, str], ...] = ()

    def encoded(self, closes: bool, bare: bool) -> bytes:
        """Returns the bytes of the reply; a reply to HEAD has no text."""
        lines = [f"HTTP/1.1 {self.status} {NAMES[self.status]}", f"Content-Type: {self.kind}", f"Content-Length: {len(self.text)}"]
        lines += [f"{name}: {value}" for name, value in self.fields]
        lines += ["Connection: close"] if closes else []
        return "\r\n".join([*lines, "", ""]).encode() + (b"" if bare else self.text)


class Malformed(Exception):
    """The status of a request that is none."""


def plain(status: int, text: str) -> Reply:
    """Returns a reply of one line."""
    return Reply(status, f"{text}\n".encode(), "text/plain; charset=utf-8", (("Cache-Control", "no-store"),))


def head_of(head: bytes) -> tuple[str, str, bool, dict[str, str]]:
    """Returns the method, the path with its query, whether the connection may stay, and the fields of a head."""
    first, *lines = head[:-4].split(b"\r\n")
    asked = FIRST.fullmatch(first)
    if not asked:
        raise Malformed(400)
    fields: dict[str, str] = {}
    for line in lines:
        name, colon, value = line.partition(b":")
        key = name.decode("latin-1").lower()
        if not colon or not re.fullmatch(r"[a-z0-9-]+", key) or key in fields and key in ("content-length", "cookie", "host"):
            raise Malformed(400)
        fields[key] = value.strip().decode("latin-1")
    if "transfer-encoding" in fields:
        raise Malformed(400)
    stays = asked[3] == b"1" and fields.get("connection", "").lower() != "close"
    return asked[1].decode(), asked[2].decode(), stays, fields


def form_of(fields: dict[str, str], body: bytes) -> dict[str, str]:
    """Returns the fields of a form, each once."""
    if not body:
        return {}
    if fields.get("content-type", "").partition(";")[0].strip().lower() != "application/x-www-form-urlencoded":
        raise Malformed(400)
    try:
        return dict(parse_qsl(body.decode("ascii"), keep_blank_values=True, strict_parsing=True, errors="strict", max_num_fields=20))
    except ValueError:
        raise Malformed(400) from None


async def next_request(reader: asyncio.StreamReader) -> Optional[tuple[Request, bool]]:
    """Returns the next request of a connection and whether the connection may stay, or None if it ended."""
    try:
        head = await reader.readuntil(b"\r\n\r\n")
    except asyncio.LimitOverrunError:
        raise Malformed(431) from None
    except asyncio.IncompleteReadError:
        return None
    if len(head) > MOST_HEAD:
        raise Malformed(431)
    method, path, stays, fields = head_of(head)
    length = fields.get("content-length", "0")
    if not re.fullmatch("[0-9]{1,12}", length):
        raise Malformed(400)
    if int(length) > MOST_BODY:
        raise Malformed(413)
    try:
        body = await reader.readexactly(int(length)) if length != "0" else b""
    except asyncio.IncompleteReadError:
        return None
    path, _, query = path.partition("?")
    return Request(method, path, query, fields, form_of(fields, body)), stays


class Server:
    """Answers the requests of all connections by one function. A connection ends when nothing was answered on it for a while."""

    def __init__(self, answer: Callable[[Request], Awaitable[Reply]]) -> None:
        self.answer = answer
        # when something was answered last on each connection
        self.links: dict[asyncio.StreamWriter, float] = {}

    async def sweep(self) -> None:
        """Ends connections on which nothing was answered for a while, again and again."""
        while True:
            await asyncio.sleep(5)
            for writer, since in [*self.links.items()]:
                if time.monotonic() - since > SILENT:
                    writer.transport.abort()

    async def speak(self, reader: asyncio.StreamReader, writer: asyncio.StreamWriter) -> None:
        """Answers one connection, request by request."""
        if len(self.links) >= MOST_LINKS:
            writer.transport.abort()
            return
        try:
            self.links[writer] = time.monotonic()
            while await self.one(reader, writer):
                self.links[writer] = time.monotonic()
        except OSError:
            pass
        finally:
            del self.links[writer]
            writer.close()

    async def one(self, reader: asyncio.StreamReader, writer: asyncio.StreamWriter) -> bool:
        """Answers the next request, and returns whether the connection stays."""
        try:
            came = await next_request(reader)
        except Malformed as why:
            status = why.args[0]
            writer.write(plain(status, NAMES[status]).encoded(True, False))
            await writer.drain()
            return False
        if came is None:
            return False
        asked, stays = came
        try:
            reply = await self.answer(asked)
        except Exception as why:  # one request must not end the service; what was asked is not written
            print(f"choices: {asked.method} failed: {type(why).__name__}", file=sys.stderr, flush=True)
            reply = plain(500, "the service failed at this request: look at your receipts")
        writer.write(reply.encoded(not stays, asked.method == "HEAD"))
        await writer.drain()
        return stays
