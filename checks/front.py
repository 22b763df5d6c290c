"""An office behind nginx as deploy/ sets it up, in a folder of its own, and clients that speak TLS to it. checks/deploy holds the front against this."""
import json
import os
import shutil
import socket
import ssl
import subprocess
import threading
import time
from typing import Any, Callable, Iterable, NamedTuple, Optional, Sequence

from cases import SECONDS
from served import TOP, Wrong, free_port, listeners

DEPLOY = f"{TOP}/deploy"
HOST = "office.example"
# the clerk of the checks, and anybody else; each address has limits of its own
CLERK_AT, OTHER_AT = "127.0.0.9", "127.0.0.5"
SYSTEM = {**os.environ, "PATH": f"{os.environ.get('PATH', '')}:/usr/sbin:/sbin"}
# nginx's user reads what the checks make. The scripts of deploy/ run under the umask of the caller, which may be a strict one.
CALLERS_MASK = os.umask(0o022)


class Reply(NamedTuple):
    """A reply: its status, its fields by their names in small letters, and its body."""

    status: int
    fields: dict[str, str]
    body: bytes


def found(name: str) -> str:
    """The path of a program of the distribution, or nothing."""
    return shutil.which(name, path=SYSTEM["PATH"]) or ""


def until(holds: Callable[[], object], what: str, seconds: float = SECONDS) -> None:
    end = time.monotonic() + seconds
    while not holds():
        if time.monotonic() > end:
            raise Wrong(f"{what} does not come within {seconds} seconds")
        time.sleep(0.01)


# ---- an office


class Office:
    """A program that serves at a port that stays the same when it is started again."""

    def __init__(self, program: str, room: str, port: Optional[int] = None) -> None:
        self.program, self.room, self.port = program, room, port or free_port()
        self.begun: Optional[subprocess.Popen[bytes]] = None

    @property
    def child(self) -> subprocess.Popen[bytes]:
        """Returns the program that was begun last."""
        assert self.begun, "the office was not begun"
        return self.begun

    def start(self, start: str = "kept", conns: int = 100_000, workers: int = 2, store: str = "season.db", bundle: bytes = b"", wait: bool = True, **how: Any) -> "Office":
        words = [self.program, "serve", str(conns), str(workers), start, str(self.port), store]
        with open(f"{self.room}/office.log", "ab") as log:
            self.begun = subprocess.Popen(words, cwd=self.room, stdin=subprocess.PIPE, stdout=log, stderr=log, **how)
        assert self.child.stdin
        self.child.stdin.write(bundle)
        self.child.stdin.close()
        if wait:
            until(lambda: listeners(self.port) or self.child.poll() is not None, "the port of the office")
        return self

    def kill(self) -> Optional[int]:
        if self.begun and self.begun.poll() is None:
            self.begun.kill()
        return self.begun.wait() if self.begun else None

    def __enter__(self) -> "Office":
        return self

    def __exit__(self, *_: object) -> None:
        self.kill()


class Recorder(threading.Thread):
    """In place of an office: it keeps the bytes of each request, one a connection, and replies what it is given."""

    def __init__(self, reply: bytes) -> None:
        super().__init__(daemon=True)
        self.reply = reply
        self.seen: list[bytes] = []
        self.door = socket.create_server(("127.0.0.1", 0))
        self.port = self.door.getsockname()[1]
        self.start()

    def run(self) -> None:
        while True:
            try:
                link, _ = self.door.accept()
            except OSError:
                return
            with link:
                link.settimeout(5)
                try:
                    self.seen.append(request_bytes(link))
                    link.sendall(self.reply)
                except OSError:
                    pass

    def __enter__(self) -> "Recorder":
        return self

    def __exit__(self, *_: object) -> None:
        self.door.shutdown(socket.SHUT_RDWR)
        self.door.close()


def request_bytes(link: socket.socket) -> bytes:
    got = b""
    while b"\r\n\r\n" not in got:
        piece = link.recv(1 << 16)
        if not piece:
            return got
        got += piece
    head, _, body = got.partition(b"\r\n\r\n")
    length = next((int(it.split(b":")[1]) for it in head.split(b"\r\n") if it.lower().startswith(b"content-length:")), 0)
    while len(body) < length and (piece := link.recv(1 << 16)):
        body += piece
        got += piece
    return got


# ---- clients


def more_of(link: socket.socket, held: bytes, holds: Callable[[bytes], bool]) -> bytes:
    """What is held once it holds this."""
    while not holds(held):
        piece = link.recv(1 << 16)
        if not piece:
            raise EOFError(f"the connection ends after {held!r:.80}")
        held += piece
    return held


def read_chunks(link: socket.socket, held: bytes) -> tuple[bytes, bytes]:
    """The body of a reply in chunks, and what came after it."""
    body = b""
    while True:
        held = more_of(link, held, lambda it: b"\r\n" in it)
        size, _, held = held.partition(b"\r\n")
        length = int(size, 16)
        held = more_of(link, held, lambda it: len(it) >= length + 2)
        body, held = body + held[:length], held[length + 2 :]
        if not length:
            return body, held


def read_reply(link: socket.socket, held: bytes = b"", empty: bool = False) -> tuple[Reply, bytes]:
    """The next reply of a connection, and what came after it."""
    head, _, held = more_of(link, held, lambda it: b"\r\n\r\n" in it).partition(b"\r\n\r\n")
    first, *lines = head.decode("latin-1").split("\r\n")
    fields = {name.lower(): value.strip() for name, _, value in (it.partition(":") for it in lines)}
    status = int(first.split()[1])
    if not empty and fields.get("transfer-encoding") == "chunked":
        body, held = read_chunks(link, held)
        return Reply(status, fields, body), held
    length = 0 if empty else int(fields.get("content-length", 0))
    held = more_of(link, held, lambda it: len(it) >= length)
    return Reply(status, fields, held[:length]), held[length:]


def request(method: str, path: str, token: Optional[str] = None, body: Optional[bytes] = None, fields: Iterable[str] = (), host: str = HOST) -> bytes:
    """The bytes of a request as a browser sends it."""
    lines = [f"{method} {path} HTTP/1.1", f"Host: {host}", *fields]
    lines += [f"X-Office-Token: {token}"] if token else []
    lines += [f"Content-Length: {len(body)}"] if body is not None else []
    return "\r\n".join([*lines, "", ""]).encode() + (body or b"")


class Front:
    """nginx over the files of deploy/, with a certificate for HOST and the tries of a check."""

    def __init__(self, room: str, upstream: str, web: Optional[str] = None, clerks: str = f"127.0.0.1,{CLERK_AT}", **more: str) -> None:
        self.room, self.port, self.plain = room, free_port(), free_port()
        # nginx's workers are another user where root starts it
        os.chmod(room, 0o755)
        for name in ("temp", "season", "logs", "conf"):
            os.makedirs(f"{room}/{name}", exist_ok=True)
        self.origin = f"https://{HOST}:{self.port}"
        self.cert = certificate(room)
        values = {
            "HOST": HOST,
            "ORIGIN": self.origin,
            "TLS": f"127.0.0.1:{self.port}",
            "PLAIN": f"127.0.0.1:{self.plain}",
            "UPSTREAM": upstream,
            "CERT": self.cert,
            "KEY": f"{room}/key.pem",
            "CLERKS": clerks,
            "WEB": web or page(room),
            "PAPERS": f"{room}/season",
            "CACHE": f"{room}/temp/texts",
            "LOG": f"{room}/logs",
            **more,
        }
        called([f"{DEPLOY}/fill", f"{room}/conf", *(f"{name}={value}" for name, value in values.items())])
        with open(f"{DEPLOY}/alone.conf", encoding="utf-8") as it, open(f"{room}/nginx.conf", "w", encoding="utf-8") as to:
            to.write(it.read().replace("@ROOM@", room))
        self.context = ssl.create_default_context(cafile=self.cert)
        self.begun: Optional[subprocess.Popen[bytes]] = None

    @property
    def child(self) -> subprocess.Popen[bytes]:
        """Returns the nginx that was begun."""
        assert self.begun, "nginx was not begun"
        return self.begun

    def start(self) -> "Front":
        with open(f"{self.room}/logs/nginx.txt", "ab") as log:
            words = [found("nginx"), "-e", f"{self.room}/logs/early.log", "-c", f"{self.room}/nginx.conf"]
            self.begun = subprocess.Popen(words, stdout=log, stderr=log)
        until(lambda: listeners(self.port) or self.child.poll() is not None, "the port of nginx")
        if self.child.poll() is not None:
            raise Wrong(f"nginx does not start: {self.logs()[-300:]}")
        return self

    def __enter__(self) -> "Front":
        return self.start()

    def __exit__(self, *_: object) -> None:
        self.child.terminate()
        self.child.wait()

    def connected(self, source: str = OTHER_AT, name: Optional[str] = HOST, plain: bool = False) -> socket.socket:
        """A connection from an address of this machine, with TLS for a name."""
        link = socket.create_connection(("127.0.0.1", self.plain if plain else self.port), timeout=30, source_address=(source, 0))
        link.setsockopt(socket.IPPROTO_TCP, socket.TCP_NODELAY, 1)
        if plain:
            return link
        context = self.context
        if name != HOST:
            context = ssl.create_default_context()
            context.check_hostname, context.verify_mode = False, ssl.CERT_NONE
        try:
            return context.wrap_socket(link, server_hostname=name)
        except OSError:
            link.close()
            raise

    def raw(self, given: bytes, source: str = OTHER_AT, name: Optional[str] = HOST, plain: bool = False) -> Reply:
        """The reply to these bytes over a connection of its own."""
        with self.connected(source, name, plain) as link:
            link.sendall(given)
            return read_reply(link, empty=given.startswith(b"HEAD"))[0]

    def ask(self, method: str, path: str, token: Optional[str] = None, body: Optional[bytes] = None, fields: Iterable[str] = (), source: str = OTHER_AT) -> Reply:
        return self.raw(request(method, path, token, body, fields, f"{HOST}:{self.port}"), source)

    def logged(self) -> list[dict[str, Any]]:
        """The lines of the log of requests, which nginx writes each second."""
        time.sleep(1.2)
        with open(f"{self.room}/logs/nachodune.log", encoding="utf-8") as it:
            return [json.loads(line) for line in it]

    def logs(self) -> str:
        return "".join(text_of(f"{self.room}/logs/{name}") for name in sorted(os.listdir(f"{self.room}/logs"))) + text_of(f"{self.room}/error.log")


def text_of(path: str) -> str:
    if not os.path.isfile(path):
        return ""
    with open(path, encoding="utf-8", errors="replace") as it:
        return it.read()


def called(words: Sequence[str], given: bytes = b"", **how: str) -> bytes:
    """What a program writes where it ends with 0."""
    mask = CALLERS_MASK if "/deploy/" in words[0] else -1
    ran = subprocess.run(words, input=given, stdout=subprocess.PIPE, stderr=subprocess.PIPE, timeout=SECONDS, umask=mask, env={**SYSTEM, **how})
    if ran.returncode:
        wrote = (ran.stderr + ran.stdout).decode(errors="replace")[-300:]
        raise Wrong(f"{os.path.basename(words[0])} {' '.join(words[1:2])}: status {ran.returncode}: {wrote}")
    return ran.stdout


def certificate(room: str, key: str = "ec") -> str:
    words = ["req", "-x509", "-newkey", key, *(["-pkeyopt", "ec_paramgen_curve:P-256"] if key == "ec" else []), "-nodes", "-days", "60", "-subj", f"/CN={HOST}"]
    called([found("openssl"), *words, "-addext", f"subjectAltName=DNS:{HOST}", "-keyout", f"{room}/key.pem", "-out", f"{room}/cert.pem"])
    return f"{room}/cert.pem"


def expired(room: str, days: int = -1) -> str:
    """Returns a certificate for the same key that is over, or that ends after these days."""
    called([found("openssl"), "req", "-new", "-key", f"{room}/key.pem", "-subj", f"/CN={HOST}", "-addext", f"subjectAltName=DNS:{HOST}", "-out", f"{room}/expired.csr"])
    words = ["-req", "-in", f"{room}/expired.csr", "-signkey", f"{room}/key.pem", "-days", str(days), "-copy_extensions", "copy", "-out", f"{room}/expired.pem"]
    called([found("openssl"), "x509", *words])
    return f"{room}/expired.pem"


def page(room: str) -> str:
    """The pages that web/build makes."""
    called([f"{TOP}/web/build", f"{room}/web"])
    return f"{room}/web"
