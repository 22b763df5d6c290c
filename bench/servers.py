"""The office and the plain server over the same season, and the plain load that asks them."""
import os
import socket
import subprocess
import sys
import time
from typing import Optional

from generated import generated
from measured import PROGRAM, write_lines


def free_port() -> int:
    with socket.socket() as it:
        it.bind(("127.0.0.1", 0))
        port: int = it.getsockname()[1]
        return port


def connected(port: int, child: subprocess.Popen[bytes]) -> socket.socket:
    """A connection, once the server takes some."""
    for _ in range(2000):
        try:
            return socket.create_connection(("127.0.0.1", port), timeout=60)
        except OSError:
            if child.poll() is not None:
                sys.exit(f"bench: a server ended with {child.returncode}")
            time.sleep(0.01)
    sys.exit("bench: a server does not listen")


# replies a second, both percentiles in microseconds, the checksum, and the peak memory in MB
Figures = tuple[float, int, int, str, float]


class Season:
    """The generated season: its bundle, who has a seat in round 1, and that round's text."""

    def __init__(self, folder: str, n: int) -> None:
        self.bundle, self.round, self.everybody, self.seated = (os.path.join(folder, it) for it in ("bundle", "round", "everybody", "seated"))
        lines = [*generated(n, 7)]
        lines = lines[: lines.index("[requests]")]
        write_lines(self.bundle, lines)
        asked = "".join(f"{line}\n" for line in [*lines, "[requests]", "cut,clerk,0"])
        told = subprocess.run([PROGRAM, "run", "memory"], input=asked.encode(), capture_output=True, check=True).stdout.decode("ascii")
        write_lines(self.round, told.splitlines()[1:])
        people = [row.split(",") for row in lines[lines.index("[register]") + 2 : lines.index("[matrix]")]]
        has_seat = {line.split()[1] for line in told.splitlines() if line.startswith("allot ")}
        write_lines(self.everybody, (f"{row[0]} {row[3]}" for row in people))
        write_lines(self.seated, (f"{row[0]} {row[3]}" for row in people if row[0] in has_seat))
        self.n, self.seats = n, len(has_seat)

    def office(self, workers: int, port: int, store: str, env: Optional[dict[str, str]] = None) -> subprocess.Popen[bytes]:
        words = [PROGRAM, "serve", "100000", str(workers), "new", str(port), store]
        with open(self.bundle, "rb") as source:
            child = subprocess.Popen(words, stdin=source, stdout=subprocess.DEVNULL, stderr=subprocess.DEVNULL, env=env)
        with connected(port, child) as link:
            link.sendall(b"POST /v1/cut HTTP/1.1\r\nX-Office-Token: clerk0001\r\nContent-Length: 12\r\nConnection: close\r\n\r\n" b'{"window":0}')
            reply = b""
            while piece := link.recv(4096):
                reply += piece
        if not reply.endswith(b'{"reply":"published","round":1,"seated":%d}' % self.seats):
            sys.exit(f"bench: the first cut is replied by {reply[-100:]!r}")
        return child

    def plain(self, server: str, workers: int, port: int, store: str, is_grouped: bool = True, env: Optional[dict[str, str]] = None) -> subprocess.Popen[bytes]:
        """The plain server, which syncs a file once for all who wait, or for each answer."""
        words = [server, str(workers), str(port), self.bundle, self.round, store, *(["grouped"] if is_grouped else [])]
        child = subprocess.Popen(words, env=env)
        connected(port, child).close()
        return child


def clear(store: str) -> None:
    for end in ("", "-wal"):
        if os.path.exists(store + end):
            os.remove(store + end)


def loaded(load: str, child: subprocess.Popen[bytes], port: int, clients: int, season: Season, kind: str, asked: int) -> Figures:
    """What the load prints of a server: replies, seconds, both percentiles, replies that were no 200, and the checksum; and the server's peak memory."""
    people = season.seated if kind == "answer" else season.everybody
    try:
        told = subprocess.run([load, str(port), str(clients), str(asked), kind, people], capture_output=True, check=True, text=True).stdout.split()
    finally:
        child.kill()
        _, _, used = os.wait4(child.pid, 0)
    if told[4] != "0":
        sys.exit(f"bench: {told[4]} replies to `{kind}` are no 200")
    return int(told[0]) / float(told[1]), int(told[2]), int(told[3]), told[5], used.ru_maxrss * 1024 / 1e6
