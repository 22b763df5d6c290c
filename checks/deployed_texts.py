"""The parts of checks/deploy on what nginx itself gives: its copies of published texts, packed files, pages for people, and TLS."""
import functools
import gzip
import json
import os
import re
import subprocess
from typing import Optional

from deployed import ANSWER, CLERK, CUT, SECOND, fronted, in_threads, part, tally
from front import CLERK_AT, DEPLOY, HOST, OTHER_AT, Front, Recorder, called, certificate, found

TEXT = b'HTTP/1.1 200 OK\r\nContent-Type: application/json\r\nContent-Length: 44\r\n\r\n{"reply":"round","round":1,"text":"x"}      '
NONE = b'HTTP/1.1 404 Not Found\r\nContent-Type: application/json\r\nContent-Length: 2\r\n\r\n{}'
PACKED = ["Accept-Encoding: gzip"]


def kept_files(nginx: Front) -> list[str]:
    return [it for _, _, names in os.walk(f"{nginx.room}/temp/texts") for it in names]


@part("nginx keeps one copy of a published text", ["nginx", "openssl"])
def kept_texts(room: str, program: str) -> None:
    with Recorder(TEXT) as office, Front(room, f"127.0.0.1:{office.port}") as nginx:
        for path in ("/v1/round/1", "/v1/list/1/A", "/v1/cutoffs/1/A"):
            before = len(office.seen)
            came = in_threads([functools.partial(nginx.ask, "GET", path, f"token{it:08}", source=f"127.0.2.{it + 1}") for it in range(40)])
            tally.holds(all(getattr(it, "body", b"") == TEXT.partition(b"\r\n\r\n")[2] for it in came), f"{path}: 40 visitors at once have it", f"{came[:2]}")
            tally.same(len(office.seen) - before, 1, f"{path}: the office is asked once")
            tally.holds(b"oken" not in office.seen[-1], f"{path}: without a token", f"{office.seen[-1]!r}")
            tally.same(nginx.ask("GET", f"{path}?x=1").status, 200, f"{path} with a question mark")
            tally.same(len(office.seen) - before, 1, f"{path}: what is behind a question mark makes no other copy")
        not_kept(nginx, office)
        emptied(room, nginx, office)


def not_kept(nginx: Front, office: Recorder) -> None:
    """Own questions, other methods and refusals reach the office each time."""
    asked: list[tuple[str, str, Optional[str], Optional[bytes]]] = [("GET", "/v1/seat/2", SECOND, None), ("GET", "/v1/choices/2", SECOND, None), ("GET", "/v1/why/2/A", SECOND, None), ("GET", "/v1/register/2", SECOND, None)]
    asked += [("GET", "/v1/answers/2", SECOND, None), ("GET", "/v1/state", None, None), ("POST", "/v1/answer", SECOND, ANSWER), ("POST", "/v1/round/1", None, b"")]
    before = len(office.seen)
    for _ in range(2):
        for method, path, token, given in asked:
            nginx.ask(method, path, token, given)
    tally.same(len(office.seen) - before, 2 * len(asked), "what is one's own, the state and each POST reach the office each time")
    office.reply = NONE
    before = len(office.seen)
    for _ in range(3):
        tally.same(nginx.ask("GET", "/v1/round/2").status, 404, "a text that is not published")
    tally.same(len(office.seen) - before, 3, "a refusal is not kept")
    office.reply = TEXT
    tally.same(nginx.ask("GET", "/v1/round/2").status, 200, "it is there as soon as it is published")


def emptied(room: str, nginx: Front, office: Recorder) -> None:
    """Another store in the place of the first: the copies and the papers go, and no others."""
    store, cache, papers = f"{room}/store.db", f"{room}/temp/texts", f"{room}/season"
    words = [f"{DEPLOY}/empty-texts", store, cache, papers]
    for name in ("round-1.txt", "programmes.json.gz", "special-round.txt", "special-lists.txt.gz", "special.json", "notice.txt", "window.json"):
        with open(f"{papers}/{name}", "w", encoding="utf-8") as it:
            it.write("x")
    called(words)
    tally.holds(kept_files(nginx), "without a store nothing is removed")
    with open(store, "w", encoding="utf-8") as it:
        it.write("x")
    called(words)
    tally.same((kept_files(nginx), sorted(os.listdir(papers))), ([], ["notice.txt", "window.json"]), "another store: the copies and papers of the season go")
    before = len(office.seen)
    tally.same(nginx.ask("GET", "/v1/round/1").status, 200, "nginx goes on after its copies are removed")
    nginx.ask("GET", "/v1/round/1")
    tally.same(len(office.seen) - before, 1, "the office is asked again, once")
    called(words)
    tally.holds(kept_files(nginx), "the same store: the copies stay")


@part("no other spelling fills nginx's copies", ["nginx", "openssl"])
def spelled(room: str, program: str) -> None:
    with fronted(room, program) as (nginx, _):
        for path in ("/v1/%72ound/1", "/v1/x/../round/1", "//v1/round/1", "/v1/round/01", "/v1/round/1/", "/v1/./round/1", "/v1/round/1%3f"):
            nginx.ask("GET", path)
        tally.same(nginx.ask("POST", "/v1/cut", CLERK, CUT, source=CLERK_AT).status, 200, "a cut")
        for path in ("/v1/%72ound/1", "/v1/x/../round/1", "//v1/round/1", "/v1/round/01", "/v1/round/1/", "/v1/./round/1", "/v1/round/1%3f", "/v1/round/1%23"):
            tally.same(nginx.ask("GET", path).status, 404, f"{path} is no page")
        came = nginx.ask("GET", "/v1/round/1")
        tally.holds(came.status == 200 and json.loads(came.body)["round"] == 1, "the round, after all these", f"{came}")
        tally.same(nginx.ask("HEAD", "/v1/round/1").status, 405, "HEAD is the office's own refusal")


@part("packed files and pages for people", ["nginx", "openssl"])
def packed(room: str, program: str) -> None:
    with fronted(room, program) as (nginx, _):
        nginx.ask("POST", "/v1/cut", CLERK, CUT, source=CLERK_AT)
        long = "x" * 60_000
        for name, data in (("round-1.txt", long.encode()), ("round-1.txt.gz", gzip.compress(long.encode()))):
            with open(f"{room}/season/{name}", "wb") as it:
                it.write(data)
        script = re.findall(rb'src="(/assets/[^"]+)"', nginx.ask("GET", "/candidate/").body)[0].decode()
        for path, is_packed in (("/season/round-1.txt", True), (script, True), ("/v1/list/1/A", True), ("/v1/round/1", False), ("/v1/seat/2", False)):
            came = nginx.ask("GET", path, SECOND, fields=PACKED)
            tally.same(came.fields.get("content-encoding"), "gzip" if is_packed else None, f"{path} for a browser that unpacks")
            tally.same(nginx.ask("GET", path, SECOND).fields.get("content-encoding"), None, f"{path} for one that does not")
        came = nginx.ask("GET", "/season/round-1.txt", fields=PACKED)
        tally.holds(len(came.body) < 1000 and gzip.decompress(came.body).decode() == long, "the packed paper", f"{came.fields}")
        for path, status, words in (("/none.html", 404, b"There is no such page"), ("/clerk/", 403, b"This page is closed here"), ("/season/round-9.txt", 404, b"not published yet")):
            came = nginx.ask("GET", path)
            tally.holds(came.status == status and words in came.body and came.fields.get("content-type") == "text/html; charset=utf-8", f"{path}: a page for people", f"{came}")
            tally.holds("frame-ancestors 'none'" in came.fields.get("content-security-policy", ""), f"{path} has the fields of each reply", f"{came.fields}")
        os.makedirs(f"{room}/conf/desk")
        with open(f"{room}/conf/desk/counts.json", "w", encoding="utf-8") as counts:
            counts.write("{}")
        seen = [nginx.ask("GET", "/clerk/counts.json", token, source=it).status for token in (CLERK, SECOND, None) for it in (CLERK_AT, OTHER_AT)]
        tally.same(seen, [200, 403, 403, 403, 403, 403], "the counts are for the clerk's token from the clerk's addresses")
        tally.same(nginx.ask("GET", "/-/404.html").status, 404, "the pages for people have no address of their own")
        came = nginx.ask("POST", "/v1/cut", CLERK, CUT)
        tally.same((came.status, came.body), (403, b'{"front":"closed"}'), "the clerk's request from elsewhere says that it is closed")


@part("TLS agrees on keys that are used once", ["nginx", "openssl"])
def ciphers(room: str, program: str) -> None:
    with Recorder(TEXT) as office:
        nginx = Front(room, f"127.0.0.1:{office.port}")
        certificate(room, "rsa:2048")
        with nginx:
            for label, words, is_taken in (("TLS 1.2 with ECDHE", ["-tls1_2", "-cipher", "ECDHE"], True), ("RSA key exchange", ["-tls1_2", "-cipher", "kRSA:@SECLEVEL=0"], False), ("TLS 1.1", ["-tls1_1", "-cipher", "ALL:@SECLEVEL=0"], False)):
                given = [found("openssl"), "s_client", "-connect", f"127.0.0.1:{nginx.port}", "-servername", HOST, *words]
                ran = subprocess.run(given, input=b"", capture_output=True, timeout=30)
                tally.holds((b"Cipher is (NONE)" not in ran.stdout and ran.returncode == 0) == is_taken, label, f"{ran.returncode} {ran.stdout[-300:]!r}")
