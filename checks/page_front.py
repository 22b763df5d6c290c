"""An office behind nginx, for checks of the pages: with the files of deploy/ where this checkout has them, and otherwise with a small configuration of its own.
The pages are those that web/build makes. Next to them are the modules of web/ under /modules/, so that a check can call one of them alone."""
import os
import shutil
import subprocess
import time
from typing import Callable, Optional

from cases import SECONDS
from served import TOP, free_port, listeners

DEPLOY = f"{TOP}/deploy"
HOST = "office.example"
SYSTEM = {**os.environ, "PATH": f"{os.environ.get('PATH', '')}:/usr/sbin:/sbin"}
CONFIGURATION = """
daemon off;
worker_processes 2;
pid @ROOM@/nginx.pid;
error_log @ROOM@/logs/error.log info;
events { worker_connections 256; }
http {
    client_body_temp_path @ROOM@/temp/body;
    proxy_temp_path @ROOM@/temp/proxy;
    fastcgi_temp_path @ROOM@/temp/fastcgi;
    uwsgi_temp_path @ROOM@/temp/uwsgi;
    scgi_temp_path @ROOM@/temp/scgi;
    log_format plain '$status $request_method $uri';
    server {
        listen 127.0.0.1:@PORT@;
        access_log @ROOM@/logs/access.log plain;
        error_page 502 504 = @away;
        location / {
            root @WEB@;
            index index.html;
            types { text/html html; text/css css; text/javascript js; image/svg+xml svg; }
            charset utf-8;
            include @ROOM@/headers.conf;
            add_header Cache-Control no-cache always;
        }
        location /season/ { alias @ROOM@/season/; include @ROOM@/headers.conf; }
        location /v1/ {
            proxy_pass http://127.0.0.1:@OFFICE@;
            proxy_http_version 1.1;
            proxy_set_header Connection close;
            proxy_set_header Host 127.0.0.1;
            proxy_pass_request_headers off;
            proxy_set_header X-Office-Token $http_x_office_token;
            include @ROOM@/headers.conf;
            add_header Cache-Control no-store always;
        }
        location @away { internal; default_type application/json; include @ROOM@/headers.conf; return 502 '{"front":"away"}'; }
    }
}
"""
POLICY = (
    "default-src 'none'; script-src 'self'; style-src 'self'; img-src 'self'; connect-src 'self'; form-action 'none'; "
    "frame-ancestors 'none'; base-uri 'none'; require-trusted-types-for 'script'"
)
FIELDS = {
    "Content-Security-Policy": POLICY,
    "X-Content-Type-Options": "nosniff",
    "Referrer-Policy": "no-referrer",
    "Cross-Origin-Opener-Policy": "same-origin",
    "Cross-Origin-Resource-Policy": "same-origin",
}


def found(name: str) -> str:
    """Returns the path of a program of the distribution, or an empty text."""
    return shutil.which(name, path=SYSTEM["PATH"]) or ""


def until(holds: Callable[[], object], what: str) -> None:
    end = time.monotonic() + SECONDS
    while not holds():
        if time.monotonic() > end:
            raise TimeoutError(f"{what} does not come within {SECONDS} seconds")
        time.sleep(0.01)


class Office:
    """The program serving at one port, where it can be started again over what it kept."""

    def __init__(self, program: str, room: str, bundle: bytes) -> None:
        self.words, self.room, self.port = [program, "serve", "100000", "4"], room, free_port()
        os.makedirs(room, mode=0o700, exist_ok=True)
        self.store = f"{room}/season.db"
        self.start("new", bundle)

    def start(self, start: str = "kept", bundle: bytes = b"") -> None:
        with open(f"{self.room}/office.log", "ab") as log:
            self.child = subprocess.Popen([*self.words, start, str(self.port), self.store], stdin=subprocess.PIPE, stdout=log, stderr=log)
        assert self.child.stdin
        self.child.stdin.write(bundle)
        self.child.stdin.close()
        until(lambda: listeners(self.port) or self.child.poll() is not None, "the port of the office")
        if self.child.poll() is not None:
            raise RuntimeError(f"the office exits with status {self.child.returncode}")

    def stop(self) -> None:
        if self.child.poll() is None:
            self.child.kill()
        self.child.wait()

    def __enter__(self) -> "Office":
        return self

    def __exit__(self, *_: object) -> None:
        self.stop()


def certificate(room: str) -> str:
    """Makes a certificate for the name of the checks."""
    words = ["openssl", "req", "-x509", "-newkey", "ec", "-pkeyopt", "ec_paramgen_curve:P-256", "-nodes", "-days", "2", "-subj", f"/CN={HOST}"]
    words += ["-addext", f"subjectAltName=DNS:{HOST}", "-keyout", f"{room}/key.pem", "-out", f"{room}/cert.pem"]
    subprocess.run(words, stdout=subprocess.DEVNULL, stderr=subprocess.DEVNULL, check=True)
    return f"{room}/cert.pem"


class Front:
    """nginx in front of the office at a port, with the pages of web/. `origin` is where the pages are."""

    def __init__(self, room: str, office_port: int) -> None:
        self.room, self.port = room, free_port()
        self.deployed = os.access(f"{DEPLOY}/fill", os.X_OK)
        self.certificate: Optional[str] = None
        self.host: Optional[str] = None
        for name in ("temp", "season", "logs"):
            os.makedirs(f"{room}/{name}", exist_ok=True)
        subprocess.run([f"{TOP}/web/build", f"{room}/web"], stdout=subprocess.DEVNULL, check=True)
        shutil.copytree(f"{TOP}/web", f"{room}/web/modules")
        self.season = f"{room}/season"
        if self.deployed:
            self.configure_deployed(office_port)
        else:
            self.configure(office_port)
        with open(f"{room}/logs/nginx.txt", "wb") as log:
            self.child = subprocess.Popen([found("nginx"), "-e", f"{room}/logs/early.log", "-c", f"{room}/nginx.conf"], stdout=log, stderr=log)
        until(lambda: listeners(self.port) or self.child.poll() is not None, "the port of nginx")
        if self.child.poll() is not None:
            raise RuntimeError(f"nginx does not start: {self.logs()[-400:]}")

    def configure(self, office_port: int) -> None:
        self.origin = f"http://127.0.0.1:{self.port}"
        values = {"ROOM": self.room, "WEB": f"{self.room}/web", "PORT": str(self.port), "OFFICE": str(office_port)}
        text = CONFIGURATION
        for name, value in values.items():
            text = text.replace(f"@{name}@", value)
        with open(f"{self.room}/nginx.conf", "w", encoding="utf-8") as it:
            it.write(text)
        with open(f"{self.room}/headers.conf", "w", encoding="utf-8") as it:
            it.writelines(f'add_header {name} "{value}" always;\n' for name, value in FIELDS.items())

    def configure_deployed(self, office_port: int) -> None:
        self.host, self.certificate = HOST, certificate(self.room)
        self.origin = f"https://{HOST}:{self.port}"
        values = {
            "HOST": HOST,
            "ORIGIN": self.origin,
            "TLS": f"127.0.0.1:{self.port}",
            "PLAIN": f"127.0.0.1:{free_port()}",
            "UPSTREAM": f"127.0.0.1:{office_port}",
            "CERT": self.certificate,
            "KEY": f"{self.room}/key.pem",
            "CLERKS": "127.0.0.1",
            "WEB": f"{self.room}/web",
            "PAPERS": self.season,
            "LOG": f"{self.room}/logs",
            "HSTS": "0",
        }
        subprocess.run([f"{DEPLOY}/fill", f"{self.room}/conf", *(f"{name}={value}" for name, value in values.items())], check=True)
        with open(f"{DEPLOY}/alone.conf", encoding="utf-8") as it, open(f"{self.room}/nginx.conf", "w", encoding="utf-8") as to:
            to.write(it.read().replace("@ROOM@", self.room))

    def paper(self, name: str, text: str) -> None:
        """Puts a published paper where the pages look for it."""
        with open(f"{self.season}/{name}", "w", encoding="utf-8") as it:
            it.write(text)

    def logs(self) -> str:
        """Returns all that nginx wrote."""
        text = ""
        for folder, _, names in os.walk(self.room):
            for name in names:
                if name.endswith((".log", ".txt")) and not folder.startswith((self.season, f"{self.room}/web")):
                    with open(f"{folder}/{name}", encoding="utf-8", errors="replace") as it:
                        text += it.read()
        return text

    def __enter__(self) -> "Front":
        return self

    def __exit__(self, *_: object) -> None:
        self.child.terminate()
        self.child.wait()
