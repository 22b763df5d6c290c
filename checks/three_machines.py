"""Three machines on one: network and process namespaces behind a bridge, each with a disk of its own, GlusterFS and nginx. checks/replicated runs an office on them."""
import contextlib
import fcntl
import os
import re
import signal
import struct
import subprocess
from typing import Any, Optional, Sequence

from front import DEPLOY, HOST, SYSTEM, text_of, until

# the machines are NETWORK.0.1 to .3, and each client has an address NETWORK.1.x of its own
NETWORK, VOLUME, PORT = "10.99", "nachodune", 8080
REPLICATED = f"{DEPLOY}/replicated"
PROXYD = "/lib/systemd/systemd-socket-proxyd"
# what a lost power does to a mounted file system: nothing that is not on the disk gets there any more
SHUTDOWN, WITHOUT_FLUSH = 0x8004587D, 2
# the office as its unit starts it: it waits for its turn, and begins again two seconds after an end
OFFICE_LOOP = """while :; do
  {lib}/wait-turn {store}/season.db
  {program} serve 100000 64 kept {port} {store}/season.db < /dev/null &
  echo $! > {room}/office.pid
  wait $!
  echo "ended with $?"
  sleep 2
done"""


def own_network(words: list[str]) -> None:
    """Starts this program again in network and mount namespaces of its own, unless it is there already."""
    if os.environ.get("OWN_NETWORK") == "yes":
        return
    os.execvpe("unshare", ["unshare", "--net", "--mount", "--propagation", "private", *words], {**SYSTEM, "OWN_NETWORK": "yes"})


def said(words: list[str], given: bytes = b"", seconds: float = 120) -> str:
    """Returns what a command writes; raises if it fails."""
    ran = subprocess.run(words, input=given, stdout=subprocess.PIPE, stderr=subprocess.STDOUT, timeout=seconds, env=SYSTEM)
    wrote = ran.stdout.decode(errors="replace")
    if ran.returncode:
        raise OSError(f"{' '.join(words)[-160:]}: status {ran.returncode}: {wrote[-400:]}")
    return wrote


class Machine:
    """A machine with an address, a disk, and processes of its own, which end together."""

    def __init__(self, number: int, room: str, megabytes: int):
        self.number, self.address, self.room = number, f"{NETWORK}.0.{number}", f"{room}/machine{number}"
        self.outer: Optional[subprocess.Popen[bytes]] = None
        self.init: Optional[int] = None
        self.children: list[subprocess.Popen[Any]] = []
        for it in ("glusterd", "logs", "disk", "store", "front", "ssl"):
            os.makedirs(f"{self.room}/{it}")
        said(["truncate", "-s", f"{megabytes}M", f"{self.room}/image"])
        said(["mkfs.ext4", "-q", "-I", "512", f"{self.room}/image"])
        said(["mount", "-o", "loop", f"{self.room}/image", f"{self.room}/disk"])
        os.makedirs(f"{self.room}/disk/brick")

    # ---- its life

    def start(self, others: "Sequence[Machine]" = ()) -> "Machine":
        """Gives the machine its namespaces, its network and its GlusterFS; it does not see the disks of the others."""
        ready = f"{self.room}/ready"
        begin = [
            "mount --make-rprivate /",
            *(f"umount {it.room}/disk" for it in others if it is not self),
            f"mount --bind {self.room}/glusterd /var/lib/glusterd",
            f"mount --bind {self.room}/logs /var/log/glusterfs",
            f"mount --bind {self.room}/ssl /usr/lib/ssl",
            f"hostname machine{self.number}",
            "mount -t tmpfs none /run",
            "mkdir /run/gluster",
            f"touch {ready}",
            # as the first process of the machine it takes the ends of all others
            "while :; do sleep 1000 & wait; done",
        ]
        if os.path.exists(ready):
            os.remove(ready)
        words = ["setpriv", "--pdeathsig", "KILL", "unshare", "--net", "--mount", "--pid", "--ipc", "--uts", "--fork", "--mount-proc", "--kill-child", "sh", "-c", " && ".join(begin)]
        outer = self.outer = subprocess.Popen(words, env=SYSTEM, stderr=subprocess.DEVNULL)
        until(lambda: os.path.exists(ready) or outer.poll() is not None, f"machine {self.number}")
        with open(f"/proc/{outer.pid}/task/{outer.pid}/children", encoding="ascii") as children:
            self.init = int(children.read().split()[0])
        said(["ip", "link", "add", f"v{self.number}", "type", "veth", "peer", "name", "eth0", "netns", str(self.init)])
        said(["ip", "link", "set", f"v{self.number}", "master", "br0", "up"])
        for link in (["addr", "add", f"{self.address}/16", "dev", "eth0"], ["link", "set", "eth0", "up"], ["link", "set", "lo", "up"]):
            self.said("ip", *link)
        self.said("glusterd", "--log-level", "WARNING")
        return self

    def words(self, *words: str) -> list[str]:
        """Returns a command that runs these words on the machine."""
        return ["nsenter", "-n", "-m", "-p", "-i", "-u", "-t", str(self.init), *words]

    def said(self, *words: str, **how: Any) -> str:
        return said(self.words(*words), **how)

    def popen(self, *words: str, **how: Any) -> subprocess.Popen[Any]:
        child: subprocess.Popen[Any] = subprocess.Popen(self.words(*words), env=SYSTEM, **how)
        self.children.append(child)
        return child

    def is_cut_off(self, cut: bool) -> None:
        """Takes the machine's link down, or up again; nothing on the machine notices but by silence."""
        said(["ip", "link", "set", f"v{self.number}", "down" if cut else "up"])

    def die(self) -> None:
        """Ends the machine's link and then all its processes at once."""
        if self.init:
            self.is_cut_off(True)
            os.kill(self.init, signal.SIGKILL)
            # nsenter stops with a program that is stopped, and stays so: then the machine would not end, because it waits for that program
            for it in self.children:
                it.kill()
                it.wait()
            assert self.outer
            self.outer.wait()
            # the link goes with the machine, but not at once
            subprocess.run(["ip", "link", "del", f"v{self.number}"], stderr=subprocess.DEVNULL, check=False)
            self.init, self.children = None, []

    def lose_power(self) -> None:
        """Stops the disk where it is: what was not synced never gets there."""
        it = os.open(f"{self.room}/disk", os.O_RDONLY)
        try:
            fcntl.ioctl(it, SHUTDOWN, struct.pack("I", WITHOUT_FLUSH))
        finally:
            os.close(it)

    def has_power(self) -> None:
        """Mounts the disk again as a start after a power cut does."""
        until(lambda: subprocess.run(["umount", f"{self.room}/disk"], stderr=subprocess.DEVNULL).returncode == 0, "the disk to be free")
        said(["mount", "-o", "loop", f"{self.room}/image", f"{self.room}/disk"])

    # ---- its volume, its office and its front

    @property
    def store(self) -> str:
        return f"{self.room}/store"

    def mount(self) -> None:
        """Mounts the volume with the options of the unit."""
        with open(f"{REPLICATED}/var-lib-nachodune.mount", encoding="utf-8") as unit:
            options = next(line.partition("=")[2].strip() for line in unit if line.startswith("Options="))
        options = ",".join(it for it in options.split(",") if it != "_netdev")
        self.said("mount", "-t", "glusterfs", "-o", options, f"localhost:/{VOLUME}", self.store)

    def keep_office(self, program: str, lib: str) -> None:
        """Starts the office whenever nobody else has the store, and what ends it when the volume takes no write."""
        script = OFFICE_LOOP.format(lib=lib, store=self.store, program=program, port=PORT, room=self.room)
        with open(f"{self.room}/office.log", "ab") as log:
            self.popen("sh", "-c", script, stdout=log, stderr=log)
            self.popen(f"{lib}/alive", self.store, "sh", "-c", f"kill -9 $(cat {self.room}/office.pid)", stdout=log, stderr=log)

    def is_serving(self) -> bool:
        """Returns whether this machine's office listens."""
        if not self.init:
            return False
        with contextlib.suppress(OSError), open(f"/proc/{self.init}/net/tcp", encoding="ascii") as it:
            return any(f":{PORT:04X} " in line and " 0A " in line for line in it)
        return False

    def front(self, other: "Machine", room: str) -> None:
        """Starts nginx with the files of deploy/ and of deploy/replicated/."""
        conf = f"{self.room}/front"
        said([f"{REPLICATED}/install", f"OWN={self.address}", f"OTHER={other.address}", f"OTHERNAME=machine{other.number}", f"DOOR=unix:{conf}/door.sock",
              f"EITHER={conf}/either.sock", f"TO={conf}/to"])
        either = f"{conf}/to/etc/nginx/nachodune-either"
        for name in os.listdir(either):
            said(["sed", "-i", f"s|/etc/nginx/nachodune-either|{either}|", f"{either}/{name}"])
        values = {"HOST": HOST, "TLS": f"{self.address}:443", "PLAIN": f"{self.address}:80", "UPSTREAM": f"unix:{conf}/either.sock", "CERT": f"{room}/cert.pem",
                  "KEY": f"{room}/key.pem", "CLERKS": f"{NETWORK}.0.254", "WEB": f"{room}/web", "PAPERS": f"{conf}/season", "CACHE": f"{conf}/temp/texts", "LOG": conf}
        for folder in ("season", "temp", "logs"):
            os.makedirs(f"{conf}/{folder}", exist_ok=True)
        said([f"{DEPLOY}/fill", f"{conf}/conf", *(f"{name}={value}" for name, value in values.items())])
        with open(f"{DEPLOY}/alone.conf", encoding="utf-8") as it, open(f"{conf}/nginx.conf", "w", encoding="utf-8") as to:
            text = it.read().replace("@ROOM@", conf)
            to.write(text.replace(f"include {conf}/conf/nachodune.conf;", f"include {conf}/conf/nachodune.conf; include {either}/either.conf;"))
        self.start_front()

    def start_door(self) -> None:
        """Starts the door of the units in front of this machine's office: more requests may wait than the office's port keeps."""
        sock, unit = f"{self.room}/front/door.sock", text_of(f"{DEPLOY}/nachodune-door.service")
        files, most = re.search(r"^LimitNOFILE=(\d+)", unit, re.M), re.search(r"--connections-max=\d+", unit)
        assert files and most, "the unit of the door has no limits"
        with contextlib.suppress(FileNotFoundError):
            os.remove(sock)
        self.popen("prlimit", f"--nofile={files[1]}", "systemd-socket-activate", "-l", sock, PROXYD, most[0], f"127.0.0.1:{PORT}", stderr=subprocess.DEVNULL)
        until(lambda: os.path.exists(sock), "the door")
        os.chmod(sock, 0o666)

    def put_off(self) -> int:
        """Returns how many connections this machine's kernel put off, because those that wait at a port were too many."""
        with open(f"/proc/{self.init}/net/netstat", encoding="ascii") as it:
            names, numbers = [line.split() for line in it.readlines()[:2]]
        return int(numbers[names.index("ListenOverflows")])

    def start_front(self) -> None:
        conf = f"{self.room}/front"
        self.start_door()
        if os.path.exists(f"{conf}/either.sock"):
            os.remove(f"{conf}/either.sock")
        with open(f"{conf}/nginx.txt", "ab") as log:
            child = self.popen("nginx", "-e", f"{conf}/early.log", "-c", f"{conf}/nginx.conf", stdout=log, stderr=log)
        until(lambda: os.path.exists(f"{conf}/either.sock") or child.poll() is not None, "nginx")
        if child.poll() is not None:
            raise OSError(f"nginx of machine {self.number} does not start: {text_of(f'{conf}/nginx.txt')[-300:]} {text_of(f'{conf}/early.log')[-300:]}")


class Machines:
    """Three machines with a volume, behind a bridge with the clients."""

    def __init__(self, room: str, megabytes: int = 400):
        for words in (["link", "set", "lo", "up"], ["link", "add", "br0", "type", "bridge"], ["addr", "add", f"{NETWORK}.0.254/16", "dev", "br0"], ["link", "set", "br0", "up"]):
            said(["ip", *words])
        self.all = [Machine(number, room, megabytes) for number in (1, 2, 3)]
        self.room = room
        certificates(room, self.all)
        for it in self.all:
            it.start(self.all)
        first, *others = self.all
        for it in others:
            until(lambda: subprocess.run(first.words("gluster", "peer", "probe", it.address), capture_output=True).returncode == 0, "glusterd of a machine")
        until(lambda: first.said("gluster", "pool", "list").count("Connected") == 3, "three machines that know each other")

    def make_volume(self, *words: str) -> str:
        """Makes the volume by the script."""
        return self.all[0].said(f"{REPLICATED}/volume", "make", VOLUME, *(f"{it.address}:{it.room}/disk/brick" for it in self.all), *words, seconds=300)

    def back(self, machine: Machine) -> None:
        """Starts a machine again that had died; its brick comes back, and its volume is mounted."""
        machine.start(self.all)
        until(lambda: subprocess.run(machine.words("gluster", "volume", "status", VOLUME), capture_output=True).returncode == 0, "glusterd")
        until(self.are_bricks_there, "three bricks", 60)

    def are_bricks_there(self) -> bool:
        told = subprocess.run(self.all[0].words("gluster", "volume", "status", VOLUME, "detail"), capture_output=True, text=True).stdout
        return told.count("Online               : Y") == 3

    def are_healed(self) -> bool:
        told = subprocess.run(self.all[0].words("gluster", "volume", "heal", VOLUME, "info"), capture_output=True, text=True).stdout
        return told.count("Number of entries: 0") == 3

    def sums(self, name: str = "season.db") -> list[str]:
        """Returns the checksums of the store and its log on each brick."""
        found = []
        for it in self.all:
            files = [f"{it.room}/disk/brick/{name}{end}" for end in ("", "-wal")]
            found.append(it.said("sh", "-c", f"for it in {' '.join(files)}; do [ -e $it ] && md5sum < $it; done; true"))
        return found

    def end(self) -> None:
        """Ends all machines, and frees their disks."""
        for it in self.all:
            with contextlib.suppress(OSError, subprocess.SubprocessError):
                it.die()
        for it in self.all:
            subprocess.run(["umount", "-l", f"{it.room}/disk"], stderr=subprocess.DEVNULL, check=False)


def certificates(room: str, machines: list[Machine]) -> None:
    """Makes an authority and a certificate for each machine, where GlusterFS looks for them."""
    said(["openssl", "req", "-x509", "-newkey", "ec", "-pkeyopt", "ec_paramgen_curve:P-256", "-nodes", "-days", "2", "-subj", "/CN=machines", "-keyout", f"{room}/ca.key", "-out", f"{room}/ca.pem"])
    for it in machines:
        own = f"{it.room}/ssl"
        said(["cp", "-a", "/usr/lib/ssl/.", own])
        said(["openssl", "req", "-newkey", "ec", "-pkeyopt", "ec_paramgen_curve:P-256", "-nodes", "-subj", f"/CN=machine{it.number}", "-keyout", f"{own}/glusterfs.key", "-out", f"{own}/request"])
        said(["openssl", "x509", "-req", "-in", f"{own}/request", "-CA", f"{room}/ca.pem", "-CAkey", f"{room}/ca.key", "-CAcreateserial", "-days", "2", "-out", f"{own}/glusterfs.pem"])
        said(["cp", f"{room}/ca.pem", f"{own}/glusterfs.ca"])
        said(["touch", f"{it.room}/glusterd/secure-access"])
