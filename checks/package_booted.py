"""The package under a running systemd in a container: another version takes its place while a season is open, the older one comes back, and the package is purged."""
import os
import shutil
from typing import Callable

from deployed import bundle_of
from deployed_files import TRIAL_UNIT, seen_in, strong
from front import certificate, found, text_of

# what the clean system lacks for the service
PACKAGES = "systemd systemd-sysv nginx-light openssl curl"
# What runs in the container: each line of its output is a name and what was seen. The tokens are those of deployed_files.strong.
TRIAL = r"""
say() { echo "$1=$2" >> /trial.out; }
ask() { curl -s -m 20 --cacert /etc/ssl/office.pem --resolve office.example:443:127.0.0.1 "$@"; }
closes() { ask -H 'X-Office-Token: Qm4xTz81vKpL' -d '{"window":0}' https://office.example/v1/cut; }
kept() { ask -H "X-Office-Token: $2" "https://office.example/v1/answers/$1"; }
answer() { ask -H "X-Office-Token: $2" -d "{\"cand\":$1,\"window\":1,\"turn\":1,\"choice\":\"$3\"}" https://office.example/v1/answer; }
each() { "$1" 1 aB3dE5fG7hJ9 freeze; echo; "$1" 2 kL2mN4pQ6rS8 float; echo; "$1" 3 tU1vW3xY5zA7 slide; echo; "$1" 4 bC8dF6gH4jK2 withdraw; echo; }
up() { n=0; until ask -f -o /dev/null https://office.example/v1/state || [ $n -ge 300 ]; do n=$((n + 1)); sleep 0.1; done; }
# what the office has of the answers comes first: it would take one that was lost anew, with the same receipt
all() { each kept; each answer; closes; }
same() { all > /now; cmp -s /before /now && echo same || echo other; }
runs() { case $(nachodune --version) in *": this program"*) echo this ;; *": another version, which answers until it is started again"*) echo another ;; *) echo none ;; esac; }
number() { nachodune --version | sed -n 's/^nachodune //p'; }
put() { dpkg -i "/srv/$1.deb" > /put.out 2>&1; echo "$?"; }
tried() { grep -c '^the new program reads the season and gives the rounds that are published: state window 1' /put.out; }
units="nachodune nachodune-door.socket nachodune-papers nachodune-copy.path nachodune-copy.timer nachodune-night.timer nachodune-watch.timer nachodune-logs.timer"
store=/var/lib/nachodune/season.db
say installed "$(put nachodune)"
umask 077; rm /etc/nginx/sites-enabled/default
/usr/lib/nachodune/deploy/site HOST=office.example CERT=/etc/ssl/office.pem KEY=/etc/ssl/office.key CLERKS=127.0.0.1 SECOND=/second CA=/etc/ssl/office.pem > /site.out 2>&1
say site "$?"
umask 022
runuser -u nachodune -- /usr/lib/nachodune/begin $store < /bundle.txt; say begun "$?"
# shellcheck disable=SC2086
systemctl enable --now $units > /enabled.out 2>&1; say enabled "$?"
systemctl restart nginx; up
say closed "$(closes)"
n=0; until [ -s /var/lib/nachodune-papers/round-1.txt ] || [ $n -ge 150 ]; do n=$((n + 1)); sleep 0.2; done
# no copy but the one that the package makes has these answers
systemctl stop nachodune-copy.path nachodune-copy.timer; sleep 1
each answer > /dev/null; all > /before
say receipts "$(grep -c '"reply":"noted"' /before) $(grep -c '"answers":\[{' /before)"
say first "$(number) $(runs)"
main=$(systemctl show -p MainPID --value nachodune)
say newer "$(put newer) $(tried) $(grep -c 'systemctl restart nachodune' /put.out) $(grep -c '^nachodune: .*To go back: dpkg -i nachodune_' /put.out)"
say answers "$(number) $(runs) $(same) $([ "$main" = "$(systemctl show -p MainPID --value nachodune)" ] && echo 'not restarted')"
copy=$(sed -n 's/^the season is copied: //p' /put.out)
mkdir /look; cp "$copy" "$copy-wal" /look/
printf 'answers,clerk,%s\n' 1 2 3 4 | nachodune resume /look/season.db > /look/out 2> /dev/null
say copied "$(grep -cE '(freeze|float|slide|withdraw)' /look/out)"
systemctl start nachodune-night.service; sleep 1
say night "$(runs) $(same)"
systemctl restart nachodune; up
say started "$(runs) $(same)"
say wrong "$(put wrong) $(grep -c 'DO NOT start the office' /put.out) $(grep -c 'put the package of before back: dpkg -i nachodune_99.0.0' /put.out)"
say stays "$(runs) $(same)"
say back "$(put newer) $(tried) $(number) $(runs) $(same)"
say older "$(put nachodune) $(tried) $(runs) $(same)"
systemctl restart nachodune; up
say returned "$(number) $(runs) $(same)"
/usr/lib/nachodune/deploy/site --again > /site.out 2>&1; say again "$?"
systemctl reload nginx; sleep 1; say reloaded "$(same)"
say look "$(ls -d /var/lib/nachodune/look.* 2> /dev/null | wc -l)"
# the season as it is before the purge, and the program that reads it afterwards
cp /usr/lib/nachodune/office /program; systemctl stop nachodune nachodune-papers; sha256sum $store* > /sums
dpkg --purge nachodune > /purge.out 2>&1
say purged "$? $(find / -xdev \( -path /proc -o -path /sys -o -path /srv -o -path /tmp -o -path /run \) -prune -o -iname '*nachodune*' -print | tr '\n' ' ')"
say rest "$(find /run -iname '*nachodune*' -not -path '/run/systemd/*' | tr '\n' ' ')$(systemctl list-units --no-legend --plain 'nachodune*' | cut -d ' ' -f 1 | tr '\n' ' ')$(getent passwd nachodune)"
say within "$(ls /var/lib/nachodune | tr '\n' ' ')$(stat -c '%U %a' /var/lib/nachodune $store | tr '\n' ' ')"
say store "$(sha256sum -c --quiet /sums > /dev/null 2>&1; echo $?) $(echo state,nobody | /program resume $store)"
nginx -t > /nginx.out 2>&1; say nginx "$?"
say tokens "$(journalctl --no-pager | cat - /var/log/nginx/* /put.out /site.out | grep -c -e Qm4xTz81vKpL -e kL2mN4pQ6rS8)"
say end 0
"""
SEEN = {
    "installed": "0",
    "site": "0",
    "begun": "0",
    "enabled": "0",
    "closed": '{"reply":"published","round":1,"seated":4}',
    "receipts": "4 4",
    "first": "OLD this",
    "newer": "0 1 1 1",
    "answers": "99.0.0~unproved another same not restarted",
    "copied": "4",
    "night": "another same",
    "started": "this same",
    "wrong": "1 1 1",
    "stays": "another same",
    "back": "0 1 99.0.0~unproved this same",
    "older": "0 1 another same",
    "returned": "OLD this same",
    "again": "0",
    "reloaded": "same",
    "look": "0",
    "purged": "0 /var/lib/nachodune ",
    "rest": "",
    "within": "copies season.db season.db-wal root 700 root 600 ",
    "store": "0 state window 1 rounds 2 published 1",
    "nginx": "0",
    "tokens": "0",
    "end": "0",
}


def lacking(root: str, called: Callable[[str, str], tuple[str, str, int]]) -> str:
    """Installs in the clean system what the service needs, starting nothing; returns what cannot be had, or nothing."""
    if not found("systemd-nspawn"):
        return "systemd-nspawn"
    with open(f"{root}/usr/sbin/policy-rc.d", "w", encoding="ascii") as it:
        it.write("#!/bin/sh\nexit 101\n")
    os.chmod(f"{root}/usr/sbin/policy-rc.d", 0o755)
    status = called(root, f"apt-get install -y --no-install-recommends {PACKAGES}")[2]
    os.remove(f"{root}/usr/sbin/policy-rc.d")
    return f"the packages {PACKAGES}" if status else ""


def put_trial(room: str, root: str) -> None:
    """Puts into the clean system what its trial needs."""
    shutil.rmtree(f"{root}/var/lib/nachodune", ignore_errors=True)
    shutil.rmtree(f"{root}/var/lib/nachodune-choices", ignore_errors=True)
    os.makedirs(f"{root}/second")
    shutil.copy(certificate(room), f"{root}/etc/ssl/office.pem")
    shutil.copy(f"{room}/key.pem", f"{root}/etc/ssl/office.key")
    for name, text in (("trial", TRIAL), ("bundle.txt", strong(bundle_of())[0].decode()), ("etc/machine-id", ""), ("etc/systemd/system/trial.service", TRIAL_UNIT)):
        with open(f"{root}/{name}", "w", encoding="utf-8") as it:
            it.write(text)


def plays(room: str, root: str, version: str, called: Callable[[str, str], tuple[str, str, int]], holds: Callable[[object, str, object], None]) -> None:
    """Boots the clean system, with packages of three versions in /srv, and holds what its trial saw."""
    lacks = lacking(root, called)
    if not lacks:
        put_trial(room, root)
        seen = seen_in(room, root, overlay=())
        lacks = "" if seen else f"a container that boots ({text_of(f'{room}/boot.log').strip()[-200:]})"
    if lacks:
        print(f"SKIPPED the package under a running systemd: it needs {lacks}", flush=True)
        return
    for name, text in SEEN.items():
        came, wanted = seen.get(name), text.replace("OLD", version)
        holds(came == wanted, f"the package under systemd: {name}", f"{came!r} and not {wanted!r}; {text_of(f'{root}/put.out')[-300:]}")
