"""The lists of choices as deploy/choices/install puts them on a machine, under a running systemd in a container."""
import hashlib
import os
import re
import tempfile

from deployed import Tally
from deployed_files import made_root, seen_in
from front import found, text_of

# What runs in the container: each line of its output is a name and what was seen. The tokens are those of deployed_files.strong.
TRIAL = r"""
say() { echo "$1=$2" >> /trial.out; }
ask() { curl -sk -m 20 --resolve office.example:443:127.0.0.1 "$@"; }
status() { ask -o /dev/null -w '%{http_code}' "$@"; }
comes() { n=0; until [ "$(eval "$2")" = "$1" ] || [ $n -ge "${3:-150}" ]; do n=$((n + 1)); sleep 0.2; done; eval "$2"; }
site=https://office.example/choices home=/var/lib/nachodune-choices unit=nachodune-choices
kept=$home/choices.db lib=/usr/lib/nachodune/choices
up() { comes 200 'status $site/'; }
as() { setpriv --reuid=nachodune-choices --regid=nachodune-choices --clear-groups "$@"; }
enter() { ask -c "/jar-$1" -d "number=$1&token=$2" $site/enter | sed -n 's/^signed in; form //p'; }
save() { ask -b "/jar-$1" -d "form=$2&list=$3&do=save" $site/list | cut -d ' ' -f 1,2,3,5; }
now() { as $lib/choices state $kept | tr '\n' ' '; }
umask 077; mkdir -p /etc/nachodune; printf '#!/bin/sh\necho "$1: $2" >> /var/lib/nachodune-alert/alerted\n' > /etc/nachodune/alert; chmod 755 /etc/nachodune/alert
/top/deploy/choices/install > /early.out 2>&1; say early "$? $(grep -c 'call deploy/install first' /early.out) $(ls /etc/nginx/nachodune 2> /dev/null | wc -l)"
office() { /top/deploy/install PROGRAM=/program HOST=office.example CERT=/etc/office.pem KEY=/etc/office.key CLERKS=127.0.0.1 CA=/etc/office.pem; }
office > /install.out 2>&1; say installed $?
systemctl daemon-reload; systemctl start nginx
say none "$(status $site/)"
/top/deploy/choices/install > /choices.out 2>&1; say put "$? $(tail -n 1 /choices.out)"
cat /choices.out; umask 022
systemctl reload nginx
say away "$(comes 502 'status $site/')"
systemctl start $unit; say storeless "$(systemctl is-active $unit)"
as $lib/choices begin $kept < /bundle.txt > /begun.out 2>&1; say begun "$? $(cat /begun.out)"
systemctl enable --now $unit 2> /dev/null
say pages "$(up) $(status $site/hi/) $(systemctl is-enabled $unit)"
say modes "$(stat -c '%U:%G:%a' $home $kept /run/$unit /run/$unit/choices.sock | tr '\n' ' ')"
setpriv --reuid=12345 --regid=12345 --clear-groups curl -s -m 5 --unix-socket /run/$unit/choices.sock http://x/choices/ > /dev/null; say other $?
setpriv --reuid=nachodune --regid=nachodune --clear-groups cat $kept > /dev/null 2>&1; say office $?
say sandbox "$(grep -hE 'CapEff|NoNewPrivs|Seccomp:' /proc/$(systemctl show -p MainPID --value $unit)/status | tr -d '\t' | tr '\n' ' ')"
say exposure "$(systemd-analyze security --no-pager $unit | sed -n 's/.*Overall exposure level for [^:]*: \([0-9]*\.[0-9]\).*/\1/p')"
first=$(enter 1 aB3dE5fG7hJ9); second=$(enter 2 kL2mN4pQ6rS8)
say wrong "$(status -d 'number=1&token=kL2mN4pQ6rS8' $site/enter)"
say saved "$(save 1 "$first" 'C A')"
say digest "$(printf 1,C,A | sha256sum | cut -c1-16)"
say same "$(save 1 "$first" 'C A')"
say others "$(save 2 "$second" B)"
systemctl kill -s KILL $unit; up > /dev/null
say killed "$(now)"
say visit "$(save 2 "$second" 'B E')"
systemctl restart $unit; up > /dev/null
say restarted "$(save 1 "$first" 'E A')"
as $lib/choices announce $kept 2090-06-20T17:00+05:30 > /dev/null; say announced "$? $(ask -b /jar-1 $site/ | grep -c '20-06-2090 17:00 IST')"
as $lib/choices write $kept $home/mock; say written "$? $(tr '\n' ' ' < $home/mock/choices.csv)"
as $lib/choices copy $kept $home/copy.db > /dev/null; say copied "$? $(as $lib/choices state $home/copy.db | tail -n 1)"
# nginx's files are written anew by the office's own scripts
/top/deploy/site --again > /again.out 2>&1; say again $?
systemctl reload nginx; sleep 0.5; say stays "$(up) $(status https://office.example/candidate/)"
office > /install.out 2>&1; say anew $?
systemctl reload nginx; sleep 0.5; say remains "$(up)"
/top/deploy/choices/install GROUP=nogroup > /dev/null 2>&1; systemctl restart $unit; comes nogroup 'stat -c %G /run/$unit/choices.sock' > /dev/null
say group "$(stat -c %G /run/$unit/choices.sock)"
/top/deploy/choices/install > /dev/null 2>&1; systemctl restart $unit; say back "$(up) $(stat -c %G /run/$unit/choices.sock)"
as $lib/choices close $kept $home/lists > /closed.out; say closed "$? $(tr '\n' ' ' < $home/lists/choices.csv)"
say receipts "$(cut -d , -f 1,2,4,5,6 $home/lists/receipts.csv | tail -n 4 | tr '\n' ' ')"
say late "$(status -b /jar-1 -d "form=$first&list=A&do=save" $site/list)"
# a store that is none: it stays down, and a person is called
systemctl stop $unit; mkdir /aside; mv $kept* /aside; echo no store > $kept; chown nachodune-choices $kept; systemctl start $unit
say wrongstore "$(comes 'failed 3' 'echo "$(systemctl is-active $unit) $(systemctl show -p ExecMainStatus --value $unit)"') $(comes 1 'grep -c "^nachodune-choices: " /var/lib/nachodune-alert/alerted')"
rm -f $kept*; mv /aside/* $home; systemctl reset-failed $unit; systemctl start $unit
say mended "$(up) $(now)"
say logs "$(journalctl --no-pager | cat - /var/log/nginx/* /var/log/nachodune/* | grep -c -e aB3dE5fG7hJ9 -e kL2mN4pQ6rS8 -e "$first" -e "$second")"
say end 0
"""
KEPT = "candidates 5 lists 5 empty 0 locked 0 receipts {} reports 0 {} "
# the lists that are saved in the container, by the name of what was seen: the candidate and the codes; their receipts follow those of the bundle's five lists
SAVED = (("saved", 1, "C A"), ("others", 2, "B"), ("visit", 2, "B E"), ("restarted", 1, "E A"))
SEEN = {
    "early": "1 1 0",
    "installed": "0",
    "none": "404",
    "put": "0     systemctl enable --now nachodune-choices && systemctl reload nginx",
    "away": "502",
    "storeless": "inactive",
    "begun": "0 begun in /var/lib/nachodune-choices/choices.db: 5 candidates, 4 programmes, 5 lists of the bundle",
    "pages": "200 200 enabled",
    "modes": "nachodune-choices:www-data:700 nachodune-choices:nachodune-choices:600 nachodune-choices:www-data:750 nachodune-choices:www-data:660 ",
    "other": "7",
    "office": "1",
    "sandbox": "CapEff:0000000000000000 NoNewPrivs:1 Seccomp:2 ",
    "wrong": "403",
    "killed": KEPT.format(7, "open"),
    "announced": "0 1",
    "written": "0 candidate,programmes 1,E,A 2,B,E 3,B,C 4,C,E 5,E ",
    "copied": "0 open",
    "again": "0",
    "stays": "200 200",
    "anew": "0",
    "remains": "200",
    "group": "nogroup",
    "back": "200 www-data",
    "closed": "0 candidate,programmes 1,E,A 2,B,E 3,B,C 4,C,E 5,E ",
    "late": "409",
    "wrongstore": "failed 3 1",
    "logs": "0",
    "end": "0",
}
NEEDS = ("systemd-nspawn", "setpriv", "nginx", "openssl", "curl")


def booted(tally: Tally) -> None:
    """Installs the lists of choices in a container in which systemd runs, kills the service there, and lets the clerk close."""
    lacking = [*(it for it in NEEDS if not found(it)), *(["root"] if os.geteuid() else [])]
    if lacking:
        tally.skips("booted", ", ".join(lacking))
        return
    with tempfile.TemporaryDirectory(prefix="choices-") as room:
        os.chmod(room, 0o755)
        # the office itself does not run here, so any program is enough
        root = made_root(room, "/bin/true", TRIAL)
        seen, log = seen_in(room, root, 300), text_of(f"{root}/trial.log")[-400:]
        if "early" not in seen:
            tally.skips("booted", f"a container that boots ({text_of(f'{room}/boot.log').strip()[-200:]})")
            return
        for name, wanted in SEEN.items():
            tally.holds(seen.get(name) == wanted, f"under systemd: {name}", f"{seen.get(name)} and not {wanted}; {log if name in ('put', 'begun', 'end') else ''}")
        agree(tally, seen)


def agree(tally: Tally, seen: dict[str, str]) -> None:
    """Compares the receipts of the container with the rows that they stand for, and with the clerk's file."""
    rows = []
    for receipt, (name, number, codes) in enumerate(SAVED, 6):
        digest = hashlib.sha256(",".join([str(number), *codes.split()]).encode()).hexdigest()[:16]
        tally.same(seen.get(name), f"receipt {receipt} list {digest}", f"under systemd: {name}")
        rows.append(f"{receipt},{number},list,{digest},{codes}")
    tally.same(seen.get("receipts"), "".join(f"{it} " for it in rows), "under systemd: the clerk's receipts are those that were given")
    tally.same((seen.get("digest"), seen.get("same")), (rows[0].split(",")[3], seen.get("saved")), "under systemd: the same list again has the same receipt")
    tally.holds(re.fullmatch(f"200 {KEPT.format(9, 'closed .*')}", seen.get("mended", "")), "under systemd: the store serves again", seen.get("mended", ""))
    tally.holds(float(seen.get("exposure") or 10) <= 2.5, "under systemd: systemd-analyze security", seen.get("exposure", ""))


ALL = (booted,)
