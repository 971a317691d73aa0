"""A desk's life on a clean machine, installed by the commands of docs/install.md: kills, other users, a rotation of the
log; then an upgrade, downgrades, a removal and a purge."""

from __future__ import annotations

import pathlib
import re
import time
from datetime import datetime, timedelta, timezone

import pytest
from harness.places import EXAMPLES
from harness.ports import until
from harness.rows import Rows
from howtos.commands import commands
from package.building import repacked
from package.commands import promtool
from package.conftest import Debs
from package.machine import Machine, put_in

pytestmark = [pytest.mark.alone, pytest.mark.proved, pytest.mark.root, pytest.mark.slow]

PLAN = "http://127.0.0.1:8081/flight_plans/11111111-1111-4111-8111-111111111111"
STORED = '{"flight_plan_status":"Planned","notes":"","planning_result":"Completed"}'
# A template is looked at as one of its units.
INSTANCES = {
    "uss_desk@.service": "uss_desk@8090.service",
    "uss_desk_again@.service": "uss_desk_again@uss_desk.service.service",
}
# What runs then.
RUNNING = "uss_desk.service\nuss_desk_port.service\nuss_desk_proxy.service\nuss_desk_queue.service\n"
# What stays after a purge: the users, and what logrotate keeps of its own.
LEFT = {"etc/passwd-", "etc/shadow-", "etc/group-", "etc/gshadow-", "etc/.pwd.lock", "var/lib/logrotate/status"}
# How often the desk is asked, ten times a second, until it answers.
TRIES = 600
LOGS = "/var/log/uss_desk_proxy"
# A later version's program, which has changed the tables: what it tells of a file is in /run/told.
LATER = "#!/bin/sh\ncat /run/told\n"


def printed(heading: str) -> str:
    """The first block of commands under a heading of docs/install.md."""
    return commands("install.md", heading)[0]


def is_installed(machine: Machine, version: str) -> bool:
    """Whether this version of the package is installed."""
    return machine.sh("dpkg-query -W -f '${db:Status-Status} ${Version}' uss-desk") == f"installed {version}"


def running(machine: Machine) -> str:
    """Which units of the package run."""
    return machine.sh("systemctl list-units --plain --no-legend --state=active 'uss_desk*.service' | cut -d ' ' -f 1")


def install(rows: Rows, machine: Machine, debs: Debs) -> None:
    """The first two steps: install, enrol."""
    put_in(machine, debs["uss-desk"])
    told = machine.sh(printed("1. Install"))
    rows.equal("installed", (True, False), (is_installed(machine, "2.0.0"), "status" in told))
    rows.equal("the program's version", True, machine.sh("uss_desk --version").startswith("uss_desk 2.0.0\n"))
    rows.equal("nothing of it runs", "", running(machine))
    rows.equal(
        "the desk's folder", "750 uss_desk uss_desk", machine.sh("stat -c '%a %U %G' /var/lib/uss_desk").strip()
    )
    rows.equal(
        "the passwords' file",
        "640 root uss_desk_proxy",
        machine.sh("stat -c '%a %U %G' /etc/uss_desk/operators.htpasswd").strip(),
    )
    units = sorted(path.name for path in (machine.folder / "lib/systemd/system").glob("uss_desk*"))
    names = " ".join(INSTANCES.get(name, name) for name in units)
    rows.equal(f"systemd-analyze verify {names}", "", machine.sh(f"systemd-analyze verify {names}"))
    rows.equal("enrolled", "enrolled alfa 100\n", machine.sh(printed("2. Enrol an operator")))


def listens(machine: Machine, word: str) -> str:
    """What the proxy answers once it and the desk listen."""
    told = ""
    for _ in range(TRIES):
        told = machine.curl("--user", f"alfa:{word}", "http://127.0.0.1:8081/status")
        if "Ready" in told:
            return told
        time.sleep(0.1)
    return told + machine.sh(
        "journalctl --no-pager --lines=20 --unit='uss_desk*'; cat /var/log/uss_desk_proxy/error.log"
    )


def given_word(rows: Rows, machine: Machine) -> str:
    """alfa's new password, by the third step."""
    told = machine.sh(printed("3. Give an operator a password"))
    rows.holds(f"a new password: {told}", re.fullmatch(r"[A-Za-z0-9+/]{32}\n", told))
    rows.equal(
        "the passwords' file afterwards",
        "640 root uss_desk_proxy 1",
        machine.sh("cd /etc/uss_desk && stat -c '%a %U %G' operators.htpasswd && wc -l < operators.htpasswd")
        .replace("\n", " ")
        .strip(),
    )
    return told.strip()


def serve(rows: Rows, machine: Machine) -> str:
    """The third and the fourth step: a password, the proxy; then a plan through it, and what an administrator looks at.
    The password."""
    word = given_word(rows, machine)
    rows.has("started", '{"status":"Ready"}', machine.sh(printed("4. Start it")))
    rows.equal("a request through the proxy", '{"status":"Ready"}', listens(machine, word))
    rows.equal("what runs", RUNNING, running(machine))
    said = machine.sh("journalctl --sync && journalctl --output=cat --unit=uss_desk")
    rows.has("what the desk prints", "listening 127.0.0.1:8080\n", said)
    tomorrow = (datetime.now(timezone.utc) + timedelta(days=1)).date().isoformat()
    body = (EXAMPLES / "first_put.json").read_text().replace("2026-06-01", tomorrow)
    rows.equal("a plan", STORED, machine.curl("--user", f"alfa:{word}", "-X", "PUT", "--data-binary", body, PLAN))
    rows.has("a wrong password", '"unauthorized"', machine.curl("--user", "alfa:other", PLAN))
    rows.has(
        "planned_now",
        "alfa      11111111-1111-4111-8111-111111111111  Planned",
        machine.sh("planned_now --port 8080 alfa"),
    )
    rows.equal("the files' users", "uss_desk\n", machine.sh("stat -c %U /var/lib/uss_desk/* | sort -u"))
    new = given_word(rows, machine)
    rows.has("the old password", '"unauthorized"', machine.curl("--user", f"alfa:{word}", PLAN))
    rows.equal("the new password", '{"status":"Ready"}', listens(machine, new))
    return new


def restart(rows: Rows, machine: Machine, word: str) -> None:
    """A desk that is killed is started again, has what it answered, and its restart is told."""
    before, _ = process(machine)
    machine.sh(f"kill -KILL {before}")
    time.sleep(1.5)
    rows.equal("it answers after a kill", '{"status":"Ready"}', listens(machine, word))
    rows.equal("by another process", False, before == process(machine)[0])
    rows.has("the plan is there", '"flight_plan_status":"Planned"', machine.curl("--user", f"alfa:{word}", PLAN))
    told = machine.sh("systemctl start uss_desk_metrics.service && cat /var/lib/uss_desk_metrics/uss_desk.prom")
    rows.has("what is told of it", "\nuss_desk_restarts_total 1\n", told)
    owner = machine.sh("stat -c '%U %a' /var/lib/uss_desk_metrics/uss_desk.prom")
    rows.equal("who writes it", "uss_desk_metrics 644\n", owner)
    rows.has("requests", '{method="PUT",path="/flight_plans/{id}",status="200"} 1\n', told)
    rows.equal(
        "each part of it", [], [line for line in told.splitlines() if re.match("uss_desk_part_read.* 0", line)]
    )
    rows.equal("promtool of the desk's metrics", "", promtool(told))


def lines_of(machine: Machine, name: str) -> int:
    """How many lines a log of the proxy has."""
    return int(machine.sh(f"wc -l < {LOGS}/{name}"))


def rotation(rows: Rows, machine: Machine, word: str) -> None:
    """The proxy's log is rotated, and its workers go on in the new one."""
    told = machine.sh("logrotate --force --state /run/rotated /etc/logrotate.d/uss_desk_proxy")
    old = machine.sh(f"cd {LOGS} && test -s access.log.1 && wc -l < access.log.1")
    # each worker opens the new log in its own time, and writes a line after its answer
    until("lines in the new log", lambda: "Ready" in listens(machine, word) and lines_of(machine, "access.log") > 2)
    logs = machine.sh(f"stat -c '%a %G' {LOGS}/access.log")
    rows.equal("a rotated log", ("", "640 uss_desk_metrics\n"), (told, logs))
    rows.holds(f"it has the lines from before: {old}", old.strip().isdigit())
    rows.equal("the hourly rotation", "", machine.sh("systemctl start uss_desk_logs.service"))
    rows.equal("it is asked each hour", "active\n", machine.sh("systemctl is-active uss_desk_logs.timer"))
    told = machine.sh("systemctl start uss_desk_metrics.service && cat /var/lib/uss_desk_metrics/uss_desk.prom")
    rows.has("requests before the rotation", '{method="PUT",path="/flight_plans/{id}",status="200"} 1\n', told)


IMPOSTOR = """
import socket
listener = socket.create_server(("127.0.0.1", 8080))
open("/tmp/impostor", "wb").close()
while True:
    with listener.accept()[0] as link:
        open("/tmp/impostor", "ab").write(link.recv(9999))
"""


ASK = """
import http.client, sys
link = http.client.HTTPConnection("127.0.0.1", int(sys.argv[1]), timeout=int(sys.argv[2]))
try:
    link.request("GET", "/status", headers={"x-operator": "alfa"})
    print(link.getresponse().read().decode())
except OSError as fault:
    print(type(fault).__name__)
"""


def others(rows: Rows, machine: Machine, word: str) -> None:
    """Another local user may neither ask at the desk's ports nor be taken for the desk while that is away."""
    for name, script in (("ask", ASK), ("impostor", IMPOSTOR)):
        (machine.folder / f"root/{name}.py").write_text(script)
    machine.sh("cp ask.py impostor.py /tmp")
    for port in (8080, 8082, 8083):
        told = machine.sh(f"runuser -u nobody -- python3 /tmp/ask.py {port} 60")
        rows.equal(f"another user at port {port}", "ConnectionRefusedError\n", told)
    rows.equal("root at port 8080", '{"status":"Ready"}\n', machine.sh("python3 /tmp/ask.py 8080 60"))
    rows.equal("which rules are loaded", "table inet uss_desk\n", machine.sh("nft list tables"))
    machine.sh("systemctl stop uss_desk")
    machine.sh("(runuser -u nobody -- python3 /tmp/impostor.py >/dev/null 2>&1 & echo $! >/run/impostor)")
    machine.until("test -e /tmp/impostor")
    rows.equal("an impostor, for root", "TimeoutError\n", machine.sh("python3 /tmp/ask.py 8080 3"))
    # the queue tries for half a minute to reach the desk
    told = machine.curl("--user", f"alfa:{word}", "--max-time", "5", PLAN)
    rows.equal("an impostor, for an operator", "status 28", told.splitlines()[-1])
    rows.equal("what it was asked", "0", machine.sh("stat -c %s /tmp/impostor").strip())
    machine.sh("pkill --parent $(cat /run/impostor); rm /tmp/impostor* /tmp/ask.py; systemctl start uss_desk")
    rows.equal("the desk again", '{"status":"Ready"}', listens(machine, word))


def lost(rows: Rows, machine: Machine, word: str) -> None:
    """The file of a desk that records is moved away while it runs: no unit makes another, until it is put back."""
    machine.sh("sed -i 's#^RECORD=.*#RECORD=--record /var/lib/uss_desk/records#' /etc/default/uss_desk")
    machine.sh("systemctl restart uss_desk")
    rows.equal("a desk that records", '{"status":"Ready"}', listens(machine, word))
    machine.sh("mkdir /root/kept && mv /var/lib/uss_desk/desk.db* /root/kept && systemctl stop uss_desk")
    rows.equal("after its end", "records\n", machine.sh("ls /var/lib/uss_desk"))
    for setting in ("", "s/^RECORD=.*/RECORD=/"):
        machine.sh(f"sed -i '{setting}' /etc/default/uss_desk")
        rows.has("its next start", "status 1", machine.sh("systemctl start uss_desk"))
        rows.equal("after that", "records\n", machine.sh("ls /var/lib/uss_desk"))
    machine.sh("mv /root/kept/desk.db* /var/lib/uss_desk && rmdir /root/kept && systemctl start uss_desk")
    rows.equal("put back", '{"status":"Ready"}', listens(machine, word))
    rows.has("the plan is there", '"flight_plan_status":"Planned"', machine.curl("--user", f"alfa:{word}", PLAN))


def options(rows: Rows, machine: Machine, word: str) -> None:
    """An option of /etc/default/uss_desk comes to the desk's line."""
    machine.sh("sed -i 's/^EQUAL=.*/EQUAL=--equal 10,20/; s/^OPTIONS=.*/OPTIONS=bravo=50/' /etc/default/uss_desk")
    machine.sh("systemctl try-restart uss_desk")
    listens(machine, word)
    told = machine.sh(f"tr '\\0' ' ' < /proc/{process(machine)[0]}/cmdline")
    wanted = "--requests 1000000 --equal 10,20 --spans 25000 --cells 200000 bravo=50"
    rows.has("options of /etc/default/uss_desk", wanted, told)


def process(machine: Machine) -> tuple[str, list[str]]:
    """The desk's process, and whether it has the program that is installed: a former one's file is gone."""
    told = machine.sh(
        "pid=$(systemctl show --property=MainPID --value uss_desk) && echo $pid $(readlink /proc/$pid/exe)"
    )
    return told.split()[0], told.split()[1:]


def upgrade(rows: Rows, machine: Machine, word: str, debs: Debs, folder: pathlib.Path) -> None:
    """A later version over a desk that runs starts it again."""
    put_in(machine, repacked(debs["uss-desk"], folder / "later", "2.0.1"))
    before, _ = process(machine)
    told = machine.sh("apt-get install -y ./later_2.0.1.deb")
    rows.equal("upgraded", (True, False), (is_installed(machine, "2.0.1"), "status" in told))
    after, program = process(machine)
    rows.equal("another process runs the new program", (False, ["/usr/bin/uss_desk"]), (before == after, program))
    rows.equal("it answers", '{"status":"Ready"}', listens(machine, word))
    rows.has("the plan is there", '"flight_plan_status":"Planned"', machine.curl("--user", f"alfa:{word}", PLAN))
    rows.has("a changed setting stays", "EQUAL=--equal 10,20", machine.sh("cat /etc/default/uss_desk"))


def downgrade(machine: Machine) -> str:
    """What apt prints when the first version is to be put back."""
    return machine.sh("apt-get install -y --allow-downgrades ./uss-desk_2.0.0_amd64.deb")


def downgrades(rows: Rows, machine: Machine, debs: Debs, folder: pathlib.Path) -> None:
    """Refused while the desk runs, taken over tables that are known, and refused over later ones."""
    before = process(machine)
    told = downgrade(machine)
    rows.has("a downgrade under a running desk", "2.0.0 is not put in the place of 2.0.1: uss_desk: ", told)
    rows.equal("it leaves all", (True, before), (is_installed(machine, "2.0.1"), process(machine)))
    machine.sh("systemctl stop uss_desk")
    downgrade(machine)
    rows.equal("a downgrade over these tables", True, is_installed(machine, "2.0.0"))
    put_in(machine, repacked(debs["uss-desk"], folder / "last", "9.0.0", later_program))
    machine.sh("apt-get install -y ./last_9.0.0.deb")
    rows.equal("a version of other tables", True, is_installed(machine, "9.0.0"))
    for what, word in (
        ("schema 3, sums yes, 1 operators", "has schema 3, and it knows those up to 2"),
        ("rubbish", "desk.db: rubbish"),
    ):
        machine.sh(f"echo '{what}' > /run/told")
        told = downgrade(machine)
        rows.has(f"a downgrade over {what}", word, told)
        rows.equal("it is refused", (True, True), (is_installed(machine, "9.0.0"), told.endswith("status 100\n")))
    machine.sh("echo 'schema 2, sums yes' > /run/told")
    downgrade(machine)
    rows.equal("a downgrade over schema 2", True, is_installed(machine, "2.0.0"))


def later_program(folder: pathlib.Path) -> None:
    """Puts a later version's program into the files of a package."""
    (folder / "usr/bin/uss_desk").write_text(LATER)


def remove(rows: Rows, machine: Machine, word: str, before: set[str]) -> None:
    """A removal stops what runs, and leaves what is the administrator's; a purge leaves nothing but the user."""
    machine.sh("systemctl start uss_desk")
    told = machine.sh("apt-get remove -y uss-desk")
    rows.equal(
        "removed",
        (False, "", False),
        ("status" in told, running(machine), (machine.folder / "usr/bin/uss_desk").exists()),
    )
    kept = ("var/lib/uss_desk/desk.db", "etc/uss_desk/operators.htpasswd", "etc/default/uss_desk")
    rows.equal("what a removal keeps", [True] * 3, [(machine.folder / name).exists() for name in kept])
    machine.sh(
        "apt-get install -y ./uss-desk_2.0.0_amd64.deb && systemctl enable --now uss_desk uss_desk@8090 uss_desk_proxy"
    )
    listens(machine, word)
    rows.has(
        "installed again, the plan is there",
        '"flight_plan_status":"Planned"',
        machine.curl("--user", f"alfa:{word}", PLAN),
    )
    rows.equal(
        "another desk by its port",
        "uss_desk@8090.service\n",
        machine.sh("systemctl list-units --plain --no-legend --state=active 'uss_desk@*' | cut -d ' ' -f 1"),
    )
    told = machine.sh("apt-get purge -y uss-desk")
    rows.equal("purged", False, "status" in told)
    rows.equal("what a purge leaves", set(), machine.tree() - before - LEFT)
    rows.equal("what was there stays", set(), before - machine.tree())
    rows.has("the user stays", "uss_desk:", machine.sh("cat /etc/passwd"))


def test_life(rows: Rows, machine: Machine, debs: Debs, room: pathlib.Path) -> None:
    """A desk's life on a clean machine, each step after the other."""
    before = machine.tree()
    install(rows, machine, debs)
    word = serve(rows, machine)
    restart(rows, machine, word)
    others(rows, machine, word)
    rotation(rows, machine, word)
    lost(rows, machine, word)
    options(rows, machine, word)
    upgrade(rows, machine, word, debs, room)
    downgrades(rows, machine, debs, room)
    remove(rows, machine, word, before)
