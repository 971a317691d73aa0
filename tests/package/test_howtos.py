"""The commands of the administrator's pages as they stand there, on a clean machine with the package: installation,
operators, the proxy, metrics; a backup by hand and each night, a restore, a replay of the journal; a rehearsal, an
upgrade and the way back; a standby that follows by ssh and takes over.

howtos/commands.py has the blocks that no test runs, and why.
"""

from __future__ import annotations

import re
import time
from datetime import datetime, timedelta, timezone

import pytest
from harness.places import EXAMPLES
from harness.printed import blocks, page, section
from harness.rows import Rows
from howtos.commands import commands, of_the_machine

from package.conftest import Debs
from package.machine import Machine, put_in

pytestmark = [pytest.mark.alone, pytest.mark.proved, pytest.mark.root, pytest.mark.slow]

STORED = '{"flight_plan_status":"Planned","notes":"","planning_result":"Completed"}'
CLOSED = '{"flight_plan_status":"Closed","notes":"","planning_result":"Completed"}'
READY = '{"status":"Ready"}'
UNAUTHORIZED = '{"error":"unauthorized"}'
DESK = "http://127.0.0.1:8080"
LOG = "/var/log/uss_desk_proxy/access.log"
TRIES = 600
"""How often the desk is asked, ten times a second, until it answers."""
RAN = set[str]()
"""The blocks that were run."""


def run(machine: Machine, *parts: str) -> str:
    """What some blocks print, given one after the other in one shell, up to the first command that fails. Backups are
    named by their seconds, so each has one of its own; and the starts of the desk, ten a minute at most, are counted
    anew."""
    RAN.update(parts)
    text = "\n".join(parts)
    (machine.folder / "root" / "block").write_text(text)
    wait = "sleep 1; " if "backup" in text else ""
    return machine.sh(f"{wait}systemctl reset-failed uss_desk 2>/dev/null || true; bash -e block")


def shape(text: str) -> str:
    """A text with a zero in the place of each number."""
    return re.sub(r"[\d.]*\d", "0", text)


def asked(machine: Machine, operator: str, path: str) -> str:
    """What an operator is answered at the desk's own port."""
    return machine.curl("-H", f"x-operator: {operator}", f"{DESK}{path}")


def listens(machine: Machine) -> bool:
    """Whether the desk answers, once it has been started."""
    for _ in range(TRIES):
        if READY in asked(machine, "alfa", "/status"):
            return True
        time.sleep(0.1)
    return False


def put(machine: Machine, number: int, operator: str = "alfa") -> str:
    """What an operator is answered to a plan for tomorrow, in a layer of its own."""
    day = (datetime.now(timezone.utc) + timedelta(days=1)).date().isoformat()
    body = (EXAMPLES / "first_put.json").read_text().replace("2026-06-01", day)
    body = re.sub(r'"altitude_lower":\d+,"altitude_upper":\d+', layer(number), body)
    url = f"{DESK}/flight_plans/11111111-1111-4111-8111-11111111111{number}"
    return machine.curl("-H", f"x-operator: {operator}", "-X", "PUT", "--data-binary", body, url)


def layer(number: int) -> str:
    """The altitudes of a plan."""
    return f'"altitude_lower":{1000 * number},"altitude_upper":{1000 * number + 1000}'


def uncounted(text: str) -> str:
    """What a replay prints without the number of requests: what these tests ask is among them."""
    return re.sub(r"replayed \d+", "replayed N", text)


def plans(machine: Machine, operator: str = "alfa") -> int:
    """How many plans an operator has."""
    return asked(machine, operator, "/flight_plans").count("flight_plan_id")


def password(machine: Machine, operator: str) -> str:
    """A new password of an operator, by the commands of the page for alfa."""
    (block,) = commands("install.md", "3. Give an operator a password")
    return machine.sh(
        f"cat > block <<'END'\n{block.replace('name=alfa', f'name={operator}')}END\nbash -e block"
    ).strip()


def by_password(machine: Machine, operator: str, word: str) -> str:
    """What the proxy answers."""
    return machine.curl("--user", f"{operator}:{word}", "http://127.0.0.1:8081/status")


def install(rows: Rows, machine: Machine, debs: Debs) -> None:
    """A desk with a journal from its first start on, and a plan."""
    machine.sh("sed -i /doc/d /etc/dpkg/dpkg.cfg.d/99mmdebstrap")
    put_in(machine, debs["uss-desk"])
    first, own = commands("install.md", "1. Install")
    rows.equal("installed", False, "status" in run(machine, first))
    rows.equal("Debian's own are ended", "inactive\ninactive\nstatus 3\n", disabled(machine, own))
    rows.equal("a journal", "", run(machine, *commands("journal.md", "Turn it on")))
    rows.equal("it starts nothing", "inactive\n", machine.sh("systemctl is-active uss_desk || true"))
    rows.equal("enrolled", "enrolled alfa 100\n", run(machine, *commands("install.md", "2. Enrol an operator")))
    (word,) = commands("install.md", "3. Give an operator a password")
    begin, ask = commands("install.md", "4. Start it")
    told = run(machine, word, begin, ask)
    rows.equal("health, and an operator", (2, False), (told.count(READY), "\nstatus" in told))
    rows.equal("a plan", (True, STORED), (listens(machine), put(machine, 1)))


def disabled(machine: Machine, block: str) -> str:
    """Which of Debian's own nginx and HAProxy run afterwards."""
    run(machine, block)
    return machine.sh("systemctl is-active nginx haproxy")


def back_up(rows: Rows, machine: Machine) -> None:
    """By the timer's service, by hand, and a look at what they made."""
    told = run(machine, *commands("backup-restore.md", "A backup each night"))
    enabled = machine.sh("systemctl is-enabled uss_desk_backup.timer")
    rows.equal("the timer", (False, "enabled\n"), ("\nstatus" in told, enabled))
    service, by_hand = commands("backup-restore.md", "Make a backup")
    rows.equal("a backup by the service", "", run(machine, service))
    rows.equal("the desk is back", (True, 1), (listens(machine), plans(machine)))
    rows.equal("a backup by hand", "copied 1 operators, 1 plans\n", run(machine, by_hand))
    rows.equal("the desk is back again", True, listens(machine))
    kinds = machine.sh("cd /var/backups/uss_desk && stat -c '%a %U %F' *[0-9].db | sort -u && readlink latest.db")
    rows.equal("what is there", "640 uss_desk regular file\n0.db\n", kinds[:26] + shape(kinds[26:]))
    told = run(machine, *commands("backup-restore.md", "Check a backup"))
    text = blocks(page("backup-restore.md"), "text")
    rows.equal("a look at it", shape(text[0]), shape(told))
    rows.has("what it holds", "1 operators, 1 plans, 1 live", told)
    running = machine.sh(
        "runuser -u uss_desk -- uss_desk copy --db /var/lib/uss_desk/desk.db --to /var/lib/uss_desk/a.db"
    )
    rows.has("no copy while the desk runs", "in use by another program\nuss_desk: store\nstatus 4\n", running)


def stays_stopped(rows: Rows, machine: Machine) -> None:
    """A desk that was stopped isn't started by the service, and isn't copied."""
    before = machine.sh("ls /var/backups/uss_desk")
    machine.sh("systemctl stop uss_desk; systemctl start uss_desk_backup")
    rows.equal("it stays stopped", "inactive\n", machine.sh("systemctl is-active uss_desk || true"))
    rows.equal("no backup is made", before, machine.sh("ls /var/backups/uss_desk"))
    checkpoint = run(machine, *commands("backup-restore.md", "After a kill or a power failure"))
    rows.equal("a checkpoint by hand", "", checkpoint)
    machine.sh("systemctl start uss_desk")
    rows.equal("started", True, listens(machine))


def restore(rows: Rows, machine: Machine) -> None:
    """The backup, and what was answered since by the journal."""
    rows.equal("two plans more", [STORED] * 2, [put(machine, 2), put(machine, 3)])
    replay, new_journal, whole = commands("backup-restore.md", "Replay the request journal")
    told = run(machine, whole)
    rows.equal("every answer of the journal", "replayed 0 requests, 0 changes, all answers alike\n", shape(told))
    look_back(rows, machine)
    first, second, start = commands("backup-restore.md", "Restore a backup")
    (back,) = commands("backup-restore.md", "Go back to a moment")
    told = run(machine, first, second, replay, back, new_journal, start)
    text = blocks(page("backup-restore.md"), "text")
    wanted = f"copied 1 operators, 1 plans\n{text[1]}replayed N requests, 0 changes, all answers alike\n"
    rows.equal("what is printed", uncounted(wanted), uncounted(told))
    rows.equal("all plans are there", (True, 3), (listens(machine), plans(machine)))
    rows.has("the journal's first file", "0000000001-", machine.sh("ls /var/lib/uss_desk/records"))
    rows.equal("nothing is left of it", "status 2", machine.sh("ls /run/journal").splitlines()[-1])


def look_back(rows: Rows, machine: Machine) -> None:
    """Who asked what, and what was planned at a moment before: nothing, since the page's is long over."""
    who, then = commands("journal.md", "Who asked what")
    told = run(machine, who)
    rows.equal("what alfa asked", (True, 3), ("ceiling 100" in told, told.count(" PUT /flight_plans/")))
    told = run(machine, then)
    rows.has("replayed", "replayed 0 requests, 0 changes, all answers alike\n", told)
    machine.sh("rm /run/then.db*")


def upgrade(rows: Rows, machine: Machine) -> None:
    """A rehearsal while the desk runs, an installation, and the way back."""
    rows.equal("a plan since the backup", STORED, put(machine, 4))
    *rehearse, look = commands("upgrade.md", "Rehearse the upgrade")
    told = run(machine, *rehearse)
    rows.has("the new program", "uss_desk 2.0.0\n", told)
    wanted = "copied 1 operators, 3 plans\nreplayed N requests, 1 changes, all answers alike\n"
    rows.has("it answers alike", wanted, uncounted(told))
    told = run(machine, look)
    rows.has("its start", "1 operators, 4 plans", told)
    left = machine.sh("cd /var/backups/uss_desk; ls -d rehearsal /run/new /run/journal 2>/dev/null || true")
    rows.equal("what is left of it", "", left)
    told = run(machine, *commands("upgrade.md", "Upgrade the package"))
    rows.equal("installed", (False, True, 4), ("\nstatus" in told, listens(machine), plans(machine)))
    told = run(machine, *commands("upgrade.md", "Go back"))
    rows.equal("and back", (False, True, 4), ("\nstatus" in told, listens(machine), plans(machine)))
    told = run(machine, *commands("upgrade.md", "A database of schema 1"))
    rows.equal("nothing to migrate", ("migrated 0 plans\n", True, 4), (told, listens(machine), plans(machine)))


def operate(rows: Rows, machine: Machine) -> None:
    """Operators: by a file while the desk runs and by hand; one that is locked out and leaves."""
    turn_on, change, by_hand = commands("operate.md", "Enrol operators")
    rows.equal("a file of operators", ("", True), (run(machine, turn_on), listens(machine)))
    rows.equal("an operator of it", READY, asked(machine, "bravo", "/status"))
    rows.has("its ceiling is changed", READY, run(machine, change))
    rows.equal("by hand", ("enrolled charlie 50\n", True), (run(machine, by_hand), listens(machine)))
    rows.equal("that one too", READY, asked(machine, "charlie", "/status"))
    former = password(machine, "bravo")
    word = run(machine, *commands("operate.md", "Passwords")).strip()
    given = (by_password(machine, "bravo", former), by_password(machine, "bravo", word))
    rows.equal("a new password, and the former one no more", (UNAUTHORIZED, READY), given)
    rows.equal("a plan of its own", STORED, put(machine, 6, "bravo"))
    (see,) = commands("operate.md", "See what is planned")
    told = run(machine, see)
    rows.equal(
        "what is planned, now and in the backup", (9, 2), (told.count("Planned "), told.count("operator  plan"))
    )
    run(machine, *commands("operate.md", "Lock an operator out"))
    rows.equal("locked out", UNAUTHORIZED, by_password(machine, "bravo", word))
    told = run(machine, *commands("operate.md", "An operator who leaves"))
    rows.equal("its plan is closed", 1, told.count(CLOSED))
    rows.has("and seen so", '"flight_plan_status":"Closed"', asked(machine, "bravo", "/flight_plans"))


def options(rows: Rows, machine: Machine) -> None:
    """Equal priorities, a restart, a further desk."""
    run(machine, *commands("operate.md", "Equal priorities"))
    rows.equal("started again", True, listens(machine))
    told = machine.sh("tr '\\0' ' ' < /proc/$(systemctl show --property=MainPID --value uss_desk)/cmdline")
    wanted = "--equal 10,20 --spans 25000 --cells 200000 --operators /etc/uss_desk/operators --record /"
    rows.has("the desk's options", wanted, told)
    rows.has("a restart", "listening 127.0.0.1:8080", run(machine, *commands("operate.md", "Start and stop")))
    rows.equal("started once more", True, listens(machine))
    run(machine, *commands("operate.md", "Several desks"))
    rows.equal("a further desk", "active\n", machine.sh("systemctl is-active uss_desk@8090"))
    machine.sh("systemctl disable --now uss_desk@8090")


def proxy(rows: Rows, machine: Machine) -> None:
    """TLS, and rules of nftables."""
    word = password(machine, "alfa")
    run(machine, *commands("proxy.md", "TLS"))
    ask = "curl --silent --retry 9 --retry-connrefused --cacert /etc/uss_desk/desk.pem --user alfa:"
    ask += f"{word} --resolve desk.example:443:127.0.0.1 https://desk.example/status"
    rows.equal("over TLS", READY, machine.sh(ask))
    rows.equal("limits of addresses", "", run(machine, *commands("proxy.md", "Limits")))
    rows.has(
        "they are there", "uss_desk_limits", machine.sh("nft list tables; nft delete table inet uss_desk_limits")
    )
    rows.equal("who may use the ports", "active\n", run(machine, *commands("proxy.md", "Other users of the machine")))


def watch(rows: Rows, machine: Machine) -> None:
    """Health, the access log, one request in all logs, metrics."""
    for block in commands("monitoring.md", "Health"):
        rows.has("health", READY, run(machine, block))
    told = run(machine, *commands("monitoring.md", "Count requests"))
    rows.holds(f"a count: {told}", re.search(r"(?m)^ +\d+ alfa\t200\t-\t-$", told))
    word, before = password(machine, "alfa"), machine.sh(f"wc -l < {LOG}").strip()
    rows.equal("a request of an operator", READY, by_password(machine, "alfa", word))
    machine.until(f"test $(wc -l < {LOG}) -gt {before}")
    one = run(machine, *commands("monitoring.md", "One id through all logs"))
    rows.holds("one request in the access log and the journal", re.search(r"(?m)\t[0-9a-f]{32}\n.*x-request-id", one))
    told = run(machine, *commands("monitoring.md", "Metrics"))
    rows.equal("metrics", False, "\nstatus" in told)
    for value in ('{status="401"} 2', "_plans 4", "_copy_intact 1", "_up 1", '_part_read{part="records"} 1'):
        rows.has(value, value, told)


def spans_and_damage(rows: Rows, machine: Machine) -> None:
    """Whose spans and cells there are; what the desk printed last; copies of a file that is damaged."""
    for what in ("spans", "cells"):
        told = run(machine, *commands("sizing.md", f"The limit on {what}"))
        rows.has(f"whose {what}", "\nalfa|4\n", f"\n{told}")
    told = run(machine, *commands("troubleshooting.md", "Troubleshooting"))
    rows.has("what the desk printed last", "listening 127.0.0.1:8080", told)
    first = commands("how-files-get-damaged.md", "What to do when a file is damaged")[0]
    rows.equal("the damaged files are kept", "", run(machine, first))
    rows.has("all of them", "desk.db\n", machine.sh("ls /var/backups/damaged-*"))
    machine.sh("systemctl start uss_desk")
    rows.equal("started", True, listens(machine))


def stand_by(rows: Rows, machine: Machine) -> None:
    """A standby on the same machine, which is `first.example` too; it takes over."""
    machine.sh("sed -i 's/^OPERATORS=.*/OPERATORS=/; s/^EQUAL=.*/EQUAL=/' /etc/default/uss_desk")
    machine.sh("systemctl stop uss_desk; rm -r /var/lib/uss_desk/records/* /var/lib/uss_desk/desk.db*")
    enrol = "runuser -u uss_desk -- uss_desk enrol --db /var/lib/uss_desk/desk.db"
    machine.sh(f"{enrol} --record /var/lib/uss_desk/records alfa 100; systemctl start uss_desk")
    rows.equal("a plan", (True, STORED), (listens(machine), put(machine, 1)))
    machine.sh("echo '127.0.0.1 first.example' >> /etc/hosts; mkdir -m 700 -p .ssh; systemctl start ssh")
    key, follow = commands("standby.md", "Set up")
    told = run(machine, key)
    found = re.search(r"ssh-ed25519 (\S+)", told)
    rows.holds(f"a key: {told}", found)
    line = blocks(section(page("standby.md"), "## Set up"), "text")[0]
    machine.sh(f"cat > .ssh/authorized_keys <<'END'\n{line.replace('AAAA...', found[1] if found else '')}END\n")
    rows.equal("it follows", "", run(machine, follow))
    rows.equal("and goes on", "active\n", machine.sh("sleep 20; systemctl is-active uss_desk_standby"))
    machine.sh("systemctl stop uss_desk_standby")
    rows.equal("it follows again", "", run(machine, *commands("standby.md", "Follow again")[:1]))
    rows.equal("and goes on too", "active\n", machine.sh("sleep 20; systemctl is-active uss_desk_standby"))
    machine.sh("mkdir /root/first && mv /var/lib/uss_desk/desk.db* /var/lib/uss_desk/records /root/first")
    rows.equal("it takes over", "copied 1 operators, 1 plans\n", run(machine, *commands("standby.md", "Take over")))
    rows.equal("with all plans", (True, 1), (listens(machine), plans(machine)))


def test_howtos(rows: Rows, machine: Machine, debs: Debs) -> None:
    """An administrator's year with a desk, each step after the other."""
    install(rows, machine, debs)
    back_up(rows, machine)
    stays_stopped(rows, machine)
    restore(rows, machine)
    upgrade(rows, machine)
    operate(rows, machine)
    options(rows, machine)
    proxy(rows, machine)
    watch(rows, machine)
    spans_and_damage(rows, machine)
    stand_by(rows, machine)
    rows.equal("blocks that were not run", [], [block for block in of_the_machine() if block.text not in RAN])
    left = "/etc/uss_desk /var/backups/uss_desk /var/backups/damaged-* /etc/default/uss_desk_standby /root/first"
    machine.sh(f"systemctl disable --now uss_desk_metrics.timer; apt-get purge -y uss-desk; rm -rf {left} .ssh")
