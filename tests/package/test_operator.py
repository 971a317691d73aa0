"""What an operator does with the clients' package on the clean machine."""

from __future__ import annotations

from datetime import datetime, timedelta, timezone

import pytest
from harness.rows import Rows
from package.conftest import Debs
from package.machine import Machine, put_in

pytestmark = [pytest.mark.alone, pytest.mark.proved, pytest.mark.root, pytest.mark.slow]

FIELD = '{"type":"Polygon","coordinates":[[[8.54,47.37],[8.556,47.369],[8.56,47.379],[8.539,47.378],[8.54,47.37]]]}'
DESK = "--url http://127.0.0.1:8095 --operator alfa"


def test_operator(rows: Rows, machine: Machine, debs: Debs) -> None:
    """Installs the clients, plans at the mock desk, and purges them."""
    deb, before = debs["uss-desk-client"], machine.tree()
    put_in(machine, deb)
    told = machine.sh(f"apt-get install -y ./{deb.name}")
    rows.equal("the clients are installed", False, "status" in told)
    commands = sorted(path.name for path in (machine.folder / "usr/bin").glob("uss-*"))
    for command in commands:
        rows.has(f"{command} --help", "usage: ", machine.sh(f"{command} --help"))
    machine.sh("uss-desk-mock --port 8095 alfa=100 >/run/mock.log 2>&1 &")
    machine.until("grep listening /run/mock.log")
    (machine.folder / "root/field.geojson").write_text(FIELD)
    day = (datetime.now(timezone.utc) + timedelta(days=1)).date().isoformat()
    told = machine.sh(
        f"uss-plan plan --polygon field.geojson --altitude 60 120 --from {day}T12:00:00Z --to {day}T13:00:00Z "
        f"{DESK}"
    )
    rows.equal("a polygon is planned at the mock desk", (False, True), ("status" in told, "Planned" in told))
    rows.has("and listed", "Planned", machine.sh(f"uss-plan list {DESK}"))
    told = machine.sh("apt-get purge -y uss-desk-client")
    rows.equal("the clients are purged", False, "status" in told)
    rows.equal("what they leave", set(), machine.tree() - before)
