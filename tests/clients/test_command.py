"""The command uss-plan: its lines, what they print, and how they end."""

from __future__ import annotations

import json
import pathlib
import subprocess
import sys
import time
from xml.dom import minidom

import pytest
from clients.given import FIELD, PATIENCE, at, environment
from harness.rows import Rows
from harness.setting import Setting
from uss_desk_client import new_id

pytestmark = pytest.mark.proxy

DAY = f"{at(0):%Y-%m-%d}"
FLIGHT = ["--altitude", "60", "120", "--from", f"{DAY}T15:00:00Z", "--to", f"{DAY}T16:00:00Z"]
LATER = ["--altitude", "60", "120", "--from", f"{DAY}T18:00:00Z", "--to", f"{DAY}T19:00:00Z"]


def uss_plan(setting: Setting, name: str, *words: str) -> tuple[int, str]:
    """The exit status and the output of a line, asked as an operator."""
    ran = subprocess.run(
        [sys.executable, "-m", "uss_desk_client", *words],
        capture_output=True,
        text=True,
        timeout=600,
        check=False,
        cwd=setting.folder,
        env=environment(setting, name),
    )
    return ran.returncode, ran.stdout


@pytest.fixture
def field(room: pathlib.Path) -> str:
    """The path of a polygon in GeoJSON."""
    ring = [list(place) for place in (*FIELD, FIELD[0])]
    path = room / "field.geojson"
    path.write_text(json.dumps({"type": "Feature", "geometry": {"type": "Polygon", "coordinates": [ring]}}))
    return str(path)


def test_command(rows: Rows, setting: Setting, field: str, room: pathlib.Path) -> None:
    """A plan of carol's, and bravo's flight that it blocks."""
    status, output = uss_plan(setting, "carol", "plan", "--polygon", field, *FLIGHT, "--priority", "30", "--activate")
    plan_id, _, said = output.partition("  ")
    rows.equal("plan", (0, "Completed, OkToFly\n"), (status, said))
    status, output = uss_plan(setting, "bravo", "plan", "--polygon", field, *FLIGHT)
    rows.equal("blocked: status", 1, status)
    rows.has("blocked", "Rejected, NotPlanned: conflict (priority 30 at 47.3", output)
    status, output = uss_plan(setting, "carol", "list")
    rows.equal("list", (0, ["OkToFly"]), (status, [line.split()[1] for line in output.splitlines()[1:]]))
    status, output = uss_plan(setting, "carol", "show", plan_id)
    rows.equal("show", (0, "no conflict"), (status, output.splitlines()[-1]))
    why(rows, setting, field, room)
    wanted = f"{plan_id}  Completed, Closed\n"
    rows.equal("close", (0, wanted), uss_plan(setting, "carol", "close", plan_id))
    rows.equal("why, free", 0, uss_plan(setting, "bravo", "why", field, *FLIGHT)[0])


def why(rows: Rows, setting: Setting, field: str, room: pathlib.Path) -> None:
    """What blocks bravo's flight, printed, drawn, and as GeoJSON."""
    picture, cells = room / "why.svg", room / "why.geojson"
    drawn = ["--picture", str(picture), "--geojson", str(cells)]
    status, output = uss_plan(setting, "bravo", "why", field, *FLIGHT, *drawn)
    rows.equal("why", (1, "A flight of priority 0 is blocked in"), (status, output[:36]))
    rows.equal("why, drawn", "svg", minidom.parse(str(picture)).documentElement.tagName)
    states = {one["properties"]["state"] for one in json.loads(cells.read_text())["features"]}
    rows.equal("why, as GeoJSON", {"blocked", "first blocked point"}, states)


def test_life_by_commands(rows: Rows, setting: Setting, field: str, room: pathlib.Path) -> None:
    """A plan of alfa's that is changed, flown over by bravo, moved to a free time, reported and cleared."""
    status, output = uss_plan(setting, "alfa", "plan", field, *LATER, "--priority", "10", "--json")
    plan_id = json.loads(output)["flight_plan_id"]
    rows.equal("plan as JSON", (0, "Planned"), (status, json.loads(output)["flight_plan_status"]))
    body = room / "body.json"
    body.write_text(uss_plan(setting, "alfa", "show", plan_id, "--body")[1])
    rows.equal("a body that can be put back", 0, uss_plan(setting, "alfa", "check", str(body))[0])
    for priority, *words in (["10", "--dry-run"], ["20"]):
        status, _ = uss_plan(setting, "alfa", "change", plan_id, "--priority", "20", *words)
        shown = json.loads(uss_plan(setting, "alfa", "show", plan_id, "--json")[1])
        rows.equal(f"change {words}", (0, priority), (status, str(shown["priority"])))
    rows.equal("nobody is over it", (0, ""), watched(setting))
    rows.equal("bravo is", 0, uss_plan(setting, "bravo", "plan", field, *LATER, "--priority", "50")[0])
    status, output = watched(setting)
    rows.has("watch", f"{plan_id}  somebody is planned over it: priority 50 at ", output)
    rows.equal("watch: status", 1, status)
    rows.equal("it can't be activated", 1, uss_plan(setting, "alfa", "activate", plan_id)[0])
    bounds = ["--altitude", "60", "120", "--from", f"{DAY}T17:00:00Z", "--to", f"{DAY}T20:00:00Z", "--id", plan_id]
    found = uss_plan(setting, "alfa", "when", field, *bounds, "--priority", "20", "--minutes", "60")
    free = f"{DAY}T17:00:00Z {DAY}T18:00:00Z\n{DAY}T19:00:00Z {DAY}T20:00:00Z\n"
    rows.equal("when", (0, free), found)
    moved = ["--from", f"{DAY}T19:00:00Z", "--to", f"{DAY}T20:00:00Z"]
    for words, wanted in (
        (["change", plan_id, *moved], "Completed, Planned"),
        (["activate", plan_id], "Completed, OkToFly"),
        (["report", plan_id, "--contingent"], "Completed, OffNominal"),
    ):
        rows.equal(words[0], (0, f"{plan_id}  {wanted}\n"), uss_plan(setting, "alfa", *words))
    for name, times in (("alfa", moved), ("bravo", LATER[3:])):
        rows.equal(f"clear of {name}", (0, "cleared 1\n"), uss_plan(setting, name, "clear", field, *times))
    rows.equal("refused by the proxy but for Lists", [], refused_by_the_proxy(setting.folder))


def watched(setting: Setting) -> tuple[int, str]:
    """What a look at alfa's plans gives, once nginx lets the List through."""
    for _ in range(PATIENCE):
        status, output = uss_plan(setting, "alfa", "watch", "--looks", "1")
        if status != 4:
            break
        time.sleep(1)
    return status, output


def refused_by_the_proxy(folder: pathlib.Path) -> list[str]:
    """The lines of the proxy's log whose status is 429, but for Lists."""
    lines = (folder / "access.log").read_text(encoding="utf-8").splitlines()
    fields = [line.split("\t") for line in lines]
    return ["\t".join(one) for one in fields if one[5] == "429" and one[4] != "/flight_plans"]


@pytest.mark.quick
def test_no_such_plan(setting: Setting) -> None:
    """A plan that the operator hasn't."""
    assert uss_plan(setting, "carol", "show", new_id())[0] == 4


@pytest.mark.quick
def test_no_such_file(setting: Setting) -> None:
    """A polygon that isn't there."""
    assert uss_plan(setting, "carol", "plan", "--polygon", "none", *FLIGHT)[0] == 3


@pytest.mark.quick
def test_wrong_word(setting: Setting) -> None:
    """A line that is none."""
    assert uss_plan(setting, "carol", "fly")[0] == 2
