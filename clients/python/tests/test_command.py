"""The command uss-plan at the mock desk: what it prints, what it says, and how it ends."""
import io
import json
import socket
import sys
from collections.abc import Callable
from datetime import datetime, timedelta, timezone
from pathlib import Path
from typing import Any

import pytest

import uss_desk_client
from uss_desk_client import Desk, Polygon, area_of, cells_of, check, command
from uss_desk_client import library as library_module
from uss_desk_client import new_id, options
from uss_desk_client.errors import DeskError

pytest_plugins = "mocked"
FIELD = [[8.540, 47.370], [8.556, 47.369], [8.560, 47.379], [8.539, 47.378], [8.540, 47.370]]
DAY = (datetime.now(timezone.utc) + timedelta(days=2)).strftime("%Y-%m-%d")
NOON = ["--from", f"{DAY}T12:00:00Z", "--to", f"{DAY}T13:00:00Z"]
GROUND = ["--above-ground", "60", "120", "--ground", "455"]
Ran = tuple[int, str, str]
Run = Callable[..., Ran]


def polygon(path: Path, ring: list[list[float]]) -> str:
    path.write_text(json.dumps({"type": "Polygon", "coordinates": [ring]}))
    return str(path)


@pytest.fixture
def field(tmp_path: Path) -> str:
    """The path of a field near Zurich in GeoJSON."""
    return polygon(tmp_path / "field.geojson", FIELD)


@pytest.fixture
def run(mock_desk: str, capsys: pytest.CaptureFixture[str], monkeypatch: pytest.MonkeyPatch) -> Run:
    """Runs the command as an operator: its status, its output, what it says."""
    for name in ("USS_DESK_HEIGHTS", "USS_DESK_USER", "USS_DESK_OPERATOR"):
        monkeypatch.delenv(name, raising=False)

    def run_as(operator: str, *words: str) -> Ran:
        status = command.main([words[0], "--url", mock_desk, "--operator", operator, *words[1:]])
        output, said = capsys.readouterr()
        return status, output, said

    return run_as


def planned(run: Run, operator: str, field: str, *words: str) -> str:
    """Plans a flight; its id."""
    status, output, said = run(operator, "plan", "--polygon", field, *GROUND, *words, "--json")
    assert status == 0, said
    return str(json.loads(output)["flight_plan_id"])


def clear(run: Run, operator: str, field: str) -> None:
    """Removes the plans over the field."""
    times = ["--from", f"{DAY}T00:00:00Z", "--to", f"{DAY}T23:59:59Z"]
    assert run(operator, "clear", "--polygon", field, *times)[0] == 0


def test_the_version_is_that_of_the_program(capsys: pytest.CaptureFixture[str]) -> None:
    with pytest.raises(SystemExit):
        command.main(["--version"])
    assert capsys.readouterr().out == "uss-plan 2.0.0\n"


def test_the_help_begins_with_a_flight_and_has_the_statuses(capsys: pytest.CaptureFixture[str]) -> None:
    with pytest.raises(SystemExit):
        command.main(["--help"])
    told = capsys.readouterr().out
    wanted = ("uss-plan plan field.geojson --above-ground 60 120", "USS_DESK_URL, USS_DESK_OPERATOR", "4  the desk")
    assert [part for part in wanted if part not in told] == []


def test_above_the_ground_is_stored_above_the_ellipsoid(run: Run, field: str) -> None:
    plan_id = planned(run, "alfa", field, *NOON)
    body = json.loads(run("alfa", "show", plan_id, "--body")[1])
    volume = body["flight_plan"]["basic_information"]["area"][0]["volume"]
    assert (volume["altitude_lower"], volume["altitude_upper"]) == (5_150, 5_750)
    clear(run, "alfa", field)


def test_above_the_sea_by_what_is_said_of_it(run: Run, field: str) -> None:
    words = ["body", field, *NOON, "--above-sea", "500", "560", "--sea-level", "47.34"]
    status, output, said = run("alfa", *words)
    volume = json.loads(output)["flight_plan"]["basic_information"]["area"][0]["volume"]
    assert (status, volume["altitude_lower"], volume["altitude_upper"]) == (0, 5_473, 6_074)
    assert "500 to 560 m above the sea level are 547.3 to 607.3 m above the WGS84 ellipsoid" in said
    words = ["body", field, *NOON, "--above-ground", "0", "10", "--ground-above-sea", "408", "--sea-level", "47"]
    volume = json.loads(run("alfa", *words)[1])["flight_plan"]["basic_information"]["area"][0]["volume"]
    assert (volume["altitude_lower"], volume["altitude_upper"]) == (4_550, 4_650)


def test_without_a_ground_it_is_said(run: Run, field: str, monkeypatch: pytest.MonkeyPatch) -> None:
    status, _, said = run("alfa", "plan", "--polygon", field, *NOON, "--altitude", "60", "120", "--dry-run")
    assert status == 0 and "nothing is known of the ground here" in said
    status, _, said = run("alfa", "plan", "--polygon", field, *NOON, "--above-ground", "60", "120")
    assert status == 3 and "say --ground-above-sea M (as maps show it), --ground M" in said
    assert run("alfa", "plan", "--polygon", field, *NOON)[0] == 2
    monkeypatch.delenv("USS_DESK_GEOID", raising=False)
    monkeypatch.setattr("uss_desk_client.geoid.FOLDERS", ())
    status, _, said = run("alfa", "body", field, *NOON, "--above-sea", "500", "560")
    assert status == 3 and "apt-get install -y proj-data" in said


def test_where_and_how_large_is_said_before_it_is_planned(run: Run, field: str) -> None:
    said = run("alfa", "plan", "--polygon", field, *NOON, *GROUND, "--dry-run")[2]
    assert "around latitude 47.37400 N, longitude 8.54875 E, 1.39 km2; its cells" in said


def test_a_swapped_field_is_told_by_its_place(run: Run, tmp_path: Path) -> None:
    swapped = polygon(tmp_path / "swapped.geojson", [place[::-1] for place in FIELD])
    assert "around latitude 8.54875 N, longitude 47.37400 E" in run("alfa", "cells", swapped)[2]


class Terminal(io.StringIO):
    def isatty(self) -> bool:
        return True


@pytest.mark.parametrize("answer, status", [("y\n", 0), ("\n", 3), (None, 3)])
def test_a_large_area_is_asked_about_at_a_terminal_alone(
    run: Run, tmp_path: Path, monkeypatch: pytest.MonkeyPatch, answer: Any, status: int
) -> None:
    large = polygon(tmp_path / "large.geojson", [[8, 47], [9, 47], [9, 48], [8, 48], [8, 47]])
    words = ["plan", "--polygon", large, *NOON, *GROUND, "--dry-run"]
    if answer is not None:
        monkeypatch.setattr(sys, "stdin", Terminal(answer))
        monkeypatch.setattr(sys.stderr, "isatty", lambda: True, raising=False)
    found, _, said = run("alfa", *words)
    assert found == status and ("[y/N]" in said) == (answer is not None)
    assert ("say --large" in said) == (status == 3)
    assert run("alfa", *words, "--large")[0] == 0


def test_a_crossing_ring_is_named_by_the_points_of_the_file(run: Run, tmp_path: Path) -> None:
    ring = [[8.0, 47.0], [9.0, 48.0], [8.0, 48.0], [9.0, 47.0], [8.0, 47.0]]
    status, _, said = run("alfa", "cells", polygon(tmp_path / "ring.geojson", ring))
    assert status == 3 and said.strip() == (
        "uss-plan: the ring crosses itself: the edge from (8.0, 47.0) to (9.0, 48.0) and that from (8.0, 48.0) to "
        "(9.0, 47.0)"
    )


def test_what_is_shown_can_be_put_back(run: Run, mock_desk: str, field: str) -> None:
    plan_id = planned(run, "alfa", field, *NOON, "--priority", "7")
    body = json.loads(run("alfa", "show", plan_id, "--body")[1])
    assert check(body) is None
    desk = Desk(mock_desk, operator="alfa")
    before = desk.show(plan_id)
    assert desk.put(plan_id, body).is_completed and desk.show(plan_id) == before and before.body() == body
    clear(run, "alfa", field)


def test_no_password_is_sent_to_another_host_over_http(
    capsys: pytest.CaptureFixture[str], monkeypatch: pytest.MonkeyPatch
) -> None:
    def connect(*_: Any) -> None:
        raise AssertionError("somebody is asked")

    monkeypatch.setattr("socket.create_connection", connect)
    monkeypatch.delenv("USS_DESK_OPERATOR", raising=False)
    monkeypatch.setenv("USS_DESK_PASSWORD", "secret")
    assert command.main(["list", "--url", "http://desk.example:8081", "--user", "alfa"]) == 2
    said = "uss-plan: a password is sent to desk.example over https alone: http can be read on its way\n"
    assert capsys.readouterr() == ("", said)


def test_cells_and_body_ask_nobody(field: str, capsys: pytest.CaptureFixture[str]) -> None:
    wanted = cells_of(Polygon([(x, y) for x, y in FIELD], is_straight=True))
    assert command.main(["cells", field]) == 0
    assert capsys.readouterr().out.split() == wanted
    assert command.main(["cells", "--polygon", field, "--json"]) == 0
    assert json.loads(capsys.readouterr().out) == wanted
    assert command.main(["body", field, *NOON, *GROUND, "--priority", "3"]) == 0
    body = json.loads(capsys.readouterr().out)
    assert check(body) is None and body["flight_plan"]["astm_f3548_21"] == {"priority": 3}
    assert body["flight_plan"]["basic_information"]["area"][0]["volume"]["cells"] == wanted


def test_changes_of_priority_times_and_area(run: Run, mock_desk: str, field: str) -> None:
    plan_id = planned(run, "alfa", field, *NOON)
    show = Desk(mock_desk, operator="alfa").show
    assert run("alfa", "change", plan_id, "--priority", "20")[0] == 0 and show(plan_id).priority == 20
    later = ["--from", f"{DAY}T14:00:00Z", "--to", f"{DAY}T15:00:00Z"]
    assert run("alfa", "change", plan_id, *later)[0] == 0
    assert (show(plan_id).area[0].start_time.hour, show(plan_id).area[0].lower) == (14, 5_150)
    assert run("alfa", "change", plan_id, "--to", f"{DAY}T15:30:00Z")[0] == 0
    assert (show(plan_id).area[0].start_time.hour, show(plan_id).area[0].end_time.minute) == (14, 30)
    words = ["--polygon", field, *NOON, "--above-ground", "0", "50", "--ground", "455"]
    assert run("alfa", "change", plan_id, *words, "--dry-run")[0] == 0 and show(plan_id).area[0].lower == 5_150
    assert run("alfa", "change", plan_id, *words)[0] == 0 and show(plan_id).area[0].lower == 4_550
    assert run("alfa", "change", plan_id)[0] == 2
    clear(run, "alfa", field)


def test_a_report_can_say_where_the_aircraft_may_be(run: Run, mock_desk: str, field: str) -> None:
    plan_id = planned(run, "alfa", field, *NOON, "--activate")
    words = ["--polygon", field, "--above-ground", "0", "300", "--ground", "455", "--contingent"]
    assert run("alfa", "report", plan_id, *words, "--dry-run")[0] == 0
    stored = Desk(mock_desk, operator="alfa").show(plan_id)
    assert (stored.aircraft, stored.area[0].upper) == ("Nominal", 5_750)
    assert run("alfa", "report", plan_id, *words)[0] == 0
    stored = Desk(mock_desk, operator="alfa").show(plan_id)
    assert (stored.aircraft, stored.area[0].upper) == ("Contingent", 7_550)
    assert (stored.area[0].start_time.hour, stored.area[0].end_time.hour) == (12, 13)
    clear(run, "alfa", field)


@pytest.mark.parametrize("command_word", ["change", "report"])
@pytest.mark.parametrize("option", ["--radius", "--width", "--cells", "--altitude"])
def test_options_of_an_area_without_a_file_are_refused(
    run: Run, mock_desk: str, field: str, command_word: str, option: str
) -> None:
    plan_id = planned(run, "alfa", field, *NOON, "--activate")
    stored = Desk(mock_desk, operator="alfa").show(plan_id)
    words = [option, "200", "300"] if option == "--altitude" else [option, "200"]
    times: list[list[str]] = [[], ["--to", f"{DAY}T13:30:00Z"]]
    for more in times:
        status, _, said = run("alfa", command_word, plan_id, *words, *more)
        assert status == 2 and "the area: --polygon FILE.geojson" in said
    assert Desk(mock_desk, operator="alfa").show(plan_id) == stored
    clear(run, "alfa", field)


@pytest.mark.parametrize("words", [(), ("--activate",)])
def test_when_a_stored_plan_is_free_it_does_not_block_itself(run: Run, field: str, words: tuple[str, ...]) -> None:
    plan_id = planned(run, "alfa", field, *NOON, *words)
    bounds = (f"{DAY}T11:00:00Z", f"{DAY}T14:00:00Z")
    status, output, said = run(
        "alfa", "when", field, *GROUND, "--from", bounds[0], "--to", bounds[1], "--id", plan_id
    )
    assert (status, output) == (0, " ".join(bounds) + "\n"), said
    clear(run, "alfa", field)


@pytest.mark.parametrize("command_word", ["why", "when"])
def test_a_question_without_a_file_is_refused(run: Run, command_word: str) -> None:
    status, _, said = run("alfa", command_word, *NOON, "--altitude", "600", "700", "--radius", "200")
    assert status == 2 and "no file is named" in said


def test_advice_after_state_says_what_to_do(run: Run, field: str) -> None:
    plan_id = planned(run, "alfa", field, *NOON, "--activate")
    status, output, _ = run("alfa", "plan", "--polygon", field, *GROUND, *NOON, "--id", plan_id)
    assert status == 1 and "state: the plan is in use and isn't planned again: change it while it stays" in output
    run("alfa", "report", plan_id, "--contingent")
    status, output, _ = run("alfa", "activate", plan_id, "--json")
    assert status == 1 and "report where it may be now, or close the plan" in json.loads(output)["advice"]
    assert "api.md" not in output
    clear(run, "alfa", field)


def test_dry_runs_store_nothing(run: Run, mock_desk: str, field: str) -> None:
    desk = Desk(mock_desk, operator="alfa")
    assert run("alfa", "plan", "--polygon", field, *GROUND, *NOON, "--dry-run")[0] == 0 and desk.plans() == []
    plan_id = planned(run, "alfa", field, *NOON)
    assert run("alfa", "activate", plan_id, "--dry-run")[0] == 0 and desk.show(plan_id).status == "Planned"
    assert run("alfa", "close", plan_id, "--dry-run")[0] == 0 and desk.show(plan_id).status == "Planned"
    status, output, _ = run("alfa", "clear", "--polygon", field, *NOON, "--dry-run", "--json")
    assert (status, json.loads(output)) == (0, {"would_clear": [plan_id]}) and len(desk.plans()) == 1
    assert run("alfa", "clear", "--polygon", field, *NOON)[1] == "cleared 1\n" and desk.plans() == []


def test_json_of_plans_and_of_what_blocks(run: Run, field: str) -> None:
    plan_id = planned(run, "alfa", field, *NOON, "--priority", "5")
    (listed,) = json.loads(run("alfa", "list", "--json")[1])
    assert listed == json.loads(run("alfa", "show", plan_id, "--json")[1]) and listed["flight_plan_id"] == plan_id
    status, output, _ = run("bravo", "why", field, *GROUND, *NOON, "--json")
    told = json.loads(output)
    assert status == 1 and told["free_cells"] == [] and told["blocked"][0]["conflict"]["priority"] == 5
    clear(run, "alfa", field)


def test_when_is_it_free(run: Run, field: str) -> None:
    planned(run, "alfa", field, *NOON)
    planned(run, "bravo", field, "--from", f"{DAY}T15:00:00Z", "--to", f"{DAY}T16:00:00Z")
    bounds = ["--from", f"{DAY}T11:00:00Z", "--to", f"{DAY}T17:00:00Z"]
    status, output, said = run("alfa", "when", "--polygon", field, *GROUND, *bounds, "--minutes", "30")
    assert status == 0 and output.splitlines() == [
        f"{DAY}T11:00:00Z {DAY}T12:00:00Z",
        f"{DAY}T13:00:00Z {DAY}T15:00:00Z",
        f"{DAY}T16:00:00Z {DAY}T17:00:00Z",
    ]
    assert "your own plan blocks too: " in said and f"{DAY}T12:00:00Z {DAY}T13:00:00Z" in said
    told = json.loads(run("bravo", "when", field, *GROUND, *bounds, "--minutes", "90", "--json")[1])
    assert told["windows"] == [{"start": f"{DAY}T13:00:00Z", "end": f"{DAY}T15:00:00Z"}]
    status, output, said = run("carol", "when", field, *GROUND, *NOON)
    assert (status, output) == (1, "") and "no free time of 15 minutes" in said
    for operator in ("alfa", "bravo"):
        clear(run, operator, field)


def test_watch_looks_and_tells(run: Run, mock_desk: str, field: str, tmp_path: Path) -> None:
    plan_id = planned(run, "alfa", field, *NOON)
    assert run("alfa", "watch", "--looks", "1")[:2] == (0, "")
    area = area_of(Polygon([(x, y) for x, y in FIELD]), (515, 575), f"{DAY}T12:30:00Z", f"{DAY}T12:40:00Z")
    bravo = Desk(mock_desk, operator="bravo")
    over = new_id()
    assert bravo.plan(over, area, 50).is_completed
    told = tmp_path / "told"
    status, output, _ = run("alfa", "watch", "--looks", "1", "--exec", f"tee {told}")
    assert status == 1 and f"{plan_id}  somebody is planned over it: priority 50" in output
    assert json.loads(told.read_text())["flight_plan_id"] == plan_id
    assert json.loads(run("alfa", "watch", "--looks", "1", "--json")[1])["what"] == ["blocked"]
    assert run("alfa", "watch", "--every", "5")[0] == 2
    with socket.create_server(("127.0.0.1", 0)) as held:
        nobody = f"http://127.0.0.1:{held.getsockname()[1]}"
    status, output, said = run("alfa", "watch", "--looks", "1", "--url", nobody)
    assert (status, output) == (4, "") and "no look at the plans (ConnectionRefusedError" in said
    bravo.clear(area)
    clear(run, "alfa", field)


def test_without_an_s2_library_it_works_and_says_so(run: Run, field: str, monkeypatch: pytest.MonkeyPatch) -> None:
    modules: Any = sys.modules
    monkeypatch.setitem(modules, "pywraps2", None)
    library_module.library.cache_clear()
    try:
        assert run("alfa", "list") == (0, "no plans\n", "")
        plan_id = planned(run, "alfa", field, *NOON)
        status, output, _ = run("bravo", "plan", "--polygon", field, *GROUND, *NOON)
        assert status == 1 and "conflict (priority 0 at 47.3" in output
        assert run("alfa", "show", plan_id)[0] == 0
        library_module.library.cache_clear()
        assert "the client's own coverer is used" in run("alfa", "cells", field)[2]
    finally:
        library_module.library.cache_clear()
        clear(run, "alfa", field)


def test_every_error_of_the_client_is_a_desk_error() -> None:
    errors = [value for value in vars(uss_desk_client).values() if isinstance(value, type)]
    raised = [value for value in errors if issubclass(value, Exception)]
    assert len(raised) > 8 and all(issubclass(value, DeskError) for value in raised)


def test_options_are_importable_for_other_commands() -> None:
    assert command.desk_of is options.desk_of and command.add_whom is options.add_whom
