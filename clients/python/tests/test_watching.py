"""What changes at an operator's plans, and who is told of it."""
import http.server
import json
import sys
import threading
import time
from collections.abc import Iterator
from dataclasses import replace
from pathlib import Path
from typing import Any

import pytest

from test_desk import SHOWN, Server
from uss_desk_client.answers import Conflict, Plan
from uss_desk_client.areas import Volume
from uss_desk_client.desk import Desk, NoAnswer
from uss_desk_client.notifying import Notifier
from uss_desk_client.watching import Change, Watch

OVER = Conflict("0000000000000001", 500, 1_780_317_000, 30)
MINE = Plan(
    "mine", "Planned", "Planned", "Nominal", 10, (Volume(("04",), 0, 1_000, 1_780_315_200, 1_780_318_800),), None
)
IN_USE = replace(MINE, status="OkToFly", usage="InUse")


def watched(*looks: list[Plan]) -> list[list[tuple[str, ...]]]:
    """What is seen to have changed at each look, of plans of which only one changes."""
    given = iter(looks)
    watch = Watch(lambda: next(given))
    return [[change.what for change in watch.look()] for _ in looks]


@pytest.mark.parametrize(
    "before, now, what",
    [
        (MINE, MINE, []),
        (MINE, replace(MINE, conflict=OVER), [("blocked",)]),
        (replace(MINE, conflict=OVER), MINE, [("free_again",)]),
        (replace(MINE, conflict=OVER), replace(MINE, conflict=replace(OVER, priority=40)), [("blocked_otherwise",)]),
        (MINE, IN_USE, [("status",)]),
        (MINE, replace(IN_USE, conflict=OVER, priority=11), [("blocked", "status", "priority")]),
        (MINE, replace(MINE, area=()), [("area",)]),
        (MINE, None, [("gone",)]),
        (None, MINE, [("new",)]),
        (None, replace(MINE, conflict=OVER), [("blocked", "new")]),
    ],
)
def test_each_change_by_its_word(before: Any, now: Any, what: list[tuple[str, ...]]) -> None:
    looks = [[plan] if plan else [] for plan in (before, now)]
    assert watched(*looks)[1] == what


def test_at_the_first_look_only_who_is_blocked_is_told() -> None:
    assert watched([MINE, replace(MINE, plan_id="other", conflict=OVER)]) == [[("blocked",)]]


def test_a_change_in_words_and_as_json() -> None:
    change = Change("mine", ("blocked", "status"), MINE, replace(IN_USE, conflict=OVER))
    assert change.is_blocked and str(change) == (
        "mine  somebody is planned over it: priority 30 at -35.264390 -45.000000, 50 m, 2026-06-01 12:30:00Z; "
        "status: Planned is now OkToFly"
    )
    told = json.loads(json.dumps(change.to_json()))
    assert told["what"] == ["blocked", "status"] and told["now"]["conflict"]["priority"] == 30
    assert told["before"]["conflict"] is None and told["text"] == str(change)


def test_an_own_plan_that_is_over_another_one_is_named() -> None:
    over = replace(MINE, plan_id="over", priority=30)
    watch = Watch(lambda: [replace(MINE, conflict=OVER), over])
    (change,) = watch.look()
    assert change.own == "over" and "your own plan over is planned over it" in str(change)


def shown(conflict: bool) -> tuple[int, Any]:
    """The answer to a List of one plan."""
    plan = dict(SHOWN[1])
    if conflict:
        plan["conflict"] = {"altitude": 500, "cell": "0000000000000001", "priority": 30, "second": 1_780_317_000}
    return 200, {"flight_plans": [plan]}


def test_a_desk_that_restarts_is_no_change_and_each_look_is_one_list(monkeypatch: pytest.MonkeyPatch) -> None:
    slept: list[float] = []
    monkeypatch.setattr(time, "sleep", slept.append)
    server = Server(shown(False), (502, {"error": "bad_gateway"}), None, shown(False), shown(True))
    said: list[str] = []
    changes = Desk(server.url, operator="alfa", timeout=60, tell=said.append).watch(every=60)
    assert next(changes).what == ("blocked",)
    assert server.methods == ["GET"] * 5 and {asked[1] for asked in server.asked} == {"/flight_plans"}
    assert len(said) == 2 and "looking again in 60 s" in said[0]
    assert len(slept) == 4 and all(50 < seconds <= 60 for seconds in slept)


def test_looks_too_often_for_the_proxy_are_refused() -> None:
    with pytest.raises(ValueError, match="twelve a minute"):
        next(Desk("http://127.0.0.1:1", operator="alfa").watch(every=9))


def test_a_look_without_an_answer_keeps_what_was_seen() -> None:
    answers = iter([[MINE], NoAnswer("lost", 1, False), [replace(MINE, conflict=OVER)]])

    def plans() -> Any:
        found = next(answers)
        if isinstance(found, NoAnswer):
            raise found
        return found

    watch = Watch(plans)
    assert watch.look() == []
    with pytest.raises(NoAnswer):
        watch.look()
    assert [change.what for change in watch.look()] == [("blocked",)]


# ---- who is told

CHANGE = Change("mine", ("blocked",), MINE, replace(MINE, conflict=OVER))


@pytest.fixture
def hook() -> Iterator[tuple[str, list[Any], list[int]]]:
    """A URL, what is posted there, and the statuses that it answers, one after the other; 200 after them."""
    posted: list[Any] = []
    statuses: list[int] = []

    class Handler(http.server.BaseHTTPRequestHandler):
        def do_POST(self) -> None:
            posted.append(json.loads(self.rfile.read(int(self.headers["content-length"]))))
            self.send_response(statuses.pop(0) if statuses else 200)
            self.end_headers()

        def log_message(self, *_: object) -> None:
            pass

    with http.server.HTTPServer(("127.0.0.1", 0), Handler) as server:
        threading.Thread(target=server.serve_forever, daemon=True).start()
        yield f"http://127.0.0.1:{server.server_port}/hook", posted, statuses
        server.shutdown()


def test_a_webhook_gets_each_change_and_again_if_it_failed(hook: tuple[str, list[Any], list[int]]) -> None:
    url, posted, statuses = hook
    statuses.append(503)
    notifier = Notifier(url=url)
    assert "503" in notifier.tell([CHANGE])[0]
    assert notifier.tell([]) == [] and notifier.tell([]) == []
    assert posted == [CHANGE.to_json(), CHANGE.to_json()]


def test_a_command_gets_each_change_and_not_the_password(tmp_path: Path, monkeypatch: pytest.MonkeyPatch) -> None:
    monkeypatch.setenv("USS_DESK_PASSWORD", "secret")
    code = "import json,os,sys; json.dump([json.load(sys.stdin), dict(os.environ)], open(sys.argv[1], 'w'))"
    target = tmp_path / "told"
    assert Notifier(f'{sys.executable} -c "{code}" {target}').tell([CHANGE]) == []
    told, environment = json.loads(target.read_text())
    assert told == CHANGE.to_json() and environment["USS_DESK_PLAN"] == "mine"
    assert "USS_DESK_PASSWORD" not in environment


def test_a_command_that_fails_is_said() -> None:
    assert "told again" in Notifier("false").tell([CHANGE])[0]
    with pytest.raises(ValueError, match="no URL"):
        Notifier(url="file:///etc/passwd")
