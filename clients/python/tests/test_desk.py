"""Asking a server that loses requests and answers: a list of what it does, one after the other."""
import concurrent.futures
import json
import logging
import socket
import threading
import time
from collections.abc import Callable
from typing import Any, Optional
from urllib.parse import urlsplit

import pytest

from uss_desk_client import desk as desk_module
from uss_desk_client.areas import Volume
from uss_desk_client.answers import NotTaken, Plan
from uss_desk_client.bodies import put_body
from uss_desk_client.errors import DeskError
from uss_desk_client.desk import BadAnswer, Desk, NoAnswer, NoSuchPlan, Refused, is_as_put

ID = "11111111-1111-4111-8111-111111111111"
AREA = [Volume(("04",), 0, 1_000, 1_780_315_200, 1_780_318_800)]
DONE = (200, {"flight_plan_status": "Planned", "notes": "", "planning_result": "Completed"})
SHOWN: tuple[int, Any] = (
    200,
    {
        "area": [
            {
                "altitude_lower": 0,
                "altitude_upper": 1000,
                "cells": ["04"],
                "second_end": 1780318800,
                "second_start": 1780315200,
            }
        ],
        "flight_plan_id": ID,
        "flight_plan_status": "Planned",
        "priority": 10,
        "uas_state": "Nominal",
        "usage_state": "Planned",
    },
)
NO_PLAN = (404, {"error": "no_such_plan"})
BLOCKED = (
    200,
    {
        "conflict": {"altitude": 500, "cell": "0000000000000001", "priority": 10, "second": 1780317000},
        "flight_plan_status": "NotPlanned",
        "notes": "conflict",
        "planning_result": "Rejected",
    },
)
Act = tuple[Any, ...]
"""An answer: its status, its value, and its fields."""
HANG_UP: Optional[Act] = None


class Server:
    """A server at a port, which does what a script says: an answer (status, value, fields), or it hangs up."""

    def __init__(self, *script: Optional[Act]) -> None:
        self.asked: list[tuple[str, str, str, bytes]] = []
        self._script = list(script)
        self._socket = socket.create_server(("127.0.0.1", 0))
        self.url = f"http://127.0.0.1:{self._socket.getsockname()[1]}"
        threading.Thread(target=self._run, daemon=True).start()

    def _run(self) -> None:
        for act in self._script:
            connection, _ = self._socket.accept()
            with connection:
                head, body = self._request(connection)
                self.asked.append((head.split(" ", 2)[0], head.split(" ", 2)[1], head, body))
                if act is not None:
                    connection.sendall(self._answer(*act))
        self._socket.close()

    @staticmethod
    def _request(connection: socket.socket) -> tuple[str, bytes]:
        data = b""
        while b"\r\n\r\n" not in data:
            data += connection.recv(65_536)
        head, body = data.split(b"\r\n\r\n", 1)
        lengths = [line for line in head.lower().split(b"\r\n") if line.startswith(b"content-length:")]
        while lengths and len(body) < int(lengths[0].split(b":")[1]):
            body += connection.recv(65_536)
        return head.decode(), body

    @staticmethod
    def _answer(status: int, value: Any, fields: str = "") -> bytes:
        body = value if isinstance(value, bytes) else json.dumps(value).encode()
        return f"HTTP/1.1 {status} X\r\n{fields}content-length: {len(body)}\r\n\r\n".encode() + body

    @property
    def methods(self) -> list[str]:
        return [asked[0] for asked in self.asked]


@pytest.fixture(autouse=True)
def no_pauses(monkeypatch: pytest.MonkeyPatch) -> None:
    monkeypatch.setattr(desk_module, "FIRST_PAUSE", 0.01)


def asks(*script: Optional[Act], **words: Any) -> tuple[Server, Desk]:
    server = Server(*script)
    given: Any = {"operator": "alfa", "timeout": 60, **words}
    return server, Desk(server.url, **given)


def test_a_plan_is_put() -> None:
    server, desk = asks(DONE)
    answer = desk.plan(ID, AREA, 10)
    assert answer.is_completed and answer.status == "Planned" and not answer.was_lost
    method, path, head, body = server.asked[0]
    assert (method, path) == ("PUT", f"/flight_plans/{ID}") and "x-operator: alfa" in head
    assert json.loads(body)["flight_plan"]["basic_information"]["area"][0]["volume"]["cells"] == ["04"]


def test_a_user_has_a_password_and_no_operator() -> None:
    server, desk = asks((200, {"status": "Ready"}), operator=None, user="alfa", password="p:w")
    assert desk.status() == "Ready"
    assert "authorization: Basic YWxmYTpwOnc=" in server.asked[0][2] and "x-operator" not in server.asked[0][2]


def test_a_conflict() -> None:
    _, desk = asks(BLOCKED)
    answer = desk.plan(ID, AREA, 10)
    assert not answer.is_completed and answer.note == "conflict"
    assert answer.conflict and answer.conflict.priority == 10
    assert answer.conflict.altitude_metres == 50 and answer.conflict.time.isoformat() == "2026-06-01T12:30:00+00:00"
    assert abs(answer.conflict.latitude + 35.264390) < 1e-5 and abs(answer.conflict.longitude + 45) < 1e-5
    with pytest.raises(NotTaken, match="priority 10"):
        answer.demand()


@pytest.mark.parametrize("lost", [HANG_UP, (500, {"error": "store"}), (502, b"<html>"), (503, b""), (504, b"")])
def test_a_put_whose_answer_was_lost_and_that_stands_is_not_put_again(lost: Optional[Act]) -> None:
    server, desk = asks(lost, SHOWN)
    answer = desk.plan(ID, AREA, 10)
    assert answer.is_completed and answer.was_lost and server.methods == ["PUT", "GET"]


@pytest.mark.parametrize("found", [NO_PLAN, (200, {**SHOWN[1], "priority": 9}), HANG_UP])
def test_a_put_that_is_not_there_is_put_again(found: Optional[Act]) -> None:
    server, desk = asks(HANG_UP, found, DONE)
    answer = desk.plan(ID, AREA, 10)
    assert answer.is_completed and answer.was_lost and server.methods == ["PUT", "GET", "PUT"]


def test_a_dry_run_is_asked_again_at_once() -> None:
    server, desk = asks(HANG_UP, BLOCKED)
    assert desk.try_plan(AREA, 10).note == "conflict" and server.methods == ["PUT", "PUT"]


@pytest.fixture
def clock(monkeypatch: pytest.MonkeyPatch) -> list[float]:
    """A clock that sleeping alone moves on, however slow the machine is; its seconds."""
    seconds = [0.0]
    monkeypatch.setattr(time, "monotonic", lambda: seconds[0])
    monkeypatch.setattr(time, "sleep", lambda pause: seconds.__setitem__(0, seconds[0] + pause))
    return seconds


def test_too_many_requests_are_waited_for(clock: list[float]) -> None:
    server, desk = asks((429, b"", "retry-after: 7\r\n"), DONE)
    assert not desk.plan(ID, AREA, 10).was_lost
    assert clock[0] == pytest.approx(7) and server.methods == ["PUT", "PUT"]


def test_patience_ends(clock: list[float]) -> None:
    server, desk = asks(*[(502, b"")] * 1_000, patience=0.3)
    with pytest.raises(NoAnswer, match="may stand") as ended:
        desk.plan(ID, AREA, 10)
    assert ended.value.may_stand and 2 <= len(server.asked) < 100 and clock[0] <= 0.3


def test_waiting_is_told_at_once_and_each_five_seconds(clock: list[float]) -> None:
    lines: list[tuple[float, str]] = []
    _, desk = asks(*[(502, b"")] * 1_000, patience=30, tell=lambda line: lines.append((clock[0], line)))
    with pytest.raises(NoAnswer):
        desk.status()
    assert [moment for moment, _ in lines][:5] == pytest.approx([0, 5, 10, 15, 20])
    assert lines[0][1] == "no answer yet (502 bad_gateway); asking again for 30 s"


def test_the_id_of_a_failure_is_told() -> None:
    lines: list[str] = []
    named = "x-request-id: 5f\r\n"
    _, desk = asks((502, b"", named), (400, {"error": "bad_volume"}, named), NO_PLAN, tell=lines.append)
    with pytest.raises(Refused, match=r"^400 bad_volume.* \(request 5f\)$") as refused:
        desk.plan(ID, AREA)
    assert refused.value.request_id == "5f"
    assert lines == ["no answer yet (502 bad_gateway (request 5f)); asking again for 60 s"]
    with pytest.raises(NoSuchPlan) as lacking:
        desk.show(ID)
    assert (lacking.value.request_id, "request" in str(lacking.value)) == ("", False)


def test_a_desk_is_asked_whatever_web_proxy_is_set(monkeypatch: pytest.MonkeyPatch) -> None:
    for name in ("http_proxy", "HTTP_PROXY", "all_proxy"):
        monkeypatch.setenv(name, "http://127.0.0.1:9")
    _, desk = asks((200, {"status": "Ready"}))
    assert desk.status(patience=20) == "Ready"


def test_an_answer_at_once_tells_nothing() -> None:
    lines: list[str] = []
    _, desk = asks(DONE, tell=lines.append)
    desk.plan(ID, AREA)
    assert not lines


def test_no_server_changes_nothing() -> None:
    with socket.create_server(("127.0.0.1", 0)) as held:
        port = held.getsockname()[1]
    with pytest.raises(NoAnswer, match="nothing was changed"):
        Desk(f"http://127.0.0.1:{port}", operator="alfa", patience=0.2).plan(ID, AREA)


def test_a_clear_and_a_close_asked_again() -> None:
    cleared = (200, {"outcome": {"message": "cleared 2", "success": True}})
    _, desk = asks(HANG_UP, cleared)
    told = desk.clear(AREA)
    assert (told.count, told.was_lost) == (2, True)
    _, desk = asks(HANG_UP, (200, {"flight_plan_status": "Closed", "notes": "", "planning_result": "Completed"}))
    assert desk.close(ID).was_lost


def test_a_path_has_the_whole_id() -> None:
    server, desk = asks(NO_PLAN)
    with pytest.raises(NoSuchPlan):
        desk.show("a/b?c")
    assert server.asked[0][1] == "/flight_plans/a%2Fb%3Fc"


def test_activation_repeats_what_is_stored() -> None:
    server, desk = asks(SHOWN, DONE)
    desk.activate(ID)
    body = json.loads(server.asked[1][3])
    assert server.methods == ["GET", "PUT"]
    assert body == {**put_body(AREA, "InUse", "Nominal", 10, "IfAllowed")}


def test_refusals() -> None:
    _, desk = asks(NO_PLAN, (401, b"<html>"), (403, {"error": "unknown_operator"}), (404, b"<html>"), (200, b"hello"))
    with pytest.raises(NoSuchPlan):
        desk.show(ID)
    with pytest.raises(Refused, match="unauthorized.*ask the administrator"):
        desk.status()
    with pytest.raises(Refused, match="unknown_operator"):
        desk.plans()
    with pytest.raises(BadAnswer):
        desk.status()
    with pytest.raises(BadAnswer):
        desk.status()


def test_a_refusal_names_the_volume() -> None:
    _, desk = asks((400, {"error": "bad_volume"}))
    with pytest.raises(Refused) as refused:
        desk.plan(ID, [AREA[0], Volume(("04",), 0, 300_000, 0, 1)])
    assert refused.value.fault
    assert (refused.value.fault.volume, refused.value.fault.member) == (1, "volume.altitude_upper")


def test_a_refusal_is_told_once() -> None:
    _, desk = asks((400, {"error": "bad_volume"}), (403, {"error": "unknown_operator"}))
    with pytest.raises(Refused) as refused:
        desk.plan(ID, [Volume(("x",), 0, 1, 0, 1)])
    assert str(refused.value) == (
        "400 bad_volume: volume 0: volume.cells[0]: the token of an S2 cell, 1 to 16 hex digits"
    )
    with pytest.raises(Refused) as refused:
        desk.plan(ID, AREA)
    assert (
        str(refused.value) == "403 unknown_operator: the operator isn't enrolled: ask the administrator of the desk"
    )


def test_a_closed_plan_is_not_changed() -> None:
    closed = (200, {**SHOWN[1], "flight_plan_status": "Closed", "usage_state": "Closed"})
    refused = (200, {"flight_plan_status": "Closed", "notes": "closed", "planning_result": "Rejected"})
    server, desk = asks(closed, refused)
    assert desk.change(ID, priority=5).note == "closed"
    assert json.loads(server.asked[1][3])["flight_plan"]["basic_information"]["usage_state"] == "Planned"


def test_a_change_in_use_stays_so_and_is_nominal() -> None:
    server, desk = asks(
        (200, {**SHOWN[1], "flight_plan_status": "OffNominal", "usage_state": "InUse", "uas_state": "OffNominal"}),
        DONE,
    )
    desk.change(ID, priority=5)
    assert json.loads(server.asked[1][3]) == put_body(AREA, "InUse", "Nominal", 5, "IfAllowed")


def test_a_malformed_put_that_was_lost_is_put_again() -> None:
    server, desk = asks((502, b""), SHOWN, (400, {"error": "bad_member"}))
    with pytest.raises(Refused, match="flight_plan"):
        desk.put(ID, {"execution_style": "IfAllowed"})
    assert server.methods == ["PUT", "GET", "PUT"]


def test_a_lost_put_that_is_refused_then_is_an_answer() -> None:
    server, desk = asks((504, b""), NO_PLAN, BLOCKED)
    answer = desk.plan(ID, AREA, 10)
    assert (answer.note, answer.was_lost, server.methods) == ("conflict", True, ["PUT", "GET", "PUT"])


def test_a_lost_put_of_a_plan_with_a_conflict_is_put_again() -> None:
    blocked = (200, {**SHOWN[1], "conflict": BLOCKED[1]["conflict"]})
    server, desk = asks(HANG_UP, blocked, BLOCKED)
    answer = desk.plan(ID, AREA, 10)
    assert (answer.note, answer.was_lost, server.methods) == ("conflict", True, ["PUT", "GET", "PUT"])


def test_a_close_by_put_that_was_lost_is_seen() -> None:
    closed = (200, {**SHOWN[1], "flight_plan_status": "Closed", "usage_state": "Closed", "priority": 3})
    server, desk = asks(HANG_UP, closed)
    assert desk.put(ID, put_body(AREA, "Closed", "Nominal", 10, "IfAllowed")).status == "Closed"


def test_a_dry_run_without_an_answer_changed_nothing() -> None:
    _, desk = asks(*[(502, b"")] * 1_000, patience=0.2)
    with pytest.raises(NoAnswer, match="nothing was changed"):
        desk.try_plan(AREA)


@pytest.mark.parametrize(
    "value",
    [
        [],
        {},
        "x",
        {"status": 1, "flight_plans": [{}], "planning_result": "Completed"},
        {"outcome": {"message": "none"}, "flight_plans": 5, "area": [{}]},
        {"outcome": {"message": ""}},
        {"outcome": 1},
    ],
)
def test_answers_of_another_server(value: Any) -> None:
    _, desk = asks(*[(200, value)] * 5)
    calls: tuple[Callable[[], Any], ...] = (
        lambda: desk.plan(ID, AREA),
        lambda: desk.close(ID),
        lambda: desk.show(ID),
        desk.plans,
        lambda: desk.clear(AREA),
    )
    for call in calls:
        with pytest.raises(BadAnswer):
            call()


@pytest.mark.parametrize("words", [("desk.example",), ("ftp://x",), ("http://x?y",)])
def test_no_urls(words: tuple[str, ...]) -> None:
    with pytest.raises(ValueError):
        Desk(*words, operator="alfa")
    with pytest.raises(ValueError):
        Desk("http://x")


OTHER_HOSTS = [
    "http://desk.example",
    "http://192.0.2.1:8081",
    "HTTP://LOCALHOST.EXAMPLE",
    "http://[2001:db8::1]/desk",
]
THIS_MACHINE = ["http://localhost:8081", "http://LOCALHOST", "http://127.0.0.2:8081", "http://[::1]:8081"]


@pytest.mark.parametrize("url", OTHER_HOSTS)
def test_a_password_is_refused_over_http(url: str) -> None:
    with pytest.raises(ValueError) as refused:
        Desk(url, user="alfa", password="secret")
    host = urlsplit(url).hostname
    assert str(refused.value) == f"a password is sent to {host} over https alone: http can be read on its way"


@pytest.mark.parametrize("url", [*THIS_MACHINE, "https://desk.example"])
def test_a_password_is_taken_over_https_and_at_this_machine(url: str) -> None:
    Desk(url, user="alfa", password="secret")


def test_what_stands_is_told_from_what_does_not() -> None:
    stored = Plan.from_answer(SHOWN[1])
    body = put_body(AREA, "Planned", "Nominal", 10, "IfAllowed")
    assert is_as_put(stored, body)
    assert is_as_put(
        stored,
        put_body([Volume(("0400",), 0, 1_000, 1_780_315_200, 1_780_318_800)], "Planned", "Nominal", 10, "IfAllowed"),
    )
    for other in (
        put_body(AREA, "InUse", "Nominal", 10, "IfAllowed"),
        put_body(AREA, "Planned", "Nominal", 0, ""),
        put_body(AREA * 2, "Planned", "Nominal", 10, ""),
        put_body(AREA, "Closed", "Nominal", 10, ""),
    ):
        assert not is_as_put(stored, other)


def test_requests_are_logged_and_the_password_isnt(caplog: pytest.LogCaptureFixture) -> None:
    _, desk = asks((502, {}), DONE, operator=None, user="alfa", password="secret")
    with caplog.at_level(logging.DEBUG, "uss_desk_client"):
        desk.try_plan(AREA, plan_id=ID)
    assert [record.message for record in caplog.records] == [
        f"PUT /flight_plans/{ID}: 502",
        f"PUT /flight_plans/{ID}: 200",
    ]
    assert "secret" not in caplog.text and "c2VjcmV0" not in caplog.text


def test_threads_share_a_desk() -> None:
    _, desk = asks(*[(200, {"status": "Ready"})] * 40)
    with concurrent.futures.ThreadPoolExecutor(8) as threads:
        assert list(threads.map(lambda _: desk.status(), range(40))) == ["Ready"] * 40


def test_every_refusal_is_one_error() -> None:
    _, desk = asks(BLOCKED)
    with pytest.raises(DeskError) as refused:
        desk.plan(ID, AREA).demand()
    assert isinstance(refused.value, NotTaken) and refused.value.answer.note == "conflict"
