"""Free times, at a desk of some blocked seconds: all of them, none else, by few requests."""
import random
import time
from collections.abc import Sequence
from typing import Optional

import pytest

from uss_desk_client.answers import Answer, Conflict, NotTaken, Plan
from uss_desk_client.areas import AreaError, Volume
from uss_desk_client.free import Pace, Search, Window, searches

DAY = 1_780_272_000
"""2026-06-01T00:00:00Z."""
HOUR = 3_600
Spans = Sequence[tuple[int, int]]


@pytest.fixture(autouse=True)
def clock(monkeypatch: pytest.MonkeyPatch) -> list[float]:
    """A clock that sleeping alone moves on, so that the pauses of a search take no time; its seconds."""
    seconds = [0.0]
    monkeypatch.setattr(time, "monotonic", lambda: seconds[0])
    monkeypatch.setattr(time, "sleep", lambda pause: seconds.__setitem__(0, seconds[0] + pause))
    return seconds


def flight(minutes: int = 15) -> list[Volume]:
    return [Volume(("04",), 600, 1_200, DAY, DAY + 60 * minutes)]


class Blocked:
    """A desk at which all that has a second of some times is blocked, at the first or some of these seconds."""

    def __init__(self, blocked: Spans, plans: Sequence[Plan] = (), some: Optional[random.Random] = None) -> None:
        self._blocked, self._plans, self._some = blocked, plans, some
        self.asked: list[tuple[int, int]] = []

    def plans(self) -> list[Plan]:
        return list(self._plans)

    def try_plan(
        self, area: Sequence[Volume], priority: int = 0, plan_id: Optional[str] = None, usage: str = "Planned"
    ) -> Answer:
        assert len(area) <= 32 and all(volume.end - volume.start <= 86_400 for volume in area)
        begin, end = min(volume.start for volume in area), max(volume.end for volume in area)
        self.asked.append((begin, end))
        met = [(max(begin, low), min(end, high)) for low, high in self._blocked if low < end and begin < high]
        if not met:
            return Answer("Completed", "Planned")
        low, high = self._some.choice(met) if self._some else met[0]
        second = self._some.randrange(low, high) if self._some else low
        return Answer("Rejected", "NotPlanned", "conflict", Conflict("0" * 15 + "1", 600, second, 10))


def find(desk: Blocked, begin: int, end: int, area: Optional[list[Volume]] = None, **words: int) -> Search:
    given = {"moment": DAY - HOUR, **words}
    return list(searches(desk, area or flight(), (begin, end), **given))[-1]  # type: ignore[arg-type]


def windows(found: Search) -> list[tuple[int, int]]:
    return [(window.start, window.end) for window in found.windows]


def by_hand(blocked: Spans, begin: int, end: int, needed: int) -> list[tuple[int, int]]:
    """The free times between two seconds, by going through them."""
    found, at = [], begin
    for low, high in sorted(blocked):
        if low - at >= needed:
            found.append((at, low))
        at = max(at, high)
    return [*found, (at, end)] if end - at >= needed else found


def test_a_free_day_is_one_request() -> None:
    desk = Blocked([])
    found = find(desk, DAY, DAY + 24 * HOUR)
    assert windows(found) == [(DAY, DAY + 24 * HOUR)] and desk.asked == windows(found)
    assert (found.requests, found.decided, found.is_done, found.is_whole) == (1, 1.0, True, True)


def test_one_flight_at_noon() -> None:
    desk = Blocked([(DAY + 12 * HOUR, DAY + 13 * HOUR)])
    found = find(desk, DAY, DAY + 24 * HOUR)
    assert windows(found) == [(DAY, DAY + 12 * HOUR), (DAY + 13 * HOUR, DAY + 24 * HOUR)]
    assert found.requests <= 30


def test_a_day_that_is_blocked_whole() -> None:
    found = find(Blocked([(DAY, DAY + 24 * HOUR)]), DAY, DAY + 24 * HOUR)
    # 96 quarters of an hour, in each of which some blocked second has to be seen
    assert windows(found) == [] and found.is_whole and 96 <= found.requests <= 192


@pytest.mark.parametrize("seed", range(60))
def test_all_free_times_and_no_others(seed: int) -> None:
    some = random.Random(seed)
    blocked, at = [], DAY
    for _ in range(some.randrange(0, 12)):
        at += 60 * some.randrange(1, 150)
        blocked.append((at, at + 60 * some.randrange(1, 150)))
        at = blocked[-1][1]
    begin, end = DAY + 60 * some.randrange(0, 500), DAY + 86_400 + 60 * some.randrange(0, 500)
    desk = Blocked(blocked, some=some if seed % 2 else None)
    found = find(desk, begin, end)
    met = [(max(begin, low), min(end, high)) for low, high in blocked if low < end and begin < high]
    assert windows(found) == by_hand(met, begin, end, 900)
    assert found.is_whole and found.requests == len(desk.asked) <= 30 + 40 * len(blocked)


def test_a_gap_of_just_the_length_is_found_and_a_shorter_one_isnt() -> None:
    noon = DAY + 12 * HOUR
    for gap, wanted in ((900, [(noon, noon + 900)]), (840, [])):
        found = find(Blocked([(DAY, noon), (noon + gap, DAY + 24 * HOUR)]), DAY, DAY + 24 * HOUR)
        assert windows(found) == wanted


def test_thirty_days_are_asked_in_parts_of_at_most_32_volumes() -> None:
    two = [Volume(("04",), 600, 1_200, DAY, DAY + 900), Volume(("0c",), 600, 1_200, DAY + 900, DAY + 1_800)]
    found = find(Blocked([]), DAY, DAY + 29 * 24 * HOUR, two)
    assert windows(found) == [(DAY, DAY + 29 * 24 * HOUR)] and found.requests == 2


def test_what_is_over_and_what_is_too_far_ahead_isnt_asked() -> None:
    desk = Blocked([])
    found = find(desk, DAY, DAY + 40 * 86_400, moment=DAY + 90)
    assert found.within == Window(DAY + 120, DAY + 120 + 2_592_000 - 60)
    assert min(desk.asked)[0] == DAY + 120
    assert windows(find(Blocked([]), DAY, DAY + HOUR, moment=DAY + 2 * HOUR)) == []


def test_own_plans_are_told_apart_and_no_request_is_over_the_limit() -> None:
    def plan(name: str, usage: str, cell: str) -> Plan:
        area = (Volume((cell,), 0, 10_000, DAY + 12 * HOUR, DAY + 13 * HOUR),)
        return Plan(name, "Planned", usage, "Nominal", 5, area, None)

    plans = [
        plan("a", "Planned", "04"),
        plan("b", "Closed", "04"),
        plan("c", "Planned", "0c"),
        plan("d", "InUse", "04"),
    ]
    desk = Blocked([(DAY + 12 * HOUR, DAY + 13 * HOUR)], plans)
    found = list(searches(desk, flight(), (DAY, DAY + 86_400), plan_id="d", most=5, moment=DAY))[-1]
    assert [(own.plan_id, own.window) for own in found.own] == [("a", Window(DAY + 12 * HOUR, DAY + 13 * HOUR))]
    assert found.requests == len(desk.asked) == 5
    assert (found.is_done, found.is_whole) == (True, False) and found.decided < 1


def test_each_request_is_told_and_whoever_stops_asks_no_more() -> None:
    desk = Blocked([(DAY + 12 * HOUR, DAY + 13 * HOUR)])
    steps = searches(desk, flight(), (DAY, DAY + 86_400), moment=DAY)
    assert [next(steps).requests for _ in range(4)] == [0, 1, 2, 3] and len(desk.asked) == 3


def test_another_refusal_than_a_conflict_ends_it() -> None:
    class Low(Blocked):
        def try_plan(self, *_: object, **__: object) -> Answer:
            return Answer("Rejected", "NotPlanned", "priority")

    with pytest.raises(NotTaken, match="above the operator's ceiling"):
        find(Low([]), DAY, DAY + 86_400)


@pytest.mark.parametrize("begin, end, step", [(DAY, DAY, 60), (DAY, DAY + 1, 0)])
def test_times_that_are_none(begin: int, end: int, step: int) -> None:
    with pytest.raises(AreaError):
        list(searches(Blocked([]), flight(), (begin, end), step, moment=DAY))


def test_the_pace_is_half_of_what_the_proxy_lets_through(clock: list[float]) -> None:
    pace = Pace()
    for _ in range(600):
        pace.wait()
    # a burst of 100, and 500 more at ten a second
    assert clock[0] == pytest.approx(50, abs=0.2)
