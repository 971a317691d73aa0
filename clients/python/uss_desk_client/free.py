"""When an area is free: found out by Hypothetical PUTs over parts of a time, which store nothing.

The whole time is asked first. Where it is blocked it is cut in halves, the later one first; a part that holds a blocked
moment already known isn't asked whole again, and one in which the flight can't fit any more isn't asked at all.
"""
from __future__ import annotations

import bisect
import time
from dataclasses import dataclass, replace
from datetime import datetime
from typing import Callable, Iterator, List, Optional, Protocol, Sequence, Tuple

from uss_desk_client.answers import Answer, Conflict, Plan
from uss_desk_client.areas import AreaError, Volume, days_of
from uss_desk_client.grid import share_a_point
from uss_desk_client.limits import MAX_AHEAD, MAX_VOLUMES
from uss_desk_client.units import Time, datetime_of, second_down, second_up, time_text

STEP = 60
"""Seconds: how exactly the ends of a free time are found."""
MOST_REQUESTS = 600
"""PUTs of one search."""
AT_ONCE, A_SECOND = 100, 10.0
"""How many PUTs are asked without a pause, and how many a second after that: half of what deploy/nginx.conf permits."""


class Asked(Protocol):
    """What a search asks of a desk."""

    def try_plan(
        self, area: Sequence[Volume], priority: int = 0, plan_id: Optional[str] = None, usage: str = "Planned"
    ) -> Answer:
        """What the desk would answer to a plan."""

    def plans(self) -> List[Plan]:
        """The operator's plans."""


@dataclass(frozen=True)
class Window:
    """A time: the seconds from `start` up to `end`, which isn't in it."""

    start: int
    end: int

    @property
    def start_time(self) -> datetime:
        return datetime_of(self.start)

    @property
    def end_time(self) -> datetime:
        return datetime_of(self.end)

    def __str__(self) -> str:
        return f"{time_text(self.start)} {time_text(self.end)}"


@dataclass(frozen=True)
class Own:
    """A plan of the operator's own that shares a point with the area, and when it is there."""

    plan_id: str
    status: str
    priority: int
    window: Window


@dataclass(frozen=True)
class Search:
    """What a search has found until now."""

    within: Window
    """What is searched: not before this moment, nor further ahead than the desk plans."""
    windows: Tuple[Window, ...]
    """The free times in which the flight fits, ascending. While the search goes on they may still grow."""
    own: Tuple[Own, ...]
    """The operator's own live plans in the area and the time. They block like those of others."""
    requests: int
    """How many PUTs were asked."""
    decided: float
    """The share of the time that is decided, 0 to 1."""
    conflict: Optional[Conflict]
    """What the last request was refused for; None if it was free."""
    is_done: bool
    """Nothing more is asked."""
    is_whole: bool
    """All of the time was decided. A search that ended because of its number of requests is done, and not whole."""


class Slots:
    """A time in steps, by their numbers: which are free, which are blocked, which are still to be asked."""

    def __init__(self, part: Window, step: int, length: int) -> None:
        self._part, self._step = part, step
        self._count, self._needed = max(0, part.end - part.start) // step, max(1, -(-length // step))
        self._waiting = [(0, self._count)] if self._count else []
        self._asked = (0, 0)
        self._settled = 0
        self._blocked: List[int] = []
        self._free: List[Tuple[int, int]] = []

    @property
    def decided(self) -> float:
        """The share of the time that is decided."""
        return self._settled / self._count if self._count else 1.0

    @property
    def is_whole(self) -> bool:
        """Whether nothing is left to be asked."""
        return not self._waiting

    def next_unknown(self, can_ask: Callable[[Window], bool]) -> Optional[Window]:
        """The next part to ask for; None if all is decided. What is blocked, or too long to ask, is cut in halves."""
        while self._waiting:
            begin, end = self._waiting.pop()
            if not self._may_hold(begin, end):
                self._settled += end - begin
            elif self._is_blocked_in(begin, end) or not can_ask(self._window(begin, end)):
                self._cut(begin, end)
            else:
                self._asked = begin, end
                return self._window(begin, end)
        return None

    def learn(self, blocked: Optional[int]) -> None:
        """What the part that was asked is: free, or blocked at a second."""
        begin, end = self._asked
        if blocked is None:
            self._free.append((begin, end))
            self._settled += end - begin
        else:
            bisect.insort(self._blocked, (blocked - self._part.start) // self._step)
            self._cut(begin, end)

    def windows(self) -> Tuple[Window, ...]:
        """The free times in which the flight fits."""
        runs: List[Tuple[int, int]] = []
        for begin, end in sorted(self._free):
            if runs and runs[-1][1] == begin:
                begin = runs.pop()[0]
            runs.append((begin, end))
        return tuple(self._window(begin, end) for begin, end in runs if end - begin >= self._needed)

    def _window(self, begin: int, end: int) -> Window:
        return Window(self._part.start + begin * self._step, self._part.start + end * self._step)

    def _cut(self, begin: int, end: int) -> None:
        """The later half is asked first."""
        middle = (begin + end) // 2
        if middle == begin:
            self._settled += 1
        else:
            self._waiting += [(begin, middle), (middle, end)]

    def _is_blocked_in(self, begin: int, end: int) -> bool:
        """Whether a slot of a part is known to be blocked."""
        at = bisect.bisect_left(self._blocked, begin)
        return at < len(self._blocked) and self._blocked[at] < end

    def _may_hold(self, begin: int, end: int) -> bool:
        """Whether the flight may still fit into a time that has a slot of this part."""
        at, after = bisect.bisect_left(self._blocked, begin), bisect.bisect_left(self._blocked, end)
        before = self._blocked[at - 1] if at else -1
        beyond = self._blocked[after] if after < len(self._blocked) else self._count
        stops = [before, *self._blocked[at:after], beyond]
        return any(later - earlier - 1 >= self._needed for earlier, later in zip(stops, stops[1:]))


class Pace:
    """Waits, so that no more requests are asked than a proxy lets through."""

    def __init__(self, at_once: int = AT_ONCE, a_second: float = A_SECOND) -> None:
        self._left, self._rate, self._since = float(at_once), a_second, time.monotonic()
        self._most = float(at_once)

    def wait(self) -> None:
        now = time.monotonic()
        self._left = min(self._most, self._left + (now - self._since) * self._rate)
        self._since = now
        if self._left < 1:
            time.sleep((1 - self._left) / self._rate)
        self._left -= 1


def searches(
    desk: Asked,
    area: Sequence[Volume],
    within: Tuple[Time, Time],
    step: int = STEP,
    *,
    priority: int = 0,
    plan_id: Optional[str] = None,
    usage: str = "Planned",
    most: int = MOST_REQUESTS,
    moment: Optional[Time] = None,
) -> Iterator[Search]:
    """What `Desk.find_free` finds, request by request: whoever takes no further one stops the asking. The first is
    known before anything is asked but the operator's plans; the last one is done. Errors as of `Desk.find_free`."""
    wanted = footprints_of(area)
    part = in_reach(Window(second_down(within[0]), second_up(within[1])), step, moment)
    slots = Slots(part, step, length_of(area))
    found = Search(part, (), own_in(desk.plans(), wanted, part, plan_id), 0, 0.0, None, False, False)
    yield found
    pace = Pace()
    while found.requests < most:
        window = slots.next_unknown(lambda one: len(area_in(wanted, one)) <= MAX_VOLUMES)
        if window is None:
            break
        pace.wait()
        answer = desk.try_plan(area_in(wanted, window), priority, plan_id, usage)
        slots.learn(None if answer.is_completed else conflict_of(answer).second)
        requests, windows = found.requests + 1, slots.windows()
        found = replace(found, windows=windows, requests=requests, decided=slots.decided, conflict=answer.conflict)
        yield found
    yield replace(found, decided=slots.decided, is_done=True, is_whole=slots.is_whole)


def conflict_of(answer: Answer) -> Conflict:
    """The conflict for which a plan would be refused; a NotTaken if it is for another reason."""
    if answer.conflict is None:
        answer.demand()
        raise AreaError("the desk refuses a part of the time without a conflict")
    return answer.conflict


def footprints_of(area: Sequence[Volume]) -> List[Volume]:
    """The volumes of an area without their times, each once."""
    if not area:
        raise AreaError("the area has no volume")
    return list(dict.fromkeys(replace(volume, start=0, end=1) for volume in area))


def length_of(area: Sequence[Volume]) -> int:
    """The seconds from the first start to the last end."""
    return max(volume.end for volume in area) - min(volume.start for volume in area)


def area_in(wanted: Sequence[Volume], window: Window) -> List[Volume]:
    """The volumes over a time, each of at most a day."""
    days = days_of(window.start, window.end)
    return [replace(volume, start=start, end=end) for volume in wanted for start, end in days]


def in_reach(window: Window, step: int, moment: Optional[Time]) -> Window:
    """The part of a time that a desk plans: after this moment, at most thirty days ahead, in whole steps."""
    if step < 1:
        raise AreaError(f"a step of {step} s isn't at least a second")
    if window.start >= window.end:
        raise AreaError(f"the time from {time_text(window.start)} to {time_text(window.end)} is empty")
    now = int(time.time()) if moment is None else second_up(moment)
    start = window.start + max(0, -(-(now - window.start) // step)) * step
    end = min(window.end, now + MAX_AHEAD)
    return Window(start, max(start, start + (end - start) // step * step))


def own_in(
    plans: Sequence[Plan], wanted: Sequence[Volume], window: Window, plan_id: Optional[str]
) -> Tuple[Own, ...]:
    """The live plans in an area and a time, but for one of them."""
    if window.start >= window.end:
        return ()
    asked = [replace(volume, start=window.start, end=window.end) for volume in wanted]
    found = [plan for plan in plans if plan.is_live and plan.plan_id != plan_id and share_a_point(plan.area, asked)]
    return tuple(
        Own(
            plan.plan_id,
            plan.status,
            plan.priority,
            Window(min(volume.start for volume in plan.area), max(volume.end for volume in plan.area)),
        )
        for plan in found
    )
