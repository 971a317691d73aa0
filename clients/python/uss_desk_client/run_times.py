"""The commands that take their time: when, watch."""
from __future__ import annotations

import time
from typing import Any, Callable, List

from uss_desk_client.desk import NoAnswer
from uss_desk_client.areas import Volume
from uss_desk_client.flights import area_asked, times_of, with_times
from uss_desk_client.free import Search, Window
from uss_desk_client.notifying import Notifier
from uss_desk_client.options import desk_of
from uss_desk_client.printing import DESK, DONE, REFUSED, print_json, warn
from uss_desk_client.units import time_text
from uss_desk_client.watching import LEAST_EVERY, Change
from uss_desk_client.why import usage_of

TELL_EACH = 5.0
"""Seconds between two lines on how far a search is."""


def run_when(asked: Any) -> int:
    if asked.minutes <= 0 or asked.step < 1:
        raise ValueError("--minutes is above 0, and --step at least a second")
    bounds = times_of(asked)
    area = within_minutes(asked, bounds)
    desk = desk_of(asked)
    found = desk.find_free(
        area,
        (bounds.start, bounds.end),
        asked.step,
        priority=asked.priority,
        plan_id=asked.id,
        usage=usage_of(desk, asked.id),
        progress=teller(),
    )
    say_search(asked, bounds, found)
    if asked.json:
        print_json(search_json(found))
    else:
        for window in found.windows:
            print(window)
    return DONE if found.windows else REFUSED


def within_minutes(asked: Any, bounds: Window) -> List[Volume]:
    """The flight's area, as long as the flight takes."""
    end = bounds.start + round(asked.minutes * 60)
    return area_asked(with_times(asked, time_text(bounds.start), time_text(end)))


def teller() -> Callable[[Search], None]:
    """What says each five seconds how far a search is."""
    told_at = [time.monotonic()]

    def progress(found: Search) -> None:
        if time.monotonic() - told_at[0] >= TELL_EACH:
            told_at[0] = time.monotonic()
            count = len(found.windows)
            warn(f"{found.requests} requests, {found.decided:.0%} of the time decided, {count} free times until now")

    return progress


def say_search(asked: Any, bounds: Window, found: Search) -> None:
    """Says on standard error what isn't a free time."""
    if found.within != bounds:
        warn(f"searched from {time_text(found.within.start)} to {time_text(found.within.end)}")
    for own in found.own:
        warn(f"your own plan blocks too: {own.plan_id} ({own.status}, priority {own.priority}), {own.window}")
    if not found.is_whole:
        warn(f"only {found.decided:.0%} of the time is decided after {found.requests} requests: search less time")
    if not found.windows:
        warn(f"no free time of {asked.minutes:g} minutes, by {found.requests} requests")


def search_json(found: Search) -> Any:
    def told(window: Window) -> Any:
        return {"start": time_text(window.start), "end": time_text(window.end)}

    own = [{"flight_plan_id": it.plan_id, "priority": it.priority, **told(it.window)} for it in found.own]
    windows = [told(window) for window in found.windows]
    return {"windows": windows, "own": own, "requests": found.requests, "is_whole": found.is_whole}


def run_watch(asked: Any) -> int:
    """Looks again and again; after the last look the status says whether somebody is planned over a plan, or whether
    that look wasn't answered."""
    if asked.every < LEAST_EVERY:
        raise ValueError(f"--every is at least {LEAST_EVERY:g} s: a proxy lets twelve Lists a minute through")
    watch, notifier = desk_of(asked).watching(), Notifier(asked.exec, asked.webhook)
    looks, is_blocked = 0, False
    while True:
        next_look, is_last, is_answered = time.monotonic() + asked.every, looks + 1 == asked.looks, True
        try:
            changes = watch.look()
        except NoAnswer as lost:
            warn(f"no look at the plans ({lost.last})" + ("" if is_last else f"; looking again in {asked.every:g} s"))
            changes, is_answered = [], False
        is_blocked = is_blocked or any(change.is_blocked for change in changes)
        say_changes(asked, changes)
        for wrong in notifier.tell(changes):
            warn(wrong)
        looks += 1
        if is_last:
            return REFUSED if is_blocked else DONE if is_answered else DESK
        time.sleep(max(0.0, next_look - time.monotonic()))


def say_changes(asked: Any, changes: List[Change]) -> None:
    for change in changes:
        if asked.json:
            print_json(change.to_json())
        else:
            print(f"{time_text(int(time.time()))}  {change}", flush=True)
