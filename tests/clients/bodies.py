"""Random bodies of PUTs and clears, most of them nearly right: one seed, the same bodies."""

from __future__ import annotations

import copy
import json
from collections.abc import Callable, Iterator
from random import Random
from typing import Any

from harness.requests import MOMENT, Json, plan, volume
from uss_desk_client.units import time_text

TOKENS = ["04", "1", "3", "5", "b", "0000000000000001", "478fc2d07ff", "89C25", "478fc2d07fc", "bfffffffffffffff"]
ODD_TOKENS = ["", "0", "c", "x", "00000000000000001", "1 ", "7f", "478fc2d07fe", "2", "\u0661", "8", "0x1", "+1"]
ODD_VALUES: list[Any] = [
    None,
    True,
    False,
    0,
    1,
    -1,
    "",
    "x",
    [],
    {},
    [[]],
    0.5,
    10.0,
    1e1,
    2**63 - 1,
    2**63,
    -(2**63),
    -(2**63) - 1,
    2**64,
    10**30,
    -0.0,
    "10",
    ["04"],
    {"cells": ["04"]},
]
WORDS = [
    "Hypothetical",
    "IfAllowed",
    "InReality",
    "Planned",
    "InUse",
    "Closed",
    "Nominal",
    "OffNominal",
    "Contingent",
    "NotSpecified",
    "planned",
    "RFC3339",
    "RFC 3339",
]
TIMES = [
    "2026-06-01T12:00:00Z",
    "2026-06-01t12:00:00z",
    "2026-06-01T12:00:00.000Z",
    "2026-06-01T12:00:00.5Z",
    "2026-06-01T12:00:00+00:00",
    "2026-06-01T12:00:00-00:00",
    "2026-06-01T14:00:00+02:00",
    "2026-02-29T12:00:00Z",
    "2028-02-29T12:00:00Z",
    "2026-06-01T24:00:00Z",
    "2026-06-01T23:59:60Z",
    "2026-06-01 12:00:00Z",
    "1969-12-31T23:59:59Z",
    "1969-12-31T23:59:59.5Z",
    "0000-01-01T00:00:00Z",
    "9998-12-31T23:59:59Z",
    "9998-12-31T23:59:59.5Z",
    "9999-12-31T23:59:59-23:59",
    "2026-06-01T12:00:00+24:00",
    "2026-06-01T12:00:00+23:60",
    "2026-06-01T12:00Z",
    "2026-06-01T12:00:00.Z",
    "2026-06-01T12:00:00",
    "2026-06-01T12:00:00." + "0" * 43 + "Z",
    "2026-06-01T12:00:00." + "0" * 44 + "Z",
    "2026-13-01T12:00:00Z",
    "2026-06-31T12:00:00Z",
    "2O26-06-01T12:00:00Z",
    "+026-06-01T12:00:00Z",
    "2026-06-01T1\u0662:00:00Z",
    "1970-01-01T00:00:00Z",
    "2026-06-01T12:00:00.10Z",
]
ALTITUDES = [-10_001, -10_000, -1, 0, 1, 600, 1_200, 199_999, 200_000, 200_001]
SECONDS = [
    MOMENT,
    MOMENT + 1,
    MOMENT - 1,
    MOMENT + 86_400,
    MOMENT + 86_401,
    MOMENT + 2_592_000,
    MOMENT + 2_592_001,
    MOMENT + 2_592_000 + 86_400,
    0,
    MOMENT + 3_600,
]
MARKS = [
    b"{",
    b"}",
    b"[",
    b"]",
    b",",
    b":",
    b'"',
    b"\\",
    b"\\u0041",
    b"\\ud800",
    b"\\ud83d\\ude00",
    b"\x00",
    b"\xff",
    b"\xc3\xa9",
    b"0",
    b"-0",
    b"1e400",
    b"1E2",
    b"-",
    b".5",
    b"NaN",
    b"null",
    b" ",
    b"\n",
    b"\xef\xbb\xbf",
    b"/",
]


def random_rectangle(some: Random) -> Json:
    """A rectangle, small or large, sometimes with an odd member."""
    level = some.choice([8, 9, 10, 12, 16, 20, 24, 7, 25])
    side = 1 << (30 - max(8, min(level, 24)))
    i, j = (some.randrange(2**30) for _ in range(2))
    reach = [some.choice([0, 1, 3, 17, 100, 400, 700]) * side for _ in range(2)]
    made = {
        "face": some.randrange(7),
        "i_min": i,
        "i_max": min(i + reach[0], 2**30 - 1),
        "j_min": j,
        "j_max": min(j + reach[1], 2**30 - some.choice([0, 1, 1, 1])),
        "level": level,
    }
    if some.random() < 0.5:
        made["face"] = some.randrange(6)
    return made


def random_volume(some: Random) -> Json:
    """A volume that is well formed, but for a rectangle."""
    start = some.choice(SECONDS) if some.random() < 0.2 else MOMENT + some.randrange(1, 2_000_000)
    shape: Json
    if some.random() < 0.75:
        shape = {"cells": [some.choice(TOKENS) for _ in range(some.choice([1, 1, 2, 3, 64]))]}
    else:
        shape = {"rectangle": random_rectangle(some)}
    end = start + some.choice([1, 3_600, 3_600, 86_400, 86_401])
    return volume(shape, 600, 1_200, time_text(start), time_text(end))


def random_put(some: Random) -> Json:
    """The body of a PUT."""
    style = some.choice(["IfAllowed", "IfAllowed", "IfAllowed", "Hypothetical", "InReality"])
    usage = some.choice(["Planned", "Planned", "Planned", "InUse", "Closed"])
    aircraft = some.choice([*["Nominal"] * 3, "OffNominal", "Contingent"])
    area = [random_volume(some) for _ in range(some.choice([1, 1, 1, 2, 3]))]
    made = plan(area, None, style, usage, aircraft)
    if some.random() < 0.8:
        priority = some.choice([0, 10, 50, 100, 101, 1_000, 1_001, None])
        made["flight_plan"]["astm_f3548_21"] = {"priority": priority}
    return made


def random_clear(some: Random) -> Json:
    """The body of a clear."""
    return {"request_id": "r", "extent": random_volume(some)}


def places(value: Any, path: tuple[Any, ...] = ()) -> Iterator[tuple[Any, ...]]:
    """The paths of all members and items of a value."""
    if path:
        yield path
    items = value.items() if isinstance(value, dict) else enumerate(value) if isinstance(value, list) else ()
    for name, part in items:
        yield from places(part, (*path, name))


def odd_value(some: Random, name: object) -> Any:
    """A value in the place of a member's or an item's."""
    if name in ("altitude_lower", "altitude_upper") and some.random() < 0.7:
        return some.choice(ALTITUDES)
    if name == "value" and some.random() < 0.85:
        return some.choice(TIMES)
    if isinstance(name, int) and some.random() < 0.6:
        return some.choice(ODD_TOKENS)
    if name in ("usage_state", "uas_state", "execution_style", "format") and some.random() < 0.7:
        return some.choice(WORDS)
    if name == "area" and some.random() < 0.8:
        return [random_volume(some) for _ in range(some.choice([0, 31, 32, 33]))]
    if name == "cells" and some.random() < 0.8:
        return [some.choice(TOKENS) for _ in range(some.choice([0, 64, 65]))]
    return copy.deepcopy(some.choice(ODD_VALUES))


def spoil(some: Random, value: Json) -> None:
    """Changes, removes or adds one member somewhere."""
    path = some.choice(list(places(value)))
    holder = value
    for name in path[:-1]:
        holder = holder[name]
    name = path[-1]
    act = some.random()
    if act < 0.15:
        del holder[name]
    elif act < 0.22 and isinstance(holder, dict):
        holder[some.choice(["cells", "rectangle", "priority", "area"])] = copy.deepcopy(some.choice(ODD_VALUES))
    else:
        holder[name] = odd_value(some, name)


def spoil_bytes(some: Random, data: bytes) -> bytes:
    """Puts in, removes or doubles some bytes."""
    at = some.randrange(len(data))
    act = some.random()
    if act < 0.55:
        return data[:at] + some.choice(MARKS) + data[at:]
    if act < 0.8:
        return data[:at] + data[at + some.choice([1, 1, 2, 9]) :]
    if act < 0.9:
        deep = some.choice([1, 120, 126, 127, 128, 5_000])
        return b'{"x":' + b"[" * deep + b"]" * deep + b"," + data[1:]
    return data[:at]


def body(some: Random, make: Callable[[Random], Json]) -> bytes:
    """The bytes of one body."""
    value = make(some)
    for _ in range(some.choice([0, 0, 1, 1, 1, 1, 2, 2, 3])):
        spoil(some, value)
    data = json.dumps(value, ensure_ascii=some.random() < 0.5, indent=some.choice([None, None, 1])).encode()
    return spoil_bytes(some, data) if some.random() < 0.2 else data


def bodies(seed: int, count: int) -> Iterator[tuple[str, bytes]]:
    """Each a method, PUT or POST, and a body."""
    some = Random(seed)
    for _ in range(count):
        is_put = some.random() < 0.85
        yield ("PUT" if is_put else "POST"), body(some, random_put if is_put else random_clear)
