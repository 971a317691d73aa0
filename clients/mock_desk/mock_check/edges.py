"""Requests at each limit, one after the other: bodies in which one thing is at its limit, past it, or spelled oddly.

A time may have the mark @ where a fraction can stand: it is the start of a volume, and with half a second more its end,
so that whoever takes it by mistake finds a volume with nothing else wrong.
"""
from __future__ import annotations

from typing import Any, Iterator, List, Tuple

from .trees import STRAY, Members, Raw

NOON = "2026-06-01T12:00:00Z"
ONE = "2026-06-01T13:00:00Z"
LAST = "9998-12-31T23:59:59Z"
MOST = (1 << 30) - 1
# fmt: off
DATES = [
    "2026-02-29", "2024-02-29", "1900-02-29", "2000-02-29", "2026-06-31", "2026-13-01", "2026-00-01",
    "2026-06-00", "2026-6-1", "+2026-06-01", "02026-06-01", "0000-01-01", "1969-12-31",
    "\u0662\u0660\u0662\u0666-06-01", "2026\u201306-01", "20260601",
]
# fmt: on
# fmt: off
CLOCKS = [
    "24:00:00", "12:60:00", "23:59:60", "12:00:60", "23:59:59", "00:00:00", "12:00", "12", "120000",
    "1:00:00", "-1:00:00",
]
# fmt: on
# fmt: off
ZONES = [
    "z", "+24:00", "+23:60", "-00:00", "+00:00", "+23:59", "-23:59", "", "+0000", "+00", "+0:00", " Z", "Z ",
    "Z\n", "ZZ", "\u00b10:00", "-24:00",
]
# fmt: on
TIMES = [f"{date}T12:00:00@Z" for date in DATES] + [f"2026-06-01T{clock}@Z" for clock in CLOCKS]
TIMES += [f"2026-06-01T12:00:00@{zone}" for zone in ZONES] + [
    "2026-06-01t12:00:00@Z",
    "2026-06-01 12:00:00@Z",
    "2026-06-0112:00:00@Z",
    "@",
]
# fmt: off
PAIRS = [
    (NOON, NOON), (NOON, "2026-06-01T12:00:00.5Z"), (NOON, "2026-06-01T12:00:00.0Z"),
    (NOON, "2026-06-01T12:00:01.Z"), (NOON, "2026-06-01T12:00:01,0Z"), (NOON, "2026-06-02T12:00:00.000Z"),
    (NOON, "2026-06-02T12:00:00.001Z"), ("2026-06-01T12:00:00.999Z", "2026-06-02T12:00:00Z"),
    (NOON, "2026-06-02T12:00:01Z"), (NOON, "2026-06-01T11:59:59Z"), (f"2026-06-01T12:00:00.{'0' * 43}Z", ONE),
    (f"2026-06-01T12:00:00.{'0' * 44}Z", ONE), (NOON, f"2026-06-01T12:00:00.{'0' * 42}1Z"),
    (NOON, f"2026-06-01T12:00:00.{'0' * 43}1Z"), ("1969-12-31T23:59:59Z", "1970-01-01T00:00:01Z"),
    ("1969-12-31T23:59:59.9Z", "1970-01-01T00:00:01Z"), ("1970-01-01T00:00:00Z", "1970-01-01T00:00:01Z"),
    ("1969-12-31T00:01:00-23:59", "1970-01-01T00:00:01Z"),
    ("1970-01-01T00:00:00+00:01", "1970-01-01T00:00:01Z"), (LAST, "9999-01-01T00:00:00Z"),
    (LAST, "9999-01-01T00:00:00.5Z"), (LAST, "9999-01-01T00:00:01Z"), (LAST, "9998-12-31T23:59:59.5Z"),
    ("9999-01-01T00:00:00Z", "9999-01-01T00:00:01Z"), (LAST, "9999-01-01T23:59:00+23:59"),
    (LAST, "9999-12-31T23:59:59Z"),
]
# fmt: on
# fmt: off
ALTITUDES = [
    (-10_000, 0), (-10_001, 0), (0, 200_000), (0, 200_001), (-10_000, 200_000), (0, 0), (1, 0), (0, 1),
    (199_999, 200_000),
]
# fmt: on
# fmt: off
NUMBERS = [
    b"-0", b"0.0", b"0e0", b"-0.0", b"00", b"0E+0", b"1e-400", b"-9223372036854775808",
    b"-9223372036854775809", b"9223372036854775808",
]
# fmt: on
# fmt: off
TOKENS = [
    "", "0", "00", "2", "6", "a", "c", "d", "e", "f", "B", "x", "g1", "0x1", " 1", "1 ", "1" * 17, "0" * 17,
    "8" * 16, "\u0661", "00000000000000001", "0000000000000001", "0000000000000002", "0000000000000004",
    "0000000000000010", "bfffffffffffffff", "c000000000000001", "1000000000000000", "10000000000000000",
    "0000000000000003", "04\x00", "0\u00e4",
]
# fmt: on
# face, i_min, i_max, j_min, j_max, level
RECTANGLES = [(face, 0, 0, 0, 0, 24) for face in (-1, 0, 5, 6)] + [
    (0, 0, 0, 0, 0, level) for level in (7, 8, 24, 25, 0, 30, -1)
]
RECTANGLES += [
    (0, 1, 0, 0, 0, 24),
    (0, 0, 0, 1, 0, 24),
    (0, 1, 1, 1, 1, 24),
    (0, -1, 0, 0, 0, 24),
    (0, 0, 0, -1, 0, 24),
]
RECTANGLES += [
    (0, MOST, MOST, MOST, MOST, 24),
    (0, MOST, MOST + 1, 0, 0, 24),
    (0, 0, 0, MOST, MOST + 1, 24),
    (0, 0, MOST, 0, MOST, 24),
]
RECTANGLES += [
    (1, 0, 65_535, 0, 0, 24),
    (1, 0, 65_536, 0, 0, 24),
    (2, 0, 0, 64, 64 + 65_535, 24),
    (2, 0, 0, 64, 64 + 65_536, 24),
]
RECTANGLES += [
    (3, 0, 65_535, 0, 63, 24),
    (3, 0, 65_535, 0, 64, 24),
    (4, 64, 65_598, 64, 127, 24),
    (4, 64, 65_599, 64, 128, 24),
]
RECTANGLES += [(5, 64, 64 * 257, 64, 64 * 257, 24), (5, 64, 64 * 258, 64, 64 * 258, 24), (5, 0, MOST, 0, MOST - 1, 8)]
EXTRA_DEPTHS = range(120, 130)


def moment(value: Any) -> Members:
    """A time with its format."""
    return Members([("format", "RFC3339"), ("value", value)])


def extent(
    footprint: Tuple[str, Any] = ("cells", ["1"]), lower: Any = 0, upper: Any = 1, start: Any = NOON, end: Any = ONE
) -> Members:
    """A volume, which is right but for what is given."""
    block = Members([("altitude_lower", lower), ("altitude_upper", upper), footprint])
    return Members([("volume", block), ("time_start", moment(start)), ("time_end", moment(end))])


def rectangle(*numbers: int) -> Tuple[str, Members]:
    """The member that tells a rectangle."""
    return "rectangle", Members(zip(("face", "i_min", "i_max", "j_min", "j_max", "level"), numbers))


def volumes() -> Iterator[Members]:
    """Volumes of which one thing is at a limit."""
    for time in TIMES:
        yield extent(start=time.replace("@", ""), end=time.replace("@", ".5"))
    for start, end in PAIRS:
        yield extent(start=start, end=end)
    for lower, upper in ALTITUDES:
        yield extent(lower=lower, upper=upper)
    for number in NUMBERS:
        yield extent(lower=Raw(number))
    for token in TOKENS:
        yield extent(("cells", [token]))
    for count in (0, 1, 63, 64, 65):
        yield extent(("cells", ["04"] * count))
    for numbers in RECTANGLES:
        yield extent(rectangle(*numbers))


def passed_over() -> Iterator[Members]:
    """Bodies with a member that is passed over, whatever it has."""
    for value in STRAY:
        yield Members([("extent", extent()), ("x", value)])
    for depth in EXTRA_DEPTHS:
        for opening, closing in ((b"[", b"]"), (b'{"a":', b"}")):
            yield Members([("x", Raw(opening * depth + b"0" + closing * depth)), ("extent", extent())])


def put(area: List[Members], priority: Any = 0) -> Members:
    """The body of a dry PUT."""
    basic = Members([("usage_state", "Planned"), ("uas_state", "Nominal"), ("area", area)])
    plan = Members([("basic_information", basic), ("astm_f3548_21", Members([("priority", priority)]))])
    return Members([("execution_style", "Hypothetical"), ("flight_plan", plan)])


def edges() -> List[Tuple[str, str, Members]]:
    """Methods, paths and bodies of all of them."""
    clears = [Members([("extent", it)]) for it in volumes()] + list(passed_over())
    puts = [put([extent()] * count) for count in (0, 1, 31, 32, 33)]
    puts += [
        put([extent()], it) for it in [-1, 0, 1000, 1001, None, "10", *map(Raw, NUMBERS), Raw(b"1e1"), Raw(b"true")]
    ]
    wide = extent(rectangle(1, 0, 65_536, 0, 0, 24))
    puts += [put([wide, extent(("cells", ["0"]))]), put([extent(("cells", ["0"])), wide]), put([wide], -1)]
    plan = "/flight_plans/00000000-0000-0000-0000-00000000000a"
    return [("POST", "/clear_area_requests", it) for it in clears] + [("PUT", plan, it) for it in puts]
