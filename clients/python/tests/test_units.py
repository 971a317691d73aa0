"""Rounding outward, and times as the desk reads them; the answers are written by hand."""
from datetime import datetime, timedelta, timezone
from decimal import Decimal
from typing import Any

import pytest

from uss_desk_client.units import UnitError, decimetres_down, decimetres_up, read_time, second_down, second_up
from uss_desk_client.units import time_text


@pytest.mark.parametrize(
    "metres, down, up",
    [
        (60, 600, 600),
        (60.05, 600, 601),
        (-0.01, -1, 0),
        (0.1, 1, 1),
        (0.3, 3, 3),
        (1e-9, 0, 1),
        (-12.34, -124, -123),
        (19.999999999, 199, 200),
        (Decimal("60." + "0" * 40 + "1"), 600, 601),
        (Decimal("-1E-999999999"), -1, 0),
        (10**9, 10**10, 10**10),
    ],
)
def test_altitudes_are_rounded_outward(metres: Any, down: int, up: int) -> None:
    assert (decimetres_down(metres), decimetres_up(metres)) == (down, up)


@pytest.mark.parametrize(
    "metres",
    [float("nan"), float("inf"), True, "60", None, 1e300, Decimal("1E+999999999"), Decimal("sNaN"), -(10**400)],
)
def test_no_number_of_metres(metres: Any) -> None:
    with pytest.raises(UnitError):
        decimetres_down(metres)


@pytest.mark.parametrize(
    "text, second, has_fraction",
    [
        ("1970-01-01T00:00:00Z", 0, False),
        ("2026-06-01T12:00:00Z", 1_780_315_200, False),
        ("2026-06-01t14:00:00+02:00", 1_780_315_200, False),
        ("2026-06-01T12:00:00.000z", 1_780_315_200, False),
        ("2026-06-01T12:00:00.001-00:00", 1_780_315_200, True),
        ("1969-12-31T23:59:59.5Z", -1, True),
        ("2000-02-29T00:00:00Z", 951_782_400, False),
        ("9998-12-31T00:00:00Z", 253_370_678_400, False),
        ("0000-03-01T00:00:00Z", -62_162_035_200, False),
    ],
)
def test_times(text: str, second: int, has_fraction: bool) -> None:
    assert read_time(text) == (second, has_fraction)


@pytest.mark.parametrize(
    "text",
    [
        "",
        "2026-06-01",
        "2026-06-01 12:00:00Z",
        "2026-06-01T12:00:00",
        "2026-06-01T24:00:00Z",
        "2026-06-01T23:59:60Z",
        "2026-02-29T12:00:00Z",
        "1900-02-29T12:00:00Z",
        "2026-06-01T12:00:00.Z",
        "2026-06-01T12:00:00+24:00",
        "2026-06-01T12:00:00+02:60",
        "2026-06-01T12:00:00+0200",
        "2026-06-01T12:00:00." + "0" * 44 + "Z",
        "2026-06-01T1\u0662:00:00Z",
        " 2026-06-01T12:00:00Z",
        "2026-06-01T12:00:00Z\n",
    ],
)
def test_no_times(text: str) -> None:
    assert read_time(text) is None


def test_a_moment_is_rounded_outward() -> None:
    half = datetime(2026, 6, 1, 12, 0, 0, 500_000, tzinfo=timezone.utc)
    assert (second_down(half), second_up(half)) == (1_780_315_200, 1_780_315_201)
    ahead = datetime(2026, 6, 1, 14, 0, tzinfo=timezone(timedelta(hours=2)))
    assert (second_down(ahead), second_up(ahead)) == (1_780_315_200, 1_780_315_200)
    assert second_up("2026-06-01T12:00:00.10Z") == 1_780_315_201
    assert time_text(1_780_315_200) == "2026-06-01T12:00:00Z"


@pytest.mark.parametrize("time", [datetime(2026, 6, 1), "soon", 1.5, None, True, 1_780_315_200_000, -(10**20)])
def test_no_moments(time: Any) -> None:
    with pytest.raises(UnitError):
        second_down(time)
