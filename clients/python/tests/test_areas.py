"""Areas: cut at days, cut at 64 cells, never short of the flight."""
from datetime import datetime, timedelta, timezone
from typing import Any

import pytest

from uss_desk_client.areas import AreaError, Rectangle, Volume, area_of, area_over
from uss_desk_client.grid import share_a_point
from uss_desk_client.shapes import Polygon
from uss_desk_client.units import time_text

SQUARE = Polygon([(8.0, 47.0), (8.01, 47.0), (8.01, 47.01), (8.0, 47.01)])
NOON = 1_780_315_200


def test_a_flight_of_an_hour() -> None:
    (volume,) = area_of(SQUARE, (60, 120.01), "2026-06-01T12:00:00.5Z", "2026-06-01T13:00:00.5Z")
    assert (volume.lower, volume.upper, volume.start, volume.end) == (600, 1_201, NOON, NOON + 3_601)
    assert 1 <= len(volume.cells) <= 64


def test_a_flight_of_30_hours_has_two_volumes() -> None:
    area = area_of(SQUARE, (60, 120), "2026-06-01T12:00:00Z", "2026-06-02T18:00:00Z")
    assert [(volume.start, volume.end) for volume in area] == [(NOON, NOON + 86_400), (NOON + 86_400, NOON + 108_000)]
    assert area[0].cells == area[1].cells


def test_a_flight_of_a_day_has_one() -> None:
    assert len(area_of(SQUARE, (60, 120), NOON, NOON + 86_400)) == 1
    assert len(area_of(SQUARE, (60, 120), NOON, NOON + 86_401)) == 2


def test_130_cells_are_three_volumes() -> None:
    area = area_over([f"{at:x}" for at in range(130)], 0, 10, NOON, NOON + 1)
    assert [len(volume.cells) for volume in area] == [64, 64, 2]


@pytest.mark.parametrize(
    "words",
    [
        (["1"] * 2_049, 0, 10, NOON, NOON + 1),
        (["1"], 0, 10, NOON, NOON + 32 * 86_400 + 1),
        ([], 0, 10, NOON, NOON + 1),
        (["1"], 10, 10, NOON, NOON + 1),
        (["1"], 0, 10, NOON, NOON),
    ],
)
def test_areas_that_no_plan_has(words: tuple[Any, ...]) -> None:
    with pytest.raises(AreaError):
        area_over(*words)


def test_a_volume_as_json_and_back() -> None:
    volume = Volume(("04",), -5, 1_000, NOON, NOON + 3_600)
    assert volume.to_json() == {
        "time_end": {"format": "RFC3339", "value": "2026-06-01T13:00:00Z"},
        "time_start": {"format": "RFC3339", "value": "2026-06-01T12:00:00Z"},
        "volume": {"altitude_lower": -5, "altitude_upper": 1_000, "cells": ["04"]},
    }
    shown = {
        "altitude_lower": -5,
        "altitude_upper": 1_000,
        "cells": ["04"],
        "second_start": NOON,
        "second_end": NOON + 3_600,
    }
    assert Volume.from_answer(shown) == volume
    assert time_text(volume.end) == "2026-06-01T13:00:00Z" and volume.lower_metres == -0.5


def test_a_rectangle() -> None:
    parts = {"face": 0, "i_max": 100, "i_min": 1, "j_max": 9, "j_min": 2, "level": 24}
    shown = {"altitude_lower": 0, "altitude_upper": 1, "rectangle": parts, "second_start": 1, "second_end": 2}
    assert Volume.from_answer(shown).rectangle == Rectangle(0, 1, 100, 2, 9, 24)
    assert Volume.from_answer(shown).to_json()["volume"]["rectangle"] == parts


def test_tokens_as_they_are_printed() -> None:
    assert Volume(("89C25000", "04", "x"), 0, 1, 0, 1).printed().cells == ("89c25", "04", "x")


def test_slots_of_whole_seconds_that_follow_each_other_share_no_point() -> None:
    begin = datetime(2026, 6, 1, 12, tzinfo=timezone.utc)
    slots = [
        area_of(SQUARE, (60, 120), begin + timedelta(hours=at), begin + timedelta(hours=at + 1)) for at in (0, 1)
    ]
    assert not share_a_point(*slots)
    late = timedelta(microseconds=1)
    slots[0] = area_of(SQUARE, (60, 120), begin, begin + timedelta(hours=1) + late)
    assert share_a_point(*slots)
