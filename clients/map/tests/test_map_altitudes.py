"""Altitudes above the ground, the sea and the ellipsoid, over what is known of the earth."""
import pathlib
import struct
from typing import Any, Optional

import pytest

from uss_desk_client import AreaError, Ground, Polygon, Tiles, cells_of
from uss_desk_map.altitudes import Typed, altitudes_over
from uss_desk_map.command import main

FIELD = cells_of(Polygon([(8.540, 47.370), (8.556, 47.369), (8.560, 47.379), (8.539, 47.378)]))
SEA = Ground(sea=47.0)
"""The sea is 47 m above the ellipsoid, and nothing is known of the ground."""
SIDE = 1_201


@pytest.fixture
def tiles(tmp_path: pathlib.Path) -> Tiles:
    """A tile whose ground is 400 m above the sea, but for a hollow of 380 m and a hill of 500 m in the field."""
    heights = [400] * SIDE * SIDE
    for north, east, height in ((47.374, 8.550, 380), (47.372, 8.545, 500)):
        heights[round((48 - north) * 1_200) * SIDE + round((east - 8) * 1_200)] = height
    (tmp_path / "N47E008.hgt").write_bytes(struct.pack(f">{SIDE * SIDE}h", *heights))
    return Tiles(str(tmp_path))


@pytest.mark.parametrize(
    "typed, known, flight",
    [
        (("ellipsoid", 460, 520, None), Ground(), (460, 520)),
        (("sea", 460, 520, None), SEA, (507, 567)),
        (("ground", 60, 120, 408), SEA, (515, 575)),
        (("ground", 60, 120, 455), Ground(), (515, 575)),
        (("ground", 0.1, 0.2, 0.3), Ground(), (0.4, 0.5)),
    ],
)
def test_above_the_ellipsoid(typed: Any, known: Ground, flight: tuple[float, float]) -> None:
    assert altitudes_over(FIELD, Typed(*typed), known).flight == flight


def test_over_hilly_ground_the_whole_flight_is_contained(tiles: Tiles) -> None:
    found = altitudes_over(FIELD, Typed("ground", 60, 120, None), Ground(tiles=tiles, sea=47.0))
    assert found.flight == (380 + 47 + 60, 500 + 47 + 120) and found.ground_above_sea == (380, 500)
    assert found.warning == ""


def test_what_is_filled_in_counts_before_tiles(tiles: Tiles) -> None:
    found = altitudes_over(FIELD, Typed("ground", 60, 120, 410), Ground(tiles=tiles, sea=47.0))
    assert found.flight == (410 + 47 + 60, 410 + 47 + 120)


@pytest.mark.parametrize(
    "typed, told",
    [
        (("ground", None, 120, 408), "fill in both altitudes"),
        (("ground", 60, None, 408), "fill in both altitudes"),
        (("ground", 60, 120, None), "the height of the ground isn't known here"),
        (("sea", 60, 120, None), "the height of the sea isn't known here"),
    ],
)
def test_what_can_not_be_known(typed: Any, told: str) -> None:
    with pytest.raises(AreaError, match=told):
        altitudes_over(FIELD, Typed(*typed), Ground()).flight


@pytest.mark.parametrize(
    "ground, upper, is_below, warning",
    [
        (None, 120, False, "Nothing is known of the ground here"),
        (408, 120, True, "The flight lies below the ground, which rises to 455 m above the ellipsoid"),
        (408, 455, True, "The flight lies below the ground, which rises to 455 m above the ellipsoid"),
        (408, 456, False, ""),
    ],
)
def test_warnings(ground: Optional[float], upper: float, is_below: bool, warning: str) -> None:
    found = altitudes_over(FIELD, Typed("ellipsoid", 60, upper, ground), SEA)
    assert found.is_below_ground is is_below
    assert found.warning.startswith(warning) and bool(found.warning) == bool(warning)


def test_folders_and_files_that_are_not_there(tmp_path: pathlib.Path, capsys: pytest.CaptureFixture[str]) -> None:
    whom = ["--url", "https://desk.example", "--operator", "alfa", "--port", "0"]
    assert main([*whom, "--geoid", str(tmp_path / "none.gtx")]) == 4
    assert "none.gtx" in capsys.readouterr().err
    (tmp_path / "short.gtx").write_bytes(b"no grid")
    assert main([*whom, "--geoid", str(tmp_path / "short.gtx")]) == 4
    assert "no grid of heights" in capsys.readouterr().err
