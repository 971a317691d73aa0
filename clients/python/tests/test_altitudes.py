"""Altitudes above the ground and the sea: the geoid grid, tiles of heights, and what is said without them."""
import struct
from pathlib import Path

import pytest

from uss_desk_client import altitudes
from uss_desk_client.altitudes import Ground, NoGround
from uss_desk_client.extents import box_of_cells
from uss_desk_client.geoid import NAME, Geoid, NoGeoid, find_geoid
from uss_desk_client.heights import BadTile, Tiles, name_of
from uss_desk_client.shapes import Polygon, cells_of
from uss_desk_client.sphere import Box, Place

ZURICH: Box = (8.54, 47.37, 8.56, 47.38)
DEBIAN = Path("/usr/share/proj") / NAME
# Places and heights of EGM96 in metres with which the United States' NIMA published its grid.
PUBLISHED = [
    ((-90.2208450, 38.6281550), -31.628),
    ((-54.9788860, -14.6212170), -2.969),
    ((102.4487290, 46.8743190), -43.575),
    ((133.8747120, -23.6174460), 15.871),
    ((-0.0005000, 38.6254730), 50.066),
    ((0.0023000, -0.4667440), 17.329),
]


def grid(folder: Path, heights: list[list[float]], south: float = 47, west: float = 8, step: float = 0.5) -> str:
    """The path of a small grid, its rows from south to north."""
    path = folder / "small.gtx"
    rows = [struct.pack(f">{len(row)}f", *row) for row in heights]
    path.write_bytes(struct.pack(">4d2i", south, west, step, step, len(heights), len(heights[0])) + b"".join(rows))
    return str(path)


def tile(folder: Path, south: int, west: int, height: int, peaks: dict[tuple[int, int], int]) -> None:
    """A tile of one height, but for the posts that are named by row and column."""
    posts = [height] * 1_201 * 1_201
    for (row, column), other in peaks.items():
        posts[row * 1_201 + column] = other
    (folder / name_of(south, west)).write_bytes(struct.pack(f">{len(posts)}h", *posts))


@pytest.mark.skipif(not DEBIAN.is_file(), reason="Debian's proj-data isn't installed")
@pytest.mark.parametrize("place, height", PUBLISHED)
def test_the_grid_has_the_heights_that_were_published(place: Place, height: float) -> None:
    found = find_geoid()
    assert found and found.at(place) == pytest.approx(height, abs=0.1)


def test_heights_between_the_points_of_a_grid(tmp_path: Path) -> None:
    geoid = Geoid(grid(tmp_path, [[40, 42, 44], [44, 46, 48], [40, 40, 40]]))
    assert geoid.at((8, 47)) == 40 and geoid.at((8.25, 47)) == 41 and geoid.at((8.25, 47.25)) == 43
    assert geoid.between((8.1, 47.1, 8.2, 47.2)) == pytest.approx((41.2, 42.4))
    assert geoid.between((8.1, 47.4, 8.9, 47.6)) == pytest.approx((43.52, 47.6))
    assert geoid.between((8.4, 47.4, 8.6, 47.6))[1] >= geoid.at((8.5, 47.5)) == 46


@pytest.mark.parametrize("data", [b"", b"x" * 100, struct.pack(">4d2i", 0, 0, 1, 1, 2, 2) + b"x" * 15])
def test_a_file_that_is_no_grid(tmp_path: Path, data: bytes) -> None:
    (tmp_path / "bad").write_bytes(data)
    with pytest.raises(NoGeoid, match="no grid"):
        find_geoid(str(tmp_path / "bad"))


def test_a_missing_grid_is_named_with_its_variable(tmp_path: Path, monkeypatch: pytest.MonkeyPatch) -> None:
    missing = str(tmp_path / "none.gtx")
    monkeypatch.setenv("USS_DESK_GEOID", missing)
    with pytest.raises(NoGeoid) as raised:
        find_geoid()
    assert str(raised.value) == f"USS_DESK_GEOID names {missing}, which can't be read: No such file or directory"


def test_above_the_sea_near_zurich_by_the_grid(tmp_path: Path) -> None:
    ground = Ground(geoid=Geoid(grid(tmp_path, [[47, 47, 47], [48, 48, 48], [49, 49, 49]])))
    lower, upper = ground.above_sea(ZURICH, 500, 560)
    assert (lower, upper) == pytest.approx((547.74, 607.76))


def test_without_a_grid_it_is_said_what_to_do(monkeypatch: pytest.MonkeyPatch) -> None:
    monkeypatch.delenv("USS_DESK_GEOID", raising=False)
    monkeypatch.setattr("uss_desk_client.geoid.FOLDERS", ("/nowhere",))
    assert find_geoid() is None
    with pytest.raises(NoGeoid, match="apt-get install -y proj-data .*metres the sea level lies above"):
        Ground().above_sea(ZURICH, 500, 560)
    assert Ground(sea=47.3).above_sea(ZURICH, 500, 560) == (547.3, 607.3)
    assert Ground().warning(ZURICH, 60, 120) == altitudes.UNKNOWN_GROUND


def test_above_a_ground_that_is_said() -> None:
    assert Ground(ground=455).above_ground(ZURICH, 60, 120) == (515, 575)
    with pytest.raises(NoGround, match="say it in metres"):
        Ground().above_ground(ZURICH, 60, 120)


def test_above_the_ground_of_tiles_from_the_lowest_to_the_highest(tmp_path: Path) -> None:
    # Row 750 from the north lies at 47.375 degrees, column 660 at 8.55; both posts lie in the box, the third doesn't.
    tile(tmp_path, 47, 8, 410, {(750, 660): 430, (750, 661): 400, (0, 0): 3_000})
    ground = Ground(Tiles(str(tmp_path)), sea=47)
    assert ground.above_ground(ZURICH, 60, 120) == (400 + 47 + 60, 430 + 47 + 120)
    with pytest.raises(NoGround):
        ground.above_ground((9.5, 47.1, 9.6, 47.2), 60, 120)


def test_a_box_over_two_tiles_and_a_height_that_isnt_known(tmp_path: Path) -> None:
    tile(tmp_path, 47, 8, 400, {})
    tile(tmp_path, 47, 9, 500, {(1_200, 1_200): -32_768})
    tiles = Tiles(str(tmp_path))
    assert tiles.between((8.9, 47.5, 9.1, 47.6)) == (400, 500)
    assert tiles.between((9.9, 47.0, 9.9999, 47.1)) is None
    assert tiles.between((8.9, 46.9, 9.1, 47.6)) is None


def test_names_of_tiles() -> None:
    assert [name_of(47, 8), name_of(-1, -72), name_of(0, 0)] == ["N47E008.hgt", "S01W072.hgt", "N00E000.hgt"]


def test_a_file_that_is_no_tile(tmp_path: Path) -> None:
    (tmp_path / "N47E008.hgt").write_bytes(b"x" * 1_000)
    with pytest.raises(BadTile, match="1,000 bytes"):
        Tiles(str(tmp_path)).between(ZURICH)
    with pytest.raises(BadTile, match="no folder"):
        Tiles(str(tmp_path / "none"))


@pytest.mark.parametrize(
    "lower, upper, said",
    [
        (60, 120, "the flight is underground: the ground lies 455.0 m above the WGS84 ellipsoid here"),
        (400, 500, "the flight begins 55 m below the ground"),
        (460, 500, ""),
    ],
)
def test_what_is_said_of_altitudes_above_the_ellipsoid(lower: float, upper: float, said: str) -> None:
    assert Ground(ground=455).warning(ZURICH, lower, upper) == said


def test_where_the_ground_isnt_known_the_sea_level_is_told() -> None:
    told = Ground(sea=-31.6).warning(ZURICH, 60, 120)
    assert told.startswith(altitudes.UNKNOWN_GROUND) and told.endswith("the sea level lies 31.6 m below it")


def test_the_box_of_cells_has_their_shape() -> None:
    ring = [(179.9, 10.0), (-179.9, 10.0), (-179.9, 10.1), (179.9, 10.1)]
    west, south, east, north = box_of_cells(cells_of(Polygon(ring)))
    west, east = (west - 360, east - 360) if west > 180 else (west, east)
    assert -0.2 < (179.9 - west) % 360 < 0.2 and -0.2 < (east - 180.1) % 360 < 0.2
    assert 9.9 < south <= 10 and 10.1 <= north < 10.2
