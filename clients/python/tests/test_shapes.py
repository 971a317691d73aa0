"""Covers contain their shapes: places are taken at random, and each lies in a cell by arithmetic on tokens."""
import math
import random
from typing import Any

import pywraps2 as s2
import pytest

from uss_desk_client.shapes import (
    GREATEST_RADIUS,
    Circle,
    Corridor,
    Polygon,
    Shape,
    ShapeError,
    Shapes,
    cells_of,
    followed,
)
from uss_desk_client.sphere import Place
from uss_desk_client.tokens import id_of, leaves_of

SQUARE = [(8.0, 47.0), (8.01, 47.0), (8.01, 47.01), (8.0, 47.01)]
HOLE = [(8.002, 47.002), (8.008, 47.002), (8.008, 47.008), (8.002, 47.008)]
BELT = [
    (longitude, latitude)
    for latitude, longitudes in ((-40, range(-170, 171, 20)), (40, range(170, -171, -20)))
    for longitude in longitudes
]


def leaves(token: str) -> tuple[int, int]:
    """The first and the last leaf of a cell."""
    number = id_of(token)
    assert number is not None
    return leaves_of(number)


def has(cells: list[str], longitude: float, latitude: float) -> bool:
    leaf = s2.S2CellId(s2.S2LatLng.FromDegrees(latitude, longitude).ToPoint()).id()
    return any(low <= leaf <= high for low, high in map(leaves, cells))


def is_inside(ring: list[Place], longitude: float, latitude: float) -> bool:
    """Whether a place lies in a ring, in the plane of longitude and latitude."""
    inside = False
    for (x, y), (u, v) in zip(ring, ring[1:] + ring[:1]):
        if (y > latitude) != (v > latitude) and longitude < (u - x) * (latitude - y) / (v - y) + x:
            inside = not inside
    return inside


def metres_apart(x: float, y: float, u: float, v: float) -> float:
    """The length of a short way over the WGS84 ellipsoid, by its radii of curvature at the middle latitude."""
    middle = math.radians((y + v) / 2)
    root = math.sqrt(1 - 0.00669437999014 * math.sin(middle) ** 2)
    east, north = 6_378_137 / root, 6_378_137 * (1 - 0.00669437999014) / root**3
    return math.hypot(math.radians(u - x) * east * math.cos(middle), math.radians(v - y) * north)


def some_ring(some: random.Random) -> list[Place]:
    """A star of places around a place, not always convex."""
    middle = (some.uniform(-179, 179), some.uniform(-70, 70))
    size, count = 10 ** some.uniform(-4, 0), some.randrange(3, 12)
    reaches = [size * some.uniform(0.3, 1) for _ in range(count)]
    return [
        (
            middle[0] + reach * math.cos(2 * math.pi * at / count),
            middle[1] + reach * math.sin(2 * math.pi * at / count),
        )
        for at, reach in enumerate(reaches)
    ]


@pytest.mark.parametrize("seed", range(40))
def test_a_cover_contains_its_polygon(seed: int) -> None:
    some = random.Random(seed)
    ring = some_ring(some)
    cells = cells_of(Polygon(ring, is_straight=True), some.choice([6, 16, 64]))
    assert 1 <= len(cells) <= 64
    west, south = (min(place[axis] for place in ring) for axis in (0, 1))
    east, north = (max(place[axis] for place in ring) for axis in (0, 1))
    found = 0
    for _ in range(300):
        place = some.uniform(west, east), some.uniform(south, north)
        if is_inside(ring, *place):
            found += 1
            assert has(cells, *place)
    assert found > 20


@pytest.mark.parametrize("latitude", [0, 0.001, 30, 47, -60, 85])
def test_a_cover_contains_its_circle(latitude: float) -> None:
    some = random.Random(latitude)
    cells = cells_of(Circle((8, latitude), 5_000), 500)
    for _ in range(400):
        angle, reach = some.uniform(0, 2 * math.pi), 5_000 * some.choice([1 - 1e-4, some.random()])
        north = reach * math.sin(angle) / 111_000
        east = reach * math.cos(angle) / 111_000 / math.cos(math.radians(latitude))
        share = reach / metres_apart(8, latitude, 8 + east, latitude + north)
        assert has(cells, 8 + east * share, latitude + north * share)


def test_a_cover_contains_its_corridor() -> None:
    some = random.Random(1)
    path = [(8.0, 47.0), (8.05, 47.02), (8.02, 47.05), (8.02, 47.05), (8.1, 47.1)]
    cells = cells_of(Corridor(path, 400), 64)
    for _ in range(500):
        (x, y), (u, v) = some.choice([pair for pair in zip(path, path[1:]) if pair[0] != pair[1]])
        share, angle, reach = some.random(), some.uniform(0, 2 * math.pi), 199 * some.random()
        place = (
            x + share * (u - x) + reach * math.cos(angle) / 111_400 / math.cos(math.radians(47.05)),
            y + share * (v - y) + reach * math.sin(angle) / 111_400,
        )
        assert has(cells, *place)
    assert not has(cells, 8.05, 47.05)


def point(longitude: float, latitude: float) -> Any:
    return s2.S2LatLng.FromDegrees(latitude, longitude)


@pytest.mark.parametrize("seed", range(60))
def test_straight_lines_are_followed_within_a_centimetre(seed: int) -> None:
    some = random.Random(seed)
    size, turn = 10 ** some.uniform(-3, 0.5), some.uniform(0, 2 * math.pi)
    begin = some.uniform(-179, 179), some.uniform(-80, 80)
    step = size * math.cos(turn), size * math.sin(turn)
    end = (begin[0] + step[0] + 540) % 360 - 180, begin[1] + step[1]
    line = s2.S2Polyline()
    line.InitFromS2LatLngs([point(*place) for place in followed([begin, end], is_ring=False)])
    for at in range(101):
        longitude = (begin[0] + step[0] * at / 100 + 540) % 360 - 180
        place = point(longitude, begin[1] + step[1] * at / 100)
        near = line.Project(place.ToPoint())[0]
        assert s2.S2LatLng(near).GetDistance(place).radians() * GREATEST_RADIUS < 0.0101


@pytest.mark.parametrize("gap", [5e-324, 1e-16, 1e-14])
def test_places_that_are_one_to_s2_do_not_end_the_program(gap: float) -> None:
    twice = [(8, gap), (8, 0), (8.01, 0), (8.01, 0.01), (8, 0.01)]
    assert cells_of(Polygon(twice)) == cells_of(Polygon(twice[1:])) == cells_of(Polygon(twice[1:] + twice[:1]))
    with pytest.raises(ShapeError, match="twice"):
        cells_of(Polygon([(8, 0), (8.01, 0), (8.005, 0.005), (8, gap), (8.005, 0.01)]))
    with pytest.raises(ShapeError, match="at least two places"):
        cells_of(Corridor([(8, 0), (8, gap)], 10))


def test_a_pole_and_the_antimeridian_are_one_place_however_they_are_written() -> None:
    assert cells_of(Polygon([(0, 90), (120, 90), (10, 89.99), (20, 89.99)])) == cells_of(
        Polygon([(77, 90), (10, 89.99), (20, 89.99)])
    )
    assert cells_of(Polygon([(180, 0), (-180, 0), (-179.99, 0), (-179.99, 0.01)])) == cells_of(
        Polygon([(-180, 0), (-179.99, 0), (-179.99, 0.01)])
    )


def test_the_way_around_and_the_last_place_are_the_same_to_a_ring() -> None:
    cells = cells_of(Polygon(SQUARE))
    assert cells_of(Polygon(SQUARE[::-1])) == cells
    assert cells_of(Polygon(SQUARE + SQUARE[:1])) == cells
    assert not has(cells, -172, -47)


def test_some_1_2_times_the_area_of_a_square() -> None:
    cells = cells_of(Polygon(SQUARE))
    area = sum(s2.S2Cell(s2.S2CellId.FromToken(cell)).ExactArea() for cell in cells)
    square = math.radians(0.01) * (math.sin(math.radians(47.01)) - math.sin(math.radians(47)))
    assert 1 < area / square < 1.3


def test_a_hole_is_left_out_and_what_is_around_it_is_not() -> None:
    cells = cells_of(Polygon(SQUARE, [HOLE]), 300)
    assert not has(cells, 8.005, 47.005)
    for at in range(100):
        assert has(cells, 8.001, 47 + at / 10_001)
    assert has(cells, 8.0019, 47.005) and has(cells, 8.005, 47.0085)


def test_over_the_antimeridian_and_a_pole() -> None:
    across = cells_of(Polygon([(179.9, 10), (-179.9, 10), (-179.9, 10.1), (179.9, 10.1)], is_straight=True))
    assert has(across, 180, 10.05) and has(across, -179.95, 10.05) and not has(across, 0, 10.05)
    around = cells_of(Polygon([(0, 80), (90, 80), (180, 80), (-90, 80)]))
    assert has(around, 45, 89.9) and has(around, 0, 80.5) and not has(around, 0, -89)


def test_several_shapes() -> None:
    both = cells_of(Shapes([Circle((8, 47), 100), Circle((9, 47), 100)]))
    assert has(both, 8, 47) and has(both, 9, 47) and len(both) <= 64


def test_more_cells_follow_more_closely() -> None:
    assert len(cells_of(Polygon(SQUARE), 6)) <= 6 < len(cells_of(Polygon(SQUARE), 1_000)) <= 1_000


@pytest.mark.parametrize(
    "shape, told",
    [
        (Polygon(BELT), "more than a hemisphere"),
        (Polygon(BELT[::-1]), "more than a hemisphere"),
        (Polygon([(8, 47), (8.01, 47.01), (8, 47.01), (8.01, 47)]), "crosses itself"),
        (Polygon([(8, 47), (8.01, 47.01), (8, 47), (8, 47.01)]), "twice"),
        (Polygon([(8, 47), (8.01, 47)]), "at least three places"),
        (Polygon([(0, 0), (100, 0), (50, 50)]), "quarter of the globe"),
        (Polygon([(47, 8), (47, 91), (46, 8)]), "beyond 90 degrees"),
        (Polygon([(200, 8), (47, 9), (46, 8)]), "beyond 180 degrees"),
        (Polygon([(float("nan"), 8), (47, 9), (46, 8)]), "no number of degrees"),
        (Circle((8, 47), 0), "above 0"),
        (Circle((8, 47), 2e7), "a quarter of the globe"),
        (Corridor([(8, 47), (8, 47)], 10), "at least two places"),
        (Shapes([]), "no shape"),
    ],
)
def test_shapes_without_a_cover(shape: Shape, told: str) -> None:
    with pytest.raises(ShapeError, match=told):
        cells_of(shape)


@pytest.mark.parametrize("count", [5, 2_049])
def test_so_many_cells_may_not_be_asked_for(count: int) -> None:
    with pytest.raises(ShapeError):
        cells_of(Circle((8, 47), 100), count)
