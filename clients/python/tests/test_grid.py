"""Squares of the grid against S2's own corners, areas that share a point, sizes."""
import random
from collections.abc import Sequence
from typing import Optional

import pytest

from uss_desk_client.areas import Rectangle, Volume
from uss_desk_client.cells import LEAVES
from uss_desk_client.geojson import ring_of
from uss_desk_client.grid import Block, block_of_cell, block_of_rectangle, outline_of, share_a_point
from uss_desk_client.shapes import Circle, Corridor, Polygon, Shape, Shapes, cells_of
from uss_desk_client.sphere import Place
from uss_desk_client.sizes import square_metres, square_metres_of_cells
from uss_desk_client.tokens import token_of

FIELD = Polygon([(8.54, 47.37), (8.556, 47.369), (8.56, 47.379), (8.539, 47.378)])


def cell(some: random.Random, level: int) -> str:
    leaf = some.randrange(6) << 61 | some.getrandbits(60) << 1 | 1
    bit = 1 << 2 * (30 - level)
    return token_of(leaf & -bit | bit)


def round_the_globe(ring: Sequence[Place]) -> list[Place]:
    return sorted((round(latitude, 6), round(longitude % 360, 6)) for longitude, latitude in ring)


@pytest.mark.parametrize("level", range(31))
def test_the_corners_of_a_block_are_those_of_its_cell(level: int) -> None:
    some = random.Random(level)
    for _ in range(20):
        token = cell(some, level)
        for one, other in zip(round_the_globe(outline_of(block_of_cell(token))), round_the_globe(ring_of(token))):
            assert one == pytest.approx(other, abs=2e-6)


def test_a_block_has_its_cells_leaves_and_no_others() -> None:
    assert block_of_cell("1") == Block(0, 0, LEAVES, 0, LEAVES)
    assert block_of_cell("0000000000000001") == Block(0, 0, 1, 0, 1)
    assert block_of_cell("400000000000006B") == Block(2, 3, 4, 4, 5)
    with pytest.raises(ValueError):
        block_of_cell("2")


def test_a_rectangle_is_widened_to_whole_squares() -> None:
    assert block_of_rectangle(Rectangle(3, 63, 64, 5, 5, 24)) == Block(3, 0, 128, 0, 64)


def test_a_side_is_cut_into_parts() -> None:
    ring = outline_of(block_of_cell("9"), 4)
    assert len(ring) == 16 and len(set(ring)) == 16
    assert max(one[0] for one in ring) - min(one[0] for one in ring) == pytest.approx(90)


def volume(
    cells: Sequence[str],
    lower: int = 0,
    upper: int = 10,
    start: int = 0,
    end: int = 10,
    rectangle: Optional[Rectangle] = None,
) -> Volume:
    return Volume(tuple(cells), lower, upper, start, end, rectangle)


@pytest.mark.parametrize(
    "other, is_shared",
    [
        (volume(["04"]), True),
        (volume(["1"]), True),
        (volume(["0000000000000001"]), True),
        (volume(["0c"]), False),
        (volume(["04"], lower=10, upper=11), False),
        (volume(["04"], start=10, end=11), False),
        (volume(["04"], lower=9, upper=11, start=9, end=11), True),
        (volume([], rectangle=Rectangle(0, 0, 63, 0, 63, 24)), True),
        (volume([], rectangle=Rectangle(0, LEAVES // 2, LEAVES // 2, 0, 0, 24)), False),
        (volume([], rectangle=Rectangle(1, 0, 63, 0, 63, 24)), False),
    ],
)
def test_areas_that_share_a_point(other: Volume, is_shared: bool) -> None:
    assert share_a_point([volume(["04"])], [volume(["3"]), other]) == is_shared
    assert share_a_point([other], [volume(["04"])]) == is_shared


@pytest.mark.parametrize(
    "shape, wanted",
    [
        (FIELD, 1_394_200),
        (Polygon(FIELD.ring[::-1]), 1_394_200),
        (Circle((8, 60), 1_000), 3_176_600),
        (Corridor([(8, 47), (8, 47.1)], 100), 11_119.5 * 100.56 + 7_900),
        (Corridor([(8, 47), (8, 47.1), (8.2, 47.1)], 100), (11_119.5 + 15_138) * 100.56 + 7_900),
        (Shapes([Circle((8, 60), 1_000), Circle((9, 60), 1_000)]), 6_353_200),
    ],
)
def test_sizes(shape: Shape, wanted: float) -> None:
    assert square_metres(shape) == pytest.approx(wanted, rel=0.003)
    taken = square_metres_of_cells(cells_of(shape, 2_048))
    assert wanted * 0.998 < taken < wanted * 1.35


def test_the_size_of_a_face() -> None:
    assert square_metres_of_cells(["1"]) == pytest.approx(4 * 3.141593 * 6_371_008.8**2 / 6, rel=1e-5)
