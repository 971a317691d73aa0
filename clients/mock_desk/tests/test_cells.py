"""Cells by hand: the ids and ranges are read off the curve of each face by its first quarters."""
from typing import Optional

import pytest
from mock_desk import cells
from mock_desk.cells import Rectangle

MOST = (1 << 30) - 1


@pytest.mark.parametrize(
    "token, cell",
    [
        ("1", 0x1000000000000000),
        ("B", 0xB000000000000000),
        ("04", 0x0400000000000000),
        ("0000000000000001", 1),
        ("bfffffffffffffff", 0xBFFFFFFFFFFFFFFF),
        ("040", 0x0400000000000000),
        ("", None),
        ("0", None),
        ("2", None),  # its lowest bit is that of no level
        ("d", None),  # face 6
        ("0000000000000002", None),
        ("10000000000000000", None),
        ("x", None),
        ("1 ", None),
    ],
)
def test_tokens(token: str, cell: Optional[int]) -> None:
    assert cells.cell_of(token) == cell


def test_printed_tokens() -> None:
    assert cells.token_of(0x0400000000000000) == "04"
    assert cells.token_of(0xB000000000000000) == "b"
    assert cells.token_of(1) == "0000000000000001"


def cell(token: str) -> int:
    """The id of a token's cell."""
    found = cells.cell_of(token)
    assert found is not None
    return found


def test_siblings_are_their_parent() -> None:
    face = cells.ranges_of_cells([cell("1")])
    assert face == [(1, 0x1FFFFFFFFFFFFFFF)]
    assert cells.ranges_of_cells([cell(it) for it in ("1c", "04", "14", "0c", "04")]) == face


def test_the_first_quarters_of_face_0() -> None:
    # the curve of an even face goes (0, 0), (0, 1), (1, 1), (1, 0)
    half = MOST // 2
    quarters = [
        Rectangle(0, *ends, 8) for ends in ((0, half, 0, half), (0, half, half + 1, MOST), (half + 1, MOST, 0, half))
    ]
    tokens = ["04", "0c", "1c"]
    assert [cells.ranges_of_rectangle(it) for it in quarters] == [cells.ranges_of_cells([cell(it)]) for it in tokens]


def test_the_first_quarters_of_face_1() -> None:
    # that of an odd face goes (0, 0), (1, 0), (1, 1), (0, 1)
    half = MOST // 2
    right = Rectangle(1, half + 1, MOST, 0, half, 8)
    assert cells.ranges_of_rectangle(right) == cells.ranges_of_cells([cell("2c")])


def test_whole_squares() -> None:
    # a leaf in squares of level 24, which have 64 leaves a side: the second of its curve in this corner
    leaf = Rectangle(0, 100, 100, 0, 0, 24)
    assert cells.cover_size(leaf) == 1
    assert cells.ranges_of_rectangle(leaf) == [(0x2001, 0x3FFF)]


def test_cover_sizes() -> None:
    assert cells.cover_size(Rectangle(0, 0, MOST, 0, MOST, 24)) == 1
    assert cells.cover_size(Rectangle(0, 0, MOST, 0, MOST // 2, 8)) == 2
    assert cells.cover_size(Rectangle(0, 0, 65535, 0, 0, 24)) == 1024
    assert cells.cover_size(Rectangle(0, 0, 65536, 0, 0, 24)) == 1025
    # three by three squares about a corner of all: one of 2 by 2 and five of 1 by 1
    assert cells.cover_size(Rectangle(0, 0, 3 * 64 - 1, 0, 3 * 64 - 1, 24)) == 6


def test_limits_of_rectangles() -> None:
    assert Rectangle(5, 0, MOST, 0, MOST, 8).is_valid()
    for wrong in [
        (6, 0, 0, 0, 0, 8),
        (-1, 0, 0, 0, 0, 8),
        (0, 1, 0, 0, 0, 8),
        (0, 0, 0, 1, 0, 8),
        (0, 0, 0, 0, 0, 7),
    ]:
        assert not Rectangle(*wrong).is_valid()
    for wrong in [(0, 0, 0, 0, 0, 25), (0, 0, MOST + 1, 0, 0, 8), (0, -1, 0, 0, 0, 8)]:
        assert not Rectangle(*wrong).is_valid()


def test_first_common_leaf() -> None:
    assert cells.first_common([(1, 9), (21, 29)], [(11, 19), (25, 41)]) == 25
    assert cells.first_common([(1, 9)], [(11, 19)]) is None
    assert cells.first_common([(1, 9)], [(9, 9)]) == 9
