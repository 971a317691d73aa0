"""What blocks a flight, asked of a desk that is a list of blocked leaves; and its pictures."""
from collections.abc import Callable, Sequence
from typing import Any, Optional

import json
from xml.dom import minidom

import pytest

from uss_desk_client.answers import Answer, Conflict, NotTaken
from uss_desk_client.areas import AreaError, Rectangle, Volume
from uss_desk_client.desk import Desk
from uss_desk_client.geojson import collection, features_of_reasons, geometries, lines_in, shape_in
from uss_desk_client.picture import page_of, svg_of
from uss_desk_client.shapes import Circle, Corridor, Polygon, ShapeError, Shapes, cells_of
from uss_desk_client.tokens import evenly, id_of, leaves_of, level_of, token_of
from uss_desk_client.why import Blocked, Reasons, looks, why

CELLS = ("478fc2d01", "478fc2d03", "478fc2d05", "478fc2d07")
# a place, as JSON has it
AT: Any = [8, 47]
FIELD: Any = {"type": "Polygon", "coordinates": [[[8.0, 47.0], [8.01, 47.0], [8.01, 47.01], [8.0, 47.0]]]}


def leaves(token: str) -> tuple[int, int]:
    """The first and the last leaf of a cell."""
    number = id_of(token)
    assert number is not None
    return leaves_of(number)


class ListedDesk(Desk):
    """Tells the least of some leaves that lies in a cell of the plan."""

    def __init__(self, *leaves: int, note: str = "conflict") -> None:
        self.leaves, self.note, self.asked = sorted(leaves), note, 0

    def try_plan(
        self, area: Sequence[Volume], priority: int = 0, plan_id: Optional[str] = None, usage: str = "Planned"
    ) -> Answer:
        self.asked += 1
        for leaf in self.leaves:
            if any(low <= leaf <= high for cell in area[0].cells for low, high in [leaves(cell)]):
                return Answer("Rejected", "NotPlanned", self.note, Conflict(f"{leaf:016x}", 600, 5, 30))
        return Answer("Completed", "Planned")


def volume(cells: Sequence[str]) -> Volume:
    return Volume(tuple(cells), 600, 1_200, 0, 60)


@pytest.mark.parametrize("blocked", [(), (0,), (3,), (0, 1, 2, 3), (1, 3)])
def test_the_blocked_cells_are_found_by_one_request_each_and_one(blocked: tuple[int, ...]) -> None:
    desk = ListedDesk(*(leaves(CELLS[at])[0] + 4 for at in blocked))
    reasons = why(desk, [volume(CELLS[::-1])], 10)
    assert reasons.blocked_cells == [CELLS[at] for at in blocked]
    assert reasons.free_cells == [cell for at, cell in enumerate(CELLS) if at not in blocked]
    assert desk.asked == reasons.requests == len(blocked) + (3 not in blocked)


def test_looks_are_told_one_by_one_and_no_more_is_asked_than_is_taken() -> None:
    desk = ListedDesk(*(leaves(CELLS[at])[0] for at in (1, 2)))
    asked = looks(desk, [volume(CELLS), volume(CELLS[2:])], 10, usage="Planned")
    assert desk.asked == 0
    first = next(asked)
    assert (first.requests, first.decided, first.cells) == (1, 2, 6) and desk.asked == 1
    assert [it.cell for it in first.blocked] == [CELLS[1]] and first.blocked[0].volume == volume(CELLS)
    assert [(it.requests, it.decided, len(it.blocked)) for it in asked] == [
        (2, 3, 1),
        (3, 4, 0),
        (4, 5, 1),
        (5, 6, 0),
    ]


def test_another_refusal_is_raised() -> None:
    class Ended(ListedDesk):
        def try_plan(
            self, area: Sequence[Volume], priority: int = 0, plan_id: Optional[str] = None, usage: str = "Planned"
        ) -> Answer:
            return Answer("Rejected", "NotPlanned", "ended")

    with pytest.raises(NotTaken, match="clock"):
        why(Ended(), [volume(CELLS)])
    with pytest.raises(AreaError):
        why(ListedDesk(), [Volume((), 0, 1, 0, 1, Rectangle(0, 0, 1, 0, 1, 24))])


def test_pictures_and_geojson() -> None:
    reasons = why(ListedDesk(leaves(CELLS[1])[0]), [volume(CELLS)], 10)
    picture = svg_of(reasons, lines_in(FIELD))
    minidom.parseString(picture)
    assert "blocked in 1 of 4 cells" in picture and "priority 30" in picture
    page = page_of(reasons, lines_in(FIELD))
    assert CELLS[1] in page and "src=" not in page and "href=" not in page
    features = json.loads(json.dumps(collection(features_of_reasons(reasons))))["features"]
    assert [one["properties"]["state"] for one in features] == ["blocked", *["free"] * 3, "first blocked point"]
    ring = features[0]["geometry"]["coordinates"][0][0]
    assert len(ring) == 5 and ring[0] == ring[-1]
    assert "Nothing blocks" in svg_of(Reasons((volume(CELLS),), 10, (), 1), [])


def reasons_of(cells: Sequence[str], priority_of: Callable[[int], int]) -> Reasons:
    """All cells blocked, each at its first leaf, at a priority that is told by its number."""
    asked, firsts = volume(cells), [f"{leaves(cell)[0]:016x}" for cell in cells]
    return Reasons(
        (asked,),
        10,
        tuple(
            Blocked(cell, asked, Conflict(leaf, 600, 5, priority_of(at)))
            for at, (cell, leaf) in enumerate(zip(cells, firsts))
        ),
        len(cells),
    )


def texts_of(picture: str) -> list[tuple[float, float, str]]:
    """Each text of a picture with its place."""
    return [
        (float(one.getAttribute("x")), float(one.getAttribute("y")), one.firstChild.data)
        for one in minidom.parseString(picture).getElementsByTagName("text")
    ]


@pytest.mark.parametrize("priority_of", [lambda at: 30, lambda at: 10 + at])
def test_a_picture_of_many_priorities_keeps_within_its_frame(priority_of: Callable[[int], int]) -> None:
    picture = svg_of(reasons_of(evenly(["1"], 64), priority_of), [])
    assert all(0 < x < 1_090 and 0 < y < 680 for x, y, _ in texts_of(picture))
    words = [words for _, _, words in texts_of(picture)]
    told = next(int(word.split()[1]) for word in words if word.endswith(" more"))
    assert 64 - told == sum(word.startswith("1970-01-01 00:00:05") for word in words) >= 14
    assert "free" not in words and "the flight as it was drawn" not in words


def test_a_picture_over_the_antimeridian_is_of_the_flight_alone() -> None:
    ring = [(179.99, -17.01), (-179.98, -17.0), (-179.98, -16.98), (179.99, -17.01)]
    words = [words for _, _, words in texts_of(svg_of(reasons_of(cells_of(Polygon(ring)), lambda at: 5), [ring]))]
    assert {"179.99° E", "180.00° E", "179.99° W", "17.00° S"} <= set(words)


def test_a_circle_is_drawn() -> None:
    point = {"type": "Point", "coordinates": [8, 60]}
    (line,) = lines_in(point, 1_000)
    assert line[0] == line[-1] and abs(max(place[1] for place in line) - 60 - 1_000 / 111_195) < 1e-6
    assert abs(max(place[0] for place in line) - 8 - 2_000 / 111_195) < 1e-6
    assert lines_in(point) == [] == lines_in({"type": "Point", "coordinates": [8, 90]}, 1_000)


def test_shapes_of_geojson() -> None:
    assert shape_in({"type": "Feature", "geometry": FIELD}) == Polygon(FIELD["coordinates"][0], [], is_straight=True)
    assert isinstance(shape_in({"type": "LineString", "coordinates": [[8, 47], [9, 47]]}, width=10), Corridor)
    assert shape_in({"type": "Point", "coordinates": [8, 47]}, radius=5) == Circle(AT, 5)
    both = {"type": "FeatureCollection", "features": [{"type": "Feature", "geometry": FIELD}] * 2}
    assert isinstance(shape_in(both), Shapes)
    assert len(geometries({"type": "MultiPolygon", "coordinates": [FIELD["coordinates"]] * 3})) == 3
    wrong: Any
    for wrong in (
        {},
        [],
        None,
        {"type": "Polygon"},
        {"type": "Feature", "geometry": None},
        {"type": "Point", "coordinates": [8, 47]},
        {"type": "LineString", "coordinates": [[8, 47], [9, 47]]},
    ):
        with pytest.raises(ShapeError):
            shape_in(wrong)


@pytest.mark.parametrize(
    "token, number, level",
    [
        ("1", 1 << 60, 0),
        ("B", 0xB << 60, 0),
        ("04", 0x04 << 56, 1),
        ("0000000000000001", 1, 30),
        ("04000000", 1 << 58, 1),
    ],
)
def test_tokens(token: str, number: int, level: int) -> None:
    assert id_of(token) == number and level_of(number) == level
    assert id_of(token_of(number)) == number


@pytest.mark.parametrize(
    "token", ["", "0", "2", "c", "d", "f", "x", "00000000000000001", "0000000000000002", " 1", "1\n"]
)
def test_no_tokens(token: str) -> None:
    assert id_of(token) is None


def test_leaves() -> None:
    assert leaves_of(1 << 60) == (1, (1 << 61) - 1) and leaves_of(1) == (1, 1)


@pytest.mark.parametrize(
    "tokens, at_most, found",
    [
        (["1"], 1, ["1"]),
        (["1"], 3, ["1"]),
        (["1"], 4, ["04", "0c", "14", "1c"]),
        (["0000000000000001"], 9, ["0000000000000001"]),
        (["1", "3"], 5, ["04", "0c", "14", "1c", "3"]),
        (["1"], 7, ["01", "03", "05", "07", "0c", "14", "1c"]),
        (["3", "04"], 5, ["04", "24", "2c", "34", "3c"]),
    ],
)
def test_cells_are_cut_evenly(tokens: list[str], at_most: int, found: list[str]) -> None:
    assert evenly(tokens, at_most) == found
