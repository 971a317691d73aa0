"""Drafts as the page sends them, right and wrong; the grid beneath the map."""
import copy
import random
from typing import Any

import pytest

from uss_desk_client import AreaError, Circle, Corridor, Polygon, Rectangle, ShapeError, UnitError, cells_of
from uss_desk_client.tokens import id_of, level_of
from uss_desk_map.drafts import Wrong, draft_of
from uss_desk_map.ground import grid_over, ring_of_rectangle, rings_of

PLACES = [[8.54, 47.37], [8.556, 47.369], [8.56, 47.379]]
DRAFT: dict[str, Any] = {
    "kind": "polygon",
    "places": PLACES,
    "cells": [],
    "metres": 200,
    "above": "ellipsoid",
    "lower": 60,
    "upper": 120.05,
    "ground": None,
    "start": 1_780_315_200,
    "end": 1_780_318_800,
    "priority": 10,
    "at_most": 64,
    "plan_id": "11111111-1111-4111-8111-111111111111",
}


def test_a_draft_is_an_area() -> None:
    draft = draft_of(DRAFT)
    assert draft.shape == Polygon(((8.54, 47.37), (8.556, 47.369), (8.56, 47.379)))
    (volume,) = draft.area()
    assert (volume.lower, volume.upper, volume.start, volume.end) == (600, 1201, DRAFT["start"], DRAFT["end"])
    assert 60 <= len(volume.cells) <= 64 and set(map(id_of, volume.cells)).isdisjoint({None})


def test_the_other_kinds() -> None:
    assert draft_of({**DRAFT, "kind": "line"}).shape == Corridor(draft_of(DRAFT).places, 200)
    assert draft_of({**DRAFT, "kind": "circle"}).shape == Circle((8.54, 47.37), 200)
    kept = draft_of({**DRAFT, "kind": "cells", "places": [], "cells": ["04", "479AA0A5C"]})
    assert kept.shape is None and kept.tokens == ["04", "479AA0A5C"]
    assert len(draft_of({**DRAFT, "at_most": 256, "plan_id": None}).area()) == 4


@pytest.mark.parametrize(
    "member, value",
    [
        ("kind", "square"), ("kind", None), ("places", {}), ("places", [[8]]), ("places", [[8, 47, 1]]),
        ("places", [["8", 47]]), ("places", [[True, 47]]), ("places", [[10**400, 0]]), ("places", [[float("nan"), 0]]),
        ("cells", ["x"]), ("cells", [4]), ("metres", None), ("metres", True), ("lower", "60"), ("upper", 10**400),
        ("above", "roof"), ("above", None), ("ground", "408"), ("ground", True), ("ground", 1e12),
        ("lower", float("inf")), ("start", 1.5), ("start", -1), ("end", 10**12), ("priority", 1_001),
        ("priority", True), ("at_most", 5), ("at_most", 2_049), ("plan_id", 5), ("plan_id", "x" * 101),
    ],
)  # fmt: skip
def test_what_is_no_draft(member: str, value: Any) -> None:
    with pytest.raises(Wrong):
        draft_of({**DRAFT, member: value})


@pytest.mark.parametrize(
    "members, wrong",
    [
        ({"places": PLACES[:2]}, ShapeError),
        ({"places": [[0, 0], [1, 1], [1, 0], [0, 1]]}, ShapeError),
        ({"places": [[8, 91]] * 3}, ShapeError),
        ({"kind": "line", "places": PLACES[:1]}, ShapeError),
        ({"kind": "circle", "metres": 0}, ShapeError),
        ({"kind": "circle", "places": []}, AreaError),
        ({"kind": "cells"}, AreaError),
        ({"end": DRAFT["start"]}, AreaError),
        ({"upper": 60}, AreaError),
        ({"upper": None}, AreaError),
        ({"lower": None}, AreaError),
        ({"above": "ground"}, AreaError),
        ({"above": "sea"}, AreaError),
        ({"end": DRAFT["start"] + 40 * 86_400}, AreaError),
        ({"upper": 2e9}, Wrong),
    ],
)
def test_drafts_that_are_no_areas(members: dict[str, Any], wrong: type[Exception]) -> None:
    with pytest.raises(wrong):
        draft_of({**DRAFT, **members}).area()


def test_a_ring_that_crosses_itself_is_named_by_its_corners() -> None:
    crossed = [[8.54, 47.37], [8.55, 47.38], [8.55, 47.37], [8.54, 47.38]]
    with pytest.raises(ShapeError) as wrong:
        draft_of({**DRAFT, "places": crossed}).area()
    for edge in ("from corner 1 to corner 2", "from corner 3 to corner 4"):
        assert edge in str(wrong.value)
    assert "47.3" not in str(wrong.value)


ODD: list[Any] = [
    None,
    True,
    -1,
    91,
    1e9,
    1e-300,
    2**70,
    "",
    "x",
    [],
    {},
    [[]],
    [[0, 0]] * 4,
    float("nan"),
    "polygon",
    ["04"] * 70,
]


@pytest.mark.parametrize("seed", range(200))
def test_whatever_comes_is_an_area_or_told(seed: int) -> None:
    some = random.Random(seed)
    value = copy.deepcopy(DRAFT)
    value["kind"] = some.choice(["polygon", "line", "circle", "cells"])
    for name in some.sample(sorted(value), some.choice([1, 1, 2, 3])):
        value[name] = copy.deepcopy(some.choice(ODD))
    try:
        assert draft_of(value).area()
    except (Wrong, ShapeError, AreaError, UnitError) as why:
        assert str(why)


def inside(place: tuple[float, float], low: tuple[float, float], high: tuple[float, float]) -> bool:
    return all(one <= at <= other for one, at, other in zip(low, place, high))


@pytest.mark.parametrize("longitude", [8.5, 179.99, -180, 539.99, -365])
def test_the_grid_lies_over_the_map(longitude: float) -> None:
    rings = grid_over(longitude - 0.05, 47.35, longitude + 0.05, 47.4, 13)
    places = [place for ring in rings for place in ring]
    assert 20 < len(rings) < 200 and all(len(ring) == 4 for ring in rings)
    assert all(inside(place, (47.2, longitude - 0.2), (47.6, longitude + 0.2)) for place in places)


def test_a_grid_that_is_too_fine_is_left_out() -> None:
    assert grid_over(8, 47, 9, 48, 20) == []
    assert 1 <= len(grid_over(-180, -85, 180, 85, 0)) <= 6
    assert len(grid_over(-500, -90, 500, 90, 2)) == 96


def test_rings_over_the_antimeridian_lie_side_by_side() -> None:
    tokens = cells_of(Polygon([(179.99, -17.01), (-179.98, -17.0), (-179.98, -16.98)]))
    longitudes = [longitude for ring in rings_of(tokens) for _, longitude in ring]
    assert max(longitudes) - min(longitudes) < 0.1
    assert rings_of([]) == []


def test_rings_of_large_cells_and_of_rectangles_bend() -> None:
    assert [len(ring) for ring in rings_of(["1", "479aa0a5c"])] == [48, 4]
    assert level_of(id_of("479aa0a5c") or 0) == 15
    ring = ring_of_rectangle(Rectangle(2, 0, 2**29, 0, 2**29, 10))
    assert len(ring) == 48 and len(set(ring)) == 48
