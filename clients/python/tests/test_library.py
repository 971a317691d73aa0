"""The client's own coverer, beside Google's S2 and by itself; a Python that hasn't the S2 library."""
import logging
import math
import os
import random
import subprocess
import sys
from collections.abc import Sequence
from pathlib import Path
from typing import Any

import pytest
import pywraps2 as s2

from uss_desk_client import shapes
from uss_desk_client.cells import cell_of
from uss_desk_client.library import FALLBACK, Google, Library, library
from uss_desk_client.shapes import Circle, Corridor, Polygon, Shape, cells_of
from uss_desk_client.sphere import Place, unit, vector_of
from uss_desk_client.tokens import id_of, leaves_of, normalized, parent_of

CLIENTS = Path(__file__).resolve().parents[2]
SHAPES, GROUPS = 1_000, 20
FIELD = [(8.540, 47.370), (8.556, 47.369), (8.560, 47.379), (8.539, 47.378)]


def star(some: random.Random) -> list[Place]:
    """A ring around a place, not always convex, of a centimetre to a thousand kilometres."""
    x, y, size, count = (
        some.uniform(-179, 179),
        some.uniform(-78, 78),
        10 ** some.uniform(-7, 1),
        some.randrange(3, 20),
    )
    reaches = [size * some.uniform(0.3, 1) for _ in range(count)]
    turns = [2 * math.pi * at / count for at in range(count)]
    ring = [(x + reach * math.cos(turn), y + reach * math.sin(turn)) for reach, turn in zip(reaches, turns)]
    return [((longitude + 540) % 360 - 180, latitude) for longitude, latitude in ring]


def region_of(kind: str, some: random.Random) -> tuple[Shape, list[Any]]:
    """A shape, and the regions of Google's S2 that it is made of."""
    if kind == "ring":
        ring = star(some)
        return Polygon(ring), [Google(s2).ring(ring)]
    x, y = some.uniform(-180, 180), some.uniform(-90, 90)
    if kind == "circle":
        radius = 10 ** some.uniform(-2, 6.5)
        return Circle((x, y), radius), [Google(s2).cap((x, y), radius / shapes.LEAST_RADIUS)]
    path = [(8 + some.uniform(-1, 1), 47 + some.uniform(-1, 1)) for _ in range(some.randrange(2, 5))]
    width = 10 ** some.uniform(0, 4)
    return Corridor(path, width), [Google(s2).cap(place, width / 2 / shapes.LEAST_RADIUS) for place in path]


def leaves_touched(region: Any, some: random.Random) -> list[int]:
    """Leaves that a region touches, by Google's S2: down from each cell of a close cover to a leaf of its edge."""
    covering = s2.S2RegionCoverer()
    covering.set_max_cells(40)
    found = []
    for cell in covering.GetCovering(region):
        while not cell.is_leaf():
            children = [cell.child(at) for at in range(4)]
            touched = [one for one in children if region.MayIntersect(s2.S2Cell(one))]
            on_edge = [one for one in touched if not region.Contains(s2.S2Cell(one))]
            if not touched:
                break
            cell = some.choice(on_edge or touched)
        else:
            found.append(int(cell.id()))
    return found


@pytest.mark.parametrize("group", range(GROUPS))
def test_every_leaf_that_a_random_shape_touches_is_covered(group: int, monkeypatch: pytest.MonkeyPatch) -> None:
    own = Library()
    monkeypatch.setattr(shapes, "library", lambda: own)
    leaves = 0
    for seed in range(group, SHAPES, GROUPS):
        some = random.Random(seed)
        shape, regions = region_of(some.choice(["ring", "ring", "circle", "corridor"]), some)
        at_most = some.choice([6, 16, 64, 64])
        covered = [leaves_of(id_of(token) or 0) for token in cells_of(shape, at_most)]
        assert 1 <= len(covered) <= at_most
        for leaf in (leaf for region in regions for leaf in leaves_touched(region, some)):
            leaves += 1
            assert any(low <= leaf <= high for low, high in covered), (seed, shape, leaf)
    assert leaves > 10 * SHAPES // GROUPS


def size_of(tokens: Sequence[str]) -> float:
    return float(sum(s2.S2Cell(s2.S2CellId.FromToken(token)).ExactArea() for token in tokens))


def test_a_cover_is_about_as_close_as_that_of_the_library(monkeypatch: pytest.MonkeyPatch) -> None:
    ratios = []
    for seed in range(60):
        shape, _ = region_of("ring", random.Random(seed))
        sizes = []
        for found in (Library(), Google(s2)):
            monkeypatch.setattr(shapes, "library", lambda: found)
            sizes.append(size_of(cells_of(shape)))
        ratios.append(sizes[0] / sizes[1])
    assert max(ratios) < 1.2 and sum(ratios) / len(ratios) < 1.02


def test_a_ring_around_a_pole_and_one_over_the_antimeridian(monkeypatch: pytest.MonkeyPatch) -> None:
    monkeypatch.setattr(shapes, "library", Library)
    cases: list[tuple[list[Place], Place, Place]] = [
        ([(0, 80), (90, 80), (180, 80), (-90, 80)], (45, 89.9), (0, -89)),
        ([(179.9, 10), (-179.9, 10), (-179.9, 10.1), (179.9, 10.1)], (180, 10.05), (0, 10.05)),
        ([(170, 0), (-170, 0), (180, 10)], (180, 5), (0, 0)),
    ]
    for ring, inside, outside in cases:
        covered = [leaves_of(id_of(token) or 0) for token in cells_of(Polygon(ring))]
        for place, is_there in ((inside, True), (outside, False)):
            leaf = int(s2.S2CellId(s2.S2LatLng.FromDegrees(place[1], place[0]).ToPoint()).id())
            assert any(low <= leaf <= high for low, high in covered) == is_there


def test_a_crossing_ring_and_a_touching_one(monkeypatch: pytest.MonkeyPatch) -> None:
    monkeypatch.setattr(shapes, "library", Library)
    with pytest.raises(shapes.ShapeError, match="crosses itself"):
        cells_of(Polygon([(8, 47), (8.01, 47.01), (8, 47.01), (8.01, 47)]))
    assert cells_of(Polygon([(0, 0), (1, 0), (1, 1), (0, 1)]))


def test_a_hole_is_left_out(monkeypatch: pytest.MonkeyPatch) -> None:
    monkeypatch.setattr(shapes, "library", Library)
    square = [(8.0, 47.0), (8.01, 47.0), (8.01, 47.01), (8.0, 47.01)]
    hole = [(8.002, 47.002), (8.008, 47.002), (8.008, 47.008), (8.002, 47.008)]
    whole, left = cells_of(Polygon(square), 300), cells_of(Polygon(square, [hole]), 300)
    assert size_of(left) < 0.8 * size_of(whole)


@pytest.mark.parametrize("level", range(31))
def test_cells_are_those_of_the_library(level: int) -> None:
    some = random.Random(level)
    for _ in range(30):
        theirs = s2.S2CellId(some.randrange(6) << 61 | some.getrandbits(60) << 1 | 1).parent(level)
        cell = cell_of(int(theirs.id()))
        face, i, j, _ = theirs.ToFaceIJOrientation()
        assert (cell.face, cell.i, cell.j) == (face, i // cell.side * cell.side, j // cell.side * cell.side)
        assert parent_of(cell.number) == (int(theirs.parent(level - 1).id()) if level else None)
        if level < 30:
            assert [child.number for child in cell.children()] == [int(theirs.child(at).id()) for at in range(4)]
        for at, corner in enumerate(cell.corners()):
            place = s2.S2Cell(theirs).GetS2LatLngVertex(at)
            wanted = vector_of((place.lng().degrees(), place.lat().degrees()))
            assert unit(corner) == pytest.approx(wanted, abs=1e-15)


def test_cells_within_others_and_four_children_become_one() -> None:
    face = 1 << 60
    children = [child.number for child in cell_of(face).children()]
    assert normalized([children[2], face, children[0]]) == [face]
    assert normalized(children[::-1]) == [face]
    assert normalized(children[:3] + [child.number for child in cell_of(children[3]).children()]) == [face]
    assert normalized(children[1:]) == children[1:]


def test_the_library_is_that_of_debian_if_it_is_there() -> None:
    library.cache_clear()
    assert library().name == "pywraps2"


def test_the_own_coverer_is_used_and_told_where_there_is_none(
    monkeypatch: pytest.MonkeyPatch, caplog: pytest.LogCaptureFixture
) -> None:
    modules: Any = sys.modules
    monkeypatch.setitem(modules, "pywraps2", None)
    library.cache_clear()
    try:
        with caplog.at_level(logging.WARNING, "uss_desk_client"):
            assert cells_of(Polygon(FIELD)) and cells_of(Polygon(FIELD))
        assert [one.message for one in caplog.records] == [FALLBACK]
    finally:
        library.cache_clear()


@pytest.mark.parametrize(
    "module, name, package",
    [
        ("uss_desk_map", "uss_desk_map", "python3-aiohttp libjs-leaflet"),
        ("interuss_bridge", "interuss_bridge", "python3-aiohttp"),
    ],
)
def test_an_interpreter_without_debians_packages_says_a_line(module: str, name: str, package: str) -> None:
    places = [CLIENTS / "python", CLIENTS / "map", CLIENTS / "interuss_bridge"]
    ended = subprocess.run(
        [sys.executable, "-S", "-m", module, "--url", "http://127.0.0.1:1", "--operator", "alfa"],
        capture_output=True,
        check=False,
        env={**os.environ, "PYTHONPATH": os.pathsep.join(map(str, places))},
        text=True,
        timeout=300,
    )
    assert (ended.returncode, ended.stdout) == (1, "")
    assert ended.stderr.startswith(f"{name}: ") and ended.stderr.count("\n") == 1, ended.stderr
    assert f"isn't there for {sys.executable}: apt-get install -y {package}, and run it by Debian's" in ended.stderr
