"""Shapes on the ground, in degrees and metres, and the S2 cells that cover them.

A place is a pair (longitude, latitude) in degrees of WGS84, in the order of GeoJSON. A cover is an *outer* one: the
cells contain the shape. S2 takes degrees of WGS84 as those of a sphere, and so does this module, with lengths turned
into angles by the least radius of curvature of WGS84: a circle or a corridor is never covered too small.

The cells are found by what `library` has. S2 as Debian builds it ends the whole program at a ring that is no simple
polygon. So each ring is tested here first.
"""
from __future__ import annotations

import math
from dataclasses import dataclass
from typing import Any, Iterable, List, NamedTuple, Sequence, Tuple

from uss_desk_client.errors import DeskError
from uss_desk_client.library import library
from uss_desk_client.limits import MAX_CELLS, MAX_VOLUMES
from uss_desk_client.sphere import Place, Vector, angle_between, cross, place_at, vector_of
from uss_desk_client.tokens import children_of, level_of, token_of
from uss_desk_client.units import Metres, UnitError, exact

LEAST_RADIUS = 6_335_439.0
"""Metres: the least radius of curvature of the WGS84 ellipsoid, that of a meridian at the equator."""
GREATEST_RADIUS = 6_399_594.0
"""Metres: the greatest radius of curvature, at the poles."""
MARGIN = 1e-10
"""Radians, less than a millimetre: how much circles and corridors are widened against rounding."""
SAME_WITHIN = 1e-12
"""Radians, a hundredth of a millimetre: places that are nearer to each other are taken for one."""
STRAIGHT_WITHIN = 0.01
"""Metres: how closely a line that is straight in longitude and latitude is followed."""
FEWEST_CELLS = 6
"""S2 may need a cell of each face, however few are asked for."""
MOST_CELLS = MAX_CELLS * MAX_VOLUMES
MOST_PLACES = 5_000
"""Places of a ring or a path, with those that are put in between where straight lines are followed."""


class ShapeError(DeskError, ValueError):
    """A shape that can't be covered by cells, with what is wrong."""


class Shape:
    """A shape on the ground."""

    def covering(self, at_most: int) -> List[int]:
        """The ids of cells, at most so many, none within another, that contain the shape."""
        raise NotImplementedError


@dataclass(frozen=True)
class Polygon(Shape):
    """The inside of a ring of places, without holes. Rings may be closed or not, and run either way.

    The inside is the side that is smaller than a hemisphere. Edges are the shortest lines between places, as in
    ASTM F3548-21 and InterUSS; if `is_straight`, they are straight in longitude and latitude, as in GeoJSON, and
    followed within a centimetre. Of a hole the cells are left out that lie in it whole.
    """

    ring: Sequence[Place]
    holes: Sequence[Sequence[Place]] = ()
    is_straight: bool = False

    def covering(self, at_most: int) -> List[int]:
        holes = [loop_of(hole, self.is_straight) for hole in self.holes]
        cells = library().cover(loop_of(self.ring, self.is_straight), at_most)
        finest = max(map(level_of, cells))
        for hole in holes:
            cells = [kept for cell in cells for kept in outside(hole, cell, finest)]
        return library().merged([cells], at_most)


@dataclass(frozen=True)
class Circle(Shape):
    """All places within `radius` metres of a place."""

    centre: Place
    radius: Metres

    def covering(self, at_most: int) -> List[int]:
        return library().cover(cap_of(place_of(self.centre), angle_of(self.radius)), at_most)


@dataclass(frozen=True)
class Corridor(Shape):
    """All places within half of `width` metres of a path. The path's edges are those of a Polygon."""

    path: Sequence[Place]
    width: Metres
    is_straight: bool = False

    def covering(self, at_most: int) -> List[int]:
        path = that_move([place_of(place) for place in self.path])
        if len(path) < 2:
            raise ShapeError("a corridor has at least two places that differ")
        if self.is_straight:
            path = followed(path, is_ring=False)
        half = angle_of(self.width) / 2
        regions = [cap_of(place, half) for place in path]
        regions += [strip_of(place, after, half) for place, after in zip(path, path[1:])]
        return library().merged([library().cover(region, max(at_most, MAX_CELLS)) for region in regions], at_most)


@dataclass(frozen=True)
class Shapes(Shape):
    """All places of some shapes."""

    shapes: Sequence[Shape]

    def covering(self, at_most: int) -> List[int]:
        if not self.shapes:
            raise ShapeError("there is no shape")
        return library().merged([shape.covering(max(at_most, MAX_CELLS)) for shape in self.shapes], at_most)


def cells_of(shape: Shape, at_most: int = MAX_CELLS) -> List[str]:
    """The tokens of cells that contain a shape, ascending by id, none within another.

    `at_most` is how many they may be, 6 to 2,048. 64, the most of a volume, take some 1.2 times the area of a
    square; more cells follow the shape more closely, and a plan then has several volumes (`area_of`).
    A ShapeError says why a shape has no cover.
    """
    if not FEWEST_CELLS <= at_most <= MOST_CELLS:
        raise ShapeError(f"at most {at_most} cells are asked for: from {FEWEST_CELLS} to {MOST_CELLS} may be")
    return [token_of(number) for number in sorted(shape.covering(at_most))]


def outside(hole: Any, number: int, finest: int) -> List[int]:
    """The cells down to a level that a cell is made of, without those that lie whole in a hole."""
    if library().contains(hole, number):
        return []
    if level_of(number) >= finest or not library().meets(hole, number):
        return [number]
    return [kept for child in children_of(number) for kept in outside(hole, child, finest)]


# ---- places and angles


def place_of(pair: Sequence[float]) -> Place:
    """A place, if the pair is one."""
    if len(pair) < 2:
        raise ShapeError(f"{pair!r} is no pair of longitude and latitude")
    longitude, latitude = pair[0], pair[1]
    for name, degrees, limit in (("longitude", longitude, 180), ("latitude", latitude, 90)):
        if isinstance(degrees, bool) or not isinstance(degrees, (int, float)) or not math.isfinite(degrees):
            raise ShapeError(f"the {name} {degrees!r} is no number of degrees")
        if abs(degrees) > limit:
            raise ShapeError(f"the {name} {degrees} lies beyond {limit} degrees; a place is (longitude, latitude)")
    return float(longitude), float(latitude)


def angle_of(metres: Metres) -> float:
    """An angle in radians that is at least so many metres long, in whatever direction and latitude."""
    try:
        length = float(exact(metres))
    except UnitError as wrong:
        raise ShapeError(str(wrong)) from None
    angle = length / LEAST_RADIUS
    if not 0 < angle < math.pi / 2:
        raise ShapeError(f"a radius or a width of {metres} m isn't above 0 and below a quarter of the globe")
    return angle


def is_same(one: Place, other: Place) -> bool:
    """Whether two pairs are one place: at a pole and on the antimeridian it may be written in several ways."""
    return math.dist(vector_of(one), vector_of(other)) < SAME_WITHIN


def that_move(places: Iterable[Place]) -> List[Place]:
    """The places without those that are where the one before them is."""
    kept: List[Place] = []
    for place in places:
        if not kept or not is_same(kept[-1], place):
            kept.append(place)
    return kept


def length_of(begin: Place, end: Place) -> float:
    """The angle between two places in radians."""
    return angle_between(vector_of(begin), vector_of(end))


def turn(begin: Place, end: Place) -> float:
    """The degrees of longitude from one place to another, the shorter way."""
    degrees = end[0] - begin[0]
    return degrees - 360 if degrees > 180 else degrees + 360 if degrees < -180 else degrees


# ---- regions


def cap_of(place: Place, angle: float) -> Any:
    return library().cap(place, angle + MARGIN)


def strip_of(begin: Place, end: Place, half: float) -> Any:
    """A loop that contains all points within an angle of the shortest line between two places, but for those that
    are beyond its ends. Its long sides are shortest lines too, so they bend away from the line between them."""
    first, last = vector_of(begin), vector_of(end)
    normal = cross(first, last)
    size = math.hypot(*normal)
    if size == 0 or length_of(begin, end) > math.pi / 2:
        raise ShapeError(f"the line from {begin} to {end} is longer than a quarter of the globe")

    def beside(vector: Vector, side: int) -> Place:
        along, across = math.cos(half + MARGIN), side * math.sin(half + MARGIN) / size
        x, y, z = (along * here + across * aside for here, aside in zip(vector, normal))
        return place_at((x, y, z))

    return library().ring([beside(first, -1), beside(last, -1), beside(last, 1), beside(first, 1)])


def loop_of(ring: Sequence[Place], is_straight: bool) -> Any:
    """The region of a ring: the side that is smaller than a hemisphere."""
    return library().ring(ring_followed(ring, is_straight))


def ring_followed(ring: Sequence[Place], is_straight: bool) -> List[Place]:
    """The places of a ring between which its edges are shortest lines. A ShapeError if it has no inside."""
    corners = open_ring(ring)
    is_in_reach(corners)
    steps = followed_edges(corners, is_ring=True) if is_straight else list(zip(corners, range(len(corners))))
    is_simple(steps, corners)
    return [place for place, _ in steps]


# ---- rings


def open_ring(ring: Sequence[Place]) -> List[Place]:
    """The places of a ring, each once in a row, the first not again at the end."""
    kept = that_move(place_of(place) for place in ring)
    while len(kept) > 1 and is_same(kept[0], kept[-1]):
        kept.pop()
    if len(kept) < 3:
        raise ShapeError(f"a ring has at least three places that differ, and this one has {len(kept)}")
    if len(kept) > MOST_PLACES:
        raise ShapeError(f"a ring has at most {MOST_PLACES} places, and this one has {len(kept)}: simplify it")
    return kept


def is_in_reach(places: List[Place]) -> None:
    """A ShapeError unless each edge is at most a quarter of the globe, and the ring at most a hemisphere."""
    area, turned = 0.0, 0.0
    for begin, end in zip(places, places[1:] + places[:1]):
        if length_of(begin, end) > math.pi / 2:
            raise ShapeError(
                f"the edge from {begin} to {end} is longer than a quarter of the globe: put places in between"
            )
        step = turn(begin, end)
        turned += step
        heights = math.sin(math.radians(begin[1])) + math.sin(math.radians(end[1]))
        area += math.radians(step) * heights / 2
    if abs(turned) < 180 and abs(area) > 2 * math.pi:
        raise ShapeError("the ring goes around more than a hemisphere; a cover is made of the smaller side alone")


def followed(places: List[Place], is_ring: bool) -> List[Place]:
    """The places with others between them, so that the shortest lines between neighbours keep within a centimetre
    of those that are straight in longitude and latitude.

    On a straight line that goes x to the east and y to the north, both in radians, at the latitude p, the shortest
    one departs by at most an eighth of x (x sin p cos p + 2 y sin p).
    """
    return [place for place, _ in followed_edges(places, is_ring)] + ([] if is_ring else places[-1:])


def followed_edges(places: List[Place], is_ring: bool) -> List[Tuple[Place, int]]:
    """The places of `followed` but for the last one of a path, each with the number of the edge that it lies on."""
    found: List[Tuple[Place, int]] = []
    ends = places[1:] + places[:1] if is_ring else places[1:]
    for number, (begin, end) in enumerate(zip(places, ends)):
        parts = parts_of(begin, end)
        if len(found) + parts > MOST_PLACES:
            raise ShapeError(
                "the edges are too long to follow lines that are straight in longitude and "
                "latitude: use several shapes, or shortest lines"
            )
        step = turn(begin, end)
        for part in range(parts):
            longitude = begin[0] + step * part / parts
            longitude -= 360 if longitude > 180 else -360 if longitude < -180 else 0
            found.append(((longitude, begin[1] + (end[1] - begin[1]) * part / parts), number))
    return found


def parts_of(begin: Place, end: Place) -> int:
    """Into how many parts a straight line is cut, so that it is followed within a centimetre."""
    latitude = math.radians(max(abs(begin[1]), abs(end[1])))
    east, north = math.radians(abs(turn(begin, end))), math.radians(abs(end[1] - begin[1]))
    bent = east * math.sin(2 * min(latitude, math.pi / 4)) / 2 + 2 * north * math.sin(latitude)
    return max(1, math.ceil(math.sqrt(GREATEST_RADIUS * east * bent / 8 / STRAIGHT_WITHIN)))


class Edge(NamedTuple):
    """An edge of a ring, with the least and the greatest coordinates of the points on it."""

    number: int
    low: Vector
    high: Vector


def edges_of(places: List[Place]) -> List[Edge]:
    """The edges in boxes, ascending by their least first coordinates. An edge bends out of the box of its ends by
    at most the rise of its arc."""
    vectors = [vector_of(place) for place in places]
    edges = []
    for number, (begin, end) in enumerate(zip(vectors, vectors[1:] + vectors[:1])):
        rise = math.dist(begin, end) ** 2 / 4 + 1e-12
        low = tuple(min(pair) - rise for pair in zip(begin, end))
        high = tuple(max(pair) + rise for pair in zip(begin, end))
        edges.append(Edge(number, (low[0], low[1], low[2]), (high[0], high[1], high[2])))
    return sorted(edges, key=lambda edge: edge.low)


def neighbours(places: List[Place]) -> Iterable[Tuple[int, int]]:
    """The numbers of each two edges whose boxes meet."""
    edges = edges_of(places)
    for at, edge in enumerate(edges):
        for later in range(at + 1, len(edges)):
            other = edges[later]
            if other.low[0] > edge.high[0]:
                break
            if all(other.low[axis] <= edge.high[axis] and edge.low[axis] <= other.high[axis] for axis in (1, 2)):
                yield edge.number, other.number


def is_simple(steps: List[Tuple[Place, int]], corners: List[Place]) -> None:
    """A ShapeError if a ring comes to a place twice, or crosses itself. `steps` are its places, each with the number of
    the edge that it lies on; edges are told by their `corners`."""
    places = [place for place, _ in steps]
    for first, second in neighbours(places):
        after, beyond = (first + 1) % len(places), (second + 1) % len(places)
        for one in (first, after):
            for other in (second, beyond):
                if one != other and is_same(places[one], places[other]):
                    raise ShapeError(f"the ring comes to {places[one]} twice: cut it into several rings")
        if {first, after} & {second, beyond}:
            continue
        if library().is_crossed(places[first], places[after], places[second], places[beyond]):
            told = " and that ".join(edge_told(corners, steps[at][1]) for at in sorted((first, second)))
            raise ShapeError(f"the ring crosses itself: the edge {told}")


def edge_told(corners: List[Place], number: int) -> str:
    return f"from {corners[number]} to {corners[(number + 1) % len(corners)]}"
