"""Places on a sphere as vectors of length 1: angles, sizes, sides and crossings, by arithmetic alone."""
from __future__ import annotations

import math
from fractions import Fraction
from typing import Sequence, Tuple

Place = Tuple[float, float]
"""Longitude and latitude in degrees."""
Box = Tuple[float, float, float, float]
"""West, south, east and north in degrees. Over the antimeridian the east is beyond 180."""
Vector = Tuple[float, float, float]

SURE = 1e-15
"""Rounding can't change the sign of a determinant of three such vectors that is further from 0 than this."""


def vector_of(place: Place) -> Vector:
    longitude, latitude = math.radians(place[0]), math.radians(place[1])
    return (math.cos(latitude) * math.cos(longitude), math.cos(latitude) * math.sin(longitude), math.sin(latitude))


def place_at(vector: Vector) -> Place:
    """The place that a vector points at; it need not have the length 1."""
    x, y, z = vector
    return math.degrees(math.atan2(y, x)), math.degrees(math.atan2(z, math.hypot(x, y)))


def cross(one: Vector, other: Vector) -> Vector:
    return (
        one[1] * other[2] - one[2] * other[1],
        one[2] * other[0] - one[0] * other[2],
        one[0] * other[1] - one[1] * other[0],
    )


def dot(one: Vector, other: Vector) -> float:
    return one[0] * other[0] + one[1] * other[1] + one[2] * other[2]


def minus(one: Vector, other: Vector) -> Vector:
    return (one[0] - other[0], one[1] - other[1], one[2] - other[2])


def unit(vector: Vector) -> Vector:
    """The vector of length 1 in the direction of one that isn't 0."""
    size = math.hypot(*vector)
    return (vector[0] / size, vector[1] / size, vector[2] / size)


def angle_between(one: Vector, other: Vector) -> float:
    """The angle in radians between two vectors of length 1, exact for small angles too."""
    return 2 * math.asin(min(1.0, math.dist(one, other) / 2))


def angle_to_edge(point: Vector, begin: Vector, end: Vector) -> float:
    """The angle in radians from a point to the nearest point of the shortest line between two others. (Differences of
    vectors keep it exact where all of them lie a centimetre from each other.)"""
    normal = cross(begin, minus(end, begin))
    if math.hypot(*normal) > 0:
        normal = unit(normal)
        from_begin, from_end = minus(point, begin), minus(point, end)
        if dot(cross(normal, begin), from_begin) > 0 and dot(cross(end, normal), from_end) > 0:
            return math.asin(min(1.0, abs(dot(normal, from_begin))))
    return min(angle_between(point, begin), angle_between(point, end))


def signed_size(ring: Sequence[Vector]) -> float:
    """The size in steradians of the side of a ring that is smaller than a hemisphere: positive if the ring runs
    counterclockwise around it, else negative."""
    first, size = ring[0], 0.0
    for one, other in zip(ring[1:], ring[2:]):
        determinant = dot(first, cross(minus(one, first), minus(other, first)))
        size += 2 * math.atan2(determinant, 1 + dot(first, one) + dot(one, other) + dot(other, first))
    return math.remainder(size, 4 * math.pi)


def side_of(one: Vector, other: Vector, third: Vector) -> int:
    """1 if three points run counterclockwise, -1 if they run clockwise, 0 if they lie on one line: exactly."""
    determinant = dot(one, cross(minus(other, one), minus(third, one)))
    if abs(determinant) > SURE:
        return 1 if determinant > 0 else -1
    (a, b, c), (d, e, f), (g, h, i) = ([Fraction(number) for number in vector] for vector in (one, other, third))
    exact = a * (e * i - f * h) - b * (d * i - f * g) + c * (d * h - e * g)
    return (exact > 0) - (exact < 0)


def is_crossed(begin: Vector, end: Vector, other: Vector, beyond: Vector) -> bool:
    """Whether two shortest lines, each of less than a hemisphere, cross at a point that is an end of neither."""
    triangles = ((begin, other, end), (other, end, beyond), (end, beyond, begin), (beyond, begin, other))
    return abs(sum(side_of(*triangle) for triangle in triangles)) == 4


def middle_of(vectors: Sequence[Vector]) -> Vector:
    """The direction of the mean of some vectors; it is (0, 0, 0) if they cancel each other out."""
    return (sum(it[0] for it in vectors), sum(it[1] for it in vectors), sum(it[2] for it in vectors))
