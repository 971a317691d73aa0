"""Plans by numbers: how many there are, and where, as bench/search draws and changes them.

A pattern has a number for each gene. Leaf, altitude and second of a volume are each the sum of a base and of a step for
each number that a volume has: of its operator, of its plan, and of itself in two digits; for leaves that of the cell
too. A step of `None` makes the place random for that number.
"""

import datetime
import hashlib
import random
from typing import Optional

import crowds
from harness.requests import MOMENT, Json, volume

Pattern = dict[str, Optional[int]]
"""A number of each gene; a gene that isn't there is 0."""
Numbers = dict[str, int]

MOST = {"plans": 200, "volumes": 32, "inner": 32, "cells": 64, "wide": 1024, "high": 1024}
"""The limits of docs/api.md; the number of a volume in a plan is outer * `inner` + inner."""
LEVEL = 24
"""The greatest level of a rectangle, here also of cells."""
DIGITS = ("operator", "plan", "outer", "inner")
AXES = {"leaf": (*DIGITS, "cell"), "altitude": DIGITS, "second": DIGITS}
LOWEST, HEIGHTS, DAY = -10_000, 210_000, 86_000
GENES = [
    *MOST,
    *("level", "within", "rectangle", "leaf"),
    *(f"{axis}{part}" for axis in ("altitude", "second") for part in ("_size", "")),
    *(f"{axis}_{digit}" for axis, digits in AXES.items() for digit in digits),
]


def of(pattern: Pattern, gene: str) -> int:
    """A number of a pattern."""
    return pattern.get(gene) or 0


def room(pattern: Pattern, axis: str) -> int:
    """How many places an axis has: cells of the level on six faces, decimetres, seconds."""
    return {"leaf": 6 << 2 * of(pattern, "level"), "altitude": HEIGHTS, "second": DAY}[axis]


def any_size(chance: random.Random, most: int) -> int:
    """A number from 1: at times the greatest or the least, else each order of magnitude alike."""
    pick = chance.random()
    return most if pick < 0.25 else 1 if pick < 0.35 else int((most + 1) ** chance.random())


def draw(chance: random.Random, pattern: Pattern, gene: str) -> Optional[int]:
    """A number for a gene. A step is often none, or by the size of what is placed; a base is often on the hour."""
    axis, _, part = gene.partition("_")
    if gene in MOST:
        return any_size(chance, MOST[gene])
    if gene in ("level", "within"):
        return chance.choice((0, LEVEL, chance.randrange(LEVEL), chance.randrange(LEVEL)))
    if gene == "rectangle":
        return chance.randrange(2)
    most = room(pattern, axis)
    if part == "size":
        return any_size(chance, most)
    if not part:
        return chance.randrange(24) * most // 24
    size, some = of(pattern, f"{axis}_size") or 1, any_size(chance, most)
    return chance.choice((0, 0, 0, 0, 0, 0, size, size, size, -size, 2 * size, None, some, -some))


def drawn(chance: random.Random) -> Pattern:
    """A random pattern."""
    pattern: Pattern = {}
    for gene in GENES:
        pattern[gene] = draw(chance, pattern, gene)
    return pattern


def changed(chance: random.Random, pattern: Pattern) -> Pattern:
    """A pattern with some numbers drawn anew, doubled, halved, or more or less by one or by a size."""
    new = dict(pattern)
    for gene in chance.sample(GENES, chance.choice((1, 1, 2, 2, 3, 5))):
        old, size = of(new, gene), of(new, f"{gene.partition('_')[0]}_size") or 1
        new[gene] = draw(chance, new, gene)
        if chance.random() < 0.4:
            new[gene] = chance.choice((2 * old, old // 2, old + 1, old - 1, old + size, old - size))
        if gene in MOST or gene in ("level", "within"):
            new[gene] = min(max(of(new, gene), int(gene in MOST)), MOST.get(gene, LEVEL))
    return new


def mixed(chance: random.Random, one: Pattern, other: Pattern) -> Pattern:
    """A pattern with each axis, and each other number, of one of two."""
    groups = {gene.partition("_")[0] for gene in GENES}
    first = {group for group in sorted(groups) if chance.random() < 0.5}
    return {gene: (one if gene.partition("_")[0] in first else other).get(gene, 0) for gene in GENES}


def place(pattern: Pattern, axis: str, seed: int, numbers: Numbers) -> int:
    """Where on an axis something of these numbers stands. Random leaves are within a cell of a level of a face."""
    steps = {digit: pattern.get(f"{axis}_{digit}", 0) for digit in numbers}
    at = of(pattern, axis) + sum((steps[digit] or 0) * number for digit, number in numbers.items())
    some = [numbers[digit] for digit in numbers if steps[digit] is None]
    if some:
        places = room(pattern, axis)
        if axis == "leaf" and of(pattern, "within"):
            places = max(1, places // 6 >> 2 * (of(pattern, "within") - 1))
        digest = hashlib.blake2b(f"{seed} {axis} {some}".encode(), digest_size=16).digest()
        at += int.from_bytes(digest, "big") % places
    return at


def ground(pattern: Pattern, seed: int, numbers: Numbers) -> Json:
    """The footprint of a volume: cells, by the curve, or a rectangle, whose place is counted row by row."""
    if not of(pattern, "rectangle"):
        level, places = of(pattern, "level"), room(pattern, "leaf")
        cells = (place(pattern, "leaf", seed, {**numbers, "cell": cell}) for cell in range(of(pattern, "cells")))
        return {"cells": [crowds.token_of(crowds.cell_at(level, at % places)) for at in cells]}
    level = max(of(pattern, "level"), 8)
    at, side = place({**pattern, "level": level}, "leaf", seed, {**numbers, "cell": 0}), 1 << level
    wide = min(of(pattern, "wide"), side)
    high = min(of(pattern, "high"), side, MOST["wide"] // wide)
    i, j, leaf = (at >> level) % (side - wide + 1), at % (side - high + 1), 1 << 30 - level
    sides = {"i_min": i * leaf, "i_max": (i + wide) * leaf - 1, "j_min": j * leaf, "j_max": (j + high) * leaf - 1}
    return {"rectangle": {"face": (at >> 2 * level) % 6, "level": level, **sides}}


def written(second: int) -> str:
    """A second of the day as a request has it."""
    moment = datetime.datetime.fromtimestamp(MOMENT + 60 + second, datetime.timezone.utc)
    return moment.strftime("%Y-%m-%dT%H:%M:%SZ")


def area(pattern: Pattern, seed: int, operator: int, plan: int, most: int) -> list[Json]:
    """The volumes of a plan, so many at most."""
    made = []
    for number in range(min(of(pattern, "volumes"), most)):
        outer, inner = divmod(number, max(of(pattern, "inner"), 1))
        numbers = {"operator": operator, "plan": plan, "outer": outer, "inner": inner}
        bounds = []
        for axis in ("altitude", "second"):
            size = min(max(of(pattern, f"{axis}_size"), 1), room(pattern, axis))
            at = place(pattern, axis, seed, numbers) % (room(pattern, axis) - size + 1)
            bounds += [at, at + size]
        lower, upper, start, end = bounds
        where = ground(pattern, seed, numbers)
        made.append(volume(where, LOWEST + lower, LOWEST + upper, written(start), written(end)))
    return made
