"""Requests of a crowded sky: a city at work, and the most that one operator may plan.

City: flights start from 20 hubs of one cell of level 10, and go straight over up to 64 cells of level 17, for ten
minutes of 25 days, in one of four bands of altitude, so that most share ground and time and altitude keep them apart.
The other rows are plans of the greatest number of volumes, most of one operator, which never meet one another.
"""

import datetime
import pathlib
import random
import re
import sys
import uuid
from collections.abc import Callable, Iterator

sys.path.insert(0, str(pathlib.Path(__file__).resolve().parent.parent / "tests"))

from harness.requests import Json, list_plans, over, put, volume  # noqa: E402  (the path is set above)

Square = tuple[int, int]

FIRST = datetime.datetime(2026, 6, 1, 12, 10)
"""When the city's first day begins, unless it is another."""
CITY_LEVEL, CITY_SIDE, HUBS, REACH = 17, 128, 20, 40
CORNER = (37 * CITY_SIDE, 90 * CITY_SIDE)
VOLUMES, CELLS = 32, 64
# a column of 1,024 squares of level 24, in leaves, whose cover has 1,024 cells and 768 ranges
COLUMN, FIRST_ROW, ROWS = 64 * 8_388_609, 64 * 256, 64 * 1024
# where the children of a square stand on the curve, by its orientation, and how the orientation turns
CHILDREN = ((0, 1, 3, 2), (0, 2, 3, 1), (3, 2, 0, 1), (3, 1, 0, 2))
TURNS = (1, 0, 0, 3)


def token_of(cell: int) -> str:
    """The token of a cell id."""
    return f"{cell:016x}".rstrip("0")


def cell_at(level: int, position: int) -> int:
    """The id of the cell of face 0 at a position of its level."""
    free = 2 * (30 - level)
    return position << free + 1 | 1 << free


def position(level: int, i: int, j: int) -> int:
    """The position on the curve of a square of face 0."""
    at = turn = 0
    for bit in range(level - 1, -1, -1):
        child = CHILDREN[turn].index(2 * (i >> bit & 1) + (j >> bit & 1))
        at, turn = 4 * at + child, turn ^ TURNS[child]
    return at


def line(one: Square, other: Square) -> list[Square]:
    """The squares between two, both included, each once, at most CELLS of them."""
    i, j = other[0] - one[0], other[1] - one[1]
    steps = max(abs(i), abs(j), 1)
    way = [(one[0] + i * step // steps, one[1] + j * step // steps) for step in range(steps + 1)]
    return list(dict.fromkeys(way))[:CELLS]


def some_hubs(chance: random.Random, count: int = HUBS) -> list[Square]:
    """Where flights start."""
    return [(chance.randrange(CITY_SIDE), chance.randrange(CITY_SIDE)) for _ in range(count)]


def flight(chance: random.Random, hubs: list[Square], days: int = 25, first: datetime.datetime = FIRST) -> Json:
    """A volume of a flight in the city, on one of so many days."""
    hub = chance.choice(hubs)
    to_i, to_j = (min(max(at + chance.randrange(-REACH, REACH + 1), 0), CITY_SIDE - 1) for at in hub)
    squares = [position(CITY_LEVEL, CORNER[0] + i, CORNER[1] + j) for i, j in line(hub, (to_i, to_j))]
    start = first + datetime.timedelta(minutes=chance.randrange(days * 24 * 60))
    written = [at.strftime("%Y-%m-%dT%H:%M:%SZ") for at in (start, start + datetime.timedelta(minutes=10))]
    band = chance.randrange(4) * 300
    cells = [token_of(cell_at(CITY_LEVEL, square)) for square in squares]
    return volume({"cells": cells}, band, band + 300, *written)


def city(count: int, asked: int = 0) -> Iterator[bytes]:
    """So many first PUTs of a city, 200 an operator, and then so many that only ask."""
    chance = random.Random(7)
    hubs = some_hubs(chance)
    for number in range(count + asked):
        style = "IfAllowed" if number < count else "Hypothetical"
        identity = uuid.UUID(int=chance.getrandbits(128))
        yield put(f"op{number // 200}", identity, [flight(chance, hubs)], style=style)


def nation_plans(count: int) -> Iterator[tuple[str, uuid.UUID, list[Json], int]]:
    """Flights over a quarter of a face: 2 to 12 cells of level 16 in a line, for twenty minutes of 25 days, in one of
    four bands of altitude, at three priorities, 200 an operator. Nearly none is refused."""
    chance, side = random.Random(11), 1 << 14
    for number in range(count):
        i, j = chance.randrange(side), chance.randrange(side)
        step_i, step_j = chance.choice([(1, 0), (0, 1), (1, 1)])
        squares = {position(16, i + step_i * at, j + step_j * at) for at in range(chance.randrange(2, 13))}
        start = FIRST + datetime.timedelta(minutes=chance.randrange(25 * 24 * 60))
        written = [at.strftime("%Y-%m-%dT%H:%M:%SZ") for at in (start, start + datetime.timedelta(minutes=20))]
        band = chance.randrange(4) * 300
        cells = [token_of(cell_at(16, square)) for square in sorted(squares)]
        area = volume({"cells": cells}, band, band + 300, *written)
        identity = uuid.UUID(int=chance.getrandbits(128))
        yield f"op{number // 200}", identity, [area], chance.randrange(3) * 10


def nation(count: int) -> Iterator[bytes]:
    """So many PUTs of these flights."""
    for operator, identity, area, priority in nation_plans(count):
        yield put(operator, identity, area, priority=priority)


def strips(count: int, operator: str = "op0", volumes: int = VOLUMES, first: int = 0) -> Iterator[bytes]:
    """Plans on one ground at altitudes of their own, each of 32 strips, one above the other, of one column. A plan of
    fewer volumes has fewer strips; `first` numbers the first of them."""
    rows = {"j_min": FIRST_ROW, "j_max": FIRST_ROW + ROWS - 1}
    column = {"face": 0, "i_min": COLUMN, "i_max": COLUMN, **rows, "level": 24}
    for number in range(first, first + count):
        lowers = range(320 * number, 320 * number + 10 * volumes, 10)
        yield put(operator, uuid.UUID(int=number + 1), [volume({"rectangle": column}, at, at + 10) for at in lowers])


def length_of(head: bytes) -> int:
    """How many bytes an answer has behind its head."""
    found = re.search(rb"(?i)content-length: (\d+)", head)
    return int(found[1]) if found else 0


def random_cells(chance: random.Random, count: int) -> list[str]:
    """Random cells of level 16."""
    return [token_of(chance.randrange(6) << 61 | chance.randrange(1 << 32) << 29 | 1 << 28) for _ in range(count)]


def same(count: int) -> Iterator[bytes]:
    """Plans of 32 volumes of 64 cells, the same cells in each, at altitudes of their own."""
    chance = random.Random(5)
    areas = [{"cells": random_cells(chance, CELLS)} for _ in range(VOLUMES)]
    for number in range(count):
        lower = 100 * number
        yield put("op0", uuid.UUID(int=number + 1), [volume(area, lower, lower + 100) for area in areas])


def comb(count: int, operators: int = 1) -> Iterator[bytes]:
    """Plans of 32 volumes of 64 cells whose leaves lie side by side, in one window and at the same altitudes."""
    for number in range(count):
        places = [
            [cell_at(20, ((at * CELLS + cell) * 2 * count + 2 * number)) for cell in range(CELLS)]
            for at in range(VOLUMES)
        ]
        areas = [{"cells": [token_of(cell) for cell in cells]} for cells in places]
        yield put(f"op{number % operators}", uuid.UUID(int=number + 1), [volume(area, 0, 1000) for area in areas])


def combs(count: int) -> Iterator[bytes]:
    """The same, by two operators in turn."""
    return comb(count, operators=2)


def wide() -> bytes:
    """A plan of 24 volumes, each a cell of level 1, so that it has more long spans than are asked for by themselves."""
    cells = [token_of(face << 61 | quarter << 59 | 1 << 58) for face in range(6) for quarter in range(4)]
    return put("op0", uuid.UUID(int=1), [over([cell], 50_000, 51_000) for cell in cells])


LISTED: dict[str, Callable[[int], Iterator[bytes]]] = {"strips": strips, "same": same, "comb": comb, "combs": combs}
SHOWN_LIST = list_plans("op0")
OVER_A_FACE = [put("op1", uuid.UUID(int=1), [over(["1"], -10_000, 200_000)], priority=5)]
