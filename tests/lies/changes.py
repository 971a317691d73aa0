"""Files that are damaged, and requests by chance."""

import pathlib
import random
import subprocess
from collections.abc import Callable, Iterable, Iterator
from typing import Any, NamedTuple

from lies.desk import play
from lies.flights import Flight, Step, World, clear, delete, list_all, put, show

CELLS = 8
NUMBERS = 30
# the first table of a desk, to which it makes the others. A file that sqlite3 makes has no sums
FIRST_TABLE = "CREATE TABLE operator (name TEXT NOT NULL, ceiling INTEGER NOT NULL, PRIMARY KEY (name)) STRICT"


CHANGES: list[Callable[[World, int, int], Step] | None] = [None, None, None, delete, clear]
"""What may be done to a flight; None: it is put."""


class Made(NamedTuple):
    """A closed file: where it is, its bytes, those of an older state, and the worlds of both."""

    path: pathlib.Path
    data: bytes
    older: bytes
    world: World
    older_world: World


def follow(world: World, makers: Iterable[tuple[Any, ...]]) -> tuple[list[Step], World]:
    """The steps that some makers give one after the other, and the world after them."""
    steps: list[Step] = []
    for maker, *words in makers:
        steps.append(maker(world, *words))
        world = steps[-1][2]
    return steps, world


def first_flights(operators: int, numbers: int, cells: int) -> Iterator[tuple[Any, ...]]:
    """PUTs of so many flights of so many operators: of a pair, the lower ones first."""
    for operator in range(operators):
        for number in range(numbers):
            yield put, operator, number, Flight(cells, 10 + 10 * (operator % 2))


def later_changes(operators: int, cells: int) -> Iterator[tuple[Any, ...]]:
    """Changes of every kind, after which the file has closed flights and free pages too."""
    for operator in range(1, operators, 2):
        for number in range(6):
            yield put, operator, number, Flight(cells, 30 + number)
            yield put, operator, 6 + number, Flight(cells, 20, "InUse")
            yield delete, operator, 12 + number
            yield clear, operator, 18 + number
            yield clear, operator - 1, 24 + number
            yield put, operator, NUMBERS + number, Flight(cells, 40)


def make_without_sums(path: pathlib.Path, operators: int) -> Made:
    """Makes a file without sums, as `make_file` does one with sums."""
    subprocess.run(["sqlite3", str(path), FIRST_TABLE], check=True)
    return make_file(path, operators)


def make_file(path: pathlib.Path, operators: int, numbers: int = NUMBERS, cells: int = CELLS) -> Made:
    """Makes a file in two lines, between which it is an older state of itself."""
    world = World({operator: 100 for operator in range(operators)}, {})
    steps, world = follow(world, first_flights(operators, numbers, cells))
    right = play(path, steps, world.ceilings)
    older, older_world = path.read_bytes(), world
    world = world._replace(ceilings={**world.ceilings, 0: 60, 1: 80})
    steps, world = follow(world, later_changes(operators, cells))
    assert right and play(path, steps, {0: 60, 1: 80}), f"{path} wasn't made: an answer is wrong"
    return Made(path, path.read_bytes(), older, world, older_world)


def change_by_chance(world: World, chance: random.Random) -> Step:
    """A change of a flight of a pair's second operator, which nothing refuses."""
    operator = chance.choice([one for one in world.ceilings if one % 2])
    numbers = [number for owner, number in world.flights if owner == operator]
    kind = chance.choice(CHANGES)
    if kind:
        return kind(world, operator, chance.choice(numbers))
    free = [number for number in range(190) if (operator, number) not in world.flights]
    live = [number for number in numbers if world.flights[operator, number].usage == "Planned"]
    cells = max(flight.cells for flight in world.flights.values())
    return put(world, operator, chance.choice(free + live), Flight(cells, chance.randrange(20, 60)))


def step_by_chance(world: World, chance: random.Random) -> Step:
    """A request: mostly one that reads."""
    operator, number = chance.choice(list(world.flights))
    kind = chance.randrange(20)
    if kind < 2:
        return change_by_chance(world, chance)
    return list_all(world, operator) if kind == 2 else show(world, operator, number)
