"""The end of each line over a file: FILE alone is the desk then."""

import pathlib
import random
import subprocess
from collections.abc import Callable

import pytest
from faults.program import PROGRAM, finish
from harness.places import EXAMPLES, TESTS
from lies.changes import Made, change_by_chance, make_file
from lies.damage import bit, damaged
from lies.desk import Desk, copy_pair, log_of, opened
from lies.flights import MOMENT, World, name_of, read_all
from lies.trials import Trial

EMPTY = 41
"""What is left of a log that was emptied, in bytes."""
SHOWN = 1780315000


@pytest.fixture(scope="module")
def made(place: pathlib.Path) -> Made:
    """A closed file of two operators."""
    return make_file(place / "ends.db", 2)


def line(path: pathlib.Path, *words: str, given: bytes = b"") -> int:
    """The exit status of a line over a file."""
    return finish([PROGRAM, words[0], "--db", str(path), *words[1:]], given).status


def take_log(path: pathlib.Path) -> None:
    """Takes away a log that is empty."""
    assert log_of(path).stat().st_size <= EMPTY
    log_of(path).unlink()


def played(world: World, path: pathlib.Path) -> World:
    """A line that changes something."""
    asked, _, after = change_by_chance(world, random.Random("played"))
    assert line(path, "play", "--at", str(MOMENT), given=asked) == 0
    return after


def cut_short(world: World, path: pathlib.Path) -> World:
    """A line that fails after it has changed something."""
    asked, _, after = change_by_chance(world, random.Random("cut short"))
    assert line(path, "play", "--at", str(MOMENT), given=asked + asked[:50]) == 3
    return after


def enrolled(world: World, path: pathlib.Path) -> World:
    """A line that changes a ceiling."""
    assert line(path, "enrol", name_of(0), "80") == 0
    return world._replace(ceilings={**world.ceilings, 0: 80})


def served(world: World, path: pathlib.Path) -> World:
    """A line that serves twenty connections."""
    chance = random.Random("served")
    with Desk(path, 20) as desk:
        for _ in range(20):
            asked, told, world = change_by_chance(world, chance)
            assert desk.ask(asked) == told
        assert desk.ended() == (0, "")
    return world


def migrated(world: World, path: pathlib.Path) -> World:
    """A line that has nothing to move."""
    assert line(path, "migrate") == 0
    return world


@pytest.mark.quick_each(5)
@pytest.mark.parametrize("end", [played, cut_short, enrolled, served, migrated])
def test_file_alone(end: Callable[[World, pathlib.Path], World], made: Made, room: pathlib.Path) -> None:
    """FILE without its log, which is empty, has what a line left."""
    path = copy_pair(made.path, room / "desk.db")
    world = end(made.world, path)
    take_log(path)
    assert opened(path, world) == (None, read_all(world)[1])


def test_moved(room: pathlib.Path) -> None:
    """FILE alone has the plans that were moved to it from schema 1."""
    path = room / "desk.db"
    subprocess.run(["sqlite3", str(path)], input=(TESTS / "schema1.sql").read_bytes(), check=True)
    assert line(path, "migrate") == 0
    take_log(path)
    asked = (EXAMPLES / "show_p.http").read_bytes()
    ran = finish([PROGRAM, "play", "--db", str(path), "--at", str(SHOWN)], asked)
    assert (ran.status, ran.output) == (0, (TESTS / "schema1.answer").read_bytes())


@pytest.mark.quick_each(10)
@pytest.mark.trials("FILE-wal after a line", [("single bits", 100)])
def test_empty_log(trial: Trial, words: tuple[()], made: Made) -> None:
    """Damage in a log that is empty changes nothing."""
    copy_pair(made.path, trial.path)
    log_of(trial.path).write_bytes(damaged(log_of(trial.path).read_bytes(), b"", bit, trial.chance))
    assert opened(trial.path, made.world) == (None, read_all(made.world)[1])
    trial.came_to("the same content")
