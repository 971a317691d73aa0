"""Damage under a running desk, in FILE and in FILE-wal: each answer is right, or a 500 after which the desk ends."""

import pathlib
import random
from collections.abc import Callable

import pytest
from faults.scenario import answer
from lies.changes import Made, change_by_chance, make_file, step_by_chance
from lies.damage import PAGE, SECTOR, Kind, changed_pages, flip, live_part
from lies.desk import Desk, copy_pair, log_of, opened
from lies.flights import Step, World, read_all
from lies.trials import Trial

# the pages that a desk keeps in memory
CACHE = 2_000
STORE = answer(500, '{"error":"store"}')
OPERATORS, NUMBERS, CELLS = 10, 100, 40
REQUESTS = 400
CHANGES = 60


def chosen(data: bytearray, chance: random.Random) -> list[int]:
    """Where some five of each hundred pages begin."""
    pages = range(0, len(data), PAGE)
    return chance.sample(pages, len(pages) // 20)


def bits(data: bytearray, _: bytes, chance: random.Random) -> None:
    """A bit flipped in each of them."""
    for at in chosen(data, chance):
        flip(data, chance, at, at + PAGE)


def zeros(data: bytearray, _: bytes, chance: random.Random) -> None:
    """A sector of zeros in each of them."""
    for at in chosen(data, chance):
        sector = at + chance.randrange(PAGE // SECTOR) * SECTOR
        data[sector : sector + SECTOR] = bytes(SECTOR)


def moved(data: bytearray, _: bytes, chance: random.Random) -> None:
    """They change places among each other."""
    places = chosen(data, chance)
    pages = [bytes(data[at : at + PAGE]) for at in places]
    for at, page in zip(places, pages[1:] + pages[:1]):
        data[at : at + PAGE] = page


def older(data: bytearray, old: bytes, chance: random.Random) -> None:
    """Half of the pages that an older state has otherwise."""
    pages = changed_pages(data, old)
    for at in chance.sample(pages, len(pages) // 2):
        data[at : at + PAGE] = old[at : at + PAGE]


# name, how often, kind, and whether the next opening may show another content
KINDS = [
    ("a bit of each", 4, bits, False),
    ("a sector of zeros in each", 4, zeros, False),
    ("each in another's place", 4, moved, False),
    ("pages of an older state", 4, older, True),
]


def write_over(path: pathlib.Path, before: bytes, after: bytes) -> None:
    """Writes what differs into a file that another process has open."""
    with open(path, "r+b") as file:
        for at in changed_pages(after, before):
            file.seek(at)
            file.write(after[at : at + PAGE])


def asked_by_chance(
    desk: Desk, maker: Callable[[World, random.Random], Step], world: World, chance: random.Random, count: int
) -> tuple[list[World], bool]:
    """Asks until an answer isn't right, or so often. Gives the worlds that the right answers left, and after them that
    of the request that wasn't answered right, and tells whether there was one."""
    worlds = [world]
    for _ in range(count):
        asked, told, after = maker(worlds[-1], chance)
        got = desk.ask(asked)
        worlds.append(after)
        if got == told:
            continue
        assert got == STORE, f"a wrong answer after {len(worlds) - 2} right ones"
        assert desk.ended() == (4, "uss_desk: broken\n"), "after a 500"
        return worlds, True
    return worlds, False


def outcome(is_broken: bool) -> str:
    """What a desk gave, which may be broken."""
    return "right answers and then a 500" if is_broken else "only right answers"


@pytest.fixture(scope="module")
def large(place: pathlib.Path) -> Made:
    """A closed file of more pages than the desk keeps in memory."""
    return make_file(place / "large.db", OPERATORS, NUMBERS, CELLS)


def test_pages(large: Made) -> None:
    """There are more pages than the desk keeps."""
    assert len(large.data) > 1.4 * CACHE * PAGE


@pytest.mark.slow
@pytest.mark.trials("5 % of FILE's pages under a running desk", KINDS)
def test_file(trial: Trial, words: tuple[Kind, bool], large: Made) -> None:
    """Serves a copy of a large file, damages FILE meanwhile, and asks."""
    kind, may_differ = words
    trial.path.write_bytes(large.data)
    changed = bytearray(large.data)
    kind(changed, large.older, trial.chance)
    with Desk(trial.path) as desk:
        write_over(trial.path, large.data, changed)
        worlds, is_broken = asked_by_chance(desk, step_by_chance, large.world, trial.chance, REQUESTS)
    found = opened(trial.path, large.world)
    if not (found.word or may_differ):
        assert found.content in [read_all(world)[1] for world in worlds[-2:]], "the next opening"
    trial.came_to(outcome(is_broken))


@pytest.mark.quick_each(10)
@pytest.mark.trials("FILE-wal under a running desk", [("a bit", 20)])
def test_log(trial: Trial, words: tuple[()], small: Made) -> None:
    """Serves a copy of a small file, flips a bit in its log after some changes, and changes more."""
    path, chance = copy_pair(small.path, trial.path), trial.chance
    with Desk(path) as desk:
        worlds, is_broken = asked_by_chance(desk, change_by_chance, small.world, chance, chance.randrange(3, 12))
        data = bytearray(log_of(path).read_bytes())
        flip(data, chance, 0, len(live_part(data)))
        write_over(log_of(path), log_of(path).read_bytes(), data)
        more, is_broken = asked_by_chance(desk, change_by_chance, worlds[-1], chance, CHANGES)
    found = opened(path, small.world)
    if found.word:
        trial.came_to(f"{outcome(is_broken)}, refused afterwards")
        return
    reading = [read_all(world)[1] for world in worlds + more[1:]]
    last = reading[-2:] if is_broken else reading[-1:]
    assert found.content in reading, "the next opening shows what was never its content"
    trial.came_to(f"{outcome(is_broken)}, {'all' if found.content in last else 'not all'} of them kept")
