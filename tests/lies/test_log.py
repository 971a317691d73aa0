"""Damage in the log that a killed desk left: where the rule says so the file is refused, and copied without what is
lost; else it has what was answered, or that without its last changes. Damage in FILE beside such a log. How many
changes a log holds."""

import itertools
import pathlib
import random
import re
from collections.abc import Iterator
from typing import Any

import pytest
from faults.program import PROGRAM, finish
from harness.places import TOP
from harness.rows import Rows
from lies.changes import make_file
from lies.damage import FRAME, HEAD, SECTOR, Kind, bit, burst, cut, damaged, frames_of, zeroed
from lies.desk import Desk, log_of, opened, opened_or_told
from lies.flights import Flight, clear, delete, put
from lies.killed import FRAMES, Left, leave
from lies.rule import damage_of
from lies.trials import Note, Trial

CHANGE = 100
"""How many frames a change may write."""
HELD = re.search(r"some (\d+) to (\d+)\s+changes", (TOP / "README.md").read_text())
"""README's words on how many changes a log holds."""


@pytest.fixture(scope="module")
def left(place: pathlib.Path) -> Left:
    """What a killed desk left."""
    return leave(place / "killed.db")


# ---- how much a log holds


def changes_of_each_kind() -> Iterator[tuple[Any, ...]]:
    """Changes of new flights of two operators: their kind, and what makes one."""
    for numbers, cells in ((range(30, 110), 1), (range(110, 170), 8)):
        flights = [(operator, number) for number in numbers for operator in (1, 3)]
        yield from ((f"PUTs of {cells} cells", put, *flight, Flight(cells, 30)) for flight in flights)
        yield from ((f"DELETEs of {cells} cells", delete, *flight) for flight in flights)
        yield from ((f"clears of {cells} cells", clear, *flight) for flight in flights)


def held_by_logs(path: pathlib.Path) -> Iterator[tuple[str, bytes, int]]:
    """Each change of a desk that serves: its kind, the salts of the log that has it, and how many frames that has."""
    world = make_file(path, 4).world
    with Desk(path) as desk:
        for kind, maker, *words in changes_of_each_kind():
            asked, told, world = maker(world, *words)
            assert desk.ask(asked) == told, f"one of the {kind} has a wrong answer"
            log = log_of(path).read_bytes()
            yield kind, log[16:24], frames_of(log)


def test_lengths(rows: Rows, place: pathlib.Path, record_property: Note) -> None:
    """How many changes a log holds until it is copied into FILE: as many as README says, to a tenth, whatever they
    are. A log is begun anew by the change that finds FRAMES or more, and by no other."""
    made = list(held_by_logs(place / "lengths.db"))
    logs = [list(group) for _, group in itertools.groupby(made, lambda change: change[1])]
    for log, later in zip(logs, logs[1:]):
        rows.holds("the log is begun anew at its bound", all(frames < FRAMES for _, _, frames in log[:-1]))
        rows.holds("and not before", log[-1][2] >= FRAMES and later[0][2] < FRAMES)
    whole = [(log[0][0], len(log)) for log in logs[1:-1] if len({kind for kind, _, _ in log}) == 1]
    assert HELD
    least, most = (int(number) for number in HELD.groups())
    for kind in dict.fromkeys(kind for kind, _, _ in made):
        held = [count for one, count in whole if one == kind] or [0]
        is_so = 0.9 * least <= min(held) and max(held) <= 1.1 * most
        rows.holds(f"{kind} in a log: {held}, and README says {least} to {most}", is_so)
        record_property(f"the fewest {kind} in a log", min(held))
        record_property(f"the most {kind} in a log", max(held))


def test_frames(rows: Rows, left: Left) -> None:
    """The log isn't longer than its bound by more than a change."""
    for frames in left.frames:
        rows.holds(f"{frames} frames of the log", frames <= FRAMES + CHANGE)


# ---- damage


def swapped_frames(data: bytearray, _: bytes, chance: random.Random) -> None:
    """Two frames at each other's place."""
    one, other = (HEAD + number * FRAME for number in chance.sample(range((len(data) - HEAD) // FRAME), 2))
    data[one : one + FRAME], data[other : other + FRAME] = data[other : other + FRAME], data[one : one + FRAME]


def earlier_frames(data: bytearray, earlier: bytes, chance: random.Random) -> None:
    """A frame, and all behind it, as in the log that was copied into FILE."""
    at = HEAD + chance.randrange((min(len(data), len(earlier)) - HEAD) // FRAME) * FRAME
    data[at:] = earlier[at : len(data)]


def none(data: bytearray, *_: object) -> None:
    """No log."""
    data.clear()


KINDS = [
    ("single bits", 100, bit),
    ("64 random bytes", 40, burst),
    ("sectors of zeros", 40, zeroed(SECTOR)),
    ("two frames swapped", 30, swapped_frames),
    ("frames of an earlier log", 30, earlier_frames),
    ("cut short", 30, cut),
    ("taken away", 1, none),
]


LOST = ("the same content", "without its last change", "without some last changes, untold")
"""What came of a log that is not refused, by how many changes are lost."""


@pytest.mark.quick_each(10)
@pytest.mark.slow
@pytest.mark.trials("FILE-wal of a killed desk", KINDS)
def test_damaged_log(trial: Trial, words: tuple[Kind], left: Left) -> None:
    """A damaged log: the file is refused, and copied without what is lost; or it lacks some of the last changes."""
    trial.path.write_bytes(left.file)
    changed = damaged(left.log, left.earlier, words[0], trial.chance)
    if changed:
        log_of(trial.path).write_bytes(changed + left.rest if len(changed) == len(left.log) else changed)
    lost = lost_at(trial.path, left)
    trial.came_to("told" if lost is None else LOST[min(lost, 2)])


def lost_at(path: pathlib.Path, left: Left) -> int | None:
    """How many of the last changes a pair whose log was changed has lost, or None if it is refused for its log, as the
    rule says."""
    before = pair_of(path)
    damage, (found, cause) = damage_of(before[1]), opened_or_told(path, left.world)
    if damage is None:
        assert found.word is None, f"it is refused: {found.word}"
        assert found.content in left.readings, "it opens with what was never its content"
        return left.readings[::-1].index(found.content)
    told = f"its log is damaged at frame {damage.frame}: {damage.commits} commits from there on can't be read"
    told = f"uss_desk: {path}: {told}\n"
    assert (found.word, cause, pair_of(path)) == ("damaged_log", told, before)
    assert_copied_without(path, told, left)
    return None


def pair_of(path: pathlib.Path) -> list[bytes]:
    """The bytes of a file and of its log."""
    return [it.read_bytes() if it.exists() else b"" for it in (path, log_of(path))]


def stamp_of(path: pathlib.Path) -> list[tuple[bytes, int]]:
    """The bytes of a file and of its log, and when they were written."""
    return [(it.read_bytes(), it.stat().st_mtime_ns) for it in (path, log_of(path))]


def assert_copied_without(path: pathlib.Path, told: str, left: Left) -> None:
    """`check` tells the loss, and so does the copy of a pair whose log is damaged, which has what was its content
    before. Both leave the pair as it is, and nothing beside."""
    before, beside = stamp_of(path), sorted(path.parent.iterdir())
    looked = finish([PROGRAM, "check", "--db", str(path)], b"")
    assert (looked.status, looked.output, looked.errors) == (4, b"", f"{told}uss_desk: damaged_log\n")
    copy = path.with_name(f"{path.name}.copy")
    copied = finish([PROGRAM, "copy", "--db", str(path), "--to", str(copy)], b"")
    assert (copied.status, copied.errors) == (0, told)
    assert (stamp_of(path), sorted(path.parent.iterdir())) == (before, sorted([*beside, copy]))
    assert opened(copy, left.world).content in left.readings[:-1]


@pytest.mark.quick_each(10)
@pytest.mark.trials("FILE beside such a log", [("single bits", 50)])
def test_damaged_file(trial: Trial, words: tuple[()], left: Left) -> None:
    """A damaged FILE beside such a log."""
    trial.path.write_bytes(damaged(left.file, b"", bit, trial.chance))
    log_of(trial.path).write_bytes(left.log + left.rest)
    found = opened(trial.path, left.world)
    assert found.word or found.content == left.readings[-1], "it opens with another content"
    trial.came_to("refused" if found.word else "the same content")
