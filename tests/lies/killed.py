"""What a killed desk leaves: FILE, and a log of changes that aren't copied into it."""

import pathlib
import random
from typing import NamedTuple

from lies.changes import change_by_chance, make_file
from lies.damage import frames_of, live_part
from lies.desk import Desk, log_of
from lies.flights import World, read_all

FRAMES = 320
"""How many frames the log may hold before the next change copies it into FILE."""
MOST_CHANGES = 1000


class Left(NamedTuple):
    """What a killed desk left: FILE, the log's frames, what lies behind them, an earlier log whose frames were copied
    into FILE; the world after the last change; what is read of FILE alone and after each change since; and how many
    frames the log had after each change of the desk."""

    file: bytes
    log: bytes
    rest: bytes
    earlier: bytes
    world: World
    readings: list[bytes]
    frames: list[int]


def leave(path: pathlib.Path) -> Left:
    """Serves a file until its log was copied into it once and has grown again, and kills the desk."""
    world, chance = make_file(path, 4).world, random.Random("killed")
    logs, worlds, frames = [b""], [world], list[int]()
    with Desk(path) as desk:
        while len(worlds) < 10 or not logs[0] or frames_of(logs[-1]) < FRAMES // 2:
            asked, told, world = change_by_chance(world, chance)
            assert desk.ask(asked) == told, "a change has a wrong answer"
            log = log_of(path).read_bytes()
            if log[16:24] == logs[-1][16:24]:
                worlds.append(world)
                logs[-1] = log
            else:
                logs, worlds = [logs[-1], log], [worlds[-1], world]
            frames.append(frames_of(log))
            assert len(worlds) <= MOST_CHANGES, "the log is never copied into FILE"
    log = log_of(path).read_bytes()
    live = live_part(log)
    readings = [read_all(one)[1] for one in worlds]
    return Left(path.read_bytes(), live, log[len(live) :], logs[0], world, readings, frames)
