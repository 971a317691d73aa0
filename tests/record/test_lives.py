"""Thirty lives of a city's desk that records: killed in the midst, under load, and as it starts. After each of them all
records are played into a new file."""

from __future__ import annotations

import contextlib
import pathlib
import random
import subprocess
import time
from collections.abc import Callable, Sequence

import pytest
from harness.ports import free_port, until
from harness.program import DESK
from harness.requests import list_plans
from harness.rows import Rows
from harness.serving import Served

from record.city import Client, Operator, Told, count_told, is_refused, operators
from record.entries import Heard, answered_in, count_played
from record.folders import all_alike, dump_of, played, recorded, said_in

LIVES = 30
AT_START = 5
"""One life of so many is killed before it listens."""
MOST = 16
"""A life is killed once so many answers came, or fewer."""
NAMES = ("alfa", "bravo", "charlie", "delta")


def first_lacking(told: Sequence[Told], heard: Sequence[Heard]) -> Told | None:
    """The first exchange of an operator that a record doesn't have behind those before it."""
    rest = iter(heard)
    return next((it for it in told if not any(it == (one.request, one.answer) for one in rest)), None)


class City:
    """A desk over a file, the folder of its records, its operators, and the file of their enrolments."""

    def __init__(self, room: pathlib.Path, chance: random.Random) -> None:
        self.file, self.folder, self._roll = room / "desk.db", room / "records", room / "operators"
        self.folder.mkdir()
        self.everybody: list[Operator] = operators(chance, NAMES)
        self.kills = 0
        self._chance = chance
        self.enrol(0, 100)

    def enrol(self, life: int, ceiling: int) -> None:
        """Moves in a file of enrolments, in which one operator has this ceiling, with a newcomer in each life."""
        names = [*NAMES[1:], *(f"newcomer-{number}" for number in range(life))]
        new = self._roll.with_suffix(".new")
        new.write_text(f"{NAMES[0]} {ceiling}\n" + "".join(f"{name} 100\n" for name in names))
        new.replace(self._roll)

    def words(self, life: int) -> list[str]:
        """The words of a life: every second one permits plans of priority 10 to share points."""
        equal = ["--equal", "10"] if life % 2 else []
        return ["--db", str(self.file), "--record", str(self.folder), "--operators", str(self._roll), *equal]

    def live(self, desk: Served, life: int) -> None:
        """Everybody asks at once until enough was answered, or the desk ended; then it is killed."""
        before, enough = count_told(self.everybody), self._chance.randrange(MOST)
        clients = [Client(desk, operator) for operator in self.everybody]
        for client in clients:
            client.start()
        until(f"life {life}", lambda: count_told(self.everybody) >= before + enough // 2)
        self.enrol(life, self._chance.choice([5, 100]))
        until(f"life {life}", lambda: count_told(self.everybody) >= before + enough)
        time.sleep(self._chance.random() / 50)
        desk.kill()
        self.kills += 1
        for client in clients:
            client.join()

    def kill_at_start(self, life: int, seconds: float) -> None:
        """A line that is killed after so many seconds, whether it listens by then or not."""
        line = ["serve", "--port", str(free_port()), "--requests", "1", *self.words(life)]
        with subprocess.Popen([*DESK, *line], stdout=subprocess.DEVNULL, stderr=subprocess.DEVNULL) as desk:
            with contextlib.suppress(subprocess.TimeoutExpired):
                desk.wait(seconds)
            desk.kill()
        self.kills += 1

    def compare(self, rows: Rows, life: int, new: pathlib.Path) -> None:
        """All records, played into a new file, give equal answers and tables; nothing that was answered lacks."""
        ran = played(self.folder, new)
        rows.equal(f"life {life}: equal answers", all_alike(self.folder, ran), ran)
        rows.equal(f"life {life}: equal tables", dump_of(self.file), dump_of(new))
        heard = answered_in(said_in(self.folder))
        lacking = [first_lacking(it.told, heard) for it in self.everybody]
        rows.equal(f"life {life}: nothing lacks", [None] * len(NAMES), lacking)


@pytest.mark.proved
@pytest.mark.slow
def test_city(
    room: pathlib.Path, quick_room: pathlib.Path, rows: Rows, record_property: Callable[[str, object], None]
) -> None:
    """Each life goes on where the one before was killed."""
    chance = random.Random(61)
    city = City(room, chance)
    for life in range(LIVES):
        begun = time.monotonic()
        with Served(*city.words(life)) as desk:
            took = time.monotonic() - begun
            city.compare(rows, life, quick_room / f"{life}.db")
            city.live(desk, life)
        if life % AT_START == 0:
            city.kill_at_start(life, took * chance.random())
    with Served(*city.words(LIVES), connections=1) as desk:
        city.compare(rows, LIVES, quick_room / "all.db")
        desk.ask(list_plans("alfa"))
        rows.equal("the last life", (0, ""), desk.end()[::2])
    of_the_city(rows, city)
    record_property("lives of the city: killed", city.kills)
    record_property("lives of the city: answers", count_told(city.everybody))


def of_the_city(rows: Rows, city: City) -> None:
    """What all lives have left."""
    said = said_in(city.folder)
    again = sum(it.word == "request" for it in said) - count_played(said)
    rows.holds("some requests were asked again", again > 0)
    rows.holds("some flights were blocked", any(is_refused(told[1]) for it in city.everybody for told in it.told))
    # the list of the last life is no operator's
    rows.at_most("told to nobody", city.kills, len(answered_in(said)) - 1 - count_told(city.everybody))
    names = [it.name for it in recorded(city.folder)]
    rows.equal("numbers", list(range(1, len(names) + 1)), [int(name[:10]) for name in names])
    rows.equal("the owner's alone", {0o600}, {it.stat().st_mode & 0o777 for it in recorded(city.folder)})
    rows.equal(
        "in the folder", [], [it.name for it in city.folder.iterdir() if it.suffix not in (".record", ".rest")]
    )
