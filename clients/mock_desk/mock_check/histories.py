"""Histories: what they are made of, and how one is played at both desks and made smaller."""
from __future__ import annotations

import os
import subprocess
import tempfile
import time
from random import Random
from typing import Callable, Iterator, List, NamedTuple, Optional, Tuple

from mock_desk.desk import Desk, play
from mock_desk.store import Store

from . import heads
from .edges import edges as all_edges
from .scenes import PRIORITIES, Scene
from .trees import Members, written

KINDS = ["plain", "heads", "file", "heads", "plain", "heads", "file"]
EDGES = all_edges()
EDGES_EACH = 5
FULL_EVERY = 60
SECONDS_MOST = 120
SHRINKING_SECONDS_MOST = 60


class Start(NamedTuple):
    """One line of `play`, and the requests that it is given, one after the other."""

    moment: int
    equal: Tuple[int, ...]
    spans: Optional[int]
    cells: Optional[int]
    enrolled: Tuple[Tuple[str, int], ...]
    requests: Tuple[bytes, ...]

    def words(self, path: str) -> List[str]:
        """The words of the line, over a file or, if none is named, in memory."""
        file = ["--db", path] if path else []
        equal = ["--equal", ",".join(map(str, self.equal))] if self.equal else []
        spans = ["--spans", str(self.spans)] if self.spans else []
        cells = ["--cells", str(self.cells)] if self.cells else []
        return [
            "play",
            "--at",
            str(self.moment),
            *file,
            *equal,
            *spans,
            *cells,
            "--",
            *(f"{name}={most}" for name, most in self.enrolled),
        ]


class History(NamedTuple):
    """Starts, one after the other, over one file or in memory."""

    starts: Tuple[Start, ...]
    in_file: bool


class Ran(NamedTuple):
    """What a start came to."""

    answers: List[bytes]
    status: int
    complained: str


class Difference(NamedTuple):
    """Where the two desks first differ: the start, the request (None for the end), and what each gave."""

    start: int
    request: Optional[int]
    mock: bytes
    program: bytes


def enrolment(dice: Random, names: List[str]) -> Tuple[Tuple[str, int], ...]:
    """Names with their ceilings."""
    return tuple((name, dice.choice([1000, 1000, 100, *PRIORITIES])) for name in names)


def make_history(seed: int, number: int) -> History:
    """The history of a seed and a number."""
    dice = Random(f"{seed}/{number}")
    scene = Scene(dice)
    kind = KINDS[number % len(KINDS)]
    if number % FULL_EVERY == FULL_EVERY - 1:
        return full_history(scene)
    count = dice.randint(2, 4) if kind == "file" else 1
    starts = []
    hostile = number // len(KINDS) * KINDS.count("heads") + KINDS[: number % len(KINDS)].count("heads")
    edges = [EDGES[(number * EDGES_EACH + step) % len(EDGES)] for step in range(EDGES_EACH)]
    for at in range(count):
        scene.moment = max(0, min(scene.moment + (dice.choice([0, 1, 60, 3600, -1]) if at else 0), 253_370_764_800))
        asked = dice.randint(0, 2) if kind == "heads" else dice.randint(3, 50)
        names = scene.names if not at else dice.sample(scene.names, dice.choice([0, 1, 2]))
        equal = tuple(sorted(set(dice.sample(scene.priorities + PRIORITIES, dice.choice([0, 0, 1, 3])))))
        given = requests(
            scene, asked, [] if at else edges, hostile if kind == "heads" or dice.random() < 0.2 else None
        )
        spans = dice.choice([None, None, None, 1, 2, 3, 5, 20, 300, 5_000_000])
        cells = dice.choice([None, None, None, 1, 2, 5, 10, 30, 100, 1000, 5_000_000])
        starts.append(Start(scene.moment, equal, spans, cells, enrolment(dice, names), given))
    return History(tuple(starts), kind == "file")


def requests(
    scene: Scene, count: int, edges: List[Tuple[str, str, Members]], hostile: Optional[int]
) -> Tuple[bytes, ...]:
    """Plain requests, some of them asked again, those at limits, and at the end perhaps a hostile or a cut one."""
    dice = scene.dice
    found: List[bytes] = []
    for _ in range(count):
        found.append(dice.choice(found) if found and dice.random() < 0.05 else heads.plain(scene))
    for method, path, tree in edges:
        found.insert(dice.randint(0, len(found)), simple(method, path, scene.names[0], written(tree, dice, False)))
    if hostile is not None:
        found.append(heads.hostile(scene, hostile))
    if found and dice.random() < 0.05:
        found[-1] = found[-1][: dice.randrange(len(found[-1]))]
    return tuple(found)


def full_history(scene: Scene) -> History:
    """An operator plans up to its last plan and past it."""
    dice = scene.dice
    name, other = scene.names[:2]
    scene.moment, scene.spoiled = 1780315000, 0.0
    found = [small_put(name, number, dice) for number in range(dice.randint(198, 203))]
    scene.ids = [f"{number:032x}" for number in (0, 1, 198, 199, 200, 201)]
    found += [heads.plain(scene) for _ in range(12)]
    found += [small_put(it, number, dice) for it in (other, name) for number in (0, 1, 204, 205)]
    spans, cells = (dice.choice([None, None, 199, 200]) for _ in range(2))
    start = Start(scene.moment, (), spans, cells, ((name, 1000), (other, 1000)), tuple(found))
    return History((start,), dice.random() < 0.5)


def small_put(name: str, number: int, dice: Random) -> bytes:
    """A PUT of a plan of one leaf, which meets no other of these."""
    times = (
        f'"time_{it}":{{"format":"RFC3339","value":"2026-06-01T1{at}:00:00Z"}}'
        for it, at in (("start", 2), ("end", 3))
    )
    block = f'"volume":{{"altitude_lower":0,"altitude_upper":1,"cells":["{2 * number + 1:016x}"]}}'
    usage = dice.choice(["Planned", "Planned", "InUse"])
    basic = f'{{"usage_state":"{usage}","uas_state":"Nominal","area":[{{{block},{",".join(times)}}}]}}'
    body = f'{{"execution_style":"IfAllowed","flight_plan":{{"basic_information":{basic}}}}}'
    return simple("PUT", f"/flight_plans/{number:032x}", name, body.encode())


def simple(method: str, path: str, name: str, body: bytes) -> bytes:
    """A request with the simplest head."""
    return f"{method} {path} HTTP/1.1\nx-operator:{name}\ncontent-length:{len(body)}\n\n".encode() + body


def at_mock(history: History, path: str) -> Iterator[Ran]:
    """What each start comes to at the mock."""
    store = None
    for start in history.starts:
        store = Store(path or ":memory:")
        for name, ceiling in start.enrolled:
            store.enrol(name, ceiling)
        desk = Desk(store, start.equal, lambda: start.moment, start.spans, start.cells)
        told = list(play(desk, b"".join(start.requests)))
        store.close()
        word = told[-1][1] if told else ""
        yield Ran([answer for answer, _ in told], 3 if word else 0, f"uss_desk: {word}\n" if word else "")


def at_program(history: History, path: str, program: List[str]) -> Iterator[Tuple[bytes, int, str]]:
    """The standard output, the exit status and the standard error of each start at the program."""
    for start in history.starts:
        words = [*program, *start.words(path)]
        ran = subprocess.run(words, input=b"".join(start.requests), capture_output=True, timeout=SECONDS_MOST)
        yield ran.stdout, ran.returncode, ran.stderr.decode(errors="replace")


def first_difference(answers: List[bytes], given: bytes) -> Tuple[int, bytes]:
    """The first answer that differs, by its place, and what was given in its place."""
    for at, answer in enumerate(answers):
        if not given.startswith(answer) or not answer and given:
            end = given.find(b"HTTP/1.1 ", 1)
            return at, given if end < 0 else given[:end]
        given = given[len(answer) :]
    return len(answers), given


def compare(history: History, program: List[str]) -> Tuple[int, Optional[Difference]]:
    """How many answers the two desks gave alike, and where they first differ."""
    count = 0
    with tempfile.TemporaryDirectory(prefix="mock_check-") as folder:
        paths = [os.path.join(folder, name) if history.in_file else "" for name in ("mock.db", "desk.db")]
        both = zip(at_mock(history, paths[0]), at_program(history, paths[1], program))
        for number, (mock, (output, status, complained)) in enumerate(both):
            if b"".join(mock.answers) != output:
                at, given = first_difference(mock.answers, output)
                wanted = mock.answers[at] if at < len(mock.answers) else b""
                return count, Difference(number, at, wanted, given)
            if (mock.status, mock.complained) != (status, complained):
                ends = [
                    f"status {it[0]}, {it[1]!r}".encode()
                    for it in ((mock.status, mock.complained), (status, complained))
                ]
                return count, Difference(number, None, ends[0], ends[1])
            count += sum(1 for it in mock.answers if it)
    return count, None


def without(history: History, start: int, requests_from: int, requests_to: int) -> History:
    """A history without some requests of a start, and without the start if none is left."""
    changed = list(history.starts)
    kept = changed[start].requests[:requests_from] + changed[start].requests[requests_to:]
    changed[start] = changed[start]._replace(requests=kept)
    return history._replace(starts=tuple(changed))


def smaller(history: History) -> Iterator[History]:
    """Histories with less in them, the least ones first."""
    for at, start in enumerate(history.starts):
        if len(history.starts) > 1:
            yield history._replace(starts=history.starts[:at] + history.starts[at + 1 :])
        step = len(start.requests)
        while step:
            for first in range(0, len(start.requests), step):
                yield without(history, at, first, first + step)
            step //= 2


def shrunk(history: History, differs: Callable[[History], bool]) -> History:
    """The smallest history that was found in time to differ still."""
    limit = time.monotonic() + SHRINKING_SECONDS_MOST
    again = True
    while again:
        again = False
        for less in smaller(history):
            if time.monotonic() > limit:
                return history
            if differs(less):
                history, again = less, True
                break
    return history
