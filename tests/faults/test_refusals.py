"""Growths of memory that are refused, of a sample: one alone, or each from one on; over a new file, over a kept one."""

import functools
import os
import pathlib
import shutil
import tempfile
from collections.abc import Iterator, Sequence
from typing import NamedTuple

import pytest
from faults.conftest import Note
from faults.growths import MAPPINGS, Refused, lost_500, mappings, refusing, was_refused
from faults.judging import MEMORY, contents_after, first_of, kind_of, wrong_content, wrong_end
from faults.lines import LINES
from faults.program import play_words, run, run_traced
from faults.scenario import ANSWERS, CONTENTS, ENROLLED, OPERATORS, READING, REQUESTS, STEPS
from harness.rows import Rows

pytestmark = [pytest.mark.proved, pytest.mark.slow]

KEPT = 6
"""How many requests make the content of the kept file, which are all of its plans."""
SHARES = 16
"""In how many tests the growths of a target are refused."""
JOURNALED, JOURNALED_SHARES, JOURNALED_LASTING = 24, 8, 4
"""How many growths a line with a journal is refused, in how many tests, and each so manieth with all later ones."""


class Target(NamedTuple):
    """What growths are refused to: a run of the program with these requests, and its right answers.

    A sample has each `step`th growth, and of these each `lasting_step`th with all later ones too. The kept file is
    read, and has the content of its requests whatever is refused.
    """

    given: bytes
    answers: Sequence[bytes]
    operators: Sequence[str]
    is_kept: bool
    step: int
    lasting_step: int


READ = [STEPS[KEPT - 1][2], STEPS[KEPT - 1][3]]
TARGETS = {
    "over a new file": Target(REQUESTS, ANSWERS, OPERATORS, False, 67, 4),
    "over a kept file": Target(READING, READ, [], True, 97, 4),
}


@pytest.fixture(scope="module")
def kept() -> Iterator[str]:
    """The path of a file with the content after the first requests of the scenario."""
    with tempfile.TemporaryDirectory(prefix="faults-") as room:
        path = f"{room}/kept.db"
        ran = run(play_words(path), b"".join(request for request, *_ in STEPS[:KEPT]))
        assert ran.status == 0, ran
        yield path


def words_in(target: Target, kept: str, room: str) -> tuple[list[str], str]:
    """The line of a run in a folder of its own, and the path of its file."""
    path = str(pathlib.Path(room) / "desk.db")
    for end in ("", "-wal") if target.is_kept else ():
        if os.path.exists(f"{kept}{end}"):
            shutil.copyfile(f"{kept}{end}", f"{path}{end}")
    return play_words(path, target.operators), path


@functools.cache
def growths(name: str, kept: str) -> tuple[int, int]:
    """The number of the first mapping that the program itself asks for, and of the last; the loader's come before."""
    with tempfile.TemporaryDirectory(prefix="faults-") as room:
        words, _ = words_in(TARGETS[name], kept, room)
        return mappings(run_traced(words, TARGETS[name].given, MAPPINGS))


def refuse(target: Target, kept: str, number: int, is_lasting: bool) -> Refused:
    """A run to which one growth is refused, or that one and all later ones."""
    options = refusing(number, is_lasting)
    with tempfile.TemporaryDirectory(prefix="faults-") as room:
        words, path = words_in(target, kept, room)
        ran = run_traced(words, target.given, options)
        allowed = [CONTENTS[ENROLLED + KEPT]] if target.is_kept else contents_after(ran.output, 0)
        ended = wrong_end(ran, target.answers, MEMORY, was_refused(ran))
        complaint = first_of(ended, wrong_content(path, allowed))
    return Refused(kind_of(ran) if was_refused(ran) else "not refused", complaint)


def sample(first: int, last: int, target: Target, is_every: bool) -> list[tuple[int, bool]]:
    """The growths of a target that are refused, one past the last among them, and which with all later ones too."""
    numbers = [*range(first, last, 1 if is_every else target.step), last + 1]
    return [(number, at % target.lasting_step == 0) for at, number in enumerate(numbers)]


@pytest.mark.parametrize("share", range(SHARES))
@pytest.mark.parametrize("name", TARGETS)
def test_memory_refused(rows: Rows, note: Note, kept: str, is_every: bool, name: str, share: int) -> None:
    """Each refusal is told, and what was answered stands."""
    target, part, kinds = TARGETS[name], f"memory refused {name}", list[str]()
    first, last = growths(name, kept)
    if share == 0:
        note(f"{part}: growths", last + 1 - first)
    for number, has_lasting in sample(first, last, target, is_every)[share::SHARES]:
        single = refuse(target, kept, number, False)
        rows.equal(f"growth {number} alone", None, single.complaint)
        kinds.append(single.kind)
        if has_lasting:
            lasting = refuse(target, kept, number, True)
            complaint = first_of(lasting.complaint, lost_500(single, lasting))
            rows.equal(f"growth {number} and later", None, complaint)
            kinds.append(lasting.kind)
    for kind in kinds:
        note(f"{part}: {kind}")
    refused = kinds.count("ended broken") + kinds.count("ended memory")
    rows.holds(f"only {refused} of {len(kinds)} runs met a refusal", refused * 2 > len(kinds))


@functools.cache
def journaled_growths() -> range:
    """The numbers of the growths of which each may be refused to a line with a journal, of a sample."""
    with tempfile.TemporaryDirectory(prefix="faults-") as room:
        ran = LINES["with a journal"].run(pathlib.Path(room), MAPPINGS)
    assert ran.status == 0, ran
    first, last = mappings(ran)
    return range(first, last, max(1, (last - first) // JOURNALED))


@pytest.mark.parametrize("share", range(JOURNALED_SHARES))
def test_memory_refused_with_a_journal(rows: Rows, note: Note, share: int) -> None:
    """Each refusal is told, and what was answered stands, in the journal and in the file."""
    line = LINES["with a journal"]
    for at, number in list(enumerate(journaled_growths()))[share::JOURNALED_SHARES]:
        for is_lasting in (False, True)[: 1 + (at % JOURNALED_LASTING == 0)]:
            with tempfile.TemporaryDirectory(prefix="faults-") as room:
                ran = line.run(pathlib.Path(room), refusing(number, is_lasting))
                complaint = line.wrong(pathlib.Path(room), ran, is_killed=False)
            rows.equal(f"growth {number}{' and later' if is_lasting else ''}", None, complaint)
            note(f"with a journal, memory refused: {kind_of(ran)}")
