"""Each growth of memory of each call at a desk in memory is refused, and each fourth with all later ones too.

A run asks for what the call needs, for the call, and for what each operator has then. strace is attached as the call
begins, so that the Nth growth is the call's. One that is refused is answered by a 500, and nothing after it, or SQLite
does without it: then the answer is right, and so are the two Lists. Before the first answer, as a desk is opened and
operators are enrolled, there is no 500, and the word `memory`; so it is at a line that prints of cells. Of an opening
each sixteenth growth is refused. `--every` refuses each growth of an opening, and each with all later ones.
"""

import functools
from collections.abc import Callable, Iterator
from typing import NamedTuple

import pytest
from faults.conftest import Note
from faults.growths import (
    MAPPINGS,
    MAPPINGS_AND_ANSWERS,
    NO_HEAP,
    Refused,
    failing,
    lost_500,
    mappings,
    mappings_answered,
    refusing,
    was_refused,
)
from faults.judging import MEMORY, first_of, kind_of, told, wrong_end
from faults.program import Ran, play_words, run_attached, run_traced
from faults.single_calls import CALLS, OPENING, Call
from harness.rows import Rows

pytestmark = [pytest.mark.proved, pytest.mark.slow]

SHARES, OPENING_SHARES, LINE_SHARES = 3, 8, 4
"""In how many tests the growths of a call are refused, of an opening, and of a line that prints of cells."""
OPENING_STEP, LASTING_STEP = 16, 4
"""Of an opening each so manieth growth is refused, and of all each so manieth with later ones too, unless each is asked
for."""
PRINTED = {
    ("token", "B"): b"b face 5 level 0 leaves a000000000000001 bfffffffffffffff\n",
    ("cover", "0", "0", "1073741823", "0", "536870911", "8"): b"04\n1c\n2 cells, 2 ranges\n",
}
"""Lines that print of cells, and what they print."""


def run_call(call: Call, options: list[str]) -> Ran:
    """A run that is traced from a call on."""
    return run_attached(play_words(), call.prelude, len(b"".join(call.answered)), call.given, options)


@functools.cache
def growths(name: str) -> int:
    """How many growths a call has."""
    ran = run_call(CALLS[name], [*NO_HEAP, "-e", "trace=mmap,brk,write"])
    assert (ran.status, ran.output) == (0, b"".join(CALLS[name].answers)), ran
    return mappings_answered(ran)


def wrong_place(ran: Ran, call: Call, is_lasting: bool) -> str | None:
    """A run that is refused a growth of a call ends with it, if it doesn't go on to its end; or behind it, if later
    growths are refused too."""
    count, _ = told(ran.output, call.answers)
    if ran.status != 4 or count == len(call.before) or (is_lasting and count > len(call.before)):
        return None
    return f"it ended after {count} answers"


def judged(call: Call, ran: Ran, is_lasting: bool) -> Refused:
    """What came of a run to which a growth of a call was refused."""
    complaint = first_of(wrong_end(ran, call.answers, MEMORY, was_refused(ran)), wrong_place(ran, call, is_lasting))
    return Refused(kind_of(ran) if was_refused(ran) else "not refused", complaint)


class Sample(NamedTuple):
    """Which growths are refused, and each so manieth with all later ones too."""

    numbers: range
    lasting_step: int

    @property
    def steps(self) -> Iterator[tuple[int, bool]]:
        """Each number, and whether later growths are refused too."""
        return ((number, at % self.lasting_step == 0) for at, number in enumerate(self.numbers))


def refuse(
    rows: Rows,
    call: Call,
    number: int,
    is_lasting: bool,
    run: Callable[[list[str]], Ran],
    options: Callable[[int, bool], list[str]],
) -> list[str]:
    """How runs end to which a growth is refused: alone, and, unless that ended the line with no answer, with all later
    ones, if these are refused too."""
    single = judged(call, run(options(number, False)), False)
    rows.equal(f"growth {number} alone", None, single.complaint)
    if single.kind == "ended memory" or not is_lasting:
        return [single.kind]
    lasting = judged(call, run(options(number, True)), True)
    rows.equal(f"growth {number} and later", None, first_of(lasting.complaint, lost_500(single, lasting)))
    return [single.kind, lasting.kind]


def tell(rows: Rows, note: Note, part: str, kinds: list[str]) -> None:
    """Counts how runs ended; most met a refusal."""
    for kind in kinds:
        note(f"{part}: {kind}")
    refused = kinds.count("ended broken") + kinds.count("ended memory")
    rows.holds(f"only {refused} of {len(kinds)} runs met a refusal", refused * 2 > len(kinds))


@pytest.mark.parametrize("share", range(SHARES))
@pytest.mark.parametrize("name", CALLS)
def test_memory_refused_to_a_call(rows: Rows, note: Note, is_every: bool, name: str, share: int) -> None:
    """Each refusal is told, and what was answered stands."""
    call, part, kinds = CALLS[name], f"memory refused to {name}", list[str]()
    if share == 0:
        note(f"{part}: growths", growths(name))
    sample = Sample(range(1, growths(name) + 1)[share::SHARES], 1 if is_every else LASTING_STEP)
    for number, is_lasting in sample.steps:
        kinds += refuse(rows, call, number, is_lasting, lambda options: run_call(call, options), failing)
    tell(rows, note, part, kinds)


@functools.cache
def opening_growths() -> range:
    """The numbers of the growths of a desk that is opened, of enrolments and of the first request."""
    ran = run_traced(play_words(), OPENING.given, MAPPINGS_AND_ANSWERS)
    assert (ran.status, ran.output) == (0, b"".join(OPENING.answers)), ran
    return range(mappings(ran)[0], mappings_answered(ran) + 1)


@pytest.mark.parametrize("share", range(OPENING_SHARES))
def test_memory_refused_to_an_opening(rows: Rows, note: Note, is_every: bool, share: int) -> None:
    """Each refusal is told."""
    part, kinds = "memory refused to an opening", list[str]()
    if share == 0:
        note(f"{part}: growths", len(opening_growths()))
    numbers = opening_growths()[:: 1 if is_every else OPENING_STEP][share::OPENING_SHARES]
    for number, is_lasting in Sample(numbers, 1 if is_every else LASTING_STEP).steps:
        kinds += refuse(
            rows,
            OPENING,
            number,
            is_lasting,
            lambda options: run_traced(play_words(), OPENING.given, options),
            refusing,
        )
    tell(rows, note, part, kinds)


@functools.cache
def line_growths(words: tuple[str, ...]) -> range:
    """The numbers of the growths of a line that prints of cells: its words are read, and it is printed."""
    ran = run_traced(words, b"", MAPPINGS)
    assert (ran.status, ran.output) == (0, PRINTED[words]), ran
    first, last = mappings(ran)
    return range(first, last + 1)


@pytest.mark.parametrize("share", range(LINE_SHARES))
@pytest.mark.parametrize("words", PRINTED, ids=[words[0] for words in PRINTED])
def test_memory_refused_to_a_line(rows: Rows, note: Note, words: tuple[str, ...], share: int) -> None:
    """A growth that is refused is told, and nothing is printed; or the line does without it."""
    part, kinds = f"memory refused to {words[0]}", list[str]()
    if share == 0:
        note(f"{part}: growths", len(line_growths(words)))
    for number in line_growths(words)[share::LINE_SHARES]:
        ran = run_traced(words, b"", refusing(number, False))
        right = (4, b"", "uss_desk: memory\n") if ran.status else (0, PRINTED[words], "")
        rows.equal(f"growth {number}", right, (ran.status, ran.output, ran.errors))
        kinds.append(kind_of(ran))
    tell(rows, note, part, kinds)
