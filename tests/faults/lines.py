"""The two lines that faults are put into, without a journal and with one: each has requests of the scenario, and tells
what is wrong with how a run of it ended and with what it left."""

import pathlib
from collections.abc import Sequence

from faults.judging import STORE, contents_after, first_of, wrong_content, wrong_end, wrong_stop
from faults.program import PROGRAM, Ran, finish, play_words, run_traced
from faults.recording import Given, given, serve_traced, words_in, wrong_journaled_end, wrong_left
from faults.scenario import ANSWERS, ENROLLED, REQUESTS
from record.entries import entries_in, is_damaged
from record.folders import recorded


class Line:
    """`play` of the whole scenario over a new file, in a folder `room`."""

    folders: tuple[str, ...] = ()
    """The folders within the room that have files too."""
    orders: tuple[bool, ...] = (False,)
    """Whether power that fails keeps what was appended from its beginning on: what is tried."""
    by_chance = 2
    """How many files are tried for each moment at which power may fail."""

    def run(self, room: pathlib.Path, options: Sequence[str]) -> Ran:
        """A run under strace with these options."""
        return run_traced(play_words(str(room / "desk.db")), REQUESTS, options)

    def wrong(self, room: pathlib.Path, ran: Ran, is_killed: bool) -> str | None:
        """What is wrong with the end of a run that a fault was done to, and with what it left."""
        was_refused = any("INJECTED" in line for line in ran.trace)
        ended = wrong_stop(ran, ANSWERS) if is_killed else wrong_end(ran, ANSWERS, STORE, was_refused)
        return first_of(ended, self.after_power(room, ran.output)[1])

    def after_power(self, room: pathlib.Path, output: bytes) -> tuple[str, str | None]:
        """How files are found that power left once this was answered, and what is wrong with them. They have what was
        answered, and one call more at most."""
        return "opened", wrong_content(str(room / "desk.db"), contents_after(output, 1))


class JournaledLine(Line):
    """`serve` with a journal, which is asked the first requests of the scenario.

    What was answered has to be in the journal and in the file, with one request more at most. The next line goes on,
    and the journal, played into a new file, gives equal answers and leaves equal tables.
    """

    folders = ("records",)
    orders = (True, False)
    by_chance = 1

    def run(self, room: pathlib.Path, options: Sequence[str]) -> Ran:
        return serve_traced(room, options, given().requests)

    def wrong(self, room: pathlib.Path, ran: Ran, is_killed: bool) -> str | None:
        return first_of(wrong_journaled_end(ran, given().answers), wrong_left(room, ran, given()))

    def after_power(self, room: pathlib.Path, output: bytes) -> tuple[str, str | None]:
        records = recorded(room / "records")
        _, _, answered = output.partition(b"\n")  # behind the line that says where the desk listens
        ran = Ran(-9, answered, "", [])
        if records and is_damaged(entries_in(records[-1].read_bytes())[1]):
            return "damaged", refused(room, ran, given())
        return "gone on with", wrong_left(room, ran, given())


def refused(room: pathlib.Path, ran: Ran, wanted: Given) -> str | None:
    """Where sectors are lost before others that are kept the next line tells that; the file has what was answered."""
    line = finish([PROGRAM, *words_in(room, 8080, 1)], b"")
    if line.status != 4 or not line.errors.endswith("damaged\nuss_desk: write\n"):
        return f"a damaged record: status {line.status}, {line.errors!r}"
    count = sum(ran.output.startswith(b"".join(wanted.answers[:at])) for at in range(1, len(wanted.answers) + 1))
    return wrong_content(str(room / "desk.db"), wanted.contents[ENROLLED + count : ENROLLED + count + 2])


LINES: dict[str, Line] = {"without a journal": Line(), "with a journal": JournaledLine()}
