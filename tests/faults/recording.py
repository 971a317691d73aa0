"""A line that records, at a port: the first requests of the scenario, asked one after the other, an hour of tomorrow in
the place of that of 2026-06-01; and what the next line and the records have to make of what it has left."""

import datetime
import functools
import pathlib
import socket
import subprocess
import tempfile
from collections.abc import Sequence
from typing import NamedTuple

from faults.judging import UNENROLLED, first_of, told, word_of
from faults.program import PATIENCE, PROCESS, PROGRAM, Ran, damage, finish
from faults.scenario import CONTENTS, ENROLLED, OPERATORS, STEPS, TIMES, answer, request
from harness.ports import free_port
from harness.program import Ran as Line
from record.entries import answered_in, entries_in
from record.folders import dump_of, text_of, told_alike

DAY = "2026-06-01"
COUNT = 4
"""How many requests of the scenario are asked: two are completed, one is refused, one has a conflict with it."""
BROKEN = answer(500, '{"error":"store"}')
WANT = answer(500, '{"error":"out_of_memory"}')
READING = [request("GET", "/flight_plans", name) for name in ("alfa", "bravo")]
"""What is asked of the next line: a List of each operator."""
WORDS = ("broken", "memory", "store", "write")
"""The words with which a line may end to which something was refused."""


def tomorrow(text: bytes) -> bytes:
    """The same on the day after this one, moments and seconds."""
    day = datetime.datetime.now(datetime.timezone.utc).date() + datetime.timedelta(days=1)
    shift = (day - datetime.date.fromisoformat(DAY)).days * 86_400
    text = text.replace(DAY.encode(), day.isoformat().encode())
    for second in TIMES:
        text = text.replace(b"%d" % second, b"%d" % (second + shift))
    return text


class Given(NamedTuple):
    """What is asked, the right answers, and the contents: before any enrolment, after each, after each request."""

    requests: list[bytes]
    answers: list[bytes]
    contents: list[bytes]


@functools.cache
def given() -> Given:
    """The scenario, for tomorrow."""
    requests, answers = ([tomorrow(step[at]) for step in STEPS[:COUNT]] for at in (0, 1))
    return Given(requests, answers, [tomorrow(it) for it in CONTENTS[: ENROLLED + COUNT + 1]])


def ask(port: int, asked: bytes) -> bytes:
    """What is answered, or none if the connection ends."""
    with socket.create_connection(("127.0.0.1", port), timeout=PATIENCE) as connection:
        answered = b""
        try:
            connection.sendall(asked)
            while more := connection.recv(65_536):
                answered += more
        except OSError:
            pass
        return answered


def ask_all(port: int, requests: Sequence[bytes]) -> bytes:
    """The answers, up to the connection that nobody takes."""
    answered = b""
    for one in requests:
        try:
            answered += ask(port, one)
        except OSError:
            break
    return answered


def words_in(room: pathlib.Path, port: int, count: int) -> list[str]:
    """The line of a desk that records, within a folder."""
    line = ["serve", "--port", str(port), "--requests", str(count), "--db", str(room / "desk.db")]
    return [*line, "--record", str(room / "records")]


def serve(room: pathlib.Path, before: Sequence[str], requests: Sequence[bytes], operators: Sequence[str] = ()) -> Ran:
    """A line that records, behind these words, and what it answers."""
    (room / "records").mkdir(exist_ok=True)
    port = free_port()
    line = [*before, PROGRAM, *words_in(room, port, len(requests)), *operators]
    with subprocess.Popen(line, stdin=subprocess.DEVNULL, stdout=subprocess.PIPE, stderr=subprocess.PIPE) as desk:
        assert desk.stdout
        answered = ask_all(port, requests) if desk.stdout.readline() else b""
        try:
            errors = desk.communicate(timeout=PATIENCE)[1].decode(errors="replace")
        except subprocess.TimeoutExpired:
            desk.kill()
            errors = f"no end within {PATIENCE} s"
    if errors.endswith("uss_desk: network\n"):  # somebody else was faster
        return serve(room, before, requests, operators)
    return Ran(desk.returncode, answered, errors, [])


def serve_traced(room: pathlib.Path, options: Sequence[str], requests: Sequence[bytes]) -> Ran:
    """The line that is put to faults, under strace with these options."""
    with tempfile.TemporaryDirectory(prefix="faults-") as folder:
        trace = pathlib.Path(folder) / "trace"
        ran = serve(room, ["strace", "-qq", "-o", str(trace), *options], requests, OPERATORS)
        return ran._replace(trace=PROCESS.sub("", trace.read_text(errors="replace")).splitlines())


def wrong_journaled_end(ran: Ran, answers: Sequence[bytes]) -> str | None:
    """A line has given right answers. Then it was killed, or a client was told a 500 or nothing, and it ended with its
    word; or all were given, and it ended well, or its files could not be closed. It ends well too where the last of its
    connections was told a 500 because the answer could not be kept."""
    count, rest = told(ran.output, answers)
    if ran.status == 0:
        is_right = (count, rest, ran.errors) == (len(answers), b"", "") or (count, rest) == (len(answers) - 1, BROKEN)
        return None if is_right else f"status 0, {count} right answers, then {rest[:200]!r}, {ran.errors!r}"
    right = answers[count] if count < len(answers) else b""
    if ran.status < 0:
        return None if right.startswith(rest) else f"killed after {count} right answers and {rest[:200]!r}"
    word = word_of(ran.errors).strip().removeprefix("uss_desk: ")
    if ran.status != 4 or word not in WORDS or rest not in (b"", BROKEN, WANT) or (rest and word != "broken"):
        return f"status {ran.status}, {ran.errors!r} after {count} right answers and {rest[:200]!r}"
    return None


def wrong_left(room: pathlib.Path, ran: Ran, wanted: Given) -> str | None:
    """The next line goes on with what was answered, or one request more; all records play, and leave the same."""
    count, _ = told(ran.output, wanted.answers)
    first = ENROLLED + count if count else 0
    allowed = wanted.contents[first : ENROLLED + count + 2]
    again = serve(room, [], READING)
    if again.status != 0 or again.errors not in ("", f"uss_desk: {room}/desk.db: {UNENROLLED}\n"):
        return f"the next line: status {again.status}, {again.errors!r}"
    if again.output not in allowed:
        return f"the next line has {again.output.decode(errors='replace')!r}"
    return first_of(damage(str(room / "desk.db")), lost(room, count, wanted), unlike(room))


def lost(room: pathlib.Path, count: int, wanted: Given) -> str | None:
    """What was answered is in the records, in its order."""
    heard = [(it.request, it.answer) for it in answered_in(entries_in(text_of(room / "records"))[0])]
    answered = list(zip(wanted.requests, wanted.answers))[:count]
    return None if heard[:count] == answered else f"the records have {heard!r}"


def unlike(room: pathlib.Path) -> str | None:
    """All records, played into a new file, give equal answers and leave equal tables."""
    folder, new = room / "records", room / "new.db"
    text = text_of(folder)
    played = finish([PROGRAM, "replay", "--db", str(new)], text)
    ran = Line(played.status, played.output, played.errors)
    if ran != told_alike(entries_in(text)[0], ran):
        return f"played: status {played.status}, {played.output!r}, {played.errors!r}"
    return None if dump_of(room / "desk.db") == dump_of(new) else "the tables differ"
