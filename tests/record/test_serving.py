"""A desk that serves with `--record`: a second one that follows it and takes over, and its file made again from a copy
and the records since."""

from __future__ import annotations

import pathlib
import random
import shutil
import socket
import subprocess
import time

import pytest
from harness.program import DESK, PATIENCE, Ran, run
from harness.requests import clear, delete, list_plans, plan_id
from harness.rows import Rows
from harness.serving import Served

from record.city import operators
from record.entries import entries_in
from record.folders import alike, dump_of, recorded, text_of, told_alike
from record.layers import PLANNED, layer, planned

OPERATORS = ("alfa", "bravo")


def words_of(file: pathlib.Path, folder: pathlib.Path) -> list[str]:
    """The words of a line that records."""
    return ["--db", str(file), "--record", str(folder), *(f"{name}=100" for name in OPERATORS)]


def lists_of(desk: Served) -> list[bytes]:
    """What the desk lists of each operator."""
    return [desk.ask(list_plans(name)) for name in OPERATORS]


def test_standby(room: pathlib.Path, rows: Rows) -> None:
    """A second desk plays what comes through a pipe, and is served in the place of the first once that was killed."""
    file, folder, second = room / "desk.db", room / "records", room / "second.db"
    folder.mkdir()
    city = operators(random.Random(7), OPERATORS)
    with Served(*words_of(file, folder)) as desk:
        record = recorded(folder)[0]
        # tail ends once the desk has, and all that is in the record was handed on
        follow = ["tail", "-c", "+1", "--follow", f"--pid={desk.process.pid}", "--sleep-interval=0.2", str(record)]
        with subprocess.Popen(follow, stdout=subprocess.PIPE) as tail:
            line = [*DESK, "replay", "--db", str(second)]
            standby = subprocess.Popen(line, stdin=tail.stdout, stdout=subprocess.PIPE, stderr=subprocess.PIPE)
            for number in range(1, 8):
                rows.equal(f"plan {number}", PLANNED, desk.ask(planned(number)))
                desk.ask(city[1].request())
            with socket.create_connection(("127.0.0.1", desk.port)) as last:
                last.sendall(planned(8))
                time.sleep(0.01)
                desk.kill()
            rows.equal("the pipe ends", 0, tail.wait(PATIENCE))
        output, errors = standby.communicate()
    said, rest = entries_in(record.read_bytes())
    ran = Ran(standby.returncode, output, errors.decode().rpartition(": ")[2].rstrip())
    rows.equal("it ends", Ran(3, b"", "cut_short") if rest else told_alike(said, ran), ran)
    take_over(rows, room, second)
    with Served(*words_of(file, folder), connections=len(OPERATORS)) as desk:
        listed = lists_of(desk)
        desk.end()
    with Served("--db", str(second), connections=len(OPERATORS)) as desk:
        rows.equal("the first, and what follows it", listed, lists_of(desk))
        desk.end()
    rows.equal("equal tables", dump_of(file), dump_of(second))


def take_over(rows: Rows, room: pathlib.Path, second: pathlib.Path) -> None:
    """What was answered is there at the second desk, which records in a folder of its own."""
    folder = room / "records_of_the_second"
    folder.mkdir()
    with Served("--db", str(second), "--record", str(folder), connections=1) as desk:
        listed = desk.ask(list_plans("alfa"))
        rows.equal("its end", (0, ""), desk.end()[::2])
    rows.equal("nothing is lost", [True] * 7, [plan_id(number).encode() in listed for number in range(1, 8)])
    rows.equal("its own record", ["0000000001"], [it.name[:10] for it in recorded(folder)])


def test_made_again(room: pathlib.Path, rows: Rows) -> None:
    """The file is thrown away, and made again from a copy and the records since; up to a mistake, too."""
    file, folder, copy = room / "desk.db", room / "records", room / "copy.db"
    folder.mkdir()
    with Served(*words_of(file, folder), connections=3) as desk:
        rows.equal("before the copy", [PLANNED] * 3, [desk.ask(planned(number)) for number in (1, 2, 3)])
        desk.end()
    copied = Ran(0, b"copied 2 operators, 3 plans\n", "")
    rows.equal("the copy", copied, run("copy", "--db", str(file), "--to", str(copy)))
    with Served(*words_of(file, folder)) as desk:
        rows.equal("since the copy", [PLANNED] * 2, [desk.ask(planned(number)) for number in (4, 5)])
        desk.ask(delete("alfa", plan_id(1)))
        before = dump_of(file)
        desk.kill()
    time.sleep(1.1)  # a second in which nothing is asked
    until_then = int(time.time()) - 1
    with Served(*words_of(file, folder)) as desk:
        desk.ask(clear("alfa", layer(2)))
        rows.equal("after the mistake", PLANNED, desk.ask(planned(6)))
        after = dump_of(file)
        desk.kill()
    again(rows, file, copy, folder)
    rows.equal("equal tables", after, dump_of(file))
    back = room / "back.db"
    shutil.copy(copy, back)
    since = b"".join(it.read_bytes() for it in recorded(folder)[1:])
    ran = run("replay", "--db", str(back), "--until", str(until_then), given=since)
    rows.equal("up to the mistake", alike(3, 3), ran)
    rows.equal("and as it was then", before, dump_of(back))


def again(rows: Rows, file: pathlib.Path, copy: pathlib.Path, folder: pathlib.Path) -> None:
    """The copy in the place of the file, with the records that came after it."""
    for name in (file, file.with_name(f"{file.name}-wal")):
        name.unlink()
    shutil.copy(copy, file)
    since = b"".join(it.read_bytes() for it in recorded(folder)[1:])
    rows.equal("the records since", alike(5, 5), run("replay", "--db", str(file), given=since))
    without = run("replay", "--db", ":memory:", given=text_of(folder))
    rows.equal("all records", alike(8, 8), without)


@pytest.mark.quick
def test_no_folder(room: pathlib.Path, rows: Rows) -> None:
    """Without a folder, or without a file, no desk is served."""
    line = ["serve", "--port", "8080", "--requests", "1"]
    ran = run(*line, "--db", str(room / "desk.db"), "--record", str(room / "none"))
    rows.equal("no folder", (4, "uss_desk: write\n"), (ran.status, ran.errors[-16:]))
    ran = run(*line, "--record", str(room))
    rows.equal("no file", (4, "uss_desk: store\n"), (ran.status, ran.errors[-16:]))
