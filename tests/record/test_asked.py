"""What tools/asked prints of an operator's requests and answers: from records that are written here, and from those
of a desk."""

from __future__ import annotations

import pathlib
import re

import pytest
from faults.scenario import UNKNOWN, answer
from harness.places import TOOLS
from harness.printed import blocks, page, section
from harness.program import Ran, command
from harness.requests import delete, plan_id, request, show
from harness.rows import Rows
from harness.serving import Served

from record.entries import beginning, entry
from record.folders import recorded
from record.layers import PLANNED, layer, planned

ASKED = str(TOOLS / "asked")
AT = 1_780_408_800
"""2026-06-02T14:00:00Z, a Tuesday."""
CONFLICT = '{"conflict":{"altitude":0,"cell":"0000000000000001","priority":10,"second":1780408800},'
CONFLICT += '"flight_plan_status":"NotPlanned","notes":"conflict","planning_result":"Rejected"}'
NONE = '{"error":"no_such_plan"}'
BODY = b'{"a":"\xc3\xa9\n"}'
PUT = request("PUT", f"/flight_plans/{plan_id(1)}", "alfa", BODY)
# the entries of a record, and of the one after it, in which the last request is asked again
RECORDS = [
    *beginning(1, [("alfa", 100), ("bravo", 50)]),
    entry("request", AT, show("alfa", plan_id(1))),
    entry("answer", AT, answer(404, NONE)),
    entry("request", AT + 300, PUT),
    entry("answer", AT + 300, answer(200, CONFLICT)),
    entry("request", AT + 301, show("bravo", plan_id(1))),
    entry("answer", AT + 301, answer(404, NONE)),
    entry("operator", 7, b"alfa"),
    entry("request", AT + 400, delete("alfa", plan_id(10))),
    *beginning(2, [("alfa", 7), ("bravo", 50)]),
    entry("request", AT + 400, delete("alfa", plan_id(10))),
    entry("answer", AT + 400, answer(404, NONE)),
    entry("request", AT + 500, b"GET /status HTTP/1.1\r\nX-Operator:alfa \r\n\r\n"),
    entry("answer", AT + 500, answer(200, '{"status":"Ready"}')),
    entry("request", AT + 501, b"\x00\xff"),
    entry("answer", AT + 501, answer(403, '{"error":"bad_head"}')),
]
SHOWN = f"""\
2026-06-02 14:00:00 GET /flight_plans/{plan_id(1)}
  404 {NONE}
"""
REFUSED = f"""\
2026-06-02 14:05:00 PUT /flight_plans/{plan_id(1)}
  {{"a":"é\\n"}}
  200 {CONFLICT}
"""
AGAIN = f"""\
2026-06-02 14:06:40 DELETE /flight_plans/{plan_id(10)}
ceiling 7
2026-06-02 14:06:40 DELETE /flight_plans/{plan_id(10)}
  404 {NONE}
"""
READY = """\
2026-06-02 14:08:20 GET /status
  200 {"status":"Ready"}
"""
ALL = f"ceiling 100\n{SHOWN}{REFUSED}ceiling 7\n{AGAIN}{READY}"


def asked(text: bytes, *words: str) -> Ran:
    """What is printed of some records."""
    return command([ASKED, *words], text)


def printed(text: str) -> Ran:
    """All is well, and this is printed."""
    return Ran(0, text.encode(), "")


@pytest.mark.quick
def test_asked(rows: Rows) -> None:
    """Of an operator, of one plan, between two seconds."""
    text = b"".join(RECORDS)
    rows.equal("all", printed(ALL), asked(text, "alfa"))
    rows.equal("another", printed(f"ceiling 50\n{SHOWN.replace('00:00', '05:01')}ceiling 50\n"), asked(text, "bravo"))
    rows.equal("nobody", printed(""), asked(text, "charlie"))
    of_plan = printed(f"ceiling 100\n{SHOWN}{REFUSED}ceiling 7\nceiling 7\n")
    rows.equal("of a plan", of_plan, asked(text, "alfa", plan_id(1)))
    rows.equal("in upper case", printed(f"ceiling 100\nceiling 7\n{AGAIN}"), asked(text, "alfa", plan_id(10).upper()))
    between = ["--since", str(AT + 1), "--until", str(AT + 300)]
    rows.equal(
        "on Tuesday at 14:05", printed(f"ceiling 100\n{REFUSED}ceiling 7\nceiling 7\n"), asked(text, "alfa", *between)
    )


@pytest.mark.quick
def test_cut_and_damaged(rows: Rows) -> None:
    """A record that ends in the midst of an entry, and one that is damaged."""
    before, last = b"".join(RECORDS[:5]), RECORDS[5]
    wanted = printed(f"ceiling 100\n{SHOWN}")
    for size in (0, 1, 85, 86, len(last) - 1):
        rows.equal(f"cut at {size}", wanted, asked(before + last[:size], "alfa"))
    for place in (0, 20, 60, 80, 85, 86, len(last) - 1):
        damaged = last[:place] + bytes([last[place] ^ 1]) + last[place + 1 :]
        ended = Ran(1, wanted.output, f"asked: no entry of a record at byte {len(before)}\n")
        rows.equal(f"byte {place} another", ended, asked(before + damaged, "alfa"))


def test_of_a_desk(room: pathlib.Path, rows: Rows) -> None:
    """What a desk recorded: an operator that isn't enrolled, a plan, and the same by the command of docs/journal.md."""
    folder = room / "records"
    folder.mkdir()
    with Served("--db", str(room / "desk.db"), "--record", str(folder), "alfa=100", connections=2) as desk:
        rows.equal("bravo", UNKNOWN, desk.ask(show("bravo", plan_id(1))))
        rows.equal("alfa", PLANNED, desk.ask(planned(1)))
        desk.end()
    lines = asked(recorded(folder)[0].read_bytes(), "alfa", plan_id(1)).output.decode().splitlines()
    rows.equal("its ceiling, request and answer", 4, len(lines))
    body = planned(1).partition(b"\r\n\r\n")[2].decode()
    told = PLANNED.partition(b"\r\n\r\n")[2].decode()
    rows.equal("what was asked", ["ceiling 100", f"  {body}", f"  200 {told}"], [lines[0], *lines[2:]])
    rows.holds("when", re.fullmatch(r"\d{4}-\d\d-\d\d \d\d:\d\d:\d\d PUT /flight_plans/" + plan_id(1), lines[1]))
    line = blocks(section(page("journal.md"), "## Who asked what"), "sh")[0].replace("/usr/lib/uss-desk/asked", ASKED)
    line = line.replace("/var/lib/uss_desk/records", str(folder)).replace("asked alfa", f"asked alfa {plan_id(1)}")
    ran = command(["bash", "-c", line])
    rows.equal("by the page's command", lines, ran.output.decode().splitlines())
    rows.equal("its volume", True, str(layer(1)["volume"]["altitude_upper"]) in body)
