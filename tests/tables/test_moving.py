"""Files of schema 1, moved to schema 2, or refused and left as they are."""

from __future__ import annotations

import pathlib
import subprocess

import pytest
from harness.places import EXAMPLES, TESTS
from harness.program import run
from harness.rows import named
from tables.causes import BOTH, OLD_LIMITS, OLD_ROWS, OLD_SPANS, OTHER
from tables.files import old_file
from tables.judging import assert_moved, assert_not_moved, moved
from tables.statements import DROPPED, ID, SCHEMA, TABLES, old_row, old_wide

# name, the statements after schema1.sql, and how many plans are moved, or what is told if it is refused
MOVES: list[tuple[str, list[str], int | str]] = [
    ("moved", [], 3),
    ("one_plan", [f"DELETE FROM {name} WHERE operator <> 'alfa' OR id <> '{ID}'" for name in TABLES[3:0:-1]], 1),
    ("moved_tables_made", SCHEMA[5:], 3),
    ("moved_no_index", DROPPED[3:4], 3),
    ("moved_vacuumed", ["VACUUM"], 3),
    ("moved_tables_made_vacuumed", SCHEMA[5:] + ["VACUUM"], 3),
    ("moved_eight_volumes", old_wide(8), 3),
    ("moved_256_cells", old_row(256), 4),
    ("nine_volumes", old_wide(9), OLD_LIMITS),
    ("cells_257", old_row(257), OLD_LIMITS),
    ("old_span_missing", ["DELETE FROM span WHERE operator = 'alfa'"], OLD_SPANS),
    ("old_span_one_short", ["UPDATE span SET last = last - 1"], OLD_SPANS),
    ("old_volume_missing", ["DELETE FROM volume WHERE operator = 'alfa'"], OLD_ROWS),
    (
        "old_gap_in_places",
        [
            "UPDATE volume SET place = 1 WHERE operator = 'bravo'",
            "UPDATE span SET place = 1 WHERE operator = 'bravo'",
        ],
        OLD_ROWS,
    ),
    (
        "in_both",
        SCHEMA[5:]
        + [f"INSERT INTO volume2 SELECT *, x'0400000000000000' FROM volume WHERE operator = 'alfa' AND id = '{ID}'"],
        BOTH,
    ),
    ("span_in_both", SCHEMA[5:] + ["INSERT INTO span2 SELECT * FROM span"], BOTH),
    ("old_with_another", ["CREATE TABLE other (a)"], OTHER),
]

# what stands in the tables of schema 2 once schema1.sql is moved
CANON = [
    ("alfa", ID, 0, "0400000000000000"),
    ("alfa", "22222222-2222-4222-8222-222222222222", 0, "1000000000000000"),
    ("bravo", ID, 0, "0000000000003000"),
]
SPANS = [
    ("alfa", ID, 0, 0, 2**58 - 1, 0, 1000, 1780315200, 1780318800, 10),
    ("bravo", ID, 0, 4096, 8191, 2000, 3000, 1780315200, 1780318800, 20),
]


@pytest.mark.quick_each(8)
@pytest.mark.parametrize("statements, wanted", named(MOVES))
def test_move(statements: list[str], wanted: int | str, room: pathlib.Path) -> None:
    """A file is moved, with so many plans, or refused with its cause."""
    path = old_file(str(room / "old.db"), statements)
    if isinstance(wanted, str):
        assert_not_moved(path, wanted)
    else:
        assert_moved(path, wanted)


def test_moved_is_read(room: pathlib.Path) -> None:
    """What schema1.sql has in schema 2, read by sqlite3, and a plan of it shown by a desk."""
    path = old_file(str(room / "old.db"), [])
    assert moved(path).status == 0
    questions = [
        "SELECT operator, id, place, hex(canon) FROM volume2 ORDER BY operator, id, place",
        "SELECT * FROM span2 ORDER BY operator, id, place, first",
    ]
    read = subprocess.run(["sqlite3", path, *questions], capture_output=True, text=True, check=True)
    assert read.stdout.split() == ["|".join(map(str, row)) for row in [*CANON, *SPANS]]
    shown = run("play", "--db", path, "--at", "1780315000", given=(EXAMPLES / "show_p.http").read_bytes())
    assert (shown.status, shown.output) == (0, (TESTS / "schema1.answer").read_bytes())
