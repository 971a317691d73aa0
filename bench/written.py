"""A desk's file of many plans, written by Python's SQLite, without sums on its pages: rows as docs/tables.md has them.

A plan is Planned or closed, with priority 10. A footprint is a list of cells, of which no four are a larger one, or the
strip of crowds.py.
"""

import sqlite3
import uuid
from collections.abc import Iterable, Iterator, Sequence

import crowds

Bounds = tuple[int, int, int, int]
"""Altitudes, and seconds."""
Volume = tuple[Bounds, bytes, bytes, list[tuple[int, int]]]
"""Its bounds, its footprint as asked, its canonical cover, and its spans."""
Plan = tuple[str, uuid.UUID, Iterable[Volume]]
"""Its operator, its id and its volumes."""

SCHEMA = """
CREATE TABLE operator (name TEXT NOT NULL, ceiling INTEGER NOT NULL, PRIMARY KEY (name)) STRICT;
CREATE TABLE plan (operator TEXT NOT NULL, id TEXT NOT NULL, priority INTEGER NOT NULL,
  usage INTEGER NOT NULL, aircraft INTEGER NOT NULL, PRIMARY KEY (operator, id),
  FOREIGN KEY (operator) REFERENCES operator (name)) STRICT;
CREATE TABLE volume (operator TEXT NOT NULL, id TEXT NOT NULL, place INTEGER NOT NULL, lower INTEGER NOT NULL,
  upper INTEGER NOT NULL, start INTEGER NOT NULL, stop INTEGER NOT NULL, asked BLOB NOT NULL, PRIMARY KEY
  (operator, id, place), FOREIGN KEY (operator, id) REFERENCES plan (operator, id) ON DELETE CASCADE) STRICT;
CREATE TABLE span (operator TEXT NOT NULL, id TEXT NOT NULL, place INTEGER NOT NULL, first INTEGER NOT NULL,
  last INTEGER NOT NULL, lower INTEGER NOT NULL, upper INTEGER NOT NULL, start INTEGER NOT NULL,
  stop INTEGER NOT NULL, priority INTEGER NOT NULL, PRIMARY KEY (operator, id, place, first),
  FOREIGN KEY (operator, id) REFERENCES plan (operator, id) ON DELETE CASCADE) STRICT;
CREATE INDEX span_first ON span (first, last, lower, upper, start, stop, priority, operator, id);
CREATE TABLE volume2 (operator TEXT NOT NULL, id TEXT NOT NULL, place INTEGER NOT NULL, lower INTEGER NOT NULL,
  upper INTEGER NOT NULL, start INTEGER NOT NULL, stop INTEGER NOT NULL, asked BLOB NOT NULL, canon BLOB NOT NULL,
  PRIMARY KEY (operator, id, place),
  FOREIGN KEY (operator, id) REFERENCES plan (operator, id) ON DELETE CASCADE) STRICT;
CREATE TABLE span2 (operator TEXT NOT NULL, id TEXT NOT NULL, place INTEGER NOT NULL, first INTEGER NOT NULL,
  last INTEGER NOT NULL, lower INTEGER NOT NULL, upper INTEGER NOT NULL, start INTEGER NOT NULL,
  stop INTEGER NOT NULL, priority INTEGER NOT NULL, PRIMARY KEY (operator, id, place, first),
  FOREIGN KEY (operator, id) REFERENCES plan (operator, id) ON DELETE CASCADE) STRICT;
"""
LAST_INDEX = "CREATE INDEX span2_first ON span2 (first, last, lower, upper, start, stop, priority, operator, id)"


def ids(cells: Iterable[int]) -> bytes:
    """Each cell's id as eight bytes."""
    return b"".join(cell.to_bytes(8, "big") for cell in cells)


def listed(bounds: Bounds, cells: Sequence[int]) -> Volume:
    """A volume of cells: as asked a list behind the byte 01."""
    ordered, spans = sorted(cells), list[tuple[int, int]]()
    for cell in ordered:
        first, last = cell - (cell & -cell) >> 1, cell + (cell & -cell) - 1 >> 1
        begin = spans.pop()[0] if spans and spans[-1][1] + 1 == first else first
        spans.append((begin, last))
    return bounds, b"\1" + ids(cells), ids(ordered), spans


def strips(lowers: Iterable[int], start: int, stop: int) -> Iterator[Volume]:
    """Volumes of crowds.py's strip, 1 m high: a rectangle behind the byte 02, whose cover has 768 ranges."""
    column, first, last = crowds.COLUMN, crowds.FIRST_ROW, crowds.FIRST_ROW + crowds.ROWS - 1
    asked = b"\2\0" + b"".join(at.to_bytes(4, "big") for at in (column, column, first, last)) + b"\x18"
    held = {crowds.position(24, column // 64, row) for row in range(first // 64, last // 64 + 1)}
    places = sorted(held)
    canon = ids(crowds.cell_at(24, place) for place in places)
    begins = [place for place in places if place - 1 not in held]
    ends = [place for place in places if place + 1 not in held]
    spans = [(4096 * begin, 4096 * end + 4095) for begin, end in zip(begins, ends)]
    for lower in lowers:
        yield (lower, lower + 10, start, stop), asked, canon, spans


def write(path: str, operators: Iterable[str], plans: Iterable[Plan], shut: int = 1 << 128) -> None:
    """A new file with these operators and plans; those with ids from a number on are closed, and have no spans."""
    with sqlite3.connect(path) as connection:
        connection.executescript(SCHEMA)
        connection.executemany("INSERT INTO operator VALUES (?, 100)", [(name,) for name in operators])
        for operator, identity, volumes in plans:
            key, closed = (operator, str(identity)), identity.int >= shut
            connection.execute("INSERT INTO plan VALUES (?, ?, 10, ?, 0)", (*key, 2 * closed))
            for place, (bounds, asked, canon, spans) in enumerate(volumes):
                row = (*key, place, *bounds, asked, canon)
                connection.execute("INSERT INTO volume2 VALUES (?, ?, ?, ?, ?, ?, ?, ?, ?)", row)
                rows = [(*key, place, *span, *bounds) for span in spans if not closed]
                connection.executemany("INSERT INTO span2 VALUES (?, ?, ?, ?, ?, ?, ?, ?, ?, 10)", rows)
        connection.execute(LAST_INDEX)
    connection.close()
