"""Statements of SQL that make the tables of a desk, rows in them, and what is nearly that."""

ID = "11111111-1111-4111-8111-111111111111"


def volume_table(name: str, more: str) -> str:
    """The table of volumes, which has a column more in schema 2."""
    return (
        f"CREATE TABLE {name} (operator TEXT NOT NULL, id TEXT NOT NULL, place INTEGER NOT NULL, lower INTEGER NOT"
        " NULL, upper INTEGER NOT NULL, start INTEGER NOT NULL, stop INTEGER NOT NULL, asked BLOB NOT NULL,"
        f"{more} PRIMARY KEY (operator, id, place), FOREIGN KEY (operator, id) REFERENCES plan (operator, id)"
        " ON DELETE CASCADE) STRICT"
    )


def span_table(name: str) -> str:
    """The table of spans."""
    return (
        f"CREATE TABLE {name} (operator TEXT NOT NULL, id TEXT NOT NULL, place INTEGER NOT NULL, first INTEGER NOT"
        " NULL, last INTEGER NOT NULL, lower INTEGER NOT NULL, upper INTEGER NOT NULL, start INTEGER NOT NULL, stop"
        " INTEGER NOT NULL, priority INTEGER NOT NULL, PRIMARY KEY (operator, id, place, first), FOREIGN KEY"
        " (operator, id) REFERENCES plan (operator, id) ON DELETE CASCADE) STRICT"
    )


def span_index(name: str) -> str:
    """The index of spans."""
    return f"CREATE INDEX {name}_first ON {name} (first, last, lower, upper, start, stop, priority, operator, id)"


# the tables and indexes in the order in which a desk makes them
SCHEMA = [
    "CREATE TABLE operator (name TEXT NOT NULL, ceiling INTEGER NOT NULL, PRIMARY KEY (name)) STRICT",
    "CREATE TABLE plan (operator TEXT NOT NULL, id TEXT NOT NULL, priority INTEGER NOT NULL, usage INTEGER NOT NULL,"
    " aircraft INTEGER NOT NULL, PRIMARY KEY (operator, id), FOREIGN KEY (operator) REFERENCES operator (name)) STRICT",
    volume_table("volume", ""),
    span_table("span"),
    span_index("span"),
    volume_table("volume2", " canon BLOB NOT NULL,"),
    span_table("span2"),
    span_index("span2"),
]
TABLES = ["operator", "plan", "volume", "span", "volume2", "span2"]
# when, a footprint of face 0, whose token is 1, and its canonical cover
WHEN = "1780315200, 1780318800"
FACE = "x'011000000000000000'"
COVER = "x'1000000000000000'"
OLD_VOLUME = f"INSERT INTO volume VALUES ('alfa', '{ID}', 0, 0, 1000, {WHEN}, {FACE})"
OLD_SPAN = f"INSERT INTO span VALUES ('alfa', '{ID}', 0, 0, {2**60 - 1}, 0, 1000, {WHEN}, 10)"
# one plan over face 0
PLAN = [
    "INSERT INTO operator VALUES ('alfa', 100)",
    f"INSERT INTO plan VALUES ('alfa', '{ID}', 10, 0, 0)",
    f"INSERT INTO volume2 VALUES ('alfa', '{ID}', 0, 0, 1000, {WHEN}, {FACE}, {COVER})",
    f"INSERT INTO span2 VALUES ('alfa', '{ID}', 0, 0, {2**60 - 1}, 0, 1000, {WHEN}, 10)",
]
CLOSED = PLAN + ["UPDATE plan SET usage = 2", "DELETE FROM span2"]
# a closed plan more: face 0, the cell 04 and face 0 again; and a rectangle of three squares of level 24 along i = 0,
# which have the numbers 0, 3 and 4 on the curve
COPIES = "x'01100000000000000004000000000000001000000000000000'"
SQUARES = "x'0200000000000000000000000000000000bf18'"
SQUARES_COVER = "x'000000000000100000000000000070000000000000009000'"
COPIED = PLAN + [
    "INSERT INTO operator VALUES ('bravo', 100)",
    f"INSERT INTO plan VALUES ('bravo', '{ID}', 10, 2, 0)",
    f"INSERT INTO volume2 VALUES ('bravo', '{ID}', 0, 0, 1000, {WHEN}, {COPIES}, {COVER})",
    f"INSERT INTO volume2 VALUES ('bravo', '{ID}', 1, 0, 1000, {WHEN}, {SQUARES}, {SQUARES_COVER})",
]
# a rectangle along i = 0 of face 0 in squares of level 24, up to the leaf j_max
ROW = (
    "INSERT INTO volume VALUES ('bravo', '{}', {}, 2000, 3000, " + WHEN + ", x'0200000000000000000000000000{:08x}18')"
)


def many(count: int) -> list[str]:
    """Plans of one operator, closed ones, which have no spans."""
    made = ["INSERT INTO operator VALUES ('alfa', 100)"]
    for number in range(count):
        name = f"00000000-0000-4000-8000-{number:012x}"
        made.append(f"INSERT INTO plan VALUES ('alfa', '{name}', 10, 2, 0)")
        made.append(f"INSERT INTO volume2 VALUES ('alfa', '{name}', 0, 0, 1000, {WHEN}, {FACE}, {COVER})")
    return made


def shared(*counts: int) -> list[str]:
    """Plans over face 0 of several operators, so many of each, one above the other."""
    made, height = [], 0
    for at, count in enumerate(counts):
        made.append(f"INSERT INTO operator VALUES ('op{at}', 100)")
        for number in range(count):
            name, below, height = f"'op{at}', '00000000-0000-4000-8000-{number:012x}'", height, height + 100
            made.append(f"INSERT INTO plan VALUES ({name}, 10, 0, 0)")
            made.append(f"INSERT INTO volume2 VALUES ({name}, 0, {below}, {height}, {WHEN}, {FACE}, {COVER})")
            made.append(f"INSERT INTO span2 VALUES ({name}, 0, 0, {2**60 - 1}, {below}, {height}, {WHEN}, 10)")
    return made


def wide(count: int) -> list[str]:
    """One closed plan of so many volumes."""
    made = [*PLAN[:2], "UPDATE plan SET usage = 2"]
    for place in range(count):
        made.append(f"INSERT INTO volume2 VALUES ('alfa', '{ID}', {place}, 0, 1000, {WHEN}, {FACE}, {COVER})")
    return made


def old_wide(count: int) -> list[str]:
    """Statements after which the closed plan of schema1.sql has so many volumes."""
    named = "'alfa', '22222222-2222-4222-8222-222222222222'"
    return [f"INSERT INTO volume VALUES ({named}, {place}, 0, 1000, {WHEN}, {FACE})" for place in range(1, count)]


def old_row(squares: int) -> list[str]:
    """Statements after which schema1.sql has a closed plan more, of a rectangle whose cover has so many cells."""
    name = "33333333-3333-4333-8333-333333333333"
    return [f"INSERT INTO plan VALUES ('bravo', '{name}', 10, 2, 0)", ROW.format(name, 0, 64 * squares - 1)]


NO_INDEX = ["DROP INDEX span2_first"]
ENROLLED = PLAN[:1]
# all that may be missing, the last first; the tables are dropped with the rows that they have
DROPPED = NO_INDEX + [
    "DROP TABLE span2",
    "DROP TABLE volume2",
    "DROP INDEX span_first",
    "DROP TABLE span",
    "DROP TABLE volume",
    "DROP TABLE plan",
]

# a plan in schema 1 alone
OLD = PLAN[:2] + [OLD_VOLUME, OLD_SPAN]

# a packed file: its tables, and then its indexes
PACKED = SCHEMA[:4] + SCHEMA[5:7] + [SCHEMA[4], SCHEMA[7]]


def packed_but(place: int, old: str, new: str) -> list[str]:
    """A packed file, in which a text stands for another of one of its statements."""
    if old not in PACKED[place]:
        raise ValueError(old)
    return PACKED[:place] + [PACKED[place].replace(old, new)] + PACKED[place + 1 :]
