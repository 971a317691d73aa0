"""Why a file can't be opened, as the program tells it."""

NO_TABLE = "no table"
OTHER = "other tables than a desk's"
ORDER = "its tables stand in another order than a desk's: copy makes a desk of it"
ORDERED = "its tables are put in a desk's own order"
BOTH = "rows of schema 1 beside rows of schema 2"
OPERATOR = "rows of no content in operator"
HEAD = "rows of no content in plan"
MANY = "plans of no operator, or too many of one, in plan"
VOLUME = "rows of no content in volume2"
CANON_OF = "covers of no content in volume2"
SPAN = "rows of no content in span2"
OLD_ROWS = "rows of no content in volume"
OLD_SPANS = "rows of no content in span"
OLD_LIMITS = "plans beyond the limits of schema 1 in volume"
DAMAGED = "a damaged page, the log of another file, rows that break a key, or a disk that fails"
TAKEN = "it is there already"
IN_USE = "in use by another program"
JOURNAL = "a journal of SQLite beside it: open it with sqlite3 first"
NO_DATABASE = "no SQLite database"
# what a line tells that moves no rows of schema 1
MIGRATE = "rows of schema 1: migrate it"


def unsummed(count: int) -> str:
    """What is told of a file so many of whose pages have another sum than theirs."""
    return f"{count} pages without their sums, as sqlite3 leaves them, or damaged"
