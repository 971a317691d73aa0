"""Files that the program opens, or refuses and leaves as they are, byte for byte."""

from __future__ import annotations

import pathlib
from typing import NamedTuple

import pytest
from tables.causes import BOTH, CANON_OF, DAMAGED, HEAD, MANY, NO_DATABASE, OPERATOR, OTHER, SPAN, VOLUME
from tables.files import made_file, stated_file
from tables.judging import assert_opened, assert_refused, assert_refused_unmoved
from tables.statements import CLOSED, DROPPED, ENROLLED, ID, NO_INDEX, OLD, OLD_SPAN, OLD_VOLUME, PLAN, SCHEMA
from tables.statements import many, wide


class Case(NamedTuple):
    """A file of a desk's tables and of these statements; the word of its refusal, if it is refused, and the cause, if
    it is a desk's in neither schema."""

    name: str
    statements: list[str]
    word: str | None
    cause: str = ""


CASES = [
    Case("a_desk", PLAN, None),
    Case("two_hundred_plans", many(200), None),
    Case("no_rows", [], None),
    Case("plans_201", many(201), "not_a_desk", MANY),
    Case("thirty_two_volumes", wide(32), None),
    Case("volumes_33", wide(33), "not_a_desk", VOLUME),
    # rows that break a foreign key are refused as a damaged database
    Case("plan_of_nobody", PLAN + ["DELETE FROM operator"], "store", DAMAGED),
    Case("volume_of_no_plan", PLAN + ["DELETE FROM plan", "DELETE FROM span2"], "store", DAMAGED),
    Case("plan_without_volumes", PLAN + ["DELETE FROM volume2", "DELETE FROM span2"], "not_a_desk", VOLUME),
    Case(
        "gap_in_places", PLAN + ["UPDATE volume2 SET place = 1", "UPDATE span2 SET place = 1"], "not_a_desk", VOLUME
    ),
    Case("footprint_of_no_cells", PLAN + ["UPDATE volume2 SET asked = x'01'"], "not_a_desk", VOLUME),
    Case("footprint_of_kind_3", PLAN + ["UPDATE volume2 SET asked = x'031000000000000000'"], "not_a_desk", VOLUME),
    Case(
        "priority_1001",
        PLAN + ["UPDATE plan SET priority = 1001", "UPDATE span2 SET priority = 1001"],
        "not_a_desk",
        HEAD,
    ),
    Case("ceiling_1001", PLAN + ["UPDATE operator SET ceiling = 1001"], "not_a_desk", OPERATOR),
    Case("name_in_upper_case", ["INSERT INTO operator VALUES ('ALFA', 100)"], "not_a_desk", OPERATOR),
    Case(
        "id_in_upper_case",
        [text.replace(ID, "AAAAAAAA-1111-4111-8111-111111111111") for text in PLAN],
        "not_a_desk",
        HEAD,
    ),
    Case("id_in_lower_case", [text.replace(ID, "aaaaaaaa-1111-4111-8111-111111111111") for text in PLAN], None),
    Case("usage_3", PLAN + ["UPDATE plan SET usage = 3"], "not_a_desk", HEAD),
    Case(
        "window_too_long",
        PLAN + ["UPDATE volume2 SET stop = start + 86401", "UPDATE span2 SET stop = start + 86401"],
        "not_a_desk",
        VOLUME,
    ),
    Case(
        "window_of_a_day",
        PLAN + ["UPDATE volume2 SET stop = start + 86400", "UPDATE span2 SET stop = start + 86400"],
        None,
    ),
    Case("span_missing", PLAN + ["DELETE FROM span2"], "not_a_desk", SPAN),
    Case("span_one_short", PLAN + ["UPDATE span2 SET last = last - 1"], "not_a_desk", SPAN),
    Case("span_of_a_closed_plan", PLAN + ["UPDATE plan SET usage = 2"], "not_a_desk", SPAN),
    Case("closed_plan", CLOSED, None),
    # a canon that is not the canonical cover: the four children, nothing, and eight bytes more; of a closed plan too
    Case(
        "canon_of_children",
        PLAN + [f"UPDATE volume2 SET canon = x'{''.join(f'{n:02x}' + 14 * '0' for n in (4, 12, 20, 28))}'"],
        "not_a_desk",
        CANON_OF,
    ),
    Case("canon_empty", PLAN + ["UPDATE volume2 SET canon = x''"], "not_a_desk", CANON_OF),
    Case(
        "canon_twice",
        PLAN + ["UPDATE volume2 SET canon = x'10000000000000001000000000000000'"],
        "not_a_desk",
        CANON_OF,
    ),
    Case(
        "canon_of_a_closed_plan", CLOSED + ["UPDATE volume2 SET canon = x'0400000000000000'"], "not_a_desk", CANON_OF
    ),
    # the four children asked for, whose cover is the face
    Case(
        "children_asked",
        PLAN + [f"UPDATE volume2 SET asked = x'01{''.join(f'{n:02x}' + 14 * '0' for n in (28, 4, 12, 20))}'"],
        None,
    ),
    # what an earlier version made, and nearly
    Case("no_index", PLAN + NO_INDEX, None),
    Case("no_index_no_rows", NO_INDEX, None),
    Case("no_index_span_missing", PLAN + NO_INDEX + ["DELETE FROM span2"], "not_a_desk", SPAN),
    Case(
        "index_of_two_columns",
        PLAN + NO_INDEX + ["CREATE INDEX span2_first ON span2 (first, last)"],
        "not_a_desk",
        OTHER,
    ),
    Case("index_unique", PLAN + NO_INDEX + [SCHEMA[7].replace("INDEX", "UNIQUE INDEX")], "not_a_desk", OTHER),
    Case("no_old_index", PLAN + DROPPED[3:4], "not_a_desk", OTHER),
    # the first tables alone, and others alone
    Case("operators_alone", ENROLLED + DROPPED[:7], None),
    Case("operators_and_plans", ENROLLED + DROPPED[:6], None),
    Case("no_spans", ENROLLED + DROPPED[:2], None),
    Case("no_spans_no_rows", DROPPED[:2], None),
    Case("plans_without_volumes", PLAN + DROPPED[:6], "not_a_desk", VOLUME),
    Case("volumes_without_spans", PLAN + DROPPED[:2], "not_a_desk", SPAN),
    Case("spans_without_volumes", DROPPED[2:3], "not_a_desk", OTHER),
    # schema 1: with no plan it gets what is missing; a row in it is told before all that is wrong
    Case("old_no_plans", ENROLLED + DROPPED[:3], None),
    Case("old_no_index", ENROLLED + DROPPED[:4], None),
    Case("old_no_spans", ENROLLED + DROPPED[:5], None),
    Case("old_plan", OLD + DROPPED[:3], "old_schema"),
    Case("old_plan_no_index", OLD + DROPPED[:4], "old_schema"),
    Case("old_plan_beside_tables", OLD, "old_schema"),
    Case("old_span_alone", PLAN + [OLD_SPAN], "old_schema", BOTH),
    Case("old_volume_alone", PLAN + [OLD_VOLUME], "old_schema", BOTH),
]


@pytest.mark.quick_each(10)
@pytest.mark.parametrize("case", CASES, ids=lambda case: str(case.name))
def test_opening(case: Case, room: pathlib.Path) -> None:
    """A file that is a desk's is opened, and another refused."""
    path = made_file(str(room / f"{case.name}.db"), case.statements)
    if case.word is None:
        assert_opened(path)
    elif case.word == "old_schema":
        assert_refused_unmoved(path, case.cause)
    else:
        assert_refused(path, case.word, case.cause)


def test_file_of_another_program(room: pathlib.Path) -> None:
    """A file of other tables alone."""
    path = stated_file(str(room / "another.db"), ["CREATE TABLE note (id INTEGER PRIMARY KEY, title TEXT)"])
    assert_refused(path, "not_a_desk", OTHER)


@pytest.mark.quick
def test_no_database(room: pathlib.Path) -> None:
    """A file of text."""
    path = room / "text.db"
    path.write_bytes(b"this is no database, and long enough to be looked at as one\n" * 100)
    assert_refused(str(path), "store", NO_DATABASE)
