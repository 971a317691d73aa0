"""Pairs of histories in which others hold other plans, of odd numbers, and what one operator is answered.

In both histories of a pair the greatest priority that others hold at each leaf cell, altitude and second is the same,
so that every answer of bravo has to be the same, byte for byte; who holds it, by how many plans, of how many operators,
of which lengths, and what is held elsewhere must not show. Each answer is also held to what stands beside its request
here.
"""

from __future__ import annotations

from collections.abc import Iterator, Sequence
from typing import NamedTuple

import pytest
from harness.program import run
from harness.requests import FACES, MOMENT, answers, clear, delete, list_plans, over, plan_id, put, show

# the cell in which all happens, the cells of level 1 that hold it and those beside it, and a cell far away
HERE_CELL, LONG_CELLS, FAR_CELL = "001", ["04", "0c", "14", "1c", "24", "2c", "34", "3c"], "901"
HIGH, LOW, BELOW = 77, 5, 3
RIVALS = [f"rival{number}" for number in range(12)]


def of_bravo(number: int, priority: int, lower: int = 0, upper: int = 1000, **how: str) -> bytes:
    """A PUT of bravo's plan of a number, in the cell in which all happens."""
    return put("bravo", plan_id(number), [over([HERE_CELL], lower, upper)], priority, **how)


# what bravo asks once others hold a priority of HIGH in its way, and what has to stand in the answer
ASKED = [
    (of_bravo(2, BELOW), b'"priority":77'),
    (of_bravo(2, LOW), b'"priority":77'),
    (of_bravo(2, HIGH), b'"notes":"conflict"'),
    (of_bravo(2, BELOW, 500, 501, style="Hypothetical"), b'"altitude":500'),
    (of_bravo(2, BELOW, 1000, 1001), b'"Completed"'),
    (put("bravo", plan_id(4), [over(["003"], 1000, 1001)], BELOW), b'"Completed"'),
    (show("bravo", plan_id(1)), b'"priority":77'),
    (of_bravo(1, BELOW, usage="InUse"), b'"notes":"conflict"'),
    (of_bravo(3, HIGH + 1), b'"Completed"'),
    (show("bravo", plan_id(1)), b'"priority":78'),
    (delete("bravo", plan_id(3)), b'"Closed"'),
    (clear("bravo", over(FACES, 0, 1001)), b'"cleared 4"'),
    (list_plans("bravo"), b'{"flight_plans":[]}'),
]


class History(NamedTuple):
    """What others plan while bravo has one plan: first what is below HIGH, then what isn't."""

    names: Sequence[str]
    below: Sequence[bytes]
    above: Sequence[bytes]


def played(history: History) -> list[bytes]:
    """What bravo is answered: to its first plan, and to what it asks once others have planned."""
    given = [of_bravo(1, BELOW), *history.below, *history.above, *(asked for asked, _ in ASKED)]
    names = [f"{name}=100" for name in ("bravo", *history.names)]
    ran = run("play", "--at", str(MOMENT), "--equal", str(LOW), *names, given=b"".join(given))
    found = [answer.whole for answer in answers(ran.output)]
    assert (ran.status, ran.errors, len(found)) == (0, "", len(given))
    assert [answer for answer in found[1 : -len(ASKED)] if b'"Completed"' not in answer] == []
    return [found[0], *found[-len(ASKED) :]]


def others(count: int, cells: Sequence[str]) -> list[bytes]:
    """So many plans of others below HIGH, 200 an operator; each at altitudes of its own, above one another."""
    levels = [number % 200 * 5 for number in range(count)]
    return [
        put(RIVALS[number // 200], plan_id(number), [over(cells, lower, lower + 4)], LOW)
        for number, lower in enumerate(levels)
    ]


def roof(name: str, cells: Sequence[str] = (HERE_CELL,)) -> list[bytes]:
    """One plan that holds HIGH wherever a history plans anything in its way."""
    return [put(name, plan_id(1000), [over(cells)], HIGH)]


def elsewhere(count: int) -> list[bytes]:
    """So many plans above HIGH in a cell far away."""
    return [
        put(RIVALS[number // 200], plan_id(number), [over([FAR_CELL], number * 5, number * 5 + 4)], HIGH + 1)
        for number in range(count)
    ]


def pairs() -> Iterator[tuple[str, History, History]]:
    """Each pair: its name and its histories."""
    one, wide = History(["alfa"], [], roof("alfa")), History(["alfa"], [], roof("alfa", FACES))
    for count in 7, 77, 1003, 2345:
        yield f"{count} rivals below", one, History([*RIVALS, "alfa"], others(count, [HERE_CELL]), one.above)
    for count in 7, 77:
        same = [put(RIVALS[0], plan_id(number), [over([HERE_CELL])], LOW) for number in range(count)]
        yield f"{count} rivals in one place", one, History([RIVALS[0], "alfa"], same, one.above)
    for count in 5, 16, 17, 40:
        long = others(count, LONG_CELLS)
        yield f"{count} plans of long spans", wide, History([RIVALS[0], "alfa"], long, wide.above)
    yield "1,003 plans elsewhere", one, History([*RIVALS, "alfa"], elsewhere(1003), one.above)
    yield "another holder", one, History(["zulu"], [], roof("zulu"))
    levels = [(number, number * 100) for number in range(10)]
    slices = [put("alfa", plan_id(100 + n), [over([HERE_CELL], at, at + 100)], HIGH) for n, at in levels]
    yield "ten slices", one, History(["alfa"], [], slices)
    cells = enumerate(["0004", "000c", "0014", "001c"])
    quarters = [put(RIVALS[number], plan_id(9), [over([cell])], HIGH) for number, cell in cells]
    yield "four quarters of four operators", one, History(RIVALS[:4], [], quarters)


@pytest.mark.quick_each(6)
@pytest.mark.parametrize("one, other", [pytest.param(one, other, id=name) for name, one, other in pairs()])
def test_pair(one: History, other: History) -> None:
    """What stands in the answers of one history, and that those of the other are the same."""
    left = played(one)
    assert [wanted for answer, (_, wanted) in zip(left[1:], ASKED) if wanted not in answer] == []
    assert played(other) == left
