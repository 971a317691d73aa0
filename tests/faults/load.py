"""Requests made by chance for a desk under load, with their right answers by a small model of the rules.

Each plan has a layer of altitudes of its own, so none is ever blocked, and a clear of some layers removes just the
plans that are in them.
"""

import random
from collections.abc import Mapping

from faults.scenario import (
    CELL,
    NOON,
    ONE,
    READING,
    answer,
    area_shown,
    clear,
    cleared,
    done,
    listed,
    put,
    request,
    shown,
    volume,
)

OPERATORS = ("alfa", "bravo")
PLANS = 40
LAYER = 10
CLOSED = '{"flight_plan_status":"Closed","notes":"closed","planning_result":"Rejected"}'
NONE = '{"error":"no_such_plan"}'
Content = Mapping[tuple[str, int], tuple[int, bool]]
"""The plans of each operator by their numbers: the priority, and whether it is closed."""
Step = tuple[bytes, bytes, Content]
"""A request, its right answer, and the content after it."""

assert READING.index(b"alfa") < READING.index(b"bravo")


def id_of(number: int) -> str:
    """The id of the plan of a number."""
    return f"00000000-0000-4000-8000-{number:012x}"


def extent(operator: str, first: int, last: int) -> tuple[int, int, int, int, str]:
    """The volume of an operator's layers from one number to another."""
    base = OPERATORS.index(operator) * PLANS * LAYER
    return base + first * LAYER, base + (last + 1) * LAYER, NOON, ONE, CELL


def path_of(number: int) -> str:
    """Where the plan of a number is asked for."""
    return f"/flight_plans/{id_of(number)}"


def plan_shown(operator: str, number: int, priority: int, is_closed: bool) -> str:
    """A plan as a GET shows it."""
    area = area_shown(*extent(operator, number, number))
    return shown(id_of(number), priority, area, state="Closed" if is_closed else "Planned")


def reading_of(content: Content) -> bytes:
    """What the desk answers to a List of each operator."""
    return b"".join(
        listed(*(plan_shown(*key, *content[key]) for key in sorted(content) if key[0] == operator))
        for operator in OPERATORS
    )


def put_by_chance(chance: random.Random, content: Content, operator: str, number: int) -> Step:
    """A PUT; a closed plan stays closed."""
    priority = chance.randrange(101)
    asked = put(operator, id_of(number), priority, volume(*extent(operator, number, number)))
    if content.get((operator, number), (0, False))[1]:
        return asked, answer(200, CLOSED), content
    return asked, done("Planned"), {**content, (operator, number): (priority, False)}


def delete_by_chance(_: random.Random, content: Content, operator: str, number: int) -> Step:
    """A DELETE of a plan that may be there."""
    asked = request("DELETE", path_of(number), operator)
    if (operator, number) not in content:
        return asked, answer(404, NONE), content
    closed = (content[operator, number][0], True)
    return asked, done("Closed"), {**content, (operator, number): closed}


def clear_by_chance(chance: random.Random, content: Content, operator: str, number: int) -> Step:
    """A clear of up to ten layers."""
    last = min(number + chance.randrange(10), PLANS - 1)
    gone = {key for key in content if key[0] == operator and number <= key[1] <= last}
    asked = clear(operator, volume(*extent(operator, number, last)))
    return asked, cleared(len(gone)), {key: content[key] for key in content if key not in gone}


def show_by_chance(_: random.Random, content: Content, operator: str, number: int) -> Step:
    """A GET of a plan that may be there."""
    asked = request("GET", path_of(number), operator)
    if (operator, number) not in content:
        return asked, answer(404, NONE), content
    return asked, answer(200, plan_shown(operator, number, *content[operator, number])), content


KINDS = [put_by_chance] * 12 + [delete_by_chance] * 2 + [clear_by_chance, show_by_chance]


def load(chance: random.Random, content: Content, count: int) -> tuple[bytes, list[bytes], list[Content]]:
    """`count` requests as bytes, their right answers, and the content before the first and after each of them."""
    requests, answers, contents = list[bytes](), list[bytes](), [content]
    for _ in range(count):
        make = chance.choice(KINDS)
        asked, told, content = make(chance, content, chance.choice(OPERATORS), chance.randrange(PLANS))
        requests.append(asked)
        answers.append(told)
        contents.append(content)
    return b"".join(requests), answers, contents
