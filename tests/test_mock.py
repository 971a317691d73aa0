"""Random streams at the mock desk (clients/mock_desk) and at the program: every byte is the same.

The mock was written from docs/api.md alone, so that a difference is a fault of the mock, of the program, or of the
rules. Each is printed with the smallest list of requests that was found to show it. First come the cases of
clients/mock_desk/tests/cases, in each of which a reader of the rules went wrong once; at the end long streams of a
crowded city, in memory and over a file.

    pytest tests/test_mock.py --answers 100000 --seed 7      other streams, and more
    pytest tests/test_mock.py --seed 7 -k 'history[12]'      one history again
"""

from __future__ import annotations

import itertools
import random
import re
from collections.abc import Callable, Iterator

import crowds
import pytest
from harness.places import CLIENTS
from harness.program import DESK, run
from harness.requests import MOMENT
from harness.rows import named
from mock_check.histories import Difference, History, Start, compare, make_history, shrunk
from record.city import operators

LONGEST = 2000
CASES = CLIENTS / "mock_desk" / "tests" / "cases"


def numbers(answers: int, seed: int) -> Iterator[int]:
    """The numbers of the histories that have so many answers; the last request of a start may have none."""
    for number in itertools.count():
        if answers <= 0:
            return
        answers -= sum(len(start.requests) - 1 for start in make_history(seed, number).starts if start.requests)
        yield number


def pytest_generate_tests(metafunc: pytest.Metafunc) -> None:
    """As many histories as --answers wants."""
    if "number" in metafunc.fixturenames:
        option = metafunc.config.getoption
        metafunc.parametrize("number", numbers(option("--answers"), option("--seed")))


def short(text: bytes) -> str:
    """A text as it is printed, cut in the middle if it is long."""
    if len(text) <= LONGEST:
        return repr(text)
    return f"{text[:LONGEST // 2]!r} .. {text[-LONGEST // 2:]!r} ({len(text)} bytes)"


def described(history: History, difference: Difference) -> Iterator[str]:
    """The requests that show a difference, and both answers."""
    for start in history.starts:
        yield f"  {' '.join(start.words('FILE' if history.in_file else ''))}"
        yield from (f"    {short(request)}" for request in start.requests)
    where = "the end" if difference.request is None else f"answer {difference.request + 1}"
    yield f"  {where} of start {difference.start + 1}"
    yield f"    mock:    {short(difference.mock)}"
    yield f"    program: {short(difference.program)}"


@pytest.mark.quick_each(3)
@pytest.mark.parametrize("name", sorted(path.stem for path in CASES.glob("*.http")))
def test_case(name: str) -> None:
    """The program gives the answers of a case."""
    ran = run("play", "--at", "1780315000", "alfa=100", "bravo=100", given=(CASES / f"{name}.http").read_bytes())
    assert ran.output == (CASES / f"{name}.answer").read_bytes()


def smallest(history: History, difference: Difference) -> tuple[History, Difference]:
    """The smallest history that was found to differ in the same way: in an answer, or in how a line ends."""

    def found(less: History) -> Difference | None:
        other = compare(less, DESK)[1]
        return other if other and (other.request is None) == (difference.request is None) else None

    least = shrunk(history, lambda less: found(less) is not None)
    return least, found(least) or difference


@pytest.mark.quick_each(10)
def test_history(number: int, pytestconfig: pytest.Config, record_property: Callable[[str, object], None]) -> None:
    """Both desks give the same answers to a history."""
    record_property("answers alike", alike(make_history(pytestconfig.getoption("--seed"), number)))


def alike(history: History) -> int:
    """How many answers to a history both desks gave alike. The first that differs fails the test."""
    count, difference = compare(history, DESK)
    if difference:
        lines = described(*smallest(history, difference))
        pytest.fail("\n".join(["the desks differ; these are enough:", *lines]), pytrace=False)
    return count


NAMES = ["alfa", "bravo", "charlie", "delta", "echo", "foxtrot"]
FLOWN = 500
"""How many requests of a city are played; the mock takes long over its conflicts."""
CITIES = [
    ("in memory", False, None, None, rb'{"conflict":{[^}]*}[^}]*"Rejected"}'),
    ("over a file", True, None, None, rb'{"conflict":{[^}]*}[^}]*"Rejected"}'),
    ("of few spans", False, 200, None, rb'"notes":"spans_limit"'),
    ("of few cells", True, None, 300, rb'"notes":"cells_limit"'),
]
"""Whether the city's plans are in a file, the most spans and cells of an operator, and what refuses some of its
flights."""


@pytest.mark.slow
@pytest.mark.parametrize("in_file, spans, cells, refusal", named(CITIES))
def test_city(
    in_file: bool,
    spans: int | None,
    cells: int | None,
    refusal: bytes,
    pytestconfig: pytest.Config,
    record_property: Callable[[str, object], None],
) -> None:
    """Flights of a busy day are put, put again elsewhere, activated, closed, shown, listed and cleared alike; of a
    fifteenth of the requests a plan is completed, and a fiftieth is refused, so that there is something to decide."""
    chance = random.Random(f"city {pytestconfig.getoption('--seed')}")
    everybody = operators(chance, NAMES, crowds.FIRST)
    asked = tuple(chance.choice(everybody).request() for _ in range(FLOWN))
    start = Start(MOMENT, (), spans, cells, tuple((name, 100) for name in NAMES), asked)
    record_property("answers alike", alike(History((start,), in_file)))
    told = run(*start.words(""), given=b"".join(asked)).output
    assert len(re.findall(rb'"planning_result":"Completed"', told)) >= FLOWN // 15
    assert len(re.findall(refusal, told)) >= FLOWN // 50
