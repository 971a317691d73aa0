"""Random bodies: the client's check says of each the word that the desk says, or nothing."""

from __future__ import annotations

import functools
import json
from typing import Any

import pytest
from clients.bodies import bodies
from harness.program import run
from harness.requests import MOMENT, answers, plan_id, request
from uss_desk_client import check, check_clear

EACH = 100
"""How many bodies an operator sends, all of them in one line."""
WORDS = {"bad_json", "bad_member", "bad_volume", "too_many_cells", "style", "state", "not_planned", "priority", None}
"""What a body alone brings about."""
Told = list[tuple[str, bytes, "str | None"]]
"""Bodies: the method, the body, and the word of the answer."""


def word_of(body: bytes) -> str | None:
    """What an answer refuses a body for; that others are in the way no check can tell."""
    value = json.loads(body)
    word = value.get("error") or value.get("notes") or None
    return None if word == "conflict" else word


@functools.cache
def told_of(seed: int, sender: int, count: int) -> Told:
    """What the desk says of the bodies of one operator, as far as there are so many bodies of a seed."""
    given = list(bodies(seed, count))[sender * EACH : (sender + 1) * EACH]
    stream = b"".join(
        request(method, f"/flight_plans/{plan_id(at)}" if method == "PUT" else "/clear_area_requests", "alfa", body)
        for at, (method, body) in enumerate(given, 1)
    )
    ended = run("play", "--at", str(MOMENT), "alfa=100", given=stream)
    assert (ended.status, ended.errors) == (0, "")
    words = [word_of(answer.body) for answer in answers(ended.output)]
    return [(*one, word) for one, word in zip(given, words, strict=True)]


def rows_of(count: int) -> list[Any]:
    """The numbers of bodies; those of the first operator are quick."""
    return [pytest.param(number, marks=[pytest.mark.quick] if number < EACH else []) for number in range(count)]


def pytest_generate_tests(metafunc: pytest.Metafunc) -> None:
    """Each body by its number."""
    if "number" in metafunc.fixturenames:
        metafunc.parametrize("number", rows_of(metafunc.config.getoption("--bodies")))


def test_words(pytestconfig: pytest.Config) -> None:
    """Every word comes that a body alone brings about."""
    seed, count = pytestconfig.getoption("--seed"), pytestconfig.getoption("--bodies")
    told = (told_of(seed, sender, count) for sender in range(-(-count // EACH)))
    assert WORDS <= {word for each in told for _, _, word in each}


def test_body(number: int, pytestconfig: pytest.Config) -> None:
    """The check says what the desk says."""
    told = told_of(pytestconfig.getoption("--seed"), number // EACH, pytestconfig.getoption("--bodies"))
    method, body, word = told[number % EACH]
    fault = check(body, MOMENT, 100, "NotPlanned") if method == "PUT" else check_clear(body)
    assert (fault and fault.word) == word, body[:2_000]
