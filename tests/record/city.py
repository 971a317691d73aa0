"""Operators of a city who plan flights, change them and look at them, each one request after the other."""

from __future__ import annotations

import datetime
import random
import threading
import uuid
from collections.abc import Sequence
from typing import NamedTuple

import crowds
from harness.requests import Json, answers, clear, delete, list_plans, put, show
from harness.serving import Served

DEEDS = [("put", 50), ("again", 12), ("use", 8), ("delete", 10), ("show", 10), ("list", 5), ("clear", 5)]
"""How often an operator asks for each, of a hundred."""
HUBS = 3
"""So few that some flights are blocked."""
Told = tuple[bytes, bytes]
"""A request, and the answer that a client was sent, whole."""


class Plan(NamedTuple):
    """A plan that was put."""

    identity: uuid.UUID
    area: list[Json]


def is_whole(answer: bytes) -> bool:
    """Whether an answer has all that its head counts."""
    head, end, body = answer.partition(b"\r\n\r\n")
    return bool(end) and len(body) == crowds.length_of(head)


class Operator:
    """An operator, its plans, and what it was answered in all lives."""

    def __init__(
        self, name: str, chance: random.Random, hubs: list[crowds.Square], first: datetime.datetime | None
    ) -> None:
        self.name, self._chance, self._hubs, self._first = name, chance, hubs, first
        self._plans: list[Plan] = []
        self.told: list[Told] = []

    def request(self) -> bytes:
        """What it asks next."""
        deeds, weights = zip(*DEEDS)
        deed = self._chance.choices(deeds, weights)[0]
        if deed == "list":
            return list_plans(self.name)
        if deed == "clear":
            return clear(self.name, self._flight())
        if deed == "put" or not self._plans:
            return self._put(uuid.UUID(int=self._chance.getrandbits(128)))
        plan = self._chance.choice(self._plans)
        if deed == "again":
            return self._put(plan.identity)
        if deed == "use":
            return put(self.name, plan.identity, plan.area, usage="InUse")
        return (delete if deed == "delete" else show)(self.name, plan.identity)

    def _put(self, identity: uuid.UUID) -> bytes:
        """A PUT of a plan over another flight."""
        self._plans.append(Plan(identity, [self._flight()]))
        return put(self.name, identity, self._plans[-1].area)

    def _flight(self) -> Json:
        """A flight within the day that begins at the first moment, or ten minutes from now."""
        first = self._first or datetime.datetime.now(datetime.timezone.utc) + datetime.timedelta(minutes=10)
        return crowds.flight(self._chance, self._hubs, days=1, first=first)


def operators(chance: random.Random, names: Sequence[str], first: datetime.datetime | None = None) -> list[Operator]:
    """Operators of these names in one city, whose day begins at a moment, or now."""
    hubs = crowds.some_hubs(chance, HUBS)
    return [Operator(name, random.Random(chance.random()), hubs, first) for name in names]


class Client(threading.Thread):
    """Asks for an operator until no whole answer comes any more."""

    def __init__(self, desk: Served, operator: Operator) -> None:
        super().__init__(daemon=True)
        self._desk, self._operator = desk, operator

    def run(self) -> None:
        while True:
            asked = self._operator.request()
            try:
                answer = self._desk.ask(asked)
            except OSError:
                return
            if not is_whole(answer):
                return
            self._operator.told.append((asked, answer))


def count_told(everybody: Sequence[Operator]) -> int:
    """How many answers all of them were sent."""
    return sum(len(it.told) for it in everybody)


def is_refused(answer: bytes) -> bool:
    """Whether a flight was refused for a conflict."""
    value = answers(answer)[0].value
    return isinstance(value, dict) and value.get("notes") == "conflict"
