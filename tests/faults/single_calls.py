"""Single calls at a desk in memory, each after the few that it needs, with its right answer and what is there then.

All of it is written from docs/api.md, as the scenario is.
"""

from collections.abc import Sequence
from typing import NamedTuple

from faults.scenario import (
    ALFAS_CELL,
    ALFAS_STRIP,
    BRAVOS_FACE,
    FACE,
    FIRST,
    HIGH,
    LOW,
    LOW_BLOCKED,
    NOON,
    ONE,
    OVER,
    OVER_BLOCKED,
    RAISED,
    READING,
    REFUSED,
    SECOND,
    answer,
    area_shown,
    clear,
    cleared,
    done,
    listed,
    put,
    request,
    shown,
    volume,
)


class Asked(NamedTuple):
    """A request, and its right answer."""

    request: bytes
    answer: bytes


class Call(NamedTuple):
    """A call, what is asked before it, and what a List of alfa and one of bravo answer after it."""

    before: Sequence[Asked]
    asked: Asked
    alfas: bytes
    bravos: bytes

    @property
    def prelude(self) -> bytes:
        """The requests before the call."""
        return b"".join(asked.request for asked in self.before)

    @property
    def given(self) -> bytes:
        """The call, and the two Lists."""
        return self.asked.request + READING

    @property
    def answered(self) -> list[bytes]:
        """The right answers to what is asked before it."""
        return [asked.answer for asked in self.before]

    @property
    def answers(self) -> list[bytes]:
        """The right answers of a run."""
        return [*self.answered, self.asked.answer, self.alfas, self.bravos]


LOWER = Asked(put("alfa", FIRST, 10, volume(*ALFAS_CELL)), done("Planned"))
HIGHER = Asked(put("bravo", FIRST, 20, volume(*BRAVOS_FACE)), done("Planned"))
STRIP = Asked(put("alfa", SECOND, 10, volume(*ALFAS_STRIP)), done("Planned"))
EQUAL = Asked(put("bravo", FIRST, 10, volume(*BRAVOS_FACE)), REFUSED)
RAISING = Asked(put("alfa", FIRST, 25, volume(*ALFAS_CELL)), done("Planned"))
FLYING = Asked(put("alfa", FIRST, 10, volume(*ALFAS_CELL), "InUse"), done("OkToFly"))
CLOSING = Asked(request("DELETE", f"/flight_plans/{FIRST}", "alfa"), done("Closed"))
CLEARING = Asked(clear("alfa", volume(0, 3000, NOON, ONE, FACE)), cleared(2))
SHOWING = Asked(request("GET", f"/flight_plans/{FIRST}", "alfa"), answer(200, LOW_BLOCKED))
LISTING = Asked(request("GET", "/flight_plans", "alfa"), listed(LOW_BLOCKED, RAISED))
STATUS = Asked(request("GET", "/status", "alfa"), answer(200, '{"status":"Ready"}'))
FLOWN = shown(FIRST, 10, area_shown(*ALFAS_CELL), state="InUse")
CLOSED = shown(FIRST, 10, area_shown(*ALFAS_CELL), state="Closed")

OPENING = Call([], STATUS, listed(), listed())
"""What is done before the first answer: the tables are made, and two operators are enrolled."""
CALLS = {
    "status": Call([STATUS], STATUS, listed(), listed()),
    "put": Call([STATUS], LOWER, listed(LOW), listed()),
    "put of a rectangle": Call([LOWER], STRIP, listed(LOW, RAISED), listed()),
    "put that is blocked": Call([LOWER], EQUAL, listed(LOW), listed()),
    "put over a lower priority": Call([LOWER], HIGHER, listed(LOW_BLOCKED), listed(OVER)),
    "put of a stored plan": Call([LOWER, HIGHER], RAISING, listed(HIGH), listed(OVER_BLOCKED)),
    "activate": Call([LOWER], FLYING, listed(FLOWN), listed()),
    "show": Call([LOWER, HIGHER], SHOWING, listed(LOW_BLOCKED), listed(OVER)),
    "list": Call([LOWER, HIGHER, STRIP], LISTING, listed(LOW_BLOCKED, RAISED), listed(OVER)),
    "close": Call([LOWER], CLOSING, listed(CLOSED), listed()),
    "clear": Call([LOWER, HIGHER, STRIP], CLEARING, listed(), listed(OVER)),
}
