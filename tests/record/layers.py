"""Plans that never meet: each has an hour of tomorrow, over one cell, in a layer of altitudes of its own."""

from __future__ import annotations

import datetime

from faults.scenario import done
from harness.requests import Json, plan_id, put, volume

LOWEST, LAYER = 1_000, 10
"""Where they begin, so that all up to the 800th have as many digits, and how high each is."""
PLANNED = done("Planned")
"""The answer to each of them."""
DAY = (datetime.datetime.now(datetime.timezone.utc) + datetime.timedelta(days=1)).date().isoformat()
"""Tomorrow, as these tests begin: a midnight among them changes no plan."""


def layer(number: int) -> Json:
    """The volume of a layer."""
    lower = LOWEST + LAYER * number
    return volume({"cells": ["04"]}, lower, lower + LAYER, f"{DAY}T12:00:00Z", f"{DAY}T13:00:00Z")


def planned(number: int, operator: str = "alfa", priority: int = 10) -> bytes:
    """A PUT of the plan of a number, in its layer."""
    return put(operator, plan_id(number), [layer(number)], priority)
