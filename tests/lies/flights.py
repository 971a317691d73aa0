"""The flights of a desk whose files are damaged: requests and their right answers, written from docs/api.md.

Operators come in pairs. The flights of one number of a pair have the same cells, which no other flight has, and layers
of altitudes that meet; the pair's second operator has the higher priority. So a flight of the first is blocked by the
second's flight of its number, if that is there and live, and by nothing else.
"""

import json
import time
from collections.abc import Mapping
from typing import Any, NamedTuple

from faults.scenario import answer, request

# the moment of each `play`; all flights are in an hour of the next day, which a `serve` takes as well
MOMENT = int(time.time())
START = MOMENT - MOMENT % 3600 + 86400
END = START + 3600
LEVEL = 16
LEAVES = 4 ** (30 - LEVEL)
CELLS = 4**LEVEL // 2
# odd, so that it scatters the numbers of cells over a face, each to a place of its own
SCATTER = 2654435769
LAYERS = ((0, 1000), (500, 1500))
STATUS = {"Planned": "Planned", "InUse": "OkToFly", "Closed": "Closed"}
PRIORITY_REFUSED = '{"flight_plan_status":"NotPlanned","notes":"priority","planning_result":"Rejected"}'
# the number of a flight that is asked for by dry runs alone, and ceilings of which one is an operator's
UNUSED = 199
CEILINGS = (60, 80, 100)


class Flight(NamedTuple):
    """A stored plan: how many cells it has, its priority and its usage."""

    cells: int
    priority: int
    usage: str = "Planned"


class World(NamedTuple):
    """The content of a desk: each operator's ceiling, and flights by operator and number."""

    ceilings: Mapping[int, int]
    flights: Mapping[tuple[int, int], Flight]


Step = tuple[bytes, bytes, World]
"""A request, its right answer, and the world after it."""


def name_of(operator: int) -> str:
    """The name of an operator."""
    return f"operator-{operator:02d}"


def id_of(number: int) -> str:
    """The id of the flights of a number."""
    return f"00000000-0000-4000-8000-{number:012x}"


def places(operator: int, number: int, count: int) -> list[int]:
    """The first leaves of a flight's cells, in the order asked. No two cells touch."""
    first = (operator // 2 * 200 + number) * 64
    return [(first + step) * SCATTER % CELLS * 2 * LEAVES for step in range(count)]


def tokens(operator: int, number: int, count: int) -> list[str]:
    """The tokens of these cells."""
    return [f"{2 * place + LEAVES:016x}".rstrip("0") for place in places(operator, number, count)]


def compact(value: object) -> str:
    """JSON with its members in byte order and no blanks."""
    return json.dumps(value, separators=(",", ":"), sort_keys=True)


def moment_of(second: int) -> dict[str, str]:
    """A second as a request has it."""
    return {"format": "RFC3339", "value": time.strftime("%Y-%m-%dT%H:%M:%SZ", time.gmtime(second))}


def volume(operator: int, number: int, count: int) -> dict[str, Any]:
    """The one volume of a flight, as it is asked for."""
    lower, upper = LAYERS[operator % 2]
    where = {"altitude_lower": lower, "altitude_upper": upper, "cells": tokens(operator, number, count)}
    return {"time_start": moment_of(START), "time_end": moment_of(END), "volume": where}


def conflict_of(world: World, operator: int, number: int) -> dict[str, Any] | None:
    """The first point at which a flight is blocked by that of its pair's second operator, or None."""
    mine, other = world.flights[operator, number], world.flights.get((operator + 1, number))
    if operator % 2 or other is None or "Closed" in (mine.usage, other.usage):
        return None
    leaf = 2 * min(places(operator, number, min(mine.cells, other.cells))) + 1
    return {"altitude": 500, "cell": f"{leaf:016x}", "priority": other.priority, "second": START}


def shown(world: World, operator: int, number: int) -> dict[str, Any]:
    """A flight as a GET shows it."""
    flight = world.flights[operator, number]
    lower, upper = LAYERS[operator % 2]
    area = {
        "altitude_lower": lower,
        "altitude_upper": upper,
        "cells": tokens(operator, number, flight.cells),
        "second_end": END,
        "second_start": START,
    }
    conflict = conflict_of(world, operator, number)
    return {
        "area": [area],
        **({"conflict": conflict} if conflict else {}),
        "flight_plan_id": id_of(number),
        "flight_plan_status": STATUS[flight.usage],
        "priority": flight.priority,
        "uas_state": "Nominal",
        "usage_state": flight.usage,
    }


def done(status: str) -> bytes:
    """The answer to a PUT or a DELETE that was completed."""
    return answer(200, compact({"flight_plan_status": status, "notes": "", "planning_result": "Completed"}))


def put_request(operator: int, number: int, flight: Flight, style: str = "IfAllowed") -> bytes:
    """A PUT of a flight."""
    basic = {"area": [volume(operator, number, flight.cells)], "uas_state": "Nominal", "usage_state": flight.usage}
    plan = {"astm_f3548_21": {"priority": flight.priority}, "basic_information": basic}
    body = compact({"execution_style": style, "flight_plan": plan})
    return request("PUT", f"/flight_plans/{id_of(number)}", name_of(operator), body)


# Each of these gives a request, its right answer, and the world after it.


def put(world: World, operator: int, number: int, flight: Flight) -> Step:
    """A PUT that nothing refuses."""
    after = world._replace(flights={**world.flights, (operator, number): flight})
    assert conflict_of(after, operator, number) is None
    return put_request(operator, number, flight), done(STATUS[flight.usage]), after


def delete(world: World, operator: int, number: int) -> Step:
    """A DELETE of a flight that is there."""
    closed = world.flights[operator, number]._replace(usage="Closed")
    after = world._replace(flights={**world.flights, (operator, number): closed})
    return request("DELETE", f"/flight_plans/{id_of(number)}", name_of(operator)), done("Closed"), after


def clear(world: World, operator: int, number: int) -> Step:
    """A clear of the volume of a flight that is there, which removes that flight alone."""
    extent = volume(operator, number, world.flights[operator, number].cells)
    left = {key: flight for key, flight in world.flights.items() if key != (operator, number)}
    told = {"outcome": {"message": "cleared 1", "success": True}}
    asked = request("POST", "/clear_area_requests", name_of(operator), compact({"extent": extent}))
    return asked, answer(200, compact(told)), world._replace(flights=left)


def show(world: World, operator: int, number: int) -> Step:
    """A GET of a flight that is there."""
    asked = request("GET", f"/flight_plans/{id_of(number)}", name_of(operator))
    return asked, answer(200, compact(shown(world, operator, number))), world


def list_all(world: World, operator: int) -> Step:
    """A List of an operator."""
    numbers = sorted(number for owner, number in world.flights if owner == operator)
    told = {"flight_plans": [shown(world, operator, number) for number in numbers]}
    return request("GET", "/flight_plans", name_of(operator)), answer(200, compact(told)), world


def dry_run(world: World, operator: int, priority: int) -> Step:
    """A dry run of a flight that is nowhere, which tells whether the priority is within the operator's ceiling."""
    asked = put_request(operator, UNUSED, Flight(1, priority), "Hypothetical")
    told = done("Planned") if priority <= world.ceilings[operator] else answer(200, PRIORITY_REFUSED)
    return asked, told, world


def read_all(world: World) -> tuple[bytes, bytes]:
    """What tells a world: a List of each operator, and dry runs that tell its ceiling. The requests are those of every
    world with these operators. Requests, and right answers."""
    steps = []
    for operator in world.ceilings:
        steps.append(list_all(world, operator))
        steps += [dry_run(world, operator, ceiling) for ceiling in CEILINGS]
    return b"".join(step[0] for step in steps), b"".join(step[1] for step in steps)
