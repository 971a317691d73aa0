"""The JSON of a request: plans, volumes and times, or the refusal of places 10 to 12."""
from __future__ import annotations

import datetime
import itertools
import json
import math
import re
from typing import Any, Dict, List, NamedTuple, Optional, Tuple, Union

from . import cells
from .cells import Ranges, Rectangle
from .requests import Refusal

Footprint = Union[Tuple[int, ...], Rectangle]

VOLUMES_MOST = 32
CELLS_MOST = 64
PRIORITY_MOST = 1000
ALTITUDES = -10_000, 200_000
SECOND_MOST = 253_370_764_800
LENGTH_MOST = 86_400
TIME_BYTES_MOST = 64

STYLES = ("Hypothetical", "IfAllowed", "InReality")
USAGES = ("Planned", "InUse", "Closed")
AIRCRAFT = ("Nominal", "OffNominal", "Contingent")
TIME = re.compile(
    "([0-9]{4})-([0-9]{2})-([0-9]{2})[Tt]([0-9]{2}):([0-9]{2}):([0-9]{2})(?:[.]([0-9]+))?"
    "(?:[Zz]|([+-])([0-9]{2}):([0-9]{2}))"
)
# The texts and the brackets of a JSON text; its escapes, the first half of a pair that lacks the other being named.
BRACKET = re.compile(r'"(?:[^"\\]|\\.?)*"?|[][{}]', re.DOTALL)
ESCAPE = re.compile(r"\\(?:u[dD][89abAB]..\\u[dD][c-fC-F]|(u[dD][89a-fA-F])|.)", re.DOTALL)
DEPTH_MOST = 127
EPOCH = datetime.datetime(1970, 1, 1)


class Fault(Exception):
    """What a reader found malformed; whoever called it says by which word it is told."""


class Volume(NamedTuple):
    """A footprint, as asked and as ranges, between two altitudes (decimetres) and two Unix seconds, both half open."""

    lower: int
    upper: int
    start: int
    end: int
    asked: Footprint
    ranges: Ranges


class Put(NamedTuple):
    """What a PUT asks."""

    style: str
    usage: str
    aircraft: str
    priority: int
    area: Tuple[Volume, ...]


def parsed(body: bytes) -> Any:
    """The value of a JSON text; raises `bad_json`. A number that is no whole one is a float."""
    try:
        text = body.decode()
        if depth(text) > DEPTH_MOST or any(found[1] for found in ESCAPE.finditer(text)):
            raise ValueError(text)
        return json.loads(text, parse_constant=no_json, parse_float=finite, parse_int=whole_or_float)
    except ValueError:
        raise Refusal(400, "bad_json") from None


def depth(text: str) -> int:
    """How many arrays and objects stand in one another at most."""
    ends = (1 if found[0] in "[{" else -1 for found in BRACKET.finditer(text) if found[0][0] != '"')
    return max(itertools.accumulate(ends), default=0)


def no_json(word: str) -> None:
    """Refuses NaN and the infinities, which Python takes; raises ValueError."""
    raise ValueError(word)


def finite(number: str) -> float:
    """A number that a double holds; raises ValueError."""
    found = float(number)
    if math.isinf(found):
        raise ValueError(number)
    return found


def whole_or_float(digits: str) -> Union[int, float]:
    """A whole number, or a float in place of what is none; raises ValueError."""
    if digits == "-0" or len(digits) > 20:
        return finite(digits)
    return int(digits) if -(1 << 63) <= int(digits) < 1 << 63 else finite(digits)


def member(holder: Dict[str, Any], name: str, kind: type) -> Any:
    """The member of an object that must be of a type; raises Fault."""
    found = holder.get(name)
    if type(found) is not kind:
        raise Fault(name)
    return found


def word_of(holder: Dict[str, Any], name: str, words: Tuple[str, ...]) -> str:
    """The member that must be one of these words; raises Fault."""
    found: str = member(holder, name, str)
    if found not in words:
        raise Fault(name)
    return found


def within(number: int, least: int, most: int) -> int:
    """The number, if it is not below the one or above the other; raises Fault."""
    if not least <= number <= most:
        raise Fault(number)
    return number


def read_put(body: bytes) -> Put:
    """What the body of a PUT asks; raises the refusals of places 10 to 12."""
    asked = parsed(body)
    try:
        if type(asked) is not dict:
            raise Fault(asked)
        style = word_of(asked, "execution_style", STYLES)
        plan = member(asked, "flight_plan", dict)
        basic = member(plan, "basic_information", dict)
        usage, aircraft = word_of(basic, "usage_state", USAGES), word_of(basic, "uas_state", AIRCRAFT)
        area = member(basic, "area", list)
        priority = read_priority(plan)
    except Fault:
        raise Refusal(400, "bad_member") from None
    if not 1 <= len(area) <= VOLUMES_MOST:
        raise Refusal(400, "bad_volume")
    return Put(style, usage, aircraft, priority, tuple(read_volume(it) for it in area))


def read_priority(plan: Dict[str, Any]) -> int:
    """The priority of a plan, 0 if none is given; raises Fault."""
    if plan.get("astm_f3548_21") is None:
        return 0
    strategic = member(plan, "astm_f3548_21", dict)
    if strategic.get("priority") is None:
        return 0
    return within(member(strategic, "priority", int), 0, PRIORITY_MOST)


def read_extent(body: bytes) -> Volume:
    """The volume of a clear; raises the refusals of places 10 to 12."""
    asked = parsed(body)
    if type(asked) is not dict or type(asked.get("extent")) is not dict:
        raise Refusal(400, "bad_member")
    return read_volume(asked["extent"])


def read_volume(given: Any) -> Volume:
    """A volume of a JSON value; raises `bad_volume`, and `too_many_cells` if nothing else is wrong with it."""
    try:
        if type(given) is not dict:
            raise Fault(given)
        block = member(given, "volume", dict)
        lower, upper = member(block, "altitude_lower", int), member(block, "altitude_upper", int)
        if not ALTITUDES[0] <= lower < upper <= ALTITUDES[1]:
            raise Fault(lower, upper)
        asked = read_footprint(block)
        start, end = read_time(given, "time_start", False), read_time(given, "time_end", True)
        if not 0 <= start < end <= SECOND_MOST or end - start > LENGTH_MOST:
            raise Fault(start, end)
    except Fault:
        raise Refusal(400, "bad_volume") from None
    if isinstance(asked, Rectangle) and cells.cover_size(asked) > cells.COVER_MOST:
        raise Refusal(400, "too_many_cells")
    return volume_of(lower, upper, start, end, asked)


def volume_of(lower: int, upper: int, start: int, end: int, asked: Footprint) -> Volume:
    """A volume with the ranges of its footprint."""
    if isinstance(asked, Rectangle):
        return Volume(lower, upper, start, end, asked, cells.ranges_of_rectangle(asked))
    return Volume(lower, upper, start, end, asked, cells.ranges_of_cells(list(asked)))


def read_footprint(block: Dict[str, Any]) -> Footprint:
    """The ids of the cells, or the rectangle, whichever alone is there; raises Fault."""
    if (block.get("cells") is None) == (block.get("rectangle") is None):
        raise Fault(block)
    if block.get("cells") is not None:
        tokens = member(block, "cells", list)
        within(len(tokens), 1, CELLS_MOST)
        return tuple(read_cell(token) for token in tokens)
    parts = member(block, "rectangle", dict)
    rectangle = Rectangle(*(member(parts, name, int) for name in Rectangle._fields))
    if not rectangle.is_valid():
        raise Fault(rectangle)
    return rectangle


def read_cell(token: Any) -> int:
    """The id of a cell by its token; raises Fault."""
    cell = cells.cell_of(token) if type(token) is str else None
    if cell is None:
        raise Fault(token)
    return cell


def read_time(given: Dict[str, Any], name: str, is_end: bool) -> int:
    """The Unix second of a time, which a start rounds down and an end up; raises Fault."""
    time = member(given, name, dict)
    word_of(time, "format", ("RFC3339",))
    second, fraction = second_of(member(time, "value", str))
    return second + 1 if is_end and fraction.strip("0") else second


def second_of(text: str) -> Tuple[int, str]:
    """The Unix second of a date-time of RFC 3339, and the digits of its fraction; raises Fault."""
    found = TIME.fullmatch(text) if len(text.encode(errors="replace")) <= TIME_BYTES_MOST else None
    if not found:
        raise Fault(text)
    fraction, sign, hours, minutes = found.groups()[6:]
    try:
        year, month, day, hour, minute, second = (int(it) for it in found.groups()[:6])
        local = datetime.datetime(year, month, day, hour, minute, second)
    except ValueError:
        raise Fault(text) from None
    offset = 0
    if sign:
        offset = 3600 * within(int(hours), 0, 23) + 60 * within(int(minutes), 0, 59)
    unix = int((local - EPOCH).total_seconds())
    return unix + (offset if sign == "-" else -offset), fraction or ""


def shown_volume(volume: Volume) -> Dict[str, Any]:
    """The member of `area` that shows a volume."""
    shown: Dict[str, Any] = {
        "altitude_lower": volume.lower,
        "altitude_upper": volume.upper,
        "second_end": volume.end,
        "second_start": volume.start,
    }
    if isinstance(volume.asked, Rectangle):
        return {**shown, "rectangle": volume.asked._asdict()}
    return {**shown, "cells": [cells.token_of(cell) for cell in volume.asked]}


def volume_shown(shown: Dict[str, Any]) -> Volume:
    """The volume that a member of `area` shows."""
    rectangle: Optional[Dict[str, int]] = shown.get("rectangle")
    tokens: List[str] = shown.get("cells", [])
    asked = Rectangle(**rectangle) if rectangle else tuple(read_cell(token) for token in tokens)
    lower, upper = shown["altitude_lower"], shown["altitude_upper"]
    return volume_of(lower, upper, shown["second_start"], shown["second_end"], asked)
