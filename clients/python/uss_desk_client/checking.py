"""What the desk would refuse in a body: the first thing in the desk's order, with its volume, member and limit.

`check` and `check_clear` ask nobody. Of a body alone they tell the refusals `too_large`, `bad_json`, `bad_member`,
`bad_volume` and `too_many_cells`; told a moment, a ceiling and what is stored, also the notes `style`, `state`,
`closed`, `not_planned`, `ended`, `horizon` and `priority`. What only the desk knows, they can't: `plans_limit`,
`spans_limit`, `cells_limit`, `conflict` and whether the operator is enrolled.
"""
from __future__ import annotations

import json
from dataclasses import dataclass
from typing import Any, Iterator, List, Mapping, NamedTuple, Optional, Sequence, Tuple, Union

from uss_desk_client import limits
from uss_desk_client.covers import cover_size
from uss_desk_client.json_in import BadJson, read_json
from uss_desk_client.tokens import id_of
from uss_desk_client.units import Time, read_time, second_down, time_text

Body = Union[bytes, str, Mapping[str, Any]]

STYLES = ("Hypothetical", "IfAllowed", "InReality")
USAGES = ("Planned", "InUse", "Closed")
AIRCRAFT = ("Nominal", "OffNominal", "Contingent")
NOTHING = "NotPlanned"
"""Of what is stored: no plan with this id."""
DAY = f"{limits.MAX_LENGTH:,} s"


@dataclass(frozen=True)
class Fault:
    """What the desk would refuse: its word, where it is, and what it should be."""

    word: str
    """The `error` of the answer, or the note of a `Rejected` or `NotSupported` one."""
    volume: Optional[int]
    """The number of the volume in `area`, from 0; None if it isn't a volume that is wrong."""
    member: str
    """The path of the member within the body, or within the volume if there is one; empty for the whole of it."""
    limit: str
    """What should be there instead."""

    def __str__(self) -> str:
        where = "" if self.volume is None else f"volume {self.volume}: "
        return f"{self.word}: {where}{self.member or 'the body'}: {self.limit}"


class Window(NamedTuple):
    """The Unix seconds of a volume."""

    start: int
    end: int


class Read(NamedTuple):
    """What the rest of the rules needs of a body that is well formed."""

    style: str
    usage: str
    aircraft: str
    priority: int
    windows: List[Window]


class Wrong(Exception):
    """The first fault, on its way out."""

    def __init__(self, word: str, member: str, limit: str, volume: Optional[int] = None) -> None:
        super().__init__(word)
        self.fault = Fault(word, volume, member, limit)


def check(
    body: Body, moment: Optional[Time] = None, ceiling: Optional[int] = None, stored: Optional[str] = None
) -> Optional[Fault]:
    """The first thing that the desk would refuse in the body of a PUT, or None.

    `moment` is that of the request, `ceiling` the operator's; each is looked at only if it is given. `stored` is what
    is stored under the id: "NotPlanned", "Planned", "OkToFly", "OffNominal", "Contingent" or "Closed" (`OffNominal`
    and `Contingent` are both shown as the status OffNominal, and told apart by `uas_state`).
    """
    try:
        read = read_put(value_of(body))
        refuse_by_rules(read, None if moment is None else second_down(moment), ceiling, stored)
    except Wrong as wrong:
        return wrong.fault
    return None


def check_clear(body: Body) -> Optional[Fault]:
    """The first thing that the desk would refuse in the body of a POST to /clear_area_requests, or None."""
    try:
        extent = member_of(value_of(body), "extent")
        if not isinstance(extent, dict):
            raise Wrong("bad_member", "extent", "an object, a volume")
        read_volume(extent, None)
    except Wrong as wrong:
        return wrong.fault
    return None


def value_of(body: Body) -> Any:
    """The JSON value of a body."""
    text = json.dumps(body, separators=(",", ":")) if isinstance(body, Mapping) else body
    data = text.encode("utf-8", "surrogatepass") if isinstance(text, str) else text
    if len(data) > limits.MAX_BODY:
        raise Wrong("too_large", "", f"{len(data):,} bytes: at most {limits.MAX_BODY:,}")
    try:
        return read_json(data)
    except BadJson as wrong:
        raise Wrong("bad_json", "", str(wrong)) from None


def member_of(value: Any, name: str) -> Any:
    """A member, or None if it isn't there or the value is no object."""
    return value.get(name) if isinstance(value, dict) else None


# ---- the body of a PUT


def read_put(body: Any) -> Read:
    """What a body asks, or the first thing that is wrong with it."""
    style = word_of(body, "execution_style", "execution_style", STYLES)
    plan = there(body, "flight_plan", "flight_plan")
    basic = there(plan, "basic_information", "flight_plan.basic_information")
    path = "flight_plan.basic_information"
    usage = word_of(basic, "usage_state", f"{path}.usage_state", USAGES)
    aircraft = word_of(basic, "uas_state", f"{path}.uas_state", AIRCRAFT)
    area = member_of(basic, "area")
    if not isinstance(area, list):
        raise Wrong("bad_member", f"{path}.area", "an array of volumes")
    priority = priority_of(plan)
    if not 1 <= len(area) <= limits.MAX_VOLUMES:
        raise Wrong("bad_volume", f"{path}.area", f"{len(area)} volumes: 1 to {limits.MAX_VOLUMES}")
    return Read(style, usage, aircraft, priority, [read_volume(volume, at) for at, volume in enumerate(area)])


def there(value: Any, name: str, path: str) -> Any:
    """A member that is an object. (One of another form lacks the members that are looked for in it, and the desk
    tells the same word then.)"""
    found = member_of(value, name)
    if not isinstance(found, dict):
        raise Wrong("bad_member", path, "an object")
    return found


def word_of(value: Any, name: str, path: str, words: Sequence[str]) -> str:
    found = member_of(value, name)
    if not isinstance(found, str) or found not in words:
        raise Wrong("bad_member", path, "one of " + ", ".join(words))
    return found


def priority_of(plan: Any) -> int:
    rules = member_of(plan, "astm_f3548_21")
    if rules is None:
        return 0
    if not isinstance(rules, dict):
        raise Wrong("bad_member", "flight_plan.astm_f3548_21", "an object, or left out")
    priority = rules.get("priority")
    if priority is None:
        return 0
    if not is_whole(priority) or not 0 <= priority <= limits.MAX_PRIORITY:
        raise Wrong(
            "bad_member",
            "flight_plan.astm_f3548_21.priority",
            f"a whole number from 0 to {limits.MAX_PRIORITY:,}, or left out{hint(priority)}",
        )
    return int(priority)


def is_whole(value: Any) -> bool:
    return isinstance(value, int) and not isinstance(value, bool)


def hint(value: Any) -> str:
    """What to do about a number that is none to the desk."""
    if isinstance(value, float):
        return " (written without a fraction or an exponent: 10.0 and 1e1 are none)"
    return ""


# ---- a volume


def read_volume(volume: Any, at: Optional[int]) -> Window:
    """The times of a volume, or the first thing that is wrong with it: its form and limits, then its cover's size.
    `at` is its number in the area; the extent of a clear has none."""
    before = "" if at is not None else "extent."
    for member, limit in faults_of(volume):
        raise Wrong("bad_volume", before + member, limit, at)
    rectangle = volume["volume"].get("rectangle")
    if rectangle is not None and has_large_cover(rectangle):
        raise Wrong(
            "too_many_cells",
            f"{before}volume.rectangle",
            f"a canonical cover of at most {limits.MAX_COVER:,} cells: take a lower level",
            at,
        )
    return Window(time_of(volume, "time_start"), time_of(volume, "time_end"))


def has_large_cover(rectangle: Mapping[str, int]) -> bool:
    """Whether a rectangle that is well formed has more cells in its cover than it may."""
    i, j = ((rectangle[f"{axis}_min"], rectangle[f"{axis}_max"]) for axis in "ij")
    return cover_size(i, j, rectangle["level"], limits.MAX_COVER) > limits.MAX_COVER


def time_of(volume: Any, name: str) -> int:
    """The Unix second of a start or an end that is well formed."""
    second, has_fraction = read_time(volume[name]["value"]) or (0, False)
    return second + (has_fraction and name == "time_end")


def faults_of(volume: Any) -> Iterator[Tuple[str, str]]:
    """What is wrong with a volume, in the desk's order: a member and what it should be."""
    shape = member_of(volume, "volume")
    if not isinstance(shape, dict):
        yield "volume", "an object with altitude_lower, altitude_upper and either cells or rectangle"
        return
    for name in ("altitude_lower", "altitude_upper"):
        if not is_whole(shape.get(name)):
            yield f"volume.{name}", f"a whole number of decimetres{hint(shape.get(name))}"
            return
    for name in ("time_start", "time_end"):
        wanted = fault_of_time(member_of(volume, name))
        if wanted:
            yield f"{name}{wanted[0]}", wanted[1]
            return
    yield from faults_of_window(
        shape["altitude_lower"], shape["altitude_upper"], time_of(volume, "time_start"), time_of(volume, "time_end")
    )
    cells, rectangle = shape.get("cells"), shape.get("rectangle")
    if (cells is None) == (rectangle is None):
        yield "volume", "exactly one of cells and rectangle" + (
            "; one is missing" if cells is None else "; both are there"
        )
    elif rectangle is None:
        yield from faults_of_cells(cells)
    else:
        yield from faults_of_rectangle(rectangle)


def fault_of_time(time: Any) -> Optional[Tuple[str, str]]:
    """The member of a time that is wrong, and what it should be."""
    if not isinstance(time, dict):
        return "", "an object with format and value"
    if time.get("format") != "RFC3339":
        return ".format", "the text RFC3339"
    if not isinstance(time.get("value"), str) or not read_time(time["value"]):
        return ".value", "a date-time of RFC 3339 with Z or an offset, as 2026-06-01T12:00:00Z"
    return None


def faults_of_window(lower: int, upper: int, start: int, end: int) -> Iterator[Tuple[str, str]]:
    if lower < limits.LOWEST:
        yield "volume.altitude_lower", f"{lower:,}: at least {limits.LOWEST:,} decimetres"
    if lower >= upper:
        yield "volume.altitude_upper", f"{upper:,}: above altitude_lower, which is {lower:,} decimetres"
    if upper > limits.HIGHEST:
        yield "volume.altitude_upper", f"{upper:,}: at most {limits.HIGHEST:,} decimetres"
    if start < 0:
        yield "time_start.value", "not before 1970-01-01T00:00:00Z"
    if start >= end:
        yield "time_end.value", "after time_start, by whole seconds"
    if end > limits.LAST_SECOND:
        yield "time_end.value", f"not after {time_text(limits.LAST_SECOND)}"
    if end - start > limits.MAX_LENGTH:
        yield "time_end.value", f"{end - start:,} s after time_start: at most a day, {DAY}"


def faults_of_cells(cells: Any) -> Iterator[Tuple[str, str]]:
    if not isinstance(cells, list):
        yield "volume.cells", "an array of tokens"
        return
    for at, token in enumerate(cells):
        if not isinstance(token, str) or id_of(token) is None:
            yield f"volume.cells[{at}]", "the token of an S2 cell, 1 to 16 hex digits"
            return
    if not 1 <= len(cells) <= limits.MAX_CELLS:
        yield "volume.cells", f"{len(cells)} cells: 1 to {limits.MAX_CELLS}"


def faults_of_rectangle(rectangle: Any) -> Iterator[Tuple[str, str]]:
    names = ("face", "i_min", "i_max", "j_min", "j_max", "level")
    for name in names:
        value = member_of(rectangle, name)
        if not is_whole(value) or value < 0:
            yield f"volume.rectangle.{name}", f"a whole number that isn't negative{hint(value)}"
            return
    face, i_min, i_max, j_min, j_max, level = (rectangle[name] for name in names)
    if face > 5:
        yield "volume.rectangle.face", f"{face}: 0 to 5"
    for name in names[1:5]:
        if rectangle[name] > limits.GREATEST_COORDINATE:
            yield f"volume.rectangle.{name}", f"{rectangle[name]:,}: at most {limits.GREATEST_COORDINATE:,}"
    for least, greatest, axis in ((i_min, i_max, "i"), (j_min, j_max, "j")):
        if least > greatest:
            yield f"volume.rectangle.{axis}_max", f"{greatest:,}: at least {axis}_min, which is {least:,}"
    if not limits.LEAST_LEVEL <= level <= limits.GREATEST_LEVEL:
        yield "volume.rectangle.level", f"{level}: {limits.LEAST_LEVEL} to {limits.GREATEST_LEVEL}"


# ---- the rules that ask for the moment, the ceiling and what is stored

REPORTS = ("OffNominal", "Contingent")
CHECKED, REPORTED, CLOSING = "check", "report", "close"


def refuse_by_rules(read: Read, moment: Optional[int], ceiling: Optional[int], stored: Optional[str]) -> None:
    """The notes of a PUT in their order (docs/api.md, "Notes, in their order")."""
    basic = "flight_plan.basic_information"
    is_offered = (
        read.style != "InReality" or read.usage == "Closed" or (read.usage == "InUse" and read.aircraft in REPORTS)
    )
    if (moment, ceiling, stored) != (None, None, None) and not is_offered:
        raise Wrong("style", "execution_style", "InReality only reports OffNominal or Contingent, or closes")
    step = step_of(read, stored)
    if stored is not None and step not in (CHECKED, REPORTED, CLOSING):
        raise Wrong(step, f"{basic}.usage_state", f"not {read.usage} and {read.aircraft} while {stored} is stored")
    if moment is not None and step == CHECKED:
        for at, window in enumerate(read.windows):
            if window.end <= moment:
                raise Wrong("ended", "time_end.value", f"after the moment of the request, {time_text(moment)}", at)
        for at, window in enumerate(read.windows):
            if window.start > moment + limits.MAX_AHEAD:
                raise Wrong(
                    "horizon",
                    "time_start.value",
                    f"at most {limits.MAX_AHEAD:,} s after the moment of the request, {time_text(moment)}",
                    at,
                )
    if ceiling is not None and step in (CHECKED, REPORTED) and read.priority > ceiling:
        raise Wrong("priority", "flight_plan.astm_f3548_21.priority", f"at most the operator's ceiling, {ceiling}")


def step_of(read: Read, stored: Optional[str]) -> str:
    """What the state table makes of a request, or its note. If nothing is told of what is stored, that which makes
    the request possible."""
    is_report = read.aircraft in REPORTS
    if read.usage == "Closed":
        return "not_planned" if stored == NOTHING else CLOSING
    if stored == "Closed":
        return "closed"
    if read.usage == "Planned":
        return "state" if is_report or stored in ("OkToFly", "OffNominal", "Contingent") else CHECKED
    if stored == NOTHING:
        return "state" if is_report else CHECKED
    if stored == "Contingent" and read.aircraft != "Contingent":
        return "state"
    return REPORTED if is_report else CHECKED
