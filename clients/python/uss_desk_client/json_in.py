"""JSON as the desk reads it, which is stricter than Python's `json`: UTF-8, no NaN, no lone surrogates, numbers that a
float can hold, arrays and objects at most 127 deep. A member named twice has its last value."""
from __future__ import annotations

import json
import math
import re
from typing import Any, List, Tuple, Union

from uss_desk_client.limits import MAX_DEPTH

TEXT = re.compile(r'"(?:[^"\\]|\\.)*"', re.DOTALL)


class NotWhole(float):
    """A number that the desk doesn't take for a whole one: with a fraction or an exponent, -0, beyond 64 bits."""


class BadJson(ValueError):
    """A text that the desk doesn't read as JSON."""


def read_json(body: Union[bytes, str]) -> Any:
    """The value of a body. Whole numbers are `int`s that fit a signed 64-bit integer, all others `NotWhole`."""
    try:
        text = body.decode("utf-8") if isinstance(body, bytes) else body
        found = json.loads(
            text, parse_int=number_of, parse_float=float_of, parse_constant=no_constant, object_pairs_hook=object_of
        )
    except UnicodeDecodeError as wrong:
        raise BadJson(f"byte {wrong.start} is no UTF-8") from None
    except json.JSONDecodeError as wrong:
        raise BadJson(f"{wrong.msg} at character {wrong.pos}") from None
    except RecursionError:
        raise BadJson(f"arrays and objects lie more than {MAX_DEPTH} deep in one another") from None
    refuse_surrogates(found)
    if depth_of(text) > MAX_DEPTH:
        raise BadJson(f"arrays and objects lie more than {MAX_DEPTH} deep in one another")
    return found


def number_of(digits: str) -> Union[int, NotWhole]:
    if len(digits) > 20 or digits == "-0":
        return float_of(digits)
    number = int(digits)
    return number if -(2**63) <= number < 2**63 else float_of(digits)


def float_of(digits: str) -> NotWhole:
    number = NotWhole(digits)
    if not math.isfinite(number):
        raise BadJson(f"the number {digits[:20]}.. is too large")
    return number


def no_constant(word: str) -> Any:
    raise BadJson(f"{word} is no JSON")


def object_of(members: List[Tuple[str, Any]]) -> Any:
    for name, value in members:
        refuse_surrogates(name)
        refuse_surrogates(value)
    return dict(members)


def refuse_surrogates(value: Any) -> None:
    """Refuses a text with half of a pair of surrogates, alone or in an array. (Objects were looked at before.)"""
    if isinstance(value, list):
        for item in value:
            refuse_surrogates(item)
    elif isinstance(value, str) and any("\ud800" <= letter <= "\udfff" for letter in value):
        raise BadJson("a text has half of a pair of surrogates")


def depth_of(text: str) -> int:
    """How deep the arrays and objects of a JSON text lie in one another."""
    depth = deepest = 0
    for mark in re.findall(r"[\[\]{}]", TEXT.sub("", text)):
        depth += 1 if mark in "[{" else -1
        deepest = max(deepest, depth)
    return deepest
