"""JSON texts as trees that may be malformed: members may stand twice, and any bytes may stand as a value."""
from __future__ import annotations

import copy
import json
from random import Random
from typing import Any, List, Tuple

BLANKS = (b" ", b"\t", b"\n", b"\r\n", b"  ")
DEEPEST = 200


class Raw(bytes):
    """A value as it is written."""


class Members(List[Tuple[str, Any]]):
    """The members of an object, in the order written."""


# Values as they are written, some of which are no JSON.
# fmt: off
WRITTEN = [
    b"true", b"false", b"-0", b"10.0", b"1e1", b"1E+1", b"0.5", b"-0.0", b"1e400", b"-1e400", b"1e-400",
    b"00", b"01", b"-", b"-01", b"+1", b".5", b"5.", b"1e", b"0x10", b"NaN", b"Infinity", b"-Infinity",
    b"nul", b"True", b"'x'", b"2147483648", b"4294967296", b"4294967297", b"9007199254740993",
    b"9223372036854775807", b"9223372036854775808", b"-9223372036854775808", b"-9223372036854775809",
    b"18446744073709551615", b"18446744073709551616", b"18446744073709551626",
    b"340282366920938463463374607431768211456", b"1" * 400, b"0." + b"1" * 400, b'"\\ud800"',
    b'"\\udc00\\ud800"', b'"\\ud83d\\ude00"', b'"\\uD83D"', b'"\\ud83dx"', b'"\\u12"', b'"\\u00zz"',
    b'"\\x41"', b'"\\/\\b\\f\\n\\r\\t\\"\\\\"', b'"\\u0000"', b'"\x00"', b'"\x1f"', b'"\x7f"', b'"\n"',
    b'"\xc3\xa4"', b'"\xff"', b'"\xc0\x80"', b'"\xed\xa0\x80"', b'"\xf4\x90\x80\x80"', b'"\xe2\x82"',
    b'"\xf0\x9f\x98\x80"', b'"', b"", b"[1,]", b"[,1]", b"[1 2]", b"{,}", b'{"a":1,}', b'{"a"}', b'{"a" 1}',
    b"{a:1}", b"{1:1}", b"[1", b"{", b"]", b"/**/1", b"\x0b1", b"\xc2\xa01", b"\xef\xbb\xbf1",
]
# fmt: on
# Values that may stand in the place of any other.
# fmt: off
STRAY: List[Any] = [
    None, "", "x", "RFC3339", "Nominal", 0, 1, -1, [], [None], Members(), Members([("a", 1)]),
    *map(Raw, WRITTEN),
]
# fmt: on


def quoted(text: str, dice: Random, messy: bool) -> bytes:
    """The text of a string, some of its letters by their numbers if it is messy."""
    if not messy or dice.random() < 0.8:
        return json.dumps(text, ensure_ascii=False).encode()
    letters = (f"\\u{ord(it):04x}" if dice.random() < 0.3 else it for it in text)
    return b'"' + "".join(letters).encode() + b'"'


def blank(dice: Random, messy: bool) -> bytes:
    """Blanks that may stand between two parts of a text."""
    return dice.choice(BLANKS) if messy and dice.random() < 0.2 else b""


def written(tree: Any, dice: Random, messy: bool) -> bytes:
    """The text of a tree; a messy one has blanks and letters that are written by their numbers."""
    around = blank(dice, messy), blank(dice, messy)
    if isinstance(tree, bytes):
        text = bytes(tree)
    elif isinstance(tree, Members):
        pairs = (b"%b:%b" % (quoted(name, dice, messy), written(value, dice, messy)) for name, value in tree)
        text = b"{" + b",".join(pairs) + b"}"
    elif isinstance(tree, list):
        text = b"[" + b",".join(written(it, dice, messy) for it in tree) + b"]"
    elif isinstance(tree, str):
        text = quoted(tree, dice, messy)
    else:
        text = b"null" if tree is None else b"%d" % tree
    return around[0] + text + around[1]


def holders(tree: Any) -> List[Any]:
    """All objects and arrays of a tree."""
    if isinstance(tree, Members):
        return [tree] + [it for _, value in tree for it in holders(value)]
    return [tree] + [it for value in tree for it in holders(value)] if isinstance(tree, list) else []


def nested(dice: Random) -> Raw:
    """Arrays or objects, one in another."""
    depth = dice.choice([1, 2, 60, 61, 62, 63, 64, 65, 99, 100, 101, *range(118, 132), DEEPEST])
    opening, closing = dice.choice([(b"[", b"]"), (b'{"a":', b"}")])
    return Raw(opening * depth + b"0" + closing * depth)


def stray(dice: Random) -> Any:
    """A value that is seldom right."""
    return nested(dice) if dice.random() < 0.06 else copy.deepcopy(dice.choice(STRAY))


def spoil(tree: Any, dice: Random) -> None:
    """Changes one member or element of a tree: another value, none, twice, or with another name."""
    holder = dice.choice([it for it in holders(tree) if it] or [tree])
    if holder:
        at = dice.randrange(len(holder))
        changed = spoiled_member if isinstance(holder, Members) else spoiled_element
        holder[at : at + 1] = changed(holder[at], dice)


def spoiled_element(value: Any, dice: Random) -> List[Any]:
    """What stands in the place of an array's element."""
    return dice.choice([[stray(dice)], [stray(dice)], [], [value, value], [value, stray(dice)]])


def spoiled_member(member: Tuple[str, Any], dice: Random) -> List[Any]:
    """What stands in the place of an object's member."""
    name, value = member
    other = name, stray(dice)
    renamed = dice.choice([name.upper(), name + " ", "", name[:-1]]), value
    more = dice.choice(["request_id", "x", "\u00e4", name + "_"]), stray(dice)
    return dice.choice([[other], [other], [], [other, member], [member, other], [renamed], [member, more]])
