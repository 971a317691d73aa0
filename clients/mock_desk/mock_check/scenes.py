"""What random requests ask: a small world in which plans meet, touch and run into each limit."""
from __future__ import annotations

import datetime
from random import Random
from typing import Any, List, Tuple

from mock_desk import bodies, cells, desk
from mock_desk.cells import Rectangle, Square

from . import edges
from .trees import Members, Raw, spoil, written

NAMES = ["alfa", "bravo", "c", "-", "0-9", "z" * 32]
MOMENTS = [1780315000] * 12 + [
    0,
    1,
    86_400,
    951_782_400,
    1709164800,
    253_370_764_800,
    253_370_764_799,
    253_368_000_000,
]
ALTITUDES = [-10_000, -9_999, -1, 0, 1, 500, 999, 1000, 1001, 199_999, 200_000]
PRIORITIES = [0, 1, 9, 10, 11, 99, 100, 999, 1000]
STARTS = [-86_400, -3600, -60, -1, 0, 0, 1, 60, 3600, 3600, 2_591_999, 2_592_000, 2_592_001, 2_600_000]
LENGTHS = [1, 2, 60, 3599, 3600, 3601, 86_399, 86_400]
ALL_USES = [(usage, aircraft) for usage in bodies.USAGES for aircraft in bodies.AIRCRAFT]
FIRST_USES = [("Planned", "Nominal")] * 12 + [("InUse", "Nominal")] * 4 + ALL_USES
NEXT_USES = FIRST_USES + [("InUse", "Nominal")] * 4 + [("InUse", "OffNominal"), ("InUse", "Contingent")] * 3
STYLES = ["IfAllowed"] * 8 + ["Hypothetical", "InReality"]
ODD_TIMES = [time.replace("@", "") for time in edges.TIMES] + [time for pair in edges.PAIRS for time in pair]


def square_of(leaf: int) -> Tuple[int, int, int]:
    """The face, i and j of a leaf by its id."""
    position = leaf >> 1
    face = position >> 60
    square = Square(0, 0, 1 << cells.LEAF_LEVEL, 0, face & 1)
    for shift in range(58, -2, -2):
        square = list(square.quarters())[position >> shift & 3]
    return face, square.i, square.j


class Scene:
    """A place, a moment, ids, names and priorities, from which all requests of a history are made."""

    def __init__(self, dice: Random) -> None:
        self.dice = dice
        self.moment = dice.choice(MOMENTS)
        self.names = dice.sample(NAMES, dice.randint(2, 4))
        self.priorities = dice.sample(PRIORITIES, dice.randint(1, 4))
        self.ids = [f"{dice.getrandbits(128):032x}" for _ in range(dice.randint(2, 12))] + ["0" * 32, "f" * 32]
        self.altitudes = sorted(dice.sample(ALTITUDES, dice.randint(2, 5)))
        self.seconds = [self.moment + dice.choice(STARTS) for _ in range(3)]
        self.spoiled = dice.choice([0.0, 0.0, 0.05, 0.3])
        self.asked: List[Tuple[str, str]] = []
        self.heart = self.any_leaf()
        self.tokens = self.near_tokens()

    def any_leaf(self) -> int:
        """The id of a leaf, often at an end of a face or of a large cell."""
        leaf = self.dice.randrange(6 << 60)
        if self.dice.random() < 0.4:
            keep = self.dice.choice([0, 1, 3, 4, 20])
            ones = self.dice.random() < 0.5
            leaf = leaf >> (60 - keep) << (60 - keep) | ((1 << 60 - keep) - 1 if ones else 0)
        return 2 * leaf + 1

    def near_tokens(self) -> List[str]:
        """Cells about the heart: parents, children, neighbours along the curve, leaves at their ends."""
        near = []
        for level in self.dice.sample(range(31), 5):
            lowest = 1 << 2 * (30 - level)
            cell = self.heart & -lowest | lowest
            first, last = cell - lowest + 1, cell + lowest - 1
            near += [cell, cell - 2 * lowest, cell + 2 * lowest, first, last, first - 2, last + 2]
            if level < 30:
                near += [cell + step * (lowest >> 2) for step in (-3, -1, 1, 3)]
        return [cells.token_of(it) for it in near if 0 < it < 6 << 61]

    def near_rectangle(self) -> Rectangle:
        """A rectangle about the heart."""
        face, i, j = square_of(self.heart)
        level = self.dice.choice([8, 9, 12, 20, 23, 24])
        side = 1 << 30 - level
        ends: List[int] = []
        for at in (i, j):
            low = at + self.dice.randint(-2, 1) * side + self.dice.randint(-1, 1)
            high = low + self.dice.choice([0, 1, side - 1, side, side + 1, 3 * side, 7 * side])
            ends += [min(max(it, 0), (1 << 30) - 1) for it in (low, high)]
        low_i, high_i, low_j, high_j = ends
        return Rectangle(face, low_i, high_i, low_j, high_j, level)

    def large_rectangle(self) -> Rectangle:
        """A rectangle about the heart whose cover has some 1,024 cells."""
        face, i, j = square_of(self.heart)
        found = self.near_rectangle()
        for _ in range(40):
            level = self.dice.choice([12, 18, 24])
            shift = 30 - level
            wide, high = self.dice.choice([1, 2, 3, 200, 255, 256, 300]), self.dice.randint(200, 1100)
            most = (1 << 30) - 1
            low_i, low_j = (min(it >> shift, (1 << level) - 1100) << shift for it in (i, j))
            found = Rectangle(
                face,
                low_i,
                min(low_i + (wide << shift) - 1, most),
                low_j,
                min(low_j + (high << shift) - 1, most),
                level,
            )
            if 1010 <= cells.cover_size(found) <= 1030:
                break
        return found

    def time(self, second: int) -> Any:
        """A time as a text, in one of the ways of RFC 3339."""
        dice = self.dice
        if dice.random() < self.spoiled / 4:
            return dice.choice(ODD_TIMES)
        offset = dice.choice([0] * 6 + [60, -60, 3600, -5400, 86_340, -86_340])
        try:
            local = bodies.EPOCH + datetime.timedelta(seconds=second + offset)
        except OverflowError:
            return dice.choice(ODD_TIMES)
        sign = "-" if offset < 0 else "+"
        zone = (
            f"{sign}{abs(offset) // 3600:02}:{abs(offset) % 3600 // 60:02}"
            if offset
            else dice.choice(["Z", "Z", "Z", "z", "-00:00"])
        )
        fraction = dice.choice(
            [""] * 6 + [".0", ".000000000000", ".5", ".999999999999999999999", ".0000000000000000000001"]
        )
        return local.strftime(f"%Y-%m-%d{dice.choice('TTTt')}%H:%M:%S").zfill(19) + fraction + zone

    def moment_tree(self, second: int) -> Members:
        """A time with its format."""
        return Members([("format", "RFC3339"), ("value", self.time(second))])

    def window(self) -> Tuple[int, int, int, int]:
        """Altitudes and seconds, now and then at their limits or past them."""
        dice = self.dice
        lower, upper = sorted(dice.sample(self.altitudes, 2))
        start = dice.choice(self.seconds)
        if dice.random() < 0.8 and not 0 <= start <= desk.HORIZON + self.moment:
            start = self.moment
        end = start + dice.choice(LENGTHS)
        if dice.random() < self.spoiled / 6:
            lower, upper = dice.choice(
                [(upper, lower), (lower, lower), (-10_001, upper), (lower, 200_001), (lower - 1, upper + 1)]
            )
        if dice.random() < self.spoiled / 6:
            end = start + dice.choice([0, -1, 86_401, 86_400])
        return lower, upper, start, min(end, bodies.SECOND_MOST + 2)

    def footprint(self) -> Tuple[str, Any]:
        """The member of a volume that tells its ground."""
        dice = self.dice
        if dice.random() < 0.3:
            rectangle = self.large_rectangle() if dice.random() < 0.04 else self.near_rectangle()
            return "rectangle", Members(self.shuffled(rectangle._asdict().items()))
        count = dice.choice([1] * 6 + [2, 3, 5, 8]) if dice.random() < 0.97 else dice.choice([63, 64, 65])
        tokens = [dice.choice(self.tokens) for _ in range(count)]
        if dice.random() < self.spoiled / 4:
            tokens[dice.randrange(count)] = dice.choice(edges.TOKENS)
        return "cells", [it.upper() if dice.random() < 0.1 else it for it in tokens]

    def shuffled(self, pairs: Any) -> List[Any]:
        """The same in any order."""
        found = list(pairs)
        self.dice.shuffle(found)
        return found

    def volume(self) -> Members:
        """A volume."""
        lower, upper, start, end = self.window()
        parts = [("altitude_lower", lower), ("altitude_upper", upper), self.footprint()]
        if self.dice.random() < self.spoiled / 4:
            parts.append(self.dice.choice([("cells", None), ("rectangle", None), self.footprint()]))
        block = Members(self.shuffled(parts))
        times = ("time_start", self.moment_tree(start)), ("time_end", self.moment_tree(end))
        return Members(self.shuffled([("volume", block), *times]))

    def area(self) -> List[Members]:
        """The volumes of a plan."""
        count = (
            self.dice.choice([1] * 7 + [2, 2, 3])
            if self.dice.random() < 0.98
            else self.dice.choice([8, 31, 32, 33, 0])
        )
        return [self.volume() for _ in range(count)]

    def strategic(self) -> List[Tuple[str, Any]]:
        """The member that tells the priority, if it is there."""
        priority: Any = self.dice.choice(self.priorities)
        if self.dice.random() < 0.05:
            priority = self.dice.choice([-1, 1001, None, Raw(b"10.0"), Raw(b"1e1"), Raw(b"-0"), *PRIORITIES])
        if self.dice.random() < 0.05:
            return self.dice.choice([[], [("astm_f3548_21", None)], [("astm_f3548_21", Members())]])
        return [("astm_f3548_21", Members([("priority", priority)]))]

    def put_tree(self, uses: List[Tuple[str, str]]) -> Members:
        """The body of a PUT with one of these pairs of a usage and an aircraft state."""
        usage, aircraft = self.dice.choice(uses)
        words = [("usage_state", usage), ("uas_state", aircraft), ("area", self.area())]
        basic = [("basic_information", Members(self.shuffled(words)))]
        plan = Members(self.shuffled(basic + self.strategic()))
        return Members(self.shuffled([("execution_style", self.dice.choice(STYLES)), ("flight_plan", plan)]))

    def clear_tree(self) -> Members:
        """The body of a clear, at times one that takes all of a day."""
        if self.dice.random() < 0.7:
            return Members([("extent", self.volume())])
        faces = ("cells", ["1", "3", "5", "7", "9", "b"])
        block = Members([("altitude_lower", -10_000), ("altitude_upper", 200_000), faces])
        start = min(max(0, self.moment - self.dice.choice([0, 3600])), bodies.SECOND_MOST - bodies.LENGTH_MOST)
        times = ("time_start", self.moment_tree(start)), ("time_end", self.moment_tree(start + bodies.LENGTH_MOST))
        return Members([("extent", Members([("volume", block), *times]))])

    def text(self, tree: Members) -> bytes:
        """The bytes of a body, spoiled now and then."""
        dice = self.dice
        while dice.random() < self.spoiled:
            spoil(tree, dice)
        body = written(tree, dice, dice.random() < 0.2)
        if dice.random() < self.spoiled / 6:
            at = dice.randrange(len(body) + 1)
            more = dice.choice([b" ", b"\x00", b"{", b"}", b",", b'"', b"\\", b"\xff", b"\xef\xbb\xbf", b"1", b"[]"])
            body = dice.choice([body[:at], body[:at] + more + body[at:], more + body, body + more, b""])
        return body

    def named(self) -> Tuple[str, str]:
        """An operator and the digits of an id, most often those of a plan that was asked for before."""
        if self.asked and self.dice.random() < 0.75:
            return self.dice.choice(self.asked)
        return self.dice.choice(self.names), self.dice.choice(self.ids)

    def plan_id(self, digits: str) -> str:
        """An id in one of its forms, or nearly one."""
        dice = self.dice
        hyphens = "-".join([digits[:8], digits[8:12], digits[12:16], digits[16:20], digits[20:]])
        forms = [hyphens] * 12 + [digits, hyphens.upper(), digits.upper(), f"{{{hyphens}}}", f"urn:uuid:{hyphens}"]
        if dice.random() < self.spoiled / 4:
            forms = [
                f"{{{digits}}}",
                f"urn:uuid:{digits}",
                f"URN:UUID:{hyphens}",
                f"urn:uuid:{{{hyphens}}}",
                hyphens[:-1],
            ]
            forms += [
                hyphens + "0",
                hyphens.replace("-", "", 1),
                digits + "-",
                f"{{{hyphens}",
                f"{hyphens}}}",
                "x",
                "-",
                "\u00e4",
            ]
            forms += [
                hyphens[:-1] + "g",
                f"({hyphens})",
                hyphens.replace("-", "_"),
                f"%7B{hyphens}%7D",
                f"urn:UUID:{hyphens}",
            ]
            forms += [
                "-" * 36,
                digits[:31] + "\u0660",
                f"{{{hyphens})",
                hyphens[:1] + "-" + hyphens[1:8] + hyphens[9:],
            ]
        return dice.choice(forms)
