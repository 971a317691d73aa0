"""What blocks a flight as a picture: one SVG, or one page of HTML with a table beneath it, that needs nothing else."""
from __future__ import annotations

import html
import math
from dataclasses import dataclass
from typing import Dict, List, Sequence, Tuple

from uss_desk_client.geojson import METRES_A_DEGREE, bounds_of, ring_of
from uss_desk_client.sphere import Place
from uss_desk_client.units import time_text
from uss_desk_client.why import Blocked, Reasons

WIDTH, HEIGHT = 1090, 680
LEFT, TOP, SIDE = 88, 96, 520
"""The map's corner and the length of its sides, in units of the picture."""
LIST_LEFT = 646
LIST_END = TOP + SIDE - 24
"""How far down the list goes."""
MOST_LEVELS = 6
"""Priorities that the legend has at most."""
FREE, EDGE = "#dcebe6", "#6f9a90"
LOW, HIGH = (255, 224, 158), (176, 36, 24)
"""The colours of the least and the greatest priority that blocks, as red, green and blue: from light to dark, so that
they are told apart without their hues too. What is blocked is hatched besides."""


@dataclass(frozen=True)
class Map:
    """How places become points of the picture: longitudes are shortened as at the middle latitude."""

    west: float
    north: float
    shorten: float
    scale: float
    """Units of the picture a degree of latitude."""

    @classmethod
    def around(cls, lines: Sequence[Sequence[Place]]) -> Map:
        first = lines[0][0][0]
        west, east, south, north = bounds_of(
            [[(first + (place[0] - first + 540) % 360 - 180, place[1]) for place in line] for line in lines]
        )
        shorten = max(0.05, math.cos(math.radians((south + north) / 2)))
        size = max((east - west) * shorten, north - south, 1e-9) * 1.06
        middle_x, middle_y = (west + east) / 2, (south + north) / 2
        return cls(middle_x - size / 2 / shorten, middle_y + size / 2, shorten, SIDE / size)

    def point(self, place: Place) -> Tuple[float, float]:
        longitude = self.west + (place[0] - self.west) % 360
        return (
            LEFT + (longitude - self.west) * self.shorten * self.scale,
            TOP + (self.north - place[1]) * self.scale,
        )

    def path(self, line: Sequence[Place], is_closed: bool = True) -> str:
        points = " L".join(f"{x:.1f} {y:.1f}" for x, y in map(self.point, line))
        return f"M{points}{'Z' if is_closed else ''}"


def text(x: float, y: float, words: str, size: int = 13, more: str = "") -> str:
    return f'<text x="{x:.1f}" y="{y:.1f}" font-size="{size}" {more}>{html.escape(words)}</text>'


def colour_of(priority: int, least: int, greatest: int) -> str:
    share = 0.5 if least == greatest else (priority - least) / (greatest - least)
    red, green, blue = (round(low + (high - low) * share) for low, high in zip(LOW, HIGH))
    return f"#{red:02x}{green:02x}{blue:02x}"


def colours(reasons: Reasons) -> Dict[int, str]:
    """The colour of each priority that blocks, ascending."""
    levels = sorted({found.conflict.priority for found in reasons.blocked})
    return {level: colour_of(level, levels[0], levels[-1]) for level in levels}


def round_length(metres: float) -> float:
    """The greatest of 1, 2, 5, 10, 20, .. that is at most so many metres."""
    power = 10.0 ** math.floor(math.log10(metres))
    return max(step * power for step in (1, 2, 5) if step * power <= metres)


def headline(reasons: Reasons) -> str:
    if not reasons.blocked:
        return f"Nothing blocks this flight of priority {reasons.priority}"
    count = len(reasons.blocked_cells)
    return (
        f"A flight of priority {reasons.priority} is blocked in {count} of "
        f"{count + len(reasons.free_cells)} cells"
    )


def windows(reasons: Reasons) -> str:
    lower = min(volume.lower_metres for volume in reasons.area)
    upper = max(volume.upper_metres for volume in reasons.area)
    start, end = min(volume.start for volume in reasons.area), max(volume.end for volume in reasons.area)
    return f"{lower:g} to {upper:g} m above the WGS84 ellipsoid, {time_text(start)} to {time_text(end)}"


def numbered(reasons: Reasons) -> List[Tuple[int, Blocked]]:
    """Each blocked cell of each volume, with the number of its cell in the picture."""
    numbers = {cell: at for at, cell in enumerate(reasons.blocked_cells, 1)}
    return [(numbers[found.cell], found) for found in reasons.blocked]


def cells_drawn(reasons: Reasons, at: Map) -> List[str]:
    found = [
        f'<path d="{at.path(ring_of(cell))}" fill="{FREE}" stroke="{EDGE}" stroke-width="0.7"/>'
        for cell in reasons.free_cells
    ]
    worst = {
        cell: max(it.conflict.priority for it in reasons.blocked if it.cell == cell) for cell in reasons.blocked_cells
    }
    for cell, priority in worst.items():
        path = at.path(ring_of(cell))
        found.append(f'<path d="{path}" fill="{colours(reasons)[priority]}" stroke="#5c1a12"/>')
        found.append(f'<path d="{path}" fill="url(#hatch)"/>')
    return found


def labels_drawn(reasons: Reasons, at: Map) -> List[str]:
    """The numbers of the blocked cells."""
    rings = [at.point((it.conflict.longitude, it.conflict.latitude)) for it in reasons.blocked]
    return [
        label
        for number, cell in enumerate(reasons.blocked_cells, 1)
        for label in label_drawn(str(number), [at.point(place) for place in ring_of(cell)], rings)
    ]


def label_drawn(number: str, corners: List[Tuple[float, float]], rings: List[Tuple[float, float]]) -> List[str]:
    """The number of a cell at its middle, or beneath a ring there if it has room; none in a cell that is too small."""
    x, y = sum(point[0] for point in corners) / 4, sum(point[1] for point in corners) / 4
    wide, high = (max(point[axis] for point in corners) - min(point[axis] for point in corners) for axis in (0, 1))
    size = 11 if wide >= 6 + 8 * len(number) else 9
    if wide < 6 + 7 * len(number) or high < 13:
        return []
    if high >= 36 and any(abs(ring[0] - x) < 9 and abs(ring[1] - y) < 9 for ring in rings):
        y += 12
    return [
        text(
            x,
            y + 4,
            number,
            size,
            'text-anchor="middle" font-weight="bold" stroke="#fff" ' 'stroke-width="3" paint-order="stroke"',
        )
    ]


def points_drawn(reasons: Reasons, at: Map) -> List[str]:
    found, size = [], 3.2 if len(reasons.blocked) <= 40 else 2.0
    for it in reasons.blocked:
        x, y = at.point((it.conflict.longitude, it.conflict.latitude))
        found.append(
            f'<circle cx="{x:.1f}" cy="{y:.1f}" r="{size}" fill="#fff" stroke="#000" '
            f'stroke-width="{size * 0.4:.1f}"/>'
        )
    return found


def ticks_of(low: float, high: float) -> List[Tuple[float, str]]:
    """Round numbers of degrees from one to another, some two to six, with their words but for the side."""
    step = round_length((high - low) / 2.5)
    digits = max(0, -math.floor(math.log10(step) + 1e-9))
    return [
        (at * step, f"{abs((at * step + 180) % 360 - 180):.{digits}f}°")
        for at in range(math.ceil(low / step), math.floor(high / step) + 1)
    ]


def frame_drawn(at: Map) -> List[str]:
    """The frame with degrees at its sides, a scale and the north."""
    found = [f'<rect x="{LEFT}" y="{TOP}" width="{SIDE}" height="{SIDE}" fill="none" stroke="#8a93a0"/>']
    bottom, grey = TOP + SIDE, 'fill="#4a5360"'
    for longitude, words in ticks_of(at.west, at.west + SIDE / at.scale / at.shorten):
        x, side = LEFT + (longitude - at.west) * at.shorten * at.scale, "E" if longitude % 360 <= 180 else "W"
        found.append(f'<path d="M{x:.1f} {bottom}v5" stroke="#8a93a0"/>')
        found.append(text(x, bottom + 18, f"{words} {side}", 11, f'text-anchor="middle" {grey}'))
    for latitude, words in ticks_of(at.north - SIDE / at.scale, at.north):
        y, side = TOP + (at.north - latitude) * at.scale, "N" if latitude >= 0 else "S"
        found.append(f'<path d="M{LEFT} {y:.1f}h-5" stroke="#8a93a0"/>')
        found.append(text(LEFT - 8, y + 4, f"{words} {side}", 11, f'text-anchor="end" {grey}'))
    length = round_length(SIDE * 0.3 / at.scale * METRES_A_DEGREE)
    units = length / METRES_A_DEGREE * at.scale
    y = bottom + 42
    found.append(f'<path d="M{LEFT} {y - 5}v5h{units:.1f}v-5" fill="none" stroke="#1d2733" stroke-width="1.5"/>')
    told = f"{length / 1000:g} km" if length >= 1000 else f"{length:g} m"
    found.append(text(LEFT + units + 8, y, told, 12))
    found.append(
        f'<path d="M{LEFT + SIDE - 12} {y + 4}v-18l-4 7m4 -7l4 7" fill="none" stroke="#1d2733" '
        'stroke-width="1.5"/>'
    )
    found.append(text(LEFT + SIDE - 30, y, "N", 12))
    return found


def levels_told(reasons: Reasons) -> List[int]:
    """The priorities of the legend: all that block, or some of them from the least to the greatest."""
    levels = list(colours(reasons))
    if len(levels) <= MOST_LEVELS:
        return levels
    return [levels[at * (len(levels) - 1) // (MOST_LEVELS - 1)] for at in range(MOST_LEVELS)]


def legend_drawn(reasons: Reasons, has_lines: bool) -> Tuple[List[str], int]:
    """The legend, and how far down it goes."""
    found, y, levels = [], TOP + 8, levels_told(reasons)
    for level in levels:
        colour = colours(reasons)[level]
        found.append(f'<rect x="{LIST_LEFT}" y="{y - 11}" width="22" height="14" fill="{colour}" stroke="#5c1a12"/>')
        found.append(f'<rect x="{LIST_LEFT}" y="{y - 11}" width="22" height="14" fill="url(#hatch)"/>')
        found.append(text(LIST_LEFT + 30, y, f"blocked, priority {level} is held at its first blocked point"))
        y += 21
    if len(levels) < len(colours(reasons)):
        found.append(text(LIST_LEFT + 30, y, "and the priorities between, in the colours between"))
        y += 21
    if reasons.free_cells:
        found.append(f'<rect x="{LIST_LEFT}" y="{y - 11}" width="22" height="14" fill="{FREE}" stroke="{EDGE}"/>')
        found.append(text(LIST_LEFT + 30, y, "free"))
        y += 21
    if has_lines:
        found.append(f'<path d="M{LIST_LEFT} {y - 4}h22" stroke="#14213d" stroke-width="2.5"/>')
        found.append(text(LIST_LEFT + 30, y, "the flight as it was drawn"))
        y += 21
    return found, y


def list_drawn(reasons: Reasons, y: int) -> List[str]:
    """The first blocked point of the first cells."""
    rows = numbered(reasons)
    columns = ((0, "cell"), (40, "priority"), (100, "from m"), (156, "from (UTC)"), (296, "latitude, longitude"))
    found = [text(LIST_LEFT + x, y, name, 12, 'font-weight="bold"') for x, name in columns] if rows else []
    room = (LIST_END - y) // 19
    for number, it in rows[:room]:
        y += 19
        told = (
            str(number),
            str(it.conflict.priority),
            f"{it.conflict.altitude_metres:g}",
            f"{it.conflict.time:%Y-%m-%d %H:%M:%S}",
            f"{it.conflict.latitude:.5f}, {it.conflict.longitude:.5f}",
        )
        found += [text(LIST_LEFT + x, y, words, 12) for (x, _), words in zip(columns, told)]
    if len(rows) > room:
        found.append(text(LIST_LEFT, y + 19, f"and {len(rows) - room} more", 12))
    return found


def footnote(reasons: Reasons) -> List[str]:
    lines = (
        (
            "Of a blocked cell the first blocked point (a ring) is told, the least by leaf, then",
            "altitude, then second, with the priority held there. Who holds it isn't told.",
        )
        if reasons.blocked
        else ()
    )
    return [text(LIST_LEFT, HEIGHT - 44 + 16 * at, line, 11, 'fill="#4a5360"') for at, line in enumerate(lines)]


def svg_of(reasons: Reasons, lines: Sequence[Sequence[Place]]) -> str:
    """The picture of a flight's cells. `lines` are the rings and paths of the flight as it was drawn."""
    cells = [ring_of(cell) for cell in reasons.free_cells + reasons.blocked_cells]
    at = Map.around([*cells, *lines])
    legend, end = legend_drawn(reasons, bool(lines))
    parts = [
        f'<svg xmlns="http://www.w3.org/2000/svg" viewBox="0 0 {WIDTH} {HEIGHT}" width="{WIDTH}" height="{HEIGHT}" '
        'font-family="DejaVu Sans, Verdana, sans-serif" fill="#1d2733">',
        f"<title>{html.escape(headline(reasons))}</title>",
        '<defs><pattern id="hatch" width="6" height="6" patternUnits="userSpaceOnUse" '
        'patternTransform="rotate(45)"><path d="M0 0v6" stroke="#5c1a12" stroke-width="0.8"/></pattern></defs>',
        f'<rect width="{WIDTH}" height="{HEIGHT}" fill="#fff"/>',
        text(LEFT, 40, headline(reasons), 21, 'font-weight="bold"'),
        text(LEFT, 66, windows(reasons), 13, 'fill="#4a5360"'),
        *cells_drawn(reasons, at),
        *(
            f'<path d="{at.path(line, is_closed=line[0] == line[-1])}" fill="none" stroke="#14213d" '
            'stroke-width="2.5" stroke-linejoin="round"/>'
            for line in lines
        ),
        *points_drawn(reasons, at),
        *labels_drawn(reasons, at),
        *frame_drawn(at),
        *legend,
        *list_drawn(reasons, end + 13),
        *footnote(reasons),
        "</svg>",
    ]
    return "\n".join(parts) + "\n"


def page_of(reasons: Reasons, lines: Sequence[Sequence[Place]]) -> str:
    """The picture in a page of HTML, with a table of all blocked cells beneath it."""
    rows = "\n".join(
        f"<tr><td>{number}</td><td>{it.cell}</td><td>{it.conflict.priority}</td>"
        f"<td>{it.conflict.altitude_metres:g}</td><td>{time_text(it.conflict.second)}</td>"
        f"<td>{it.conflict.latitude:.6f}</td><td>{it.conflict.longitude:.6f}</td></tr>"
        for number, it in numbered(reasons)
    )
    names = ("cell", "token", "priority held", "altitude, m", "time", "latitude", "longitude")
    heads = "".join(f"<th>{name}</th>" for name in names)
    table = f"<div><table><thead><tr>{heads}</tr></thead><tbody>\n{rows}\n</tbody></table></div>" if rows else ""
    return f"""<!DOCTYPE html>
<html lang="en"><head><meta charset="utf-8"><title>{html.escape(headline(reasons))}</title>
<meta name="viewport" content="width=device-width">
<style>body{{margin:1em;font-family:"DejaVu Sans",Verdana,sans-serif;color:#1d2733}}svg{{max-width:100%;height:auto}}
div{{overflow-x:auto}}table{{border-collapse:collapse;font-size:13px;margin-left:8%}}td,th{{padding:3px 12px 3px 0;
text-align:left;white-space:nowrap;border-bottom:1px solid #d5dae0}}</style></head><body>
{svg_of(reasons, lines)}{table}
</body></html>
"""
