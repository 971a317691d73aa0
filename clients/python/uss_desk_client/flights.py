"""The flight that a line of the command asks for: its cells, altitudes and times, and what is said about them."""
from __future__ import annotations

from typing import Any, List, Optional, Sequence, Tuple

from uss_desk_client.altitudes import Ground, NoGround, above_or_below
from uss_desk_client.areas import AreaError, Volume, area_over
from uss_desk_client.extents import LARGE, Extent, box_of_cells, extent_of, extent_of_cells
from uss_desk_client.free import Window, area_in, footprints_of
from uss_desk_client.geoid import NoGeoid, find_geoid
from uss_desk_client.geojson import read_document, shape_in
from uss_desk_client.heights import Tiles
from uss_desk_client.limits import HIGHEST, LOWEST, MAX_CELLS
from uss_desk_client.printing import is_answered, warn
from uss_desk_client.shapes import cells_of
from uss_desk_client.sphere import Box
from uss_desk_client.tokens import evenly
from uss_desk_client.units import decimetres_down, decimetres_up, second_down, second_up, time_text

Decimetres = Tuple[int, int]
NO_GROUND = (
    "the height of the ground isn't known here: say --ground-above-sea M (as maps show it), --ground M (above the "
    "WGS84 ellipsoid) or --heights FOLDER"
)


def file_of(asked: Any) -> Optional[str]:
    """The file that is named, with or without --polygon."""
    if asked.file and asked.polygon:
        raise ValueError("the file is named twice")
    path: Optional[str] = asked.file or asked.polygon
    return path


def document_of(asked: Any) -> Any:
    path = file_of(asked)
    if path is None:
        raise ValueError("no file is named: --polygon FILE.geojson")
    return read_document(path)


def tokens_of(asked: Any, document: Any, is_even: bool = False) -> List[str]:
    """The cells of the shapes; where they lie and how large they are is said."""
    shape = shape_in(document, asked.radius, asked.width)
    most = MAX_CELLS if asked.cells is None else asked.cells
    tokens = cells_of(shape, most)
    extent, taken = extent_of(shape), extent_of_cells(tokens)
    warn(f"{extent}; its cells ({len(tokens)}) take {str(taken).rpartition(', ')[2]}")
    if getattr(asked, "large", None) is False:
        refuse_large(extent)
    return evenly(tokens, most) if is_even else tokens


def refuse_large(extent: Extent) -> None:
    """An AreaError if an area is large, unless somebody says that this is meant."""
    if extent.is_large and not is_answered(f"that is more than {LARGE:g} km2. Is it meant?"):
        raise AreaError(f"{extent}: more than {LARGE:g} km2. If that is meant, say --large")


def ground_of(asked: Any) -> Ground:
    """What is known of the ground: by options, or by tiles and the grid of this machine."""
    geoid = find_geoid() if asked.sea_level is None else None
    tiles = Tiles(asked.heights) if asked.heights else None
    return Ground(tiles, geoid, asked.sea_level, asked.ground)


def altitudes_of(asked: Any, tokens: Sequence[str]) -> Decimetres:
    """The altitudes above the ellipsoid, in decimetres, outward."""
    ground, box = ground_of(asked), box_of_cells(tokens)
    if asked.ground_above_sea is not None:
        ground = on_sea_level(ground, box, asked.ground_above_sea)
    if asked.above_ground:
        try:
            lower, upper = ground.above_ground(box, *asked.above_ground)
        except NoGround:
            raise NoGround(NO_GROUND) from None
        said(asked.above_ground, "ground", (lower, upper), ground, box)
    elif asked.above_sea:
        lower, upper = ground.above_sea(box, *asked.above_sea)
        said(asked.above_sea, "sea level", (lower, upper), ground, box)
    elif asked.altitude:
        lower, upper = asked.altitude
        if warning := ground.warning(box, lower, upper):
            warn(warning)
    else:
        raise ValueError("no altitudes are named: --above-ground, --above-sea or --altitude LOWER UPPER")
    return decimetres_down(lower), decimetres_up(upper)


def on_sea_level(ground: Ground, box: Box, metres: float) -> Ground:
    """What is known, with the ground so many metres above the sea level."""
    level = ground.sea_level(box)
    return Ground(ground.tiles, ground.geoid, ground.sea, round((level.lower + level.upper) / 2 + metres, 3))


def said(wanted: Sequence[float], what: str, made: Tuple[float, float], ground: Ground, box: Box) -> None:
    """Says how altitudes above the ground or the sea were made such above the ellipsoid."""
    try:
        sea = f"; the sea level lies {above_or_below(ground.sea_level(box).upper)} it"
    except NoGeoid:
        sea = ""
    warn(
        f"{wanted[0]:g} to {wanted[1]:g} m above the {what} are {made[0]:.1f} to {made[1]:.1f} m above the WGS84 "
        f"ellipsoid here{sea}"
    )


def times_of(asked: Any) -> Window:
    if asked.start is None or asked.end is None:
        raise ValueError("no times are named: --from TIME --to TIME")
    return Window(second_down(asked.start), second_up(asked.end))


def with_times(asked: Any, start: str, end: str) -> Any:
    """The same line with other times."""
    return type(asked)(**{**vars(asked), "start": start, "end": end})


def area_asked(asked: Any, is_even: bool = False) -> List[Volume]:
    """The area of the flight that a line asks for."""
    tokens, window = tokens_of(asked, document_of(asked), is_even), times_of(asked)
    lower, upper = altitudes_of(asked, tokens)
    return area_over(tokens, lower, upper, window.start, window.end)


def area_changed(asked: Any, stored: Sequence[Volume]) -> Optional[List[Volume]]:
    """The area that a line asks for in place of a stored one; None if it stays as it is. Without a file, times alone
    may be others. A time that isn't named stays the stored one."""
    begin, end = min(volume.start for volume in stored), max(volume.end for volume in stored)
    timed = with_times(asked, asked.start or time_text(begin), asked.end or time_text(end))
    if file_of(asked) is not None:
        return area_asked(timed)
    refuse_without_file(asked)
    if asked.start is None and asked.end is None:
        return None
    if len({(volume.start, volume.end) for volume in stored}) > 1:
        raise AreaError("the plan's volumes have several times: say its whole area anew")
    return area_in(footprints_of(stored), times_of(timed))


def refuse_without_file(asked: Any) -> None:
    """A ValueError if a line without a file has options that only a file gives a meaning."""
    if asked.altitude or asked.above_ground or asked.above_sea:
        raise ValueError("other altitudes need the area: --polygon FILE.geojson")
    for option in ("radius", "width", "cells"):
        if getattr(asked, option) is not None:
            raise ValueError(f"--{option} needs the area: --polygon FILE.geojson")


def area_cleared(asked: Any) -> List[Volume]:
    """The area of a clear: at all altitudes, unless some are named."""
    tokens, window = tokens_of(asked, document_of(asked)), times_of(asked)
    is_named = asked.altitude or asked.above_ground or asked.above_sea
    lower, upper = altitudes_of(asked, tokens) if is_named else (LOWEST, HIGHEST)
    return area_over(tokens, lower, upper, window.start, window.end)
