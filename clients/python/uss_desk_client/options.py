"""The options that commands have in common, and the desk that they name."""
from __future__ import annotations

import argparse
import os
from typing import Any, Optional

from uss_desk_client import limits
from uss_desk_client.desk import Desk, Tell
from uss_desk_client.printing import warn
from uss_desk_client.units import exact, read_time


def metres(word: str) -> float:
    try:
        number = float(word)
        exact(number)
    except ValueError:
        raise argparse.ArgumentTypeError(f"{word!r} is no number of metres") from None
    return number


def moment(word: str) -> str:
    if not read_time(word):
        raise argparse.ArgumentTypeError(f"{word!r} is no time of RFC 3339, as 2026-06-01T12:00:00Z")
    return word


def add_whom(group: Any, patience: float = 60.0) -> None:
    """The options that say whom to ask, for `desk_of`."""
    group.add_argument("--url", default=os.environ.get("USS_DESK_URL"), help="URL of the desk (or USS_DESK_URL)")
    group.add_argument(
        "--user", default=os.environ.get("USS_DESK_USER"), help="your name, behind a proxy (or USS_DESK_USER)"
    )
    group.add_argument(
        "--password-file", metavar="FILE", help="file whose first line is the password (or USS_DESK_PASSWORD)"
    )
    group.add_argument(
        "--operator",
        default=os.environ.get("USS_DESK_OPERATOR"),
        help="your name, at the desk's own port (or USS_DESK_OPERATOR)",
    )
    group.add_argument(
        "--patience",
        type=float,
        default=patience,
        metavar="SECONDS",
        help=f"how long an unanswered request is sent again ({patience:g})",
    )


def desk_of(asked: Any, tell_waiting: Optional[Tell] = warn) -> Desk:
    """The desk that the options of `add_whom` name."""
    if not asked.url:
        raise ValueError("no desk is named: use --url or USS_DESK_URL")
    password = os.environ.get("USS_DESK_PASSWORD", "")
    if asked.password_file:
        with open(asked.password_file, encoding="utf-8") as file:
            password = file.readline().rstrip("\n")
    if asked.operator:
        return Desk(asked.url, operator=asked.operator, patience=asked.patience, tell=tell_waiting)
    return Desk(asked.url, user=asked.user, password=password, patience=asked.patience, tell=tell_waiting)


def add_shapes(words: Any) -> None:
    """The options that name shapes and their cells."""
    words.add_argument(
        "file",
        nargs="?",
        metavar="FILE.geojson",
        help="GeoJSON with polygons, lines (with --width) or points (with --radius); longitude before latitude",
    )
    words.add_argument("--polygon", metavar="FILE.geojson", help="the same file, named by an option")
    words.add_argument(
        "--cells",
        type=int,
        metavar="N",
        help=f"the most cells that cover the shapes ({limits.MAX_CELLS}); more cells follow the shapes more closely",
    )
    words.add_argument("--width", type=metres, metavar="METRES", help="width of the corridor along a line")
    words.add_argument("--radius", type=metres, metavar="METRES", help="radius of the circle around a point")


def add_altitudes(words: Any) -> None:
    """The options for altitudes, and what is known of the ground."""
    pair: Any = {"nargs": 2, "type": metres, "metavar": ("LOWER", "UPPER")}
    kinds = words.add_mutually_exclusive_group()
    kinds.add_argument(
        "--above-ground", **pair, help="metres above the ground; needs --ground-above-sea, --ground or --heights"
    )
    kinds.add_argument(
        "--above-sea", **pair, help="metres above the sea level; needs egm96_15.gtx of proj-data, or --sea-level"
    )
    kinds.add_argument("--altitude", **pair, help="metres above the WGS84 ellipsoid, as the desk stores them")
    ground = words.add_mutually_exclusive_group()
    ground.add_argument(
        "--ground",
        type=metres,
        metavar="M",
        help="the ground is M metres above the WGS84 ellipsoid, as a GNSS receiver can show",
    )
    ground.add_argument(
        "--ground-above-sea",
        type=metres,
        metavar="M",
        help="the ground is M metres above the sea level, as maps show",
    )
    words.add_argument(
        "--heights",
        metavar="FOLDER",
        default=os.environ.get("USS_DESK_HEIGHTS"),
        help="folder with tiles of the ground's heights, as N47E008.hgt (or USS_DESK_HEIGHTS)",
    )
    words.add_argument(
        "--sea-level",
        type=metres,
        metavar="M",
        help="the sea level is M metres above the WGS84 ellipsoid; without it egm96_15.gtx of proj-data says so",
    )


def add_times(words: Any) -> None:
    words.add_argument(
        "--from", dest="start", type=moment, metavar="TIME", help="start, in RFC 3339, as 2026-06-01T12:00:00Z"
    )
    words.add_argument("--to", dest="end", type=moment, metavar="TIME", help="end, in the same form")


def add_flight(words: Any) -> None:
    """The options of a flight that is planned or asked for."""
    add_shapes(words)
    add_altitudes(words)
    add_times(words)
    words.add_argument("--priority", type=int, default=0, help="priority, 0 to 1,000 (0)")
    words.add_argument("--id", help="ID of the plan, a UUID (a new one)")


def add_large(words: Any) -> None:
    words.add_argument(
        "--large", action="store_true", help="an area of more than 100 km2 is meant: don't ask about it"
    )


def add_dry_run(words: Any) -> None:
    words.add_argument("--dry-run", action="store_true", help="print what would be answered, and store nothing")
