"""The command uss-map: serves the map of one operator's flights at 127.0.0.1, and opens the browser.

Whom to ask, by options or by the environment: USS_DESK_URL; USS_DESK_USER with USS_DESK_PASSWORD or a file that has the
password, behind a proxy; USS_DESK_OPERATOR, at the desk's own port. The password is read anew for each request, and
isn't in the page. The exit status is 2 if the words of the line are wrong, 4 if the port or a file can't be had.
"""
from __future__ import annotations

import argparse
import asyncio
import html
import os
import signal
import socket
import sys
import tempfile
import webbrowser
from pathlib import Path
from typing import Any, Optional, Sequence
from urllib.parse import urlsplit

from aiohttp import web

from uss_desk_client import DeskError, Ground, NoGeoid, Tiles, find_geoid, limits
from uss_desk_client.command import add_whom, desk_of
from uss_desk_client.geoid import ABSENT
from uss_desk_map.door import HOST, Door, origin_of
from uss_desk_map.server import Map
from uss_desk_map.telling import Told

WORDS, FAILED = 2, 4
PORT = 8070
"""The browser keeps drafts by the address of the page: so the port stays the same."""
PATIENCE = 15.0


def reader() -> argparse.ArgumentParser:
    words = argparse.ArgumentParser(
        prog="uss_desk_map", description="Shows, plans and flies an operator's flights on a map in the browser."
    )
    add_whom(words.add_argument_group("whom to ask"), PATIENCE)
    words.add_argument("--port", type=int, default=PORT, help=f"of 127.0.0.1, 0 for any ({PORT})")
    words.add_argument("--heights", metavar="FOLDER", help="of tiles of the ground's heights, as N47E008.hgt")
    words.add_argument("--geoid", metavar="FILE", help="of the sea's height above the ellipsoid (egm96_15.gtx)")
    words.add_argument("--tiles", metavar="URL", help="of pictures beneath the map, with {z}, {x} and {y}")
    words.add_argument("--attribution", default="", metavar="TEXT", help="that is shown beside those pictures")
    words.add_argument("--no-browser", action="store_true", help="print the address, and open no browser")
    return words


def main(words: Optional[Sequence[str]] = None) -> int:
    """Runs the command with these words, or those of the line."""
    line = reader()
    asked = line.parse_args(words)
    try:
        desk_of(asked)
        if asked.tiles:
            origin_of(asked.tiles)
        known = ground_of(asked)
    except ValueError as wrong:
        line.error(str(wrong))
    except (OSError, DeskError) as wrong:
        return fail(str(wrong))
    try:
        with socket.create_server((HOST, asked.port)) as held:
            asyncio.run(serve(held, asked, known))
    except OSError as wrong:
        return fail(str(wrong))
    except OverflowError as wrong:
        line.error(str(wrong))
    return 0


def fail(words: str) -> int:
    print(f"uss_desk_map: {words}", file=sys.stderr)
    return FAILED


async def serve(held: socket.socket, asked: Any, known: Ground) -> None:
    """Serves until it is interrupted."""
    door = Door(held.getsockname()[1])
    # the page tells of waiting
    served = Map(door, lambda: desk_of(asked, None), setting_of(asked, known), asked.tiles, known)
    runner = web.AppRunner(served.application(), access_log=None)
    await runner.setup()
    await web.SockSite(runner, held).start()
    print(f"listening {door.address}", flush=True)
    with tempfile.TemporaryDirectory(prefix="uss_desk_map-") as room:
        if not asked.no_browser and not webbrowser.open(way_in(Path(room), door).as_uri()):
            print("no browser could be opened: open this address in one")
        await ending()
        await runner.cleanup()


async def ending() -> None:
    """Waits until the program is asked to end."""
    asked_to_end = asyncio.Event()
    for name in (signal.SIGINT, signal.SIGTERM, signal.SIGHUP):
        asyncio.get_running_loop().add_signal_handler(name, asked_to_end.set)
    await asked_to_end.wait()


def way_in(room: Path, door: Door) -> Path:
    """A file that leads to the page. The browser gets its name: the words of a line can be seen by all users of a
    machine, and the address isn't for them."""
    path = room / "map.html"
    with open(os.open(path, os.O_WRONLY | os.O_CREAT | os.O_EXCL, 0o600), "w", encoding="utf-8") as file:
        address = html.escape(door.address)
        file.write(f'<!doctype html><meta charset="utf-8"><meta http-equiv="refresh" content="0;url={address}">')
        file.write(f'<title>The map</title><p><a href="{address}">The map</a>')
    return path


def ground_of(asked: Any) -> Ground:
    """What is known of the ground and the sea. An OSError or a DeskError if a file isn't there, or is another one."""
    geoid = find_geoid(asked.geoid)
    if asked.heights and geoid is None:
        raise NoGeoid(f"--heights are above the sea: {ABSENT}")
    return Ground(tiles=Tiles(asked.heights) if asked.heights else None, geoid=geoid)


def setting_of(asked: Any, known: Ground) -> Told:
    """What the page is told: whom it asks, its tiles, the desk's limits. The password isn't among it."""
    parts = urlsplit(asked.url)
    return {
        "desk": f"{parts.scheme}://{parts.netloc.rpartition('@')[2]}{parts.path.rstrip('/')}",
        "operator": asked.operator or asked.user,
        "patience": asked.patience,
        "tiles": asked.tiles,
        "attribution": asked.attribution,
        "has_sea": known.geoid is not None,
        "limits": {
            "lowest": limits.LOWEST / 10,
            "highest": limits.HIGHEST / 10,
            "priority": limits.MAX_PRIORITY,
            "cells": limits.MAX_CELLS,
            "volumes": limits.MAX_VOLUMES,
            "ahead": limits.MAX_AHEAD,
        },
    }
