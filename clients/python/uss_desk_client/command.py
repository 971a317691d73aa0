"""The command uss-plan: plans flights from GeoJSON files, lists, shows, changes and closes them, tells what blocks one,
when it is free, and when somebody is planned over it.

Whom to ask, by options or by the environment: USS_DESK_URL; USS_DESK_USER with USS_DESK_PASSWORD, behind a proxy;
USS_DESK_OPERATOR, at the desk's own port. What it finds is printed on standard output, what it says about that on
standard error. The exit status is 0 if it was done, 1 if the desk decided and refused (or `why` found a blocked cell,
`when` no free time, `watch` somebody over a plan), 2 if the arguments are wrong, 3 if a file or the area is wrong, 4 if
the desk refused the request or didn't answer. While a desk doesn't answer, a line on standard error says so at once and
each five seconds.
"""
from __future__ import annotations

import argparse
import logging
import os
import sys
from typing import Any, Callable, List, Optional, Sequence, Tuple

import uss_desk_client
from uss_desk_client.answers import NotTaken
from uss_desk_client.areas import AreaError
from uss_desk_client.altitudes import NoGround
from uss_desk_client.errors import DeskError
from uss_desk_client.geoid import NoGeoid
from uss_desk_client.heights import BadTile
from uss_desk_client.options import add_altitudes, add_dry_run, add_flight, add_large, add_shapes, add_times, add_whom
from uss_desk_client.options import desk_of
from uss_desk_client.printing import DESK, DONE, FILE, REFUSED, WORDS, fail, warn
from uss_desk_client.run_changes import run_activate, run_change, run_clear, run_close, run_plan, run_report
from uss_desk_client.run_looks import run_body, run_cells, run_check, run_list, run_show, run_why
from uss_desk_client.run_times import run_watch, run_when
from uss_desk_client.shapes import ShapeError
from uss_desk_client.units import UnitError
from uss_desk_client.watching import EVERY

__all__ = ["add_whom", "desk_of", "main"]

INTERRUPTED = 130
Run = Callable[[Any], int]
Add = Callable[[Any], None]


class Said(logging.Handler):
    """Prints what the client logs as a warning."""

    def emit(self, record: logging.LogRecord) -> None:
        warn(record.getMessage())


def main(words: Optional[Sequence[str]] = None) -> int:
    """Runs the command with these words, or those of the line."""
    asked = reader().parse_args(words)
    logger = logging.getLogger("uss_desk_client")
    said = Said(logging.WARNING)
    logger.addHandler(said)
    try:
        return status_of(asked)
    finally:
        logger.removeHandler(said)


def status_of(asked: Any) -> int:
    """Runs the command; the exit status."""
    try:
        return int(asked.run(asked))
    except (ShapeError, UnitError, AreaError, NoGeoid, NoGround, BadTile) as wrong:
        return fail(str(wrong), FILE)
    except NotTaken as refused:
        return fail(str(refused), REFUSED)
    except DeskError as wrong:
        return fail(str(wrong), DESK)
    except ValueError as wrong:
        return fail(str(wrong), WORDS)
    except BrokenPipeError:
        os.dup2(os.open(os.devnull, os.O_WRONLY), sys.stdout.fileno())
        return FILE
    except OSError as wrong:
        return fail(str(wrong), FILE)
    except KeyboardInterrupt:
        return DONE if asked.command == "watch" else INTERRUPTED


def reader() -> argparse.ArgumentParser:
    """What reads the line."""
    top = argparse.ArgumentParser(
        prog="uss-plan",
        description="Plans drone flights at a planning desk. COMMAND --help prints the options of a command.",
        epilog=EPILOG,
        formatter_class=argparse.RawDescriptionHelpFormatter,
    )
    top.add_argument("--version", action="version", version=f"uss-plan {uss_desk_client.__version__}")
    whom = argparse.ArgumentParser(add_help=False)
    whom.add_argument("--json", action="store_true", help="print JSON")
    add_whom(whom.add_argument_group("whom to ask"))
    commands = top.add_subparsers(dest="command", required=True, metavar="COMMAND")
    for name, run, help_text, options in COMMANDS:
        made = commands.add_parser(name, help=help_text, description=help_text, parents=[whom])
        made.set_defaults(run=run)
        for add in options:
            add(made)
    return top


def add_id(words: Any) -> None:
    words.add_argument("id", help="ID of the plan")


def add_activate(words: Any) -> None:
    words.add_argument("--activate", action="store_true", help="activate the flight too")


def add_geojson(words: Any) -> None:
    words.add_argument("--geojson", action="store_true", help="print GeoJSON, which a map can show")


def add_body(words: Any) -> None:
    words.add_argument("--body", action="store_true", help="print the body of a PUT that asks for this plan again")


def add_contingent(words: Any) -> None:
    words.add_argument("--contingent", action="store_true", help="report Contingent instead of OffNominal")


def add_new_priority(words: Any) -> None:
    words.add_argument("--priority", type=int, help="new priority, 0 to 1,000")


def add_drawing(words: Any) -> None:
    words.add_argument("--geojson", metavar="FILE", help="write the cells to FILE as GeoJSON; - is the terminal")
    words.add_argument("--picture", metavar="FILE", help="draw a picture: FILE.svg, or FILE.html with a table")


def add_body_file(words: Any) -> None:
    words.add_argument("file", metavar="FILE.json", help="body of a PUT")


def add_search(words: Any) -> None:
    words.add_argument("--minutes", type=float, default=15.0, metavar="N", help="length of the flight (15)")
    words.add_argument("--step", type=int, default=60, metavar="SECONDS", help="how exactly the times are found (60)")


def add_watch(words: Any) -> None:
    words.add_argument(
        "--every", type=float, default=EVERY, metavar="S", help=f"seconds between two looks ({EVERY:g})"
    )
    words.add_argument(
        "--exec", metavar="CMD", help="run CMD for each change, with the change as JSON on its standard input"
    )
    words.add_argument("--webhook", metavar="URL", help="post each change to URL as JSON")
    words.add_argument("--looks", type=int, metavar="N", help="stop after N looks (never)")


CHANGED: Tuple[Add, ...] = (add_id, add_shapes, add_altitudes, add_times, add_new_priority, add_large, add_dry_run)
EPILOG = """\
a first flight, 60 to 120 metres above ground that maps show at 408 metres:
  export USS_DESK_URL=https://DESK USS_DESK_USER=alfa USS_DESK_PASSWORD=..
  uss-plan plan field.geojson --above-ground 60 120 --ground-above-sea 408 \\
      --from 2026-06-01T12:00:00Z --to 2026-06-01T13:00:00Z     # prints the plan's ID
  uss-plan activate ID
  uss-plan close ID

if it is refused for a conflict, `why` shows where it is blocked, and `when` at which times it is free.
Somebody with a higher priority may plan over your flight at any time: `watch` prints that.

the desk is named by options, or by these variables:
  USS_DESK_URL, USS_DESK_USER, USS_DESK_PASSWORD    behind a proxy
  USS_DESK_URL, USS_DESK_OPERATOR                   at the desk's own port, without a proxy

exit status:
  0  done
  1  the desk refused it; `why`: a cell is blocked; `when`: no free time; `watch`: somebody is over a plan
  2  wrong arguments
  3  a wrong file or area
  4  the desk refused the request, or didn't answer
"""
COMMANDS: List[Tuple[str, Run, str, Tuple[Add, ...]]] = [
    (
        "plan",
        run_plan,
        "plan a flight over the shapes of a GeoJSON file",
        (add_flight, add_large, add_activate, add_dry_run),
    ),
    ("list", run_list, "list your plans, closed ones too", (add_geojson,)),
    ("show", run_show, "show a plan, and its conflict if it has one", (add_id, add_geojson, add_body)),
    ("activate", run_activate, "activate a planned flight", (add_id, add_dry_run)),
    ("change", run_change, "change the area, the times or the priority of a plan", CHANGED),
    (
        "report",
        run_report,
        "report an aircraft that is off its plan, and where it may be",
        (*CHANGED, add_contingent),
    ),
    ("close", run_close, "close a plan", (add_id, add_dry_run)),
    (
        "clear",
        run_clear,
        "remove at once all your plans that share a point with an area and a time, flights in the air and closed plans "
        "too: it names none of them and doesn't ask; --dry-run lists them",
        (add_shapes, add_altitudes, add_times, add_large, add_dry_run),
    ),
    (
        "why",
        run_why,
        "print and draw which cells of a flight are blocked; nothing is stored",
        (add_flight, add_drawing),
    ),
    (
        "when",
        run_when,
        "print when a flight is free between --from and --to; nothing is stored",
        (add_flight, add_search),
    ),
    (
        "watch",
        run_watch,
        "print each change of your plans: above all, that somebody is planned over one",
        (add_watch,),
    ),
    ("check", run_check, "print what the desk would refuse in the body of a PUT; no desk is asked", (add_body_file,)),
    ("cells", run_cells, "print the tokens of S2 cells that cover the shapes; no desk is asked", (add_shapes,)),
    ("body", run_body, "print the body of a PUT, for curl; no desk is asked", (add_flight, add_activate)),
]
