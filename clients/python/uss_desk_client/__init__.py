"""A client of the planning desk: areas as S2 cells, requests, and what their answers mean.

`cells_of` and `area_of` turn a polygon, a circle or a corridor, altitudes in metres and times into what the desk
takes; `Desk` asks it; `check` says what it would refuse in a body. docs/clients.md has examples.
"""
from uss_desk_client.altitudes import Ground, NoGround
from uss_desk_client.answers import Answer, Cleared, Conflict, NotTaken, Plan
from uss_desk_client.areas import AreaError, Rectangle, Volume, area_of, area_over
from uss_desk_client.checking import Fault, check, check_clear
from uss_desk_client.desk import BadAnswer, Desk, NoAnswer, NoSuchPlan, Refused, new_id
from uss_desk_client.errors import DeskError
from uss_desk_client.extents import Extent, box_of_cells, extent_of, extent_of_cells
from uss_desk_client.free import Own, Search, Window, searches
from uss_desk_client.geoid import Geoid, NoGeoid, find_geoid
from uss_desk_client.grid import share_a_point
from uss_desk_client.heights import BadTile, Tiles
from uss_desk_client.shapes import Circle, Corridor, Polygon, ShapeError, Shapes, cells_of
from uss_desk_client.sizes import square_metres, square_metres_of_cells
from uss_desk_client.units import UnitError
from uss_desk_client.watching import Change, Watch
from uss_desk_client.why import Blocked, Look, Reasons, looks, why

__version__ = "2.0.0"
"""That of the program too."""

__all__ = [
    "Answer",
    "AreaError",
    "BadAnswer",
    "BadTile",
    "Blocked",
    "Change",
    "Circle",
    "Cleared",
    "Conflict",
    "Corridor",
    "Desk",
    "DeskError",
    "Extent",
    "Fault",
    "Geoid",
    "Ground",
    "Look",
    "NoAnswer",
    "NoGeoid",
    "NoGround",
    "NoSuchPlan",
    "NotTaken",
    "Own",
    "Plan",
    "Polygon",
    "Reasons",
    "Rectangle",
    "Refused",
    "Search",
    "ShapeError",
    "Shapes",
    "Tiles",
    "UnitError",
    "Volume",
    "Watch",
    "Window",
    "__version__",
    "area_of",
    "area_over",
    "box_of_cells",
    "cells_of",
    "check",
    "check_clear",
    "extent_of",
    "extent_of_cells",
    "find_geoid",
    "looks",
    "new_id",
    "searches",
    "share_a_point",
    "square_metres",
    "square_metres_of_cells",
    "why",
]
