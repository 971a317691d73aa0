"""GeoJSON (RFC 7946): shapes read from it, cells and plans written as it."""
from __future__ import annotations

import json
import math
from typing import Any, Dict, Iterable, List, Optional, Sequence, Tuple

from uss_desk_client.answers import Plan
from uss_desk_client.areas import Volume
from uss_desk_client.grid import block_of_cell, outline_of
from uss_desk_client.shapes import Circle, Corridor, Polygon, Shape, ShapeError, Shapes
from uss_desk_client.sphere import Place
from uss_desk_client.units import Metres, time_text
from uss_desk_client.why import Reasons

Feature = Dict[str, Any]
METRES_A_DEGREE = 111_195.0
"""Of latitude, in pictures."""


def geometries(document: Any) -> List[Dict[str, Any]]:
    """The geometries of a document, one after the other."""
    kind = document.get("type") if isinstance(document, dict) else None
    if kind == "FeatureCollection":
        return [found for feature in document.get("features", ()) for found in geometries(feature)]
    if kind == "Feature":
        return geometries(document.get("geometry"))
    if kind == "GeometryCollection":
        return [found for part in document.get("geometries", ()) for found in geometries(part)]
    if kind in ("Polygon", "MultiPolygon", "LineString", "MultiLineString", "Point", "MultiPoint"):
        if not isinstance(document.get("coordinates"), list) or not document["coordinates"]:
            raise ShapeError(f"a {kind} of the file has no coordinates")
        if kind.startswith("Multi"):
            return [{"type": kind[len("Multi") :], "coordinates": part} for part in document["coordinates"]]
        return [document]
    raise ShapeError(f"a geometry or a Feature is wanted, and {kind!r} is none")


def shape_of(geometry: Dict[str, Any], radius: Optional[Metres], width: Optional[Metres]) -> Shape:
    """The shape that a geometry is: a polygon, a path of some width, a place with some radius around it."""
    coordinates = geometry["coordinates"]
    if geometry["type"] == "Polygon":
        return Polygon(coordinates[0], coordinates[1:], is_straight=True)
    if geometry["type"] == "LineString":
        if width is None:
            raise ShapeError("the file has a line: say how many metres wide its corridor is")
        return Corridor(coordinates, width, is_straight=True)
    if radius is None:
        raise ShapeError("the file has a point: say how many metres the radius around it is")
    return Circle(coordinates, radius)


def shape_in(document: Any, radius: Optional[Metres] = None, width: Optional[Metres] = None) -> Shape:
    """The shape of all geometries of a document. Lines need a `width`, points a `radius`, both in metres."""
    shapes = [shape_of(geometry, radius, width) for geometry in geometries(document)]
    return shapes[0] if len(shapes) == 1 else Shapes(shapes)


def ring_around(place: Place, radius: Metres) -> List[Place]:
    """Places some metres around a place, to be drawn; none at a pole."""
    up = float(radius) / METRES_A_DEGREE
    shorten = math.cos(math.radians(place[1]))
    if shorten < 0.01 or up > 45:
        return []
    turns = [2 * math.pi * part / 72 for part in range(73)]
    return [(place[0] + up / shorten * math.cos(turn), place[1] + up * math.sin(turn)) for turn in turns[:-1]] + [
        (place[0] + up / shorten, place[1])
    ]


def lines_in(document: Any, radius: Optional[Metres] = None) -> List[List[Place]]:
    """The rings and paths of a document, to be drawn, and the circles of a radius around its points."""
    lines: List[List[Place]] = []
    for geometry in geometries(document):
        if geometry["type"] == "Polygon":
            lines += [[(place[0], place[1]) for place in ring] for ring in geometry["coordinates"]]
        elif geometry["type"] == "LineString":
            lines.append([(place[0], place[1]) for place in geometry["coordinates"]])
        elif radius is not None:
            lines.append(ring_around((geometry["coordinates"][0], geometry["coordinates"][1]), radius))
    return [line for line in lines if line]


def read_document(path: str) -> Any:
    """The document of a file; a ShapeError if it is no JSON."""
    with open(path, encoding="utf-8") as file:
        try:
            return json.load(file)
        except ValueError as wrong:
            raise ShapeError(f"{path} is no GeoJSON: {wrong}") from None


# ---- writing


def ring_of(token: str) -> List[Place]:
    """The corners of a cell, counterclockwise, without the first again. Longitudes may pass 180 degrees, so that the
    corners of a cell on the antimeridian stand beside each other."""
    return outline_of(block_of_cell(token))


def collection(features: Iterable[Feature]) -> Dict[str, Any]:
    return {"type": "FeatureCollection", "features": list(features)}


def feature(tokens: Sequence[str], properties: Dict[str, Any]) -> Feature:
    """Some cells as one feature."""
    polygons = [[[list(place) for place in (*ring_of(token), ring_of(token)[0])]] for token in tokens]
    return {
        "type": "Feature",
        "geometry": {"type": "MultiPolygon", "coordinates": polygons},
        "properties": properties,
    }


def window_of(volume: Volume) -> Dict[str, Any]:
    """The altitudes and times of a volume, in metres and RFC 3339."""
    return {
        "lower_metres": volume.lower_metres,
        "upper_metres": volume.upper_metres,
        "start": time_text(volume.start),
        "end": time_text(volume.end),
    }


def features_of_plan(plan: Plan) -> List[Feature]:
    """Each volume of a plan, and its conflict as a point. A rectangle has no geometry here."""
    about = {"flight_plan_id": plan.plan_id, "status": plan.status, "priority": plan.priority}
    found = [
        feature(volume.cells, {**about, "volume": at, **window_of(volume)}) for at, volume in enumerate(plan.area)
    ]
    for one in found:
        if not one["geometry"]["coordinates"]:
            one["geometry"] = None
    if plan.conflict:
        found.append(
            point_of(
                plan.conflict.longitude,
                plan.conflict.latitude,
                {"flight_plan_id": plan.plan_id, "conflict": str(plan.conflict), "priority": plan.conflict.priority},
            )
        )
    return found


def point_of(longitude: float, latitude: float, properties: Dict[str, Any]) -> Feature:
    return {
        "type": "Feature",
        "geometry": {"type": "Point", "coordinates": [longitude, latitude]},
        "properties": properties,
    }


def features_of_reasons(reasons: Reasons) -> List[Feature]:
    """Each blocked cell of each volume with its first blocked point, and the free cells."""
    found = [
        feature(
            [it.cell],
            {
                "state": "blocked",
                "cell": it.cell,
                "priority": it.conflict.priority,
                "altitude_metres": it.conflict.altitude_metres,
                "time": time_text(it.conflict.second),
                **window_of(it.volume),
            },
        )
        for it in reasons.blocked
    ]
    found += [feature([cell], {"state": "free", "cell": cell}) for cell in reasons.free_cells]
    found += [
        point_of(
            it.conflict.longitude,
            it.conflict.latitude,
            {"state": "first blocked point", "cell": it.conflict.cell, "priority": it.conflict.priority},
        )
        for it in reasons.blocked
    ]
    return found


def bounds_of(lines: Iterable[Sequence[Place]]) -> Tuple[float, float, float, float]:
    """The least and greatest longitude, the least and greatest latitude."""
    places = [place for line in lines for place in line]
    longitudes, latitudes = [place[0] for place in places], [place[1] for place in places]
    return min(longitudes), max(longitudes), min(latitudes), max(latitudes)
