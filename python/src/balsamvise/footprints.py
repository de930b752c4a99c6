"""The boxes of files as GeoJSON."""
from __future__ import annotations

import functools
import math
from collections.abc import Callable, Iterable, Sequence
from typing import Any, Optional

Ring = list[tuple[float, float]]
Move = Callable[[Sequence[float], Sequence[float]], tuple[Sequence[float], Sequence[float]]]
_PARTS = 4
"""Into how many parts each side of a box is cut, since it is no straight line in degrees."""


class NoFootprint(Exception):
    """A file has no box that can be shown; the text says why."""


@functools.lru_cache(maxsize=64)
def to_wgs84(epsg: Optional[int], wkt: Optional[str]) -> Move:
    """What moves coordinates of a system to longitude and latitude in WGS 84, by pyproj, which has to be there."""
    import pyproj
    try:
        system = pyproj.CRS.from_epsg(epsg) if epsg is not None else pyproj.CRS.from_wkt(wkt or "")
        transform: Move = pyproj.Transformer.from_crs(system, "OGC:CRS84", always_xy=True).transform
    except pyproj.exceptions.ProjError as error:
        raise NoFootprint(f"pyproj knows no way from its coordinate reference system to WGS 84: {error}") from None
    return transform


def ring_of(facts: dict[str, Any], parts: int = 1) -> Ring:
    """The box of a file in x and y, counter-clockwise and closed, each side in `parts` parts."""
    low, high = facts["box"]["min"][:2], facts["box"]["max"][:2]
    if None in low or None in high or low[0] > high[0] or low[1] > high[1]:
        raise NoFootprint("the head has no box")
    corners = [(low[0], low[1]), (high[0], low[1]), (high[0], high[1]), (low[0], high[1])]
    ring = []
    for (x, y), (next_x, next_y) in zip(corners, corners[1:] + corners[:1]):
        ring += [(x + (next_x - x) * part / parts, y + (next_y - y) * part / parts) for part in range(parts)]
    return [*ring, ring[0]]


def _moved(facts: dict[str, Any]) -> Ring:
    crs = facts["crs"]
    if crs is None or (crs["epsg"] is None and crs["wkt"] is None):
        raise NoFootprint("the head names no coordinate reference system")
    ring = ring_of(facts, _PARTS)
    xs, ys = to_wgs84(crs["epsg"], None if crs["epsg"] is not None else crs["wkt"])(*zip(*ring))
    if not all(map(math.isfinite, [*xs, *ys])):
        raise NoFootprint("the box lies outside of where its coordinate reference system holds")
    return list(zip(xs, ys))


def _side(ring: Ring, keeps: Callable[[float], bool]) -> Ring:
    """The part of a ring on one side of the meridian of 180 degrees."""
    kept: Ring = []
    for (x, y), (next_x, next_y) in zip(ring, ring[1:]):
        if keeps(x):
            kept.append((x, y))
        if keeps(x) != keeps(next_x):
            kept.append((180.0, y + (next_y - y) * (180.0 - x) / (next_x - x)))
    return [*kept, kept[0]] if kept else []


def _coordinates(ring: Ring) -> list[list[list[float]]]:
    """The coordinates of a polygon, counter-clockwise, as axes to the south or west would not give it."""
    area = sum(x * next_y - next_x * y for (x, y), (next_x, next_y) in zip(ring, ring[1:]))
    return [[[round(x, 8), round(y, 8)] for x, y in (ring if area >= 0 else reversed(ring))]]


def geometry_in_wgs84(facts: dict[str, Any]) -> dict[str, Any]:
    """The box as a polygon in longitude and latitude, or as two if it lies on both sides of the antimeridian."""
    ring = _moved(facts)
    longitudes = [x for x, _ in ring]
    if max(longitudes) - min(longitudes) <= 180:
        return {"type": "Polygon", "coordinates": _coordinates(ring)}
    around = [(x % 360, y) for x, y in ring]
    west, east = _side(around, lambda x: x <= 180), _side(around, lambda x: x > 180)
    return {"type": "MultiPolygon",
            "coordinates": [_coordinates(west), _coordinates([(x - 360, y) for x, y in east])]}


def feature(facts: dict[str, Any], native: bool) -> dict[str, Any]:
    """A file as a feature. Its geometry is null if it has no footprint, and the property `no_footprint` says why."""
    crs = facts["crs"] or {}
    properties = {"name": facts["name"], "las": facts["las"], "point_data_format": facts["point_data_format"],
                  "points": facts["points"], "packed": facts["packed"], "size": facts["size"],
                  "created": facts["created"]["date"], "epsg": crs.get("epsg"), "crs": crs.get("name"),
                  "z_min": facts["box"]["min"][2], "z_max": facts["box"]["max"][2], "refused": None,
                  "no_footprint": None}
    geometry = None
    try:
        if native and not crs.get("epsg"):
            raise NoFootprint("the head names no coordinate reference system by a code of EPSG")
        geometry = ({"type": "Polygon", "coordinates": [[list(place) for place in ring_of(facts)]]} if native
                    else geometry_in_wgs84(facts))
    except NoFootprint as error:
        properties["no_footprint"] = str(error)
    return {"type": "Feature", "properties": properties, "geometry": geometry}


def refused_feature(name: str, line: str) -> dict[str, Any]:
    """A file that was refused, or could not be read, as a feature without a geometry."""
    return {"type": "Feature", "properties": {"name": name, "refused": line}, "geometry": None}


def systems(features: Iterable[dict[str, Any]]) -> list[int]:
    """The codes of EPSG of the features that have a geometry."""
    return sorted({each["properties"]["epsg"] for each in features if each["geometry"] is not None})


def crs_member(epsg: int) -> dict[str, Any]:
    """The member `crs` of GeoJSON as it was before RFC 7946, which QGIS and GDAL read."""
    return {"type": "name", "properties": {"name": f"urn:ogc:def:crs:EPSG::{epsg}"}}
