"""What is in files as text: a page for one file, a table for many."""
from __future__ import annotations

import math
import os
import re
from collections.abc import Iterator
from typing import Any, Optional


def shown(text: str) -> str:
    """Text for a terminal: control characters, which could change it, become question marks."""
    text = os.fsencode(text).decode(errors="replace")
    return re.sub(r"[\x00-\x1f\x7f-\x9f\u2028-\u202e\u2066-\u2069]", "?", text)


def _crs(crs: Optional[dict[str, Any]]) -> str:
    if crs is None:
        return "none is named"
    name = crs["name"] or ("none is named" if crs["epsg"] is None else "")
    codes = [f"EPSG {code}" for code in (crs["epsg"], crs["vertical_epsg"]) if code is not None]
    return " ".join([*codes, name]).strip()


def _number(value: Optional[float]) -> str:
    return "?" if value is None else repr(value)


def _coordinate(value: Optional[float], scale: Optional[float]) -> str:
    """A coordinate with as many decimals as its scale has."""
    if value is None or not scale or abs(value) >= 1e15:
        return _number(value)
    return f"{value:.{min(max(math.ceil(-math.log10(abs(scale)) - 1e-9), 0), 12)}f}"


def _between(facts: dict[str, Any], axis: int, between: str) -> str:
    low, high = (_coordinate(facts["box"][end][axis], facts["scale"][axis]) for end in ("min", "max"))
    return low + between + high


def _numbers(values: list[Any]) -> str:
    return " ".join(map(_number, values))


def _chunks(facts: dict[str, Any]) -> str:
    chunks = facts["chunks"]
    kind = "with a number of points each" if chunks["counted"] else f"of {chunks['size']} points"
    text = f"{chunks['number']} {kind}"
    if chunks["points"]:
        points, data = chunks["points"], chunks["bytes"]
        text += f": {points[0]} to {points[1]} points, {data[0]} to {data[1]} bytes"
    return text


def _rows(facts: dict[str, Any]) -> Iterator[tuple[str, str]]:
    packed = f"packed, the plain file has {facts['plain_size']}: {facts['ratio']} times as many"
    yield "size", f"{facts['size']} bytes, {packed if facts['packed'] else 'plain'}"
    data = f"point data from {facts['offset_to_point_data']} on"
    yield "LAS", f"{facts['las']}, a head of {facts['header_size']} bytes, {data}"
    created = facts["created"]
    yield "created", created["date"] or f"no date: year {created['year']}, day {created['day']}"
    yield "system", facts["system_identifier"]
    yield "software", facts["generating_software"]
    yield "points", f"{facts['points']} of format {facts['point_data_format']}, {facts['record_length']} bytes each"
    yield "by return", " ".join(map(str, facts["points_by_return"]))
    yield "scale", _numbers(facts["scale"])
    yield "offset", _numbers(facts["offset"])
    box = facts["box"]
    for axis, (low, high) in enumerate(zip(box["raw_min"], box["raw_max"])):
        yield "xyz"[axis], f"{_between(facts, axis, ' to ')}, raw {_number(low)} to {_number(high)}"
    if not box["within_32_bits"]:
        yield "box", "raw coordinates of 32 bits do not reach all of it, by scale and offset"
    if not box["min_below_max"]:
        yield "box", "a least coordinate is above the greatest one, or is no number"
    crs = facts["crs"]
    unit = f", in units of {crs['unit']}" if crs and crs["unit"] else ""
    yield "CRS", _crs(crs) + unit + (f", by {crs['source']}" if crs else "")
    for vlr in facts["vlrs"]:
        name = vlr["name"] or vlr["description"] or "of no known use"
        yield "VLR", f"{vlr['user_id']} {vlr['record_id']}, {vlr['length']} bytes: {name}"
    yield from _extra_rows(facts)
    if facts["packed"]:
        yield "chunks", _chunks(facts)
    for reader in facts["refused_by"]:
        yield "refused by", f"{reader['reader']}: {reader['reason']}"


def _extra_rows(facts: dict[str, Any]) -> Iterator[tuple[str, str]]:
    described = 0
    for extra in facts["extra_dimensions"]:
        described += extra["size"]
        more = "".join(f", {key} {_numbers(extra[key])}" for key in ("scale", "offset") if extra[key])
        told = f": {extra['description']}" if extra["description"] else ""
        yield "extra bytes", f"{extra['name']}, {extra['type']}{more}{told}"
    if described != facts["extra_bytes"]:
        yield "extra bytes", f"{facts['extra_bytes']} a record, of which {described} are described"


def text_of_facts(facts: dict[str, Any]) -> str:
    """The page of one file."""
    lines = [shown(facts["name"])] + [f"  {name:<12}{shown(text)}".rstrip() for name, text in _rows(facts)]
    return "\n".join(lines) + "\n"


def _row(facts: dict[str, Any]) -> list[str]:
    if "refused" in facts:
        return [facts["name"], f"refused: {facts['refused']['number']} {facts['refused']['cause']}"]
    if "error" in facts:
        return [facts["name"], f"read fault: {facts['error']}"]
    crs = facts["crs"]
    system = str(crs["epsg"] or crs["name"] or "-") if crs else "-"
    return [facts["name"], facts["las"], str(facts["point_data_format"]), str(facts["points"]),
            str(facts["ratio"]) if facts["packed"] else "plain", facts["created"]["date"] or "-", system,
            *(_between(facts, axis, "..") for axis in range(3))]


HEADS = ["file", "LAS", "format", "points", "ratio", "created", "CRS", "x", "y", "z"]


def table_of(all_facts: list[dict[str, Any]]) -> Iterator[str]:
    """A line for each file under a line of heads, then how many are described."""
    rows = [[shown(cell) for cell in _row(facts)] for facts in all_facts]
    whole = [row for row in rows if len(row) == len(HEADS)]
    widths = [max(map(len, column)) for column in zip(HEADS, *whole)]
    widths[0] = max([widths[0], *(len(row[0]) for row in rows)])
    for row in [HEADS, *rows]:
        yield "  ".join(f"{cell:<{width}}" for cell, width in zip(row, widths)).rstrip() + "\n"
    yield f"{len(whole)} described, {len(rows) - len(whole)} not\n"
