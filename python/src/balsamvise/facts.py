"""What is in a file, by its head, its variable-length records and its chunk table: no point is read."""
from __future__ import annotations

import datetime
import math
import os
import struct
import uuid
from collections.abc import Sequence
from typing import Any, Optional

from . import library
from .crs import epsg_name
from .crs_vlrs import USER_ID, payloads_of, read_crs, text_of
from .errors import TABLE_POINTER, Refused
from .head import LASZIP, Head, Vlr, plain_head
from .sources import PathSource

_AT_THE_END = 2**64 - 1
_LARGEST = 2**53
"""Above this a double does not tell one whole number from the next."""
_EXTRA_BYTES = struct.Struct("<2xBB32s4x24x24x24x3d3d32s")
_EXTRA_TYPES = ("undocumented", "uint8", "int8", "uint16", "int16", "uint32", "int32", "uint64", "int64", "float32",
                "float64")
_EXTRA_SIZES = (0, 1, 1, 2, 2, 4, 4, 8, 8, 4, 8)
_VLR_NAMES = {
    (USER_ID, 34735): "GeoTIFF keys", (USER_ID, 34736): "GeoTIFF doubles", (USER_ID, 34737): "GeoTIFF text",
    (USER_ID, 2111): "math transform WKT", (USER_ID, 2112): "coordinate system WKT",
    ("LASF_Spec", 0): "classification lookup", ("LASF_Spec", 3): "text area description",
    ("LASF_Spec", 4): "extra bytes", ("LASF_Spec", 7): "superseded", ("laszip encoded", 22204): "laszip",
    ("copc", 1): "COPC info", ("liblas", 2112): "WKT of libLAS",
}
LAZPERF = "lazperf in QGIS 3.22"


class Chunks:
    """The chunk list of a packed file."""

    def __init__(self, chunk: int, at_the_end: bool, chunks: library.ChunkList) -> None:
        self.counted = chunk == library.COUNTED
        self.size = None if self.counted else chunk
        self.at_the_end = at_the_end
        self.chunks = chunks

    def facts(self) -> dict[str, Any]:
        return {"counted": self.counted, "size": self.size, "number": len(self.chunks.counts),
                "points": _range(self.chunks.sizes), "bytes": _range(self.chunks.counts),
                "table_place_at_the_end": self.at_the_end}


def _range(numbers: Sequence[int]) -> Optional[list[int]]:
    return [min(numbers), max(numbers)] if len(numbers) > 0 else None


def _chunks(source: PathSource, raw: library.RawHead) -> Chunks:
    """The chunk list, by the table; `Refused` if there is none."""
    first, end = raw.offset + 8, source.size
    if source.size < first:
        raise Refused(source.name, TABLE_POINTER)
    (table,) = struct.unpack("<Q", source.read(raw.offset, 8))
    at_the_end = table == _AT_THE_END
    if at_the_end:
        end -= 8
        if end < first:
            raise Refused(source.name, TABLE_POINTER)
        (table,) = struct.unpack("<Q", source.read(end, 8))
    if not first <= table <= end:
        raise Refused(source.name, TABLE_POINTER)
    data = source.read(table, min(end - table, 8))
    if len(data) == 8:
        (count,) = struct.unpack_from("<I", data, 4)
        data = source.read(table, min(end - table, library.table_room(count)))
    return Chunks(raw.chunk, at_the_end, library.read_table(source.name, data, raw.chunk, raw.points, table - first))


def _number(value: float) -> Optional[float]:
    """A double as JSON has it: None if it is no finite number."""
    return value if math.isfinite(value) else None


def _numbers(values: Sequence[float]) -> list[Optional[float]]:
    return [_number(value) for value in values]


def _raw(values: Sequence[float], scales: Sequence[float], offsets: Sequence[float]) -> list[Optional[int]]:
    """Coordinates in units of the scales, rounded to whole numbers; None where that is none, or above 2^53."""
    numbers: list[Optional[int]] = []
    for value, scale, offset in zip(values, scales, offsets):
        quotient = (value - offset) / scale if scale and math.isfinite(scale) else math.nan
        numbers.append(round(quotient) if abs(quotient) <= _LARGEST else None)
    return numbers


def _box(head: Head) -> dict[str, Any]:
    """The box of the head: scaled and raw, and whether raw coordinates of 32 bits reach all of it."""
    low, high = (_raw(values, head.scales, head.offsets) for values in (head.mins, head.maxs))
    corners = [number for number in low + high if number is not None]
    fits = len(corners) == 6 and all(-2**31 <= number < 2**31 for number in corners)
    ordered = all(least <= most for least, most in zip(head.mins, head.maxs))
    return {"min": _numbers(head.mins), "max": _numbers(head.maxs), "raw_min": low, "raw_max": high,
            "within_32_bits": fits, "min_below_max": ordered}


def _created(data: bytes) -> dict[str, Any]:
    """The day of creation, as the head has it, and as a date if it is one."""
    day, year = struct.unpack_from("<2H", data, 90)
    date = None
    if 1 <= year <= 9999 and 1 <= day <= 366:
        found = datetime.date(year, 1, 1) + datetime.timedelta(day - 1) if (year, day) != (9999, 366) else None
        date = found.isoformat() if found and found.year == year else None
    return {"date": date, "year": year, "day": day}


def _vlr_facts(vlr: Vlr) -> dict[str, Any]:
    user = text_of(vlr.user_id)
    name = _VLR_NAMES.get((user, vlr.record_id))
    if user == "LASF_Spec" and 100 <= vlr.record_id <= 354:
        name = "waveform packet descriptor"
    return {"user_id": user, "record_id": vlr.record_id, "name": name, "description": text_of(vlr.description),
            "length": len(vlr.payload)}


def _extra_dimension(fields: bytes) -> dict[str, Any]:
    """One entry of the Extra Bytes VLR. The types 11 to 30, of older files, are two or three numbers each."""
    kind, options, name, *rest = _EXTRA_BYTES.unpack(fields)
    scales, offsets, description = rest[0:3], rest[3:6], rest[6]
    count = 1 + (kind - 1) // 10 if 1 <= kind <= 30 else 1
    base = (kind - 1) % 10 + 1 if 1 <= kind <= 30 else 0
    size = _EXTRA_SIZES[base] * count if base else options
    type_ = _EXTRA_TYPES[base] + (f"[{count}]" if count > 1 else "")
    return {"name": text_of(name), "type": type_, "size": size, "description": text_of(description),
            "scale": _numbers(scales[:count]) if base and options & 8 else None,
            "offset": _numbers(offsets[:count]) if base and options & 16 else None}


def _extra(vlrs: Sequence[Vlr]) -> list[dict[str, Any]]:
    """The extra bytes that the Extra Bytes VLR describes, in order."""
    payload = next((vlr.payload for vlr in vlrs if (vlr.user_id, vlr.record_id) == (b"LASF_Spec", 4)), b"")
    size = _EXTRA_BYTES.size
    return [_extra_dimension(payload[at:at + size]) for at in range(0, len(payload) - size + 1, size)]


def _refused_by(chunks: Optional[Chunks]) -> list[dict[str, str]]:
    """Which other readers are known to refuse such a file, and for what."""
    reasons = []
    if chunks and chunks.counted:
        reasons.append("the chunks have a number of points each")
    if chunks and chunks.at_the_end:
        reasons.append("the place of the chunk table is at the end of the file")
    return [{"reader": LAZPERF, "reason": text} for text in reasons]


def read_facts(name: str | os.PathLike[str]) -> dict[str, Any]:
    """What is in a file. `docs/describe.md` names each member; `describe.schema.json` has them as a JSON schema.

    It raises `Refused` for a file that is not one that is read here, and `OSError` for one that can't be read. The
    chunks are not read, so a bad chunk is not seen.
    """
    source = PathSource(os.fspath(name))
    try:
        offset = library.need(source.name, source.read(0, min(source.size, library.FRONT)), source.size)
        data = source.read(0, offset)
        raw = library.read_head(source.name, data, source.size)
        chunks = _chunks(source, raw) if raw.chunk else None
    finally:
        source.close()
    return _facts(source, data, raw, chunks)


def _laszip_vlr(data: bytes, raw: library.RawHead) -> Vlr:
    payload = raw.laszip_start + 54
    return Vlr(LASZIP[0].rstrip(b"\0"), LASZIP[1], data[payload:payload + raw.laszip_length],
               data[payload - 32:payload])


def _crs(vlrs: Sequence[Vlr], encoding: int) -> Optional[dict[str, Any]]:
    record = read_crs(payloads_of(vlrs), encoding)
    if record is None:
        return None
    # a WKT has a name of its own; the texts of GeoTIFF keys are often those of the software
    names = [epsg_name(record.epsg), record.name]
    name = next(filter(None, reversed(names) if record.source == "WKT" else names), None)
    return {"source": record.source, "epsg": record.epsg, "name": name, "vertical_epsg": record.vertical,
            "unit": record.unit, "wkt": record.wkt}


def _facts(source: PathSource, data: bytes, raw: library.RawHead, chunks: Optional[Chunks]) -> dict[str, Any]:
    head = plain_head(data, raw.laszip_start, raw.laszip_length) if chunks else Head(data)
    vlrs = list(head.vlrs)
    shown = [*vlrs, _laszip_vlr(data, raw)] if chunks else vlrs
    source_id, encoding = struct.unpack_from("<HH", data, 4)
    plain = head.offset + raw.points * raw.record_length
    return {
        "name": source.name, "size": source.size, "las": f"1.{raw.minor}", "created": _created(data),
        "system_identifier": text_of(head.system_identifier), "generating_software": text_of(head.software),
        "file_source_id": source_id, "global_encoding": encoding,
        "project_id": str(uuid.UUID(bytes_le=data[8:24])),
        "header_size": raw.header_size, "offset_to_point_data": raw.offset,
        "point_data_format": raw.format, "record_length": raw.record_length, "points": raw.points,
        "points_by_return": list(head.returns), "scale": _numbers(head.scales), "offset": _numbers(head.offsets),
        "box": _box(head), "crs": _crs(vlrs, encoding), "vlrs": [_vlr_facts(vlr) for vlr in shown],
        "extra_bytes": raw.extra, "extra_dimensions": _extra(vlrs), "packed": chunks is not None,
        "chunks": chunks.facts() if chunks else None, "plain_size": plain,
        "ratio": round(plain / source.size, 3), "refused_by": _refused_by(chunks),
    }
