"""Coordinate reference systems, as the head of a file names them."""
from __future__ import annotations

import functools
import re
import struct
from collections.abc import Sequence
from dataclasses import dataclass
from typing import Any, Union

from . import crs_vlrs
from .crs_vlrs import IS_GEOGRAPHIC, IS_PROJECTED, KEYS, WKT, CrsRecord, text_of
from .vlrs import Vlr

USER_ID = crs_vlrs.USER_ID.encode()
RECORD_IDS = frozenset((KEYS, crs_vlrs.DOUBLES, crs_vlrs.ASCII, crs_vlrs.MATH_TRANSFORM, WKT))

_GEOGRAPHIC_BELOW_4000 = frozenset((3819, 3821, 3824, 3889, 3906))


@dataclass(frozen=True)
class Crs:
    """A coordinate reference system. `str` of it is its text: the well-known text, or `EPSG:` and the number."""

    epsg: int | None = None
    """The number in EPSG's list, if it is known."""
    wkt: str = ""
    """The well-known text, if the file has it."""
    vertical: int | None = None
    """The number of a vertical CRS beside it, if there is one."""
    is_geographic: bool | None = None
    """Whether its axes are angles; None if that is not known."""

    def __str__(self) -> str:
        if self.wkt:
            return self.wkt
        parts = [str(number) for number in (self.epsg, self.vertical) if number is not None]
        return "EPSG:" + "+".join(parts) if parts else "unknown"

    def to_pyproj(self) -> Any:
        """The `pyproj.CRS` of it. It needs the package pyproj."""
        import pyproj

        return pyproj.CRS.from_user_input(str(self))


Named = Union[Crs, int, str]
"""What names a CRS: a `Crs`, a number of EPSG's list, or well-known text; also a `pyproj.CRS`."""


def crs_of(name: Any) -> Crs:
    """The CRS that a value names.

    It raises `ValueError` for a number of which it is not known whether it is that of a geographic CRS. The package
    pyproj tells that of each, if it is installed; without it, `Crs(epsg=4326, is_geographic=True)` does.
    """
    if isinstance(name, Crs):
        return name
    if hasattr(name, "to_wkt") and hasattr(name, "to_epsg"):  # pyproj's
        return Crs(name.to_epsg(), name.to_wkt("WKT1_GDAL"), None, bool(name.is_geographic))
    if isinstance(name, str):
        found = re.fullmatch(r"EPSG:(\d+)(?:\+(\d+))?", name.strip(), re.IGNORECASE)
        if not found:
            return _of_wkt(name)
        crs = _of_number(int(found.group(1)))
        return Crs(crs.epsg, "", int(found.group(2)) if found.group(2) else None, crs.is_geographic)
    return _of_number(int(name))


def _of_number(number: int) -> Crs:
    if not 1024 <= number <= 32766:
        raise ValueError(f"{number} is no number of a CRS in EPSG's list: 1024 to 32766")
    try:
        import pyproj
    except ImportError:
        if number in _GEOGRAPHIC_BELOW_4000 or not (2000 <= number < 4000 or number >= 20000):
            raise ValueError(f"whether EPSG:{number} is geographic is not known here: say Crs(epsg={number}, "
                             "is_geographic=...), or install pyproj") from None
        return Crs(number, "", None, False)
    return Crs(number, "", None, bool(pyproj.CRS.from_epsg(number).is_geographic))


@functools.lru_cache(maxsize=None)
def epsg_name(code: int | None) -> str | None:
    """The name that pyproj has for a code of EPSG; None without pyproj, and for a code that it does not know."""
    if code is None:
        return None
    try:
        import pyproj
        return str(pyproj.CRS.from_epsg(code).name)
    except Exception:  # pyproj is not there, or broken, or does not know the code: the code stands alone
        return None


def _of_wkt(text: str) -> Crs:
    text = text_of(text.encode())
    if not re.match(r"[A-Z_0-9]+\s*\[", text):
        raise ValueError(f"{text[:40]!r} is no well-known text of a CRS, and no EPSG number")
    return _of_record(crs_vlrs.of_wkt(text))


def _of_record(record: CrsRecord) -> Crs:
    return Crs(record.epsg, record.wkt or "", record.vertical, record.is_geographic)


def of_vlrs(vlrs: Sequence[Vlr], encoding: int) -> Crs | None:
    """The CRS of a file by its VLRs and its global encoding; None if they name none."""
    record = crs_vlrs.read_crs(crs_vlrs.payloads_of(vlrs), encoding)
    if record is None or (record.epsg is None and record.vertical is None and record.wkt is None):
        return None
    return _of_record(record)


def keys_of(crs: Crs) -> bytes:
    """The payload of the GeoKeys VLR for a CRS with a number."""
    if crs.epsg is None or crs.is_geographic is None:
        raise ValueError(f"GeoKeys need the EPSG number of a CRS, and whether it is geographic: {crs}")
    keys = [(crs_vlrs.MODEL, IS_GEOGRAPHIC if crs.is_geographic else IS_PROJECTED), (crs_vlrs.RASTER, 1),
            (crs_vlrs.GEOGRAPHIC if crs.is_geographic else crs_vlrs.PROJECTED, crs.epsg)]
    if crs.vertical is not None:
        keys.append((crs_vlrs.VERTICAL, crs.vertical))
    return struct.pack("<4H", 1, 1, 0, len(keys)) + b"".join(struct.pack("<4H", key, 0, 1, it) for key, it in keys)
