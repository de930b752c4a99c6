"""The coordinate reference system that the VLRs of a head name: by GeoTIFF keys, or by well-known text (WKT)."""
from __future__ import annotations

import re
import struct
from collections.abc import Mapping, Sequence
from dataclasses import dataclass
from typing import Optional, Union

from .vlrs import Vlr

USER_ID = "LASF_Projection"
KEYS, DOUBLES, ASCII, MATH_TRANSFORM, WKT = 34735, 34736, 34737, 2111, 2112
"""The record IDs of VLRs that name a CRS: GeoTIFF keys with their numbers and texts, and well-known text."""
WKT_BIT = 16
"""The bit of the global encoding that says that the WKT holds, and not the GeoTIFF keys."""
MODEL, RASTER, GEOGRAPHIC, PROJECTED, VERTICAL = 1024, 1025, 2048, 3072, 4096
"""The GeoTIFF keys of the kind of coordinates, and of the codes of EPSG."""
IS_PROJECTED, IS_GEOGRAPHIC = 1, 2
"""Values of the key `MODEL`; 3 is geocentric."""

_GEOGRAPHIC_UNIT, _PROJECTED_UNIT = 2054, 3076
_CITATIONS = (3073, 1026, 2049)
_UNITS = {9001: "metre", 9002: "foot", 9003: "US survey foot", 9036: "kilometre", 9102: "degree"}
_USER_DEFINED = 32767
_WORD = re.compile(r'"((?:[^"]|"")*)"|([^\s\[\](),"]+)|([\[(])|([\])])')
_COMPOUND = ("COMPD_CS", "COMPOUNDCRS")
_VERTICAL = ("VERT_CS", "VERTCRS", "VERTICALCRS")
_IS_GEOGRAPHIC = {"GEOGCS": True, "GEOGCRS": True, "GEOGRAPHICCRS": True, "PROJCS": False, "PROJCRS": False,
                  "PROJECTEDCRS": False, "GEOCCS": False}
_HORIZONTAL = (*_IS_GEOGRAPHIC, "GEODCRS", "GEODETICCRS", "LOCAL_CS", "ENGCRS", "BOUNDCRS")
_DEEPEST = 50

Value = Union[int, str, float]


@dataclass(frozen=True)
class CrsRecord:
    """What the VLRs say of the CRS. What they do not say, or what has no code, is None."""

    source: str
    """`GeoTIFF keys` or `WKT`."""
    epsg: Optional[int] = None
    """The EPSG code of the horizontal CRS."""
    vertical: Optional[int] = None
    """The EPSG code of the vertical CRS."""
    name: Optional[str] = None
    unit: Optional[str] = None
    """The unit of x and y."""
    wkt: Optional[str] = None
    is_geographic: Optional[bool] = None
    """Whether x and y are angles."""


def text_of(data: bytes) -> str:
    """Text of a field: up to the first zero, as UTF-8 if it is, else as Latin-1."""
    data = data.split(b"\0", 1)[0]
    try:
        return data.decode().strip()
    except UnicodeDecodeError:
        return data.decode("latin-1").strip()


def payloads_of(vlrs: Sequence[Vlr]) -> dict[int, bytes]:
    """The payloads of the VLRs of `LASF_Projection`, by record ID; of two with one ID, that of the first."""
    return {vlr.record_id: vlr.payload for vlr in reversed(vlrs) if text_of(vlr.user_id) == USER_ID}


def _geo_keys(records: Mapping[int, bytes]) -> dict[int, Value]:
    """The values of the GeoTIFF keys, by number: numbers and texts. What does not fit its VLR is left out."""
    data = records.get(KEYS, b"")
    keys: dict[int, Value] = {}
    count = struct.unpack_from("<H", data, 6)[0] if len(data) >= 8 else 0
    for number in range(min(count, (len(data) - 8) // 8)):
        key, place, length, value = struct.unpack_from("<4H", data, 8 + 8 * number)
        if place == 0:
            keys[key] = value
        elif place == ASCII and length and value + length <= len(records.get(ASCII, b"")):
            keys[key] = text_of(records[ASCII][value:value + length]).rstrip("|")
        elif place == DOUBLES and length == 1 and 8 * value + 8 <= len(records.get(DOUBLES, b"")):
            keys[key] = struct.unpack_from("<d", records[DOUBLES], 8 * value)[0]
    return keys


def _code(value: Optional[Value]) -> Optional[int]:
    """The EPSG code that a key holds: not 0, which is undefined, and not 32767, which the file defines itself."""
    return value if isinstance(value, int) and value not in (0, _USER_DEFINED) else None


def _from_keys(records: Mapping[int, bytes]) -> Optional[CrsRecord]:
    keys = _geo_keys(records)
    if not keys:
        return None
    # the geographic CRS below a projected one that the file defines itself is not that of x and y
    projected = bool(keys.get(PROJECTED)) or keys.get(MODEL) == IS_PROJECTED
    code = _code(keys.get(PROJECTED if projected else GEOGRAPHIC))
    unit = keys.get(_PROJECTED_UNIT if projected else _GEOGRAPHIC_UNIT)
    name = next((text for text in map(keys.get, _CITATIONS) if isinstance(text, str) and text), None)
    geographic = None if code is None else not projected and keys.get(MODEL) in (None, 0, IS_GEOGRAPHIC)
    return CrsRecord("GeoTIFF keys", code, _code(keys.get(VERTICAL)), name,
                     _UNITS.get(unit) if isinstance(unit, int) else None, None, geographic)


class Node:
    """A part of a WKT: a word, texts and numbers, and parts inside."""

    def __init__(self, word: str) -> None:
        self.word = word.upper()
        self.values: list[str] = []
        self.nodes: list[Node] = []

    @property
    def name(self) -> str:
        """The first text."""
        return self.values[0] if self.values else ""

    @property
    def epsg(self) -> Optional[int]:
        """The code of EPSG that the part itself has."""
        for node in self.nodes:
            if node.word in ("AUTHORITY", "ID") and len(node.values) > 1 and node.values[0].upper() == "EPSG":
                return int(node.values[1]) if re.fullmatch(r"[0-9]{1,9}", node.values[1]) else None
        return None

    def first(self, words: tuple[str, ...]) -> Optional[Node]:
        """The first part inside that begins with one of these words."""
        return next((node for node in self.nodes if node.word in words), None)


def parsed(text: str) -> Optional[Node]:
    """The outermost part of a WKT; None if the text is none."""
    root = Node("")
    inside, last = [root], ""
    for found in _WORD.finditer(text):
        quoted, word, opens, closes = found.groups()
        if opens:
            if last:  # the word before a bracket is the name of the part, and no value
                inside[-1].values.pop()
            node, last = Node(last), ""
            inside[-1].nodes.append(node)
            inside.append(node)
            if len(inside) > _DEEPEST:
                return None
        elif closes:
            if len(inside) == 1:
                return None
            inside.pop()
            last = ""
        else:
            last = quoted.replace('""', '"') if quoted is not None else word
            inside[-1].values.append(last)
    return root.nodes[0] if root.nodes and len(inside) == 1 else None


def of_wkt(text: str) -> CrsRecord:
    """What well-known text says. Of a text that can't be parsed nothing is known but the text."""
    root = parsed(text)
    if root is None:
        return CrsRecord("WKT", wkt=text)
    horizontal = root.first(_HORIZONTAL) if root.word in _COMPOUND else root
    vertical = root.first(_VERTICAL)
    if horizontal is None:
        return CrsRecord("WKT", None, vertical.epsg if vertical else None, root.name or None, None, text)
    unit = horizontal.first(("UNIT", "LENGTHUNIT"))
    return CrsRecord("WKT", horizontal.epsg, vertical.epsg if vertical else None, root.name or None,
                     unit.name if unit else None, text, _IS_GEOGRAPHIC.get(horizontal.word))


def read_crs(records: Mapping[int, bytes], encoding: int) -> Optional[CrsRecord]:
    """The CRS that a head names, by the payloads that `payloads_of` gives, or None if it names none. If a head
    has both GeoTIFF keys and WKT, the bit of the global encoding decides.
    """
    text = text_of(records.get(WKT, b""))
    by_wkt, by_keys = of_wkt(text) if text else None, _from_keys(records)
    return (by_wkt or by_keys) if encoding & WKT_BIT else (by_keys or by_wkt)
