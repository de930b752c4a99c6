"""Extra bytes of point records, as the Extra Bytes VLR describes them."""
from __future__ import annotations

import struct
from dataclasses import dataclass
from typing import Any, Iterable, Mapping

import numpy as np

from .arrays import Array, DType
from .fields import Field, Scaled

USER_ID, RECORD_ID = b"LASF_Spec", 4
"""The user ID and the record ID of the Extra Bytes VLR."""
LENGTH = 192
"""The length of the description of one field."""

_TYPES = ("u1", "i1", "<u2", "<i2", "<u4", "<i4", "<u8", "<i8", "<f4", "<f8")
_NO_DATA, _SCALED, _OFFSET = 1, 8, 16


def _text(data: bytes) -> str:
    """A text that ends with the first zero."""
    data = data.partition(b"\0")[0]
    try:
        return data.decode("utf-8")
    except UnicodeDecodeError:
        return data.decode("latin-1")


@dataclass(frozen=True)
class ExtraBytes:
    """One field of extra bytes."""

    data: bytes
    """The 192 bytes that describe it."""
    place: int
    """Where it begins among the extra bytes of a record."""

    @classmethod
    def new(cls, name: str, type: Any, *, scale: float | None = None, offset: float | None = None,
            description: str = "", no_data: float | None = None) -> ExtraBytes:
        """A field of this name and type of numpy, at no place yet. With a scale or an offset it is scaled."""
        dtype = np.dtype(type).newbyteorder("<")
        numbers = {np.dtype(it): number for number, it in enumerate(_TYPES, 1)}
        if dtype not in numbers:
            raise ValueError(f"a field of extra bytes has no type {dtype}: it is one of {', '.join(_TYPES)}")
        words, said = name.encode(), description.encode()
        if not 1 <= len(words) <= 32 or b"\0" in words or len(said) > 32:
            raise ValueError("a field of extra bytes has a name of 1 to 32 bytes, and a description of at most 32")
        data = bytearray(LENGTH)
        options = _SCALED * (scale is not None) | _OFFSET * (offset is not None) | _NO_DATA * (no_data is not None)
        struct.pack_into("<BB32s", data, 2, numbers[dtype], options, words)
        if no_data is not None:
            form = {"u": "<Q", "i": "<q", "f": "<d"}[dtype.kind]
            struct.pack_into(form, data, 40, no_data if form == "<d" else int(no_data))
        struct.pack_into("<d16xd", data, 112, 1.0 if scale is None else scale, 0.0 if offset is None else offset)
        struct.pack_into("<32s", data, 160, said)
        return cls(bytes(data), 0)

    @classmethod
    def unnamed(cls, length: int) -> ExtraBytes:
        """So many bytes, at most 255, of which nothing is known."""
        return cls(struct.pack("<xxBB", 0, length) + bytes(LENGTH - 4), 0)

    def __repr__(self) -> str:
        scaled = "" if self.scale is None and self.offset is None else ", scaled"
        return f"<ExtraBytes {self.name!r}: {self.dtype} at byte {self.place}{scaled}>"

    @property
    def name(self) -> str:
        """Its name; it is empty for bytes of which nothing is known."""
        return _text(self.data[4:36])

    @property
    def description(self) -> str:
        """What is said of it."""
        return _text(self.data[160:192])

    @property
    def count(self) -> int:
        """How many numbers a record has of it: 1, or 2 or 3 by older descriptions; or its bytes, if it has no type."""
        kind = self.data[2]
        return self.data[3] if kind == 0 else (kind - 1) // 10 + 1

    @property
    def dtype(self) -> DType:
        """The type as it stands in a record."""
        kind = self.data[2]
        number = np.dtype("u1" if kind == 0 else _TYPES[(kind - 1) % 10])
        return number if self.count == 1 and kind else np.dtype((number, (self.count,)))

    @property
    def size(self) -> int:
        """How many bytes it takes in a record."""
        return self.dtype.itemsize

    @property
    def scale(self) -> tuple[float, ...] | None:
        """The scale of each number, or None."""
        return struct.unpack_from(f"<{self._numbers()}d", self.data, 112) if self._options() & _SCALED else None

    @property
    def offset(self) -> tuple[float, ...] | None:
        """The offset of each number, or None."""
        return struct.unpack_from(f"<{self._numbers()}d", self.data, 136) if self._options() & _OFFSET else None

    @property
    def no_data(self) -> float | int | None:
        """The stored number that stands for none, or None."""
        if not self._options() & _NO_DATA:
            return None
        form = {"u": "<Q", "i": "<q", "f": "<d"}[self.dtype.base.kind]
        found: float | int = struct.unpack_from(form, self.data, 40)[0]
        return found

    def _options(self) -> int:
        return self.data[3] if self.data[2] else 0

    def _numbers(self) -> int:
        return min(self.count, 3)

    def field(self, records: Array, start: int) -> Field | Scaled | Array:
        """The field of records whose extra bytes begin at `start`. Scaled fields of two or three numbers can only be
        read."""
        layout = np.dtype({"names": ["it"], "formats": [self.dtype], "offsets": [start + self.place],
                           "itemsize": records.dtype.itemsize})
        array = records.view(layout)["it"]
        if self.scale is None and self.offset is None:
            return Field(array, self.name)
        scale, offset = self.scale or (1.0,) * self.count, self.offset or (0.0,) * self.count
        if self.count == 1:
            return Scaled(self.name, array, scale[0], offset[0])
        values: Array = array * np.array(scale) + np.array(offset)
        values.flags.writeable = False
        return values


def described(payload: bytes) -> list[ExtraBytes]:
    """The fields that the payload of an Extra Bytes VLR describes, up to the first whose type is not known."""
    found: list[ExtraBytes] = []
    place = 0
    for at in range(0, len(payload) - LENGTH + 1, LENGTH):
        field = ExtraBytes(payload[at:at + LENGTH], place)
        if field.data[2] > 30:
            break
        found.append(field)
        place += field.size
    return found


def by_name(fields: Iterable[ExtraBytes], room: int) -> Mapping[str, ExtraBytes]:
    """The named fields that lie within the first `room` extra bytes; of two with one name, the first."""
    named: dict[str, ExtraBytes] = {}
    for field in fields:
        if field.name and 0 < field.size and field.place + field.size <= room:
            named.setdefault(field.name, field)
    return named


def with_more(fields: list[ExtraBytes], extra: int, field: ExtraBytes) -> bytes:
    """The payload that describes fields of `extra` bytes in all, and one more after them."""
    known = sum(it.size for it in fields)
    if known > extra:
        raise ValueError(f"the Extra Bytes VLR describes {known} bytes, and a record has {extra}")
    gap = [ExtraBytes.unnamed(extra - known)] if known < extra else []
    return b"".join(it.data for it in [*fields, *gap, field])
