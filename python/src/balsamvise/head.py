"""The head of a file: the public header block, the variable-length records and what follows up to the point data."""
from __future__ import annotations

import datetime
import struct
import uuid
from types import MappingProxyType
from typing import Any, Iterable, Mapping, Sequence

import numpy as np

from .arrays import Array
from . import crs as crs_module
from . import extra_bytes as extra_module
from .crs import Crs
from .crs_vlrs import WKT_BIT
from .extra_bytes import ExtraBytes
from .tally import Tally
from .vlrs import VLR, Vlr, Vlrs

_BLOCKS = (227, 227, 227, 235, 375)
_SIZES = (20, 28, 26, 34)
LASZIP = (b"laszip encoded\0\0", 22204)
"""The user ID and the record ID of the laszip VLR."""


def _padded(name: str, value: bytes | str, length: int) -> bytes:
    data = value.encode() if isinstance(value, str) else bytes(value)
    if len(data) > length:
        raise ValueError(f"{name} has {len(data)} bytes, and there is room for {length}")
    return data.ljust(length, b"\0")


def _checked_layout(format: int, extra: int, minor: int) -> None:
    if not 0 <= format <= 3 or not 0 <= extra <= 192 or not 0 <= minor <= 4:
        raise ValueError(f"no LAS 1.{minor}, point data format {format} with {extra} extra bytes is written here")


def _three(name: str, numbers: Sequence[float]) -> tuple[float, float, float]:
    x, y, z = (float(number) for number in numbers)
    if not all(np.isfinite((x, y, z))) or name == "scales" and 0 in (x, y, z):
        raise ValueError(f"{name} are three finite numbers, and scales are not 0")
    return x, y, z


class Head:
    """The head of a plain file, as bytes; of a packed file, without its laszip VLR.

    A head does not change: `changed` gives another one, with all else as it stands, byte for byte.
    """

    __slots__ = ("_data", "_found")
    _data: bytes
    _found: dict[str, Any]

    def __init__(self, data: bytes) -> None:
        object.__setattr__(self, "_data", data)
        object.__setattr__(self, "_found", {})

    def __setattr__(self, name: str, value: Any) -> None:
        raise AttributeError(f"a head does not change: head.changed({name}=...) gives another one")

    def __delattr__(self, name: str) -> None:
        raise AttributeError("a head does not change")

    def __reduce__(self) -> Any:
        return Head, (self._data,)

    @classmethod
    def new(cls, format: int, *, scales: Sequence[float] = (0.01, 0.01, 0.01), offsets: Sequence[float] = (0, 0, 0),
            extra: int = 0, minor: int = 2, vlrs: Iterable[Vlr] = (), software: bytes | str = b"balsamvise",
            **more: Any) -> Head:
        """A head of LAS 1.`minor` for records of a point data format, 0 to 3, with `extra` extra bytes each.

        `more` is what `changed` takes beside these.
        """
        _checked_layout(format, extra, minor)
        block = bytearray(_BLOCKS[minor])
        block[0:4] = b"LASF"
        struct.pack_into("<BB32s", block, 24, 1, minor, b"OTHER")
        struct.pack_into("<HIIBH", block, 94, len(block), len(block), 0, format, _SIZES[format] + extra)
        return cls(bytes(block)).changed(scales=scales, offsets=offsets, vlrs=vlrs, software=software, **more)

    @classmethod
    def of(cls, points: Array, **changes: Any) -> Head:
        """The head for these records: that of `Points`, or a new one for an array, with their counts and box.

        `changes` are what `changed` takes. Scales and offsets that differ give the records other coordinates:
        `Points.rescaled` keeps them.
        """
        from .points import layout_of

        format, extra = layout_of(points.dtype)
        head = getattr(points, "head", None) or cls.new(format, extra=extra)
        return head.changed(**changes).for_points(np.asarray(points), format, extra, True)

    def __repr__(self) -> str:
        lines = [f"<Head of LAS 1.{self.minor}, point data format {self.format}, {self.points} points"]
        lines += [f"  {axis} from {low:.12g} to {high:.12g}, scale {scale:g}, offset {offset:g}" for
                  axis, low, high, scale, offset in zip("xyz", self.mins, self.maxs, self.scales, self.offsets)]
        if self.extra:
            lines.append(f"  {self.extra} extra bytes: {', '.join(self.extra_bytes) or 'without names'}")
        lines += [f"  {vlr!r}" for vlr in self.vlrs[:8]]
        if len(self.vlrs) > 8:
            lines.append(f"  and {len(self.vlrs) - 8} more VLRs")
        if self.crs is not None:
            lines.append(f"  CRS {self.crs.epsg or str(self.crs)[:60]}")
        made = self.software.decode("latin-1")
        return "\n".join([*lines, f"  created {self.created or 'on an unknown day'} by {made!r}>"])

    def __eq__(self, other: object) -> bool:
        return isinstance(other, Head) and self._data == other._data

    def __hash__(self) -> int:
        return hash(self._data)

    def __bytes__(self) -> bytes:
        return bytes(self._data)

    def _number(self, form: str, at: int) -> int:
        return int(struct.unpack_from(form, self._data, at)[0])

    @property
    def minor(self) -> int:
        """The minor version: 0 to 4."""
        return int(self._data[25])

    @property
    def version(self) -> tuple[int, int]:
        """The version, as (1, 2)."""
        return self._data[24], self._data[25]

    @property
    def header_size(self) -> int:
        """The header size, in bytes."""
        return self._number("<H", 94)

    @property
    def offset(self) -> int:
        """The offset to the point data of the plain file, in bytes."""
        return len(self._data)

    @property
    def format(self) -> int:
        """The point data format: 0 to 3."""
        return int(self._data[104])

    @property
    def record_length(self) -> int:
        """The length of a point record, in bytes."""
        return self._number("<H", 105)

    @property
    def extra(self) -> int:
        """The number of extra bytes of a point record: 0 to 192."""
        return self.record_length - _SIZES[self.format]

    @property
    def points(self) -> int:
        """The number of points."""
        short = self._number("<I", 107)
        return self._number("<Q", 247) if self.minor == 4 and short == 0 else short

    @property
    def returns(self) -> tuple[int, ...]:
        """The numbers of points by return: of the returns 1 to 5, and for LAS 1.4 of 1 to 15."""
        form, at = ("<15Q", 255) if self.minor == 4 else ("<5I", 111)
        return struct.unpack_from(form, self._data, at)

    @property
    def scales(self) -> tuple[float, float, float]:
        """The scales of x, y and z."""
        return struct.unpack_from("<3d", self._data, 131)  # type: ignore[return-value]

    @property
    def offsets(self) -> tuple[float, float, float]:
        """The offsets of x, y and z."""
        return struct.unpack_from("<3d", self._data, 155)  # type: ignore[return-value]

    @property
    def mins(self) -> tuple[float, float, float]:
        """The least x, y and z, as the head has them."""
        return struct.unpack_from("<8xd8xd8xd", self._data, 179)  # type: ignore[return-value]

    @property
    def maxs(self) -> tuple[float, float, float]:
        """The greatest x, y and z, as the head has them."""
        return struct.unpack_from("<d8xd8xd", self._data, 179)  # type: ignore[return-value]

    @property
    def system_identifier(self) -> bytes:
        """What wrote the points, zeros at the end left out."""
        return bytes(self._data[26:58].rstrip(b"\0"))

    @property
    def software(self) -> bytes:
        """The generating software, zeros at the end left out."""
        return bytes(self._data[58:90].rstrip(b"\0"))

    @property
    def created(self) -> datetime.date | None:
        """The day on which the file was made; None if the head has no day of a year."""
        day, year = struct.unpack_from("<HH", self._data, 90)
        if not 1 <= year <= 9999 or not 1 <= day <= 366:
            return None
        date = datetime.date(year, 1, 1).toordinal() + day - 1
        return datetime.date.fromordinal(date) if date <= datetime.date.max.toordinal() else None

    @property
    def file_source_id(self) -> int:
        """The file source ID: 0 to 65535; the flight line, if the file is of one."""
        return self._number("<H", 4)

    @property
    def global_encoding(self) -> int:
        """The bits of the global encoding: 0 to 65535. Bit 0: times are GPS seconds less 10^9; bit 4: CRS as WKT."""
        return self._number("<H", 6)

    @property
    def project_id(self) -> uuid.UUID:
        """The project ID, a GUID."""
        return uuid.UUID(bytes_le=bytes(self._data[8:24]))

    def _places(self) -> list[tuple[int, int]]:
        places, at = [], self.header_size
        for _ in range(self._number("<I", 100)):
            end = at + VLR.size + self._number("<H", at + 20)
            places.append((at, end))
            at = end
        return places

    @property
    def vlrs(self) -> Vlrs:
        """The variable-length records, without the laszip VLR. `vlrs["LASF_Projection", 2112]` is one by its IDs."""
        if "vlrs" not in self._found:
            self._found["vlrs"] = tuple(Vlr.of_bytes(self._data[at:end]) for at, end in self._places())
        return Vlrs(self._found["vlrs"])

    @property
    def extra_bytes(self) -> Mapping[str, ExtraBytes]:
        """The named fields of extra bytes, as the Extra Bytes VLR describes them, by their names; to be read alone.

        `with_extra_bytes` and `without_extra_bytes` give other heads.
        """
        if "extra" not in self._found:
            self._found["extra"] = extra_module.by_name(self._described(), self.extra)
        return MappingProxyType(self._found["extra"])

    def _described(self) -> list[ExtraBytes]:
        vlr = self.vlrs.get(extra_module.USER_ID, extra_module.RECORD_ID)
        return extra_module.described(vlr.payload) if vlr else []

    @property
    def crs(self) -> Crs | None:
        """The coordinate reference system, if a VLR names one: `head.crs.epsg` is its number, `str(head.crs)` its text.
        """
        return crs_module.of_vlrs(self.vlrs, self.global_encoding)

    def changed(self, *, minor: int | None = None, format: int | None = None, extra: int | None = None,
                scales: Sequence[float] | None = None, offsets: Sequence[float] | None = None,
                vlrs: Iterable[Vlr] | None = None, crs: Any = None, software: bytes | str | None = None,
                system_identifier: bytes | str | None = None, created: datetime.date | None = None,
                file_source_id: int | None = None, global_encoding: int | None = None,
                project_id: uuid.UUID | None = None) -> Head:
        """This head with some of its fields changed.

        `minor` is the version, LAS 1.0 to 1.4. `scales` and `offsets` are three numbers each; the box stays as it
        stands, and what is written gets that of its points. `vlrs` are all variable-length records. `crs` is a `Crs`, a
        number of EPSG's list, well-known text, which stands in LAS 1.4 alone, or a `pyproj.CRS`. Texts have at most 32
        bytes, and `file_source_id` and `global_encoding` are 0 to 65535. It raises `ValueError` for what a head can't
        hold.
        """
        head = self if minor is None or minor == self.minor else self._in_version(minor)
        data = bytearray(head._data)
        head._put_layout(data, self.format if format is None else format, self.extra if extra is None else extra)
        for name, numbers, at in (("scales", scales, 131), ("offsets", offsets, 155)):
            if numbers is not None:
                struct.pack_into("<3d", data, at, *_three(name, numbers))
        for name, text, at in (("system_identifier", system_identifier, 26), ("software", software, 58)):
            if text is not None:
                data[at:at + 32] = _padded(name, text, 32)
        if created is not None:
            struct.pack_into("<HH", data, 90, created.timetuple().tm_yday, created.year)
        for name, number, at in (("file_source_id", file_source_id, 4), ("global_encoding", global_encoding, 6)):
            if number is not None:
                if not 0 <= number <= 65535:
                    raise ValueError(f"{name} is {number}, and not 0 to 65535")
                struct.pack_into("<H", data, at, number)
        if project_id is not None:
            data[8:24] = project_id.bytes_le
        made = Head(bytes(data))
        made = made if vlrs is None else made._with_vlrs(vlrs)
        return made if crs is None else made._with_crs(crs_module.crs_of(crs))

    def _put_layout(self, data: bytearray, format: int, extra: int) -> None:
        _checked_layout(format, extra, data[25])
        struct.pack_into("<BH", data, 104, format, _SIZES[format] + extra)

    def _in_version(self, minor: int) -> Head:
        """The head under another version, with its counts; bytes after the public header block follow it."""
        _checked_layout(self.format, self.extra, minor)
        points, returns = self.points, [*self.returns, *[0] * 15][:15]
        old, new = _BLOCKS[self.minor], _BLOCKS[minor]
        block = bytearray(self._data[:min(old, new)].ljust(new, b"\0"))
        more = self._data[old:]
        struct.pack_into("<BB", block, 24, 1, minor)
        struct.pack_into("<HI", block, 94, self.header_size - old + new, new + len(more))
        if points >= 2**32 or any(returns[5:]) and minor < 4:
            raise ValueError(f"LAS 1.{minor} has no room for the counts of this head")
        struct.pack_into("<6I", block, 107, points, *returns[:5])
        if minor == 4:
            struct.pack_into("<QI", block, 235, 0, 0)
            struct.pack_into("<16Q", block, 247, points, *returns)
        return Head(bytes(block) + more)

    def _with_vlrs(self, vlrs: Iterable[Vlr]) -> Head:
        """With these variable-length records in the place of all; what stands after them stays."""
        records = [vlr.to_bytes() for vlr in vlrs]
        places = self._places()
        end = places[-1][1] if places else self.header_size
        data = bytearray(self._data[:self.header_size] + b"".join(records) + self._data[end:])
        if len(data) > 2**24:
            raise ValueError(f"a head of {len(data)} bytes is not read here: at most {2**24}")
        struct.pack_into("<II", data, 96, len(data), len(records))
        return Head(bytes(data))

    def _with_crs(self, crs: Crs) -> Head:
        others = [vlr for vlr in self.vlrs if vlr.user_id != crs_module.USER_ID or
                  vlr.record_id not in crs_module.RECORD_IDS]
        user, encoding = crs_module.USER_ID, self.global_encoding
        if self.minor == 4 and crs.wkt:
            others.append(Vlr(user, crs_module.WKT, crs.wkt.encode() + b"\0", b"WKT of the CRS"))
            return self._with_vlrs(others).changed(global_encoding=encoding | WKT_BIT)
        if crs.epsg is None:
            raise ValueError("well-known text stands in LAS 1.4 alone, and this CRS has no number: use minor=4")
        others.append(Vlr(user, crs_module.KEYS, crs_module.keys_of(crs), b"GeoKeys of the CRS"))
        return self._with_vlrs(others).changed(global_encoding=encoding & ~WKT_BIT)

    def with_extra_bytes(self, field: ExtraBytes) -> Head:
        """With one more field of extra bytes, after all others, in the Extra Bytes VLR and in the record length."""
        if field.name in self.extra_bytes:
            raise ValueError(f"there is a field {field.name} already")
        payload = extra_module.with_more(self._described(), self.extra, field)
        return self.changed(extra=self.extra + field.size, vlrs=self._vlrs_with(payload))

    def without_extra_bytes(self, name: str) -> Head:
        """Without a named field of extra bytes; it raises `KeyError` if there is none of this name."""
        field = self.extra_bytes[name]
        payload = b"".join(it.data for it in self._described() if it.place != field.place)
        return self.changed(extra=self.extra - field.size, vlrs=self._vlrs_with(payload))

    def _vlrs_with(self, payload: bytes) -> list[Vlr]:
        """The variable-length records, with another payload of the Extra Bytes VLR, or without it for no bytes."""
        user, number = extra_module.USER_ID, extra_module.RECORD_ID
        there = self.vlrs.get(user, number)
        vlr = Vlr(user, number, payload, there.description if there else b"Extra Bytes Record")
        if there is None:
            return [*self.vlrs, vlr]
        return [vlr if it is there else it for it in self.vlrs if payload or it is not there]

    def for_points(self, points: Array, format: int, extra: int, bounds: bool) -> Head:
        """The head for these records: with their format and length, their counts, and their bounds if `bounds` is true.

        A bound that is right to the resolution of its scale stays as it is.
        """
        return self.counted(Tally.of(points), format, extra, bounds)

    def counted(self, tally: Tally, format: int, extra: int, bounds: bool) -> Head:
        """The head for records of a format of which these counts were taken."""
        data = bytearray(self._data)
        self._put_layout(data, format, extra)
        by_return = tally.returns
        short = self.minor < 4 or self._number("<I", 107) != 0 or self._number("<Q", 247) == 0
        struct.pack_into("<I", data, 107, tally.points if short else 0)
        struct.pack_into("<5I", data, 111, *(by_return[:5] if short else [0] * 5))
        if self.minor == 4:
            struct.pack_into("<Q", data, 247, tally.points)
            struct.pack_into("<15Q", data, 255, *by_return, *[0] * 8)
        if bounds and tally.points > 0:
            for axis in range(3):
                self._set_bound(data, 179 + 16 * axis, axis, tally.maxs[axis])
                self._set_bound(data, 187 + 16 * axis, axis, tally.mins[axis])
        return Head(bytes(data))

    def _set_bound(self, data: bytearray, at: int, axis: int, raw: int) -> None:
        (there,) = struct.unpack_from("<d", data, at)
        scale, offset = self.scales[axis], self.offsets[axis]
        bound = raw * scale + offset
        if not abs(there - bound) < abs(scale) / 2:
            struct.pack_into("<d", data, at, bound)

    def packed(self, payload: bytes) -> bytes:
        """The head of the packed file: with the laszip VLR of this payload after all other VLRs."""
        vlr = Vlr(*LASZIP, payload, b"laszip version 2 items").to_bytes()
        places = self._places()
        end = places[-1][1] if places else self.header_size
        data = bytearray(self._data[:end] + vlr + self._data[end:])
        struct.pack_into("<IIB", data, 96, self.offset + len(vlr), len(places) + 1, self.format | 128)
        return bytes(data)


def plain_head(data: bytes, start: int, length: int) -> Head:
    """The head of the plain file, out of that of a packed one, whose laszip VLR stands at `start`."""
    size = VLR.size + length
    plain = bytearray(data[:start] + data[start + size:])
    count = struct.unpack_from("<I", data, 100)[0]
    struct.pack_into("<IIB", plain, 96, len(data) - size, count - 1, data[104] & 127)
    return Head(bytes(plain))
