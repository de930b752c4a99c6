"""Variable-length records of a head."""
from __future__ import annotations

import struct
from dataclasses import dataclass
from typing import Any, Iterable

VLR = struct.Struct("<H16sHH32s")

NAMES = {
    (b"LASF_Projection", 2111): "OGC math transform WKT", (b"LASF_Projection", 2112): "OGC coordinate system WKT",
    (b"LASF_Projection", 34735): "GeoKeyDirectoryTag", (b"LASF_Projection", 34736): "GeoDoubleParamsTag",
    (b"LASF_Projection", 34737): "GeoAsciiParamsTag", (b"LASF_Spec", 0): "Classification lookup",
    (b"LASF_Spec", 3): "Text area description", (b"LASF_Spec", 4): "Extra Bytes", (b"LASF_Spec", 7): "Superseded",
    (b"laszip encoded", 22204): "laszip",
}
"""The names that the LAS specification gives records, by their user IDs and record IDs."""


@dataclass(frozen=True)
class Vlr:
    """A variable-length record."""

    user_id: bytes
    """The user ID: at most 16 bytes, zeros at the end left out."""
    record_id: int
    """The record ID: 0 to 65535."""
    payload: bytes = b""
    """What the record holds: at most 65535 bytes."""
    description: bytes = b""
    """The description: at most 32 bytes, zeros at the end left out."""
    reserved: int = 0
    """The number before the user ID: 0, or AABB in hexadecimal digits in old files."""

    @classmethod
    def of_bytes(cls, data: bytes) -> Vlr:
        """A record as it stands in a file."""
        reserved, user_id, record_id, length, description = VLR.unpack_from(data)
        payload = data[VLR.size:VLR.size + length]
        return cls(user_id.rstrip(b"\0"), record_id, payload, description.rstrip(b"\0"), reserved)

    def to_bytes(self) -> bytes:
        """The record as it stands in a file."""
        if len(self.user_id) > 16 or len(self.description) > 32 or len(self.payload) > 65535:
            raise ValueError("a VLR is longer than its fields allow")
        if not 0 <= self.record_id <= 65535:
            raise ValueError(f"the record ID of a VLR is {self.record_id}, and not 0 to 65535")
        return VLR.pack(self.reserved, self.user_id, self.record_id, len(self.payload), self.description) + self.payload

    @property
    def name(self) -> str:
        """The name that the LAS specification gives it; empty for records of others."""
        return NAMES.get((self.user_id, self.record_id), "")

    def __repr__(self) -> str:
        name = self.name or self.description.decode("latin-1")
        user = self.user_id.decode("latin-1")
        return f"<Vlr {user!r} {self.record_id}, {len(self.payload)} bytes{': ' * bool(name)}{name}>"


def _refused(*words: Any, **more: Any) -> Any:
    raise TypeError("the VLRs of a head do not change: head.changed(vlrs=[*head.vlrs, ...]) gives another head")


class Vlrs(list[Vlr]):
    """The variable-length records of a head, in order. It is a list that can't be changed."""

    append = extend = insert = remove = pop = clear = sort = reverse = _refused
    __setitem__ = __delitem__ = __iadd__ = __imul__ = _refused

    def __init__(self, vlrs: Iterable[Vlr] = ()) -> None:
        super().__init__(vlrs)

    def __reduce__(self) -> Any:
        return Vlrs, (list(self),)

    def __getitem__(self, key: Any) -> Any:
        """A record by its place, or the first one by its user ID, as text or bytes, and its record ID."""
        if not isinstance(key, tuple):
            return super().__getitem__(key)
        found = self.get(*key)
        if found is None:
            raise KeyError(f"there is no VLR {key[0]!r} {key[1]}")
        return found

    def get(self, user_id: bytes | str, record_id: int) -> Vlr | None:
        """The first record with these IDs, or None."""
        user = user_id.encode() if isinstance(user_id, str) else user_id
        return next((vlr for vlr in self if (vlr.user_id, vlr.record_id) == (user, record_id)), None)

    @property
    def names(self) -> list[str]:
        """The names of the records, as the LAS specification has them; empty for those of others."""
        return [vlr.name for vlr in self]
