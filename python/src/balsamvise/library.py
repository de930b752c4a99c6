"""The calls of las.h, each with its answer turned into a result or an error."""
from __future__ import annotations

import ctypes
import os
import sys
from array import array
from typing import NamedTuple

import numpy as np

from .arrays import Array
from .errors import LibraryMissing, ProcessorTooOld, Refused

VARIABLE = "BALSAMVISE_LIBRARY"
"""The environment variable that names the shared library, or the folder that has it."""

CPUINFO = "/proc/cpuinfo"
"""Where the kernel names the parts of the processor."""

V2_FLAGS = frozenset("cx16 lahf_lm popcnt sse4_1 sse4_2 ssse3".split())
"""What the kernel calls the parts of x86-64-v2."""

V3_FLAGS = frozenset("abm avx avx2 bmi1 bmi2 cx16 f16c fma lahf_lm movbe popcnt sse4_1 sse4_2 ssse3 xsave".split())
"""What the kernel calls the parts of x86-64-v3."""

FRONT = 227
MAX_PAYLOAD = 58
KEPT_ROOM = 2**22
"""More than what unpacking a chunk takes: 1.2 MB, and its bytes."""
COUNTED = 2**32 - 1
"""The chunk size of a file whose chunk table has a number of points for each chunk."""

DONE, NO_MEMORY, BAD, WRONG = range(4)


class RawHead(ctypes.Structure):
    """`struct laz_head`."""

    _fields_ = [
        ("refusal", ctypes.c_uint32), ("offset", ctypes.c_uint32), ("points", ctypes.c_uint32),
        ("chunk", ctypes.c_uint32), ("vlr_count", ctypes.c_uint32), ("laszip_start", ctypes.c_uint32),
        ("laszip_length", ctypes.c_uint16), ("header_size", ctypes.c_uint16), ("record_length", ctypes.c_uint16),
        ("extra", ctypes.c_uint16), ("minor", ctypes.c_uint8), ("format", ctypes.c_uint8),
    ]


def _flags() -> frozenset[str]:
    """The parts of the processor that the kernel names; none if it does not tell."""
    try:
        with open(CPUINFO, encoding="ascii", errors="replace") as file:
            return frozenset(next((line for line in file if line.startswith("flags")), "").split())
    except OSError:
        return frozenset()


def _runs_v3() -> bool:
    """Whether the processor runs programs for x86-64-v3."""
    return _flags() >= V3_FLAGS


def check_processor() -> None:
    """Raises `ProcessorTooOld` if the kernel tells of a processor that can't run the library."""
    flags = _flags()
    if flags and not flags >= V2_FLAGS:
        lacks = ", ".join(sorted(V2_FLAGS - flags))
        raise ProcessorTooOld("balsamvise needs a processor of x86-64-v2 or later, as most are since 2009: this "
                              f"one has no {lacks}")


def _in_folder(folder: str) -> list[str]:
    """The libraries in a folder, the one that suits the processor best first, as the dynamic loader looks for them."""
    levels = [os.path.join("glibc-hwcaps", "x86-64-v3")] if _runs_v3() else []
    places = [os.path.join(folder, level, "liblaz.so") for level in [*levels, ""]]
    return [place for place in places if os.path.exists(place)]


def _places() -> list[str]:
    """Where the library may be, in the order in which it is looked for; last, where the loader finds its soname."""
    named = os.environ.get(VARIABLE)
    if named:
        return (_in_folder(named) or [os.path.join(named, "liblaz.so")]) if os.path.isdir(named) else [named]
    folders = [os.path.dirname(os.path.abspath(__file__))]
    folders += [os.path.join(prefix, "lib") for prefix in (sys.prefix, "/usr/local", "/usr")]
    return [place for folder in folders for place in _in_folder(folder)] + ["liblaz.so.1"]


def _declared(library: ctypes.CDLL) -> ctypes.CDLL:
    u8, u16, u32, u64 = ctypes.c_uint8, ctypes.c_uint16, ctypes.c_uint32, ctypes.c_uint64
    size, pointer = ctypes.c_size_t, ctypes.c_void_p
    number, length = ctypes.POINTER(u32), ctypes.POINTER(size)
    declarations = {
        "laz_c_need": (u32, pointer, size, u64, number, number),
        "laz_c_head": (u32, pointer, size, u64, ctypes.POINTER(RawHead)),
        "laz_c_chunks": (u32, pointer, size, u32, u32),
        "laz_c_table": (u32, pointer, size, u32, u32, u64, pointer, size, pointer, size, number),
        "laz_c_room": (u64, u8, u16, u32),
        "laz_c_unpack": (u32, u8, u16, pointer, size, u32, pointer, size),
        "laz_c_pack": (u32, u8, u16, pointer, size, pointer, size, length),
        "laz_c_vlr": (u32, u8, u16, u32, pointer, size, length),
        "laz_c_table_room": (u64, u32),
        "laz_c_table_of": (u32, pointer, size, pointer, size, pointer, size, length),
    }
    for name, (result, *arguments) in declarations.items():
        call = getattr(library, name)
        call.restype = result
        call.argtypes = arguments
    return library


def _load() -> ctypes.CDLL:
    if sys.byteorder != "little" or ctypes.sizeof(ctypes.c_size_t) != 8:
        raise LibraryMissing("balsamvise runs on machines of 64 bits that store the lowest byte first")
    failed = []
    for place in _places():
        try:
            return _declared(ctypes.CDLL(place))
        except (OSError, AttributeError) as error:
            failed.append(f"{place}: {error}")
    raise LibraryMissing(
        "the shared library liblaz.so of balsamvise was not found: name it in the environment variable "
        f"{VARIABLE}, or put it beside the package" + "".join(f"\n{line}" for line in failed)
    )


def _keep_rooms() -> None:
    """Has the C library keep the memory of a chunk for the next one, in place of giving it back to the system.

    glibc gives memory back at once until a block has been freed that is as large. None of this one is written.
    """
    np.empty(KEPT_ROOM, np.uint8)


_library: ctypes.CDLL | None = None


def _calls() -> ctypes.CDLL:
    global _library
    if _library is None:
        _library = _load()
        _keep_rooms()
    return _library


def _address(array: Array) -> tuple[int, int]:
    """The place and the length, in bytes, of an array without gaps."""
    if not array.flags.c_contiguous:
        raise ValueError("the array has gaps")
    return array.ctypes.data, array.nbytes


def _bytes(data: bytes) -> tuple[bytes, int]:
    """What a call takes for a pointer and a length: ctypes hands on where the bytes are."""
    return data, len(data)


def _done(answer: int) -> bool:
    """Whether a call is done; False if it answers that the bytes are bad."""
    if answer == NO_MEMORY:
        raise MemoryError("out of memory in liblaz")
    if answer == WRONG:
        raise ValueError("liblaz takes no such arguments")
    return answer == DONE


def need(name: str, front: bytes, size: int) -> int:
    """How many bytes of a file of `size` bytes its head takes; `front` is its first 227 bytes."""
    offset, refusal = ctypes.c_uint32(), ctypes.c_uint32()
    answer = _calls().laz_c_need(*_bytes(front), size, ctypes.byref(offset), ctypes.byref(refusal))
    if not _done(answer):
        raise Refused(name, refusal.value)
    return offset.value


def read_head(name: str, data: bytes, size: int) -> RawHead:
    """What the head of a file of `size` bytes says; `data` is the bytes before its point data."""
    head = RawHead()
    if not _done(_calls().laz_c_head(*_bytes(data), size, ctypes.byref(head))):
        raise Refused(name, head.refusal)
    return head


class ChunkList(NamedTuple):
    """The chunks of a packed file, in order."""

    sizes: array[int]
    """The number of points of each chunk."""
    counts: array[int]
    """The number of bytes of each chunk."""


def read_table(name: str, data: bytes, chunk: int, points: int, total: int) -> ChunkList:
    """The chunks by the table that `data` begins with."""
    calls = _calls()
    count = calls.laz_c_chunks(*_bytes(data), chunk, points)
    sizes, counts = array("I", [0]) * count, array("I", [0]) * count
    refusal = ctypes.c_uint32()
    answer = calls.laz_c_table(*_bytes(data), chunk, points, total, *sizes.buffer_info(), *counts.buffer_info(),
                               ctypes.byref(refusal))
    if not _done(answer):
        raise Refused(name, refusal.value)
    return ChunkList(sizes, counts)


def table_room(chunks: int) -> int:
    """How many bytes are enough for a table of this many chunks."""
    return int(_calls().laz_c_table_room(chunks))


def unpack(format: int, extra: int, data: bytes, count: int, records: Array) -> bool:
    """Unpacks a chunk to `records`, an array without gaps; False if the chunk holds no `count` records."""
    return _done(_calls().laz_c_unpack(format, extra, *_bytes(data), count, *_address(records)))


def room_of(format: int, extra: int, count: int) -> int:
    """How many bytes are enough for a chunk of this many records."""
    return int(_calls().laz_c_room(format, extra, count))


def pack(format: int, extra: int, records: Array, room: Array | None = None) -> bytes:
    """The chunk of records, an array of structs without gaps. `room` is bytes to pack in, as many as `room_of` says."""
    calls = _calls()
    if room is None:
        room = np.empty(room_of(format, extra, len(records)), np.uint8)
    written = ctypes.c_size_t()
    _done(calls.laz_c_pack(format, extra, *_address(records), *_address(room), ctypes.byref(written)))
    return room[: written.value].tobytes()


def payload_of(format: int, extra: int, chunk: int) -> bytes:
    """The payload of the laszip VLR."""
    room = np.empty(MAX_PAYLOAD, np.uint8)
    written = ctypes.c_size_t()
    _done(_calls().laz_c_vlr(format, extra, chunk, *_address(room), ctypes.byref(written)))
    return room[: written.value].tobytes()


def table_of(counts: Array, sizes: Array | None = None) -> bytes:
    """The chunk table, by the numbers of bytes of the chunks, and their numbers of points if each has one of its own.
    """
    calls = _calls()
    room = np.empty(calls.laz_c_table_room(len(counts)), np.uint8)
    written = ctypes.c_size_t()
    given = (None, 0) if sizes is None else (sizes.ctypes.data, len(sizes))
    _done(calls.laz_c_table_of(*given, counts.ctypes.data, len(counts), *_address(room), ctypes.byref(written)))
    return room[: written.value].tobytes()
