"""Cases for the coder, a chunk each, with what the shared library answers."""
import base64
import ctypes
import hashlib
import importlib.util
import random
from pathlib import Path
from typing import Any

from las_files import RECORD_SIZES, lidar
from programs import TOP

BYTES, LENGTH, SHORT, COUNT = ctypes.c_char_p, ctypes.c_size_t, ctypes.c_uint16, ctypes.c_uint32


def _causes() -> "tuple[str, ...]":
    """The names of the causes, as the package for Python has them; numpy is not needed for that."""
    path = TOP / "python" / "src" / "balsamvise" / "errors.py"
    spec = importlib.util.spec_from_file_location("balsamvise_errors", path)
    assert spec and spec.loader
    module = importlib.util.module_from_spec(spec)
    spec.loader.exec_module(module)
    return tuple(module.CAUSES)


CAUSES = _causes()


def shared_library(path: Path) -> ctypes.CDLL:
    library = ctypes.CDLL(str(path))
    library.laz_c_unpack.argtypes = [ctypes.c_uint8, SHORT, BYTES, LENGTH, COUNT, BYTES, LENGTH]
    library.laz_c_pack.argtypes = [ctypes.c_uint8, SHORT, BYTES, LENGTH, BYTES, LENGTH, ctypes.POINTER(LENGTH)]
    library.laz_c_room.restype = ctypes.c_uint64
    library.laz_c_room.argtypes = [ctypes.c_uint8, SHORT, COUNT]
    return library


def _spoilt(good: bytes, count: int, kind: int, choose: random.Random) -> "tuple[bytes, int]":
    """The bytes of a chunk, changed, and the number of points that is asked for."""
    bad = bytearray(good)
    if kind == 1:
        del bad[choose.randrange(len(bad)):]
    elif kind == 2:
        bad[choose.randrange(len(bad))] ^= 1 << choose.randrange(8)
    elif kind == 3:
        bad += bytes(choose.randrange(1, 9))
    elif kind == 4:
        for _ in range(5):
            bad[choose.randrange(len(bad))] = choose.randrange(256)
    elif kind == 5:
        count = max(1, count + choose.choice([-1, 1, 2]))
    return bytes(bad), count


def _packed(library: ctypes.CDLL, format_: int, extra: int, plain: bytes, count: int) -> bytes:
    room, written = library.laz_c_room(format_, extra, count), LENGTH()
    chunk = ctypes.create_string_buffer(room)
    assert library.laz_c_pack(format_, extra, plain, len(plain), chunk, room, ctypes.byref(written)) == 0
    return chunk.raw[:written.value]


def _sum(data: bytes) -> str:
    return hashlib.sha256(data).hexdigest()


def cases(library: ctypes.CDLL, most: int) -> "tuple[list[dict[str, Any]], list[list[Any]]]":
    """Cases for the command `replay` of web_cases.mjs, and what the library answers to each."""
    choose = random.Random(7)
    rows: list[dict[str, Any]] = []
    answers: list[list[Any]] = []
    while len(rows) < most:
        format_, extra, count = choose.randrange(4), choose.choice([0, 0, 1, 5, 192]), choose.choice([1, 2, 3, 40, 200])
        length, start = RECORD_SIZES[format_] + extra, choose.randrange(300)
        plain = b"".join(lidar(format_, extra, start + count)[start:])
        if choose.random() < 0.3:
            plain = choose.randbytes(len(plain))
        good = _packed(library, format_, extra, plain, count)
        case = {"form": format_, "extra": extra}
        rows.append({**case, "op": "pack", "data": base64.b64encode(plain).decode(), "count": count})
        answers.append([0, _sum(good)])
        for kind in [0, *[1, 2, 3, 4, 5] * 3]:
            bad, asked = _spoilt(good, count, kind, choose)
            got = ctypes.create_string_buffer(asked * length)
            answer = library.laz_c_unpack(format_, extra, bad, len(bad), asked, got, asked * length)
            rows.append({**case, "op": "unpack", "data": base64.b64encode(bad).decode(), "count": asked})
            answers.append([answer, _sum(got.raw) if answer == 0 else ""])
    return rows, answers
