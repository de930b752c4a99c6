"""The library, the C program over it, and plain and packed files of each layout to try it on."""
import gzip
import importlib
import os
import random
import re
import struct
from pathlib import Path
from typing import Any

import pytest

import commands
import needs
import shared
from las_files import RECORD_SIZES
from programs import TOP

EXTRAS = (0, 1, 4, 192)
LAYOUTS = [(format_, extra) for format_ in range(4) for extra in EXTRAS]
V3 = "glibc-hwcaps/x86-64-v3/liblaz.so"
RELEASED = {"liblaz.a": "liblaz.a", "liblaz.so": "liblaz.so", V3: "liblaz-x86-64-v3.so"}
SANITIZED = ["-std=c11", "-O1", "-g", "-Wall", "-Wextra", "-Wpedantic", "-Wconversion", "-Werror",
             "-fsanitize=address,undefined", "-fno-sanitize-recover=all", "-Wl,--wrap=malloc,--wrap=realloc"]


def as_built() -> bool:
    """Whether the library is to be built out of the crates as `rt ci` left them; else it is the released one, which
    `release/make --check` compares with what the crates give."""
    return bool(os.environ.get("LAS_AS_BUILT"))


def released() -> dict[str, bytes]:
    """The library of the release, by the names that release/library gives its files."""
    return {name: gzip.decompress((TOP / "release" / f"{packed}.gz").read_bytes()) for name, packed in RELEASED.items()}


def build(folder: Path) -> None:
    """Puts the library in a folder: built if it is to be, else that of the release."""
    if as_built():
        commands.good([TOP / "release" / "library", "--as-built", folder], timeout=5400)
        return
    for name, data in released().items():
        (folder / name).parent.mkdir(parents=True, exist_ok=True)
        (folder / name).write_bytes(data)
    major = (TOP / "help" / "version").read_text().partition(".")[0]
    for shared_library in ("liblaz.so", V3):
        os.symlink("liblaz.so", folder / f"{shared_library}.{major}")
    for name in ("las.h", "laz.hpp", "liblaz.pc.in"):
        (folder / name).write_bytes((TOP / "c" / name).read_bytes())


def library(tmp_path_factory: pytest.TempPathFactory) -> Path:
    return shared.once(tmp_path_factory, "lib", build)


def c_program(tmp_path_factory: pytest.TempPathFactory) -> Path:
    """c/check.c over liblaz.a, with sanitizers; or a program of it that LAS_C_PROGRAM names, of another system."""
    if os.environ.get("LAS_C_PROGRAM"):
        return Path(os.environ["LAS_C_PROGRAM"])
    needs.command("gcc", "gcc")
    there = library(tmp_path_factory)

    def make(folder: Path) -> None:
        commands.good(["gcc", *SANITIZED, f"-I{there}", TOP / "c" / "check.c", there / "liblaz.a", "-o",
                       folder / "check"])

    return shared.once(tmp_path_factory, "c_program", make) / "check"


def package(tmp_path_factory: pytest.TempPathFactory, patch: pytest.MonkeyPatch) -> Any:
    """The package for Python, over the shared library."""
    needs.module("numpy", "python3-numpy")
    patch.setenv("BALSAMVISE_LIBRARY", str(library(tmp_path_factory) / "liblaz.so"))
    patch.syspath_prepend(str(TOP / "python" / "src"))
    patch.setattr(importlib.import_module("balsamvise.library"), "_library", None)
    return importlib.import_module("balsamvise")


def plain_file(program: str, folder: Path, format_: int, extra: int) -> Path:
    """A plain file of 1,000 points that `las make` makes, with extra bytes that change from record to record."""
    made = folder / f"made{format_}.las"
    commands.good([program, "make", "-o", made, "-z", f"{made}.laz", "-points", "1000", "-seed", "7", "-format",
                   str(format_)])
    data = made.read_bytes()
    offset, size = struct.unpack_from("<I", data, 96)[0], RECORD_SIZES[format_]
    head = bytearray(data[:offset])
    struct.pack_into("<H", head, 105, size + extra)
    records = [data[at:at + size] + bytes((i * (k + 1) // 3) % 256 for k in range(extra))
               for i, at in enumerate(range(offset, len(data), size))]
    path = folder / f"{format_}_{extra}.las"
    path.write_bytes(bytes(head) + b"".join(records))
    return path


def plain_files(tmp_path_factory: pytest.TempPathFactory, program: str) -> Path:
    """A folder with a plain file of each layout, as `3_192.las` for format 3 and 192 extra bytes, its packed file
    `3_192.laz` in chunks of 256 points, and `3_192.counted.laz` in chunks of 1, 2, 3 and so on points."""
    check = c_program(tmp_path_factory)

    def make(folder: Path) -> None:
        for format_, extra in LAYOUTS:
            path = str(plain_file(program, folder, format_, extra))
            commands.good([program, "laszip", "-i", path, "-o", path[:-4] + ".laz", "-chunk_size", "256"])
            commands.good([check, "pack", path, path[:-4] + ".counted.laz", "0"])

    return shared.once(tmp_path_factory, "files", make)


def damaged(data: bytes, choose: random.Random) -> bytes:
    """A packed file with a change somewhere: most often in its chunks, else in the head or the table."""
    first = struct.unpack_from("<I", data, 96)[0]
    table = struct.unpack_from("<Q", data, first)[0]
    copy = bytearray(data)
    low, high = choose.choices([(first, table), (0, first), (table, len(data))], [8, 1, 1])[0]
    kind = choose.randrange(5)
    for _ in range(choose.choice([1, 1, 1, 2, 5])):
        at = choose.randrange(low, max(high, low + 1))
        if kind == 0:
            copy[at] ^= 1 << choose.randrange(8)
        elif kind == 1:
            copy[at] = choose.choice([0, 1, 127, 128, 255])
        elif kind == 2:
            del copy[at:at + choose.choice([1, 2, 20])]
        elif kind == 3:
            copy[at:at] = bytes(choose.randrange(256) for _ in range(choose.choice([1, 4])))
        else:
            copy[at:at + 8] = bytes(choose.randrange(256) for _ in range(8))
        high = min(high, len(copy))
        if low >= high:
            break
    return bytes(copy)


def blocks(language: str) -> list[str]:
    """The programs and lines of docs/library.md in a language."""
    page = (TOP / "docs" / "library.md").read_text()
    return re.findall(rf"^```{language}\n(.*?)^```$", page, re.MULTILINE | re.DOTALL)
