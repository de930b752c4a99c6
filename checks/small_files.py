#!/usr/bin/env python3
"""Times how small files are read: checks/small_files.py PROGRAM FOLDER [ROUNDS] prints how many times as long it takes
to open and read tiles of 20,000 points, by the Python package and by a reader in C, as `laz_c_unpack` of their chunks
in memory. FOLDER has the library, as release/library makes it.

The tiles are of format 1, on a file system in memory. Each round takes each tile both ways, one after the other, by one
thread and in processor time. The least time of each tile counts, since other work on the machine only adds to it.
"""
from __future__ import annotations

import os
import subprocess
import sys
import tempfile
from pathlib import Path

TOP = Path(__file__).resolve().parent.parent
POINTS = 20_000
CALL = """import sys, time
sys.path.insert(0, sys.argv[1])
import balsamvise, numpy
from balsamvise import library
chunks, records = [], None
for name in sys.argv[3:]:
    with balsamvise.open(name) as file:
        chunk, = file.packed_chunks()
        chunks.append(chunk.data())
        records = numpy.empty(len(file), file.dtype)
        layout = file.head.format, file.head.extra
least = [[2**63, 2**63] for _ in chunks]
for _ in range(int(sys.argv[2])):
    for name, data, times in zip(sys.argv[3:], chunks, least):
        begun = time.process_time_ns()
        library.unpack(*layout, data, len(records), records)
        between = time.process_time_ns()
        points = balsamvise.read(name)
        ended = time.process_time_ns()
        assert points.tobytes() == records.tobytes()
        times[:] = min(times[0], between - begun), min(times[1], ended - between)
print(*(sum(column) / len(least) / 1000 for column in zip(*least)))
"""


def make_tiles(program: str, folder: Path, count: int) -> list[str]:
    """Packed files of one chunk."""
    names = []
    for number in range(count):
        names.append(str(folder / f"{number}.laz"))
        subprocess.run([program, "make", "-o", folder / "plain", "-z", names[-1], "-points", str(POINTS), "-seed",
                        str(number), "-format", "1"], check=True, stdout=subprocess.DEVNULL)
    return names


def of_python(library: Path, tiles: list[str], rounds: int) -> tuple[float, float]:
    """The microseconds that a tile takes to unpack in memory, and to read by the package."""
    environment = {**os.environ, "BALSAMVISE_LIBRARY": str(library), "PYTHONDONTWRITEBYTECODE": "1"}
    line = [sys.executable, "-c", CALL, str(TOP / "python" / "src"), str(rounds), *tiles]
    return _two(subprocess.run(line, check=True, env=environment, stdout=subprocess.PIPE).stdout)


def of_c(library: Path, folder: Path, tiles: list[str], rounds: int) -> tuple[float, float]:
    """The same of a reader in C, by a program that is made in a folder."""
    program = folder / "small_files"
    subprocess.run(["cc", "-O2", "-std=c11", f"-I{TOP / 'c'}", TOP / "checks" / "small_files.c", f"-L{library}",
                    "-llaz", f"-Wl,-rpath,{library}", "-o", program], check=True)
    return _two(subprocess.run([program, str(rounds), *tiles], check=True, stdout=subprocess.PIPE).stdout)


def _two(line: bytes) -> tuple[float, float]:
    unpacking, reading = map(float, line.split())
    return unpacking, reading


def main() -> int:
    if len(sys.argv) not in (3, 4):
        sys.exit("usage: checks/small_files.py PROGRAM FOLDER [ROUNDS]")
    program, library = os.path.abspath(sys.argv[1]), Path(sys.argv[2]).resolve()
    rounds = int(sys.argv[3]) if len(sys.argv) == 4 else 20
    with tempfile.TemporaryDirectory(dir="/dev/shm") as name:
        tiles = make_tiles(program, Path(name), 50)
        for kind, (unpacking, reading) in (("Python", of_python(library, tiles, rounds)),
                                           ("C", of_c(library, Path(name), tiles, rounds))):
            print(f"{kind}: {unpacking:.0f} us unpacking, {reading:.0f} us reading, {reading / unpacking:.3f} times")
    return 0


if __name__ == "__main__":
    sys.exit(main())
