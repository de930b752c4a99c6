#!/usr/bin/env python3
"""Times the Python package beside the program: checks/python_times.py PROGRAM LIBRARY [ROUNDS] prints, for one thread
and for four, how many times as long `read`, `chunks` and `create` take as `las laszip` both ways, in processor time.

The files are 2,000,000 points of format 1 in chunks of 50,000, on a file system in memory. Each round runs all in
turns; the least of each counts, since other work on the machine only adds to it. The median tells how much it added.
"""
from __future__ import annotations

import os
import resource
import statistics
import subprocess
import sys
import tempfile
from pathlib import Path

TOP = Path(__file__).resolve().parent.parent
POINTS = 2_000_000
CALL = """import resource, sys
sys.path.insert(0, sys.argv[1])
import balsamvise, numpy
call, threads = sys.argv[2], int(sys.argv[3])
points = balsamvise.read("m.las") if call == "create" else None
balsamvise.open("m.laz").close()
before = resource.getrusage(resource.RUSAGE_SELF)
if call == "read":
    kept = balsamvise.read("m.laz", threads)
elif call == "chunks":
    with balsamvise.open("m.laz") as file:
        for part in file.chunks(500_000, threads=threads):
            pass
else:
    with balsamvise.create("b.laz", points.head, threads=threads) as out:
        for start in range(0, len(points), 500_000):
            out.write(points[start:start + 500_000])
after = resource.getrusage(resource.RUSAGE_SELF)
print(after.ru_utime + after.ru_stime - before.ru_utime - before.ru_stime)
"""


def of_program(folder: str, *words: str) -> float:
    before = resource.getrusage(resource.RUSAGE_CHILDREN)
    subprocess.run(words, cwd=folder, check=True, stdin=subprocess.DEVNULL, stdout=subprocess.DEVNULL)
    after = resource.getrusage(resource.RUSAGE_CHILDREN)
    return after.ru_utime + after.ru_stime - before.ru_utime - before.ru_stime


def of_call(folder: str, library: str, call: str, threads: str) -> float:
    line = [sys.executable, "-c", CALL, str(TOP / "python" / "src"), call, threads]
    environment = {**os.environ, "BALSAMVISE_LIBRARY": library, "PYTHONDONTWRITEBYTECODE": "1"}
    return float(subprocess.run(line, cwd=folder, check=True, env=environment, stdout=subprocess.PIPE).stdout)


def main() -> int:
    if len(sys.argv) not in (3, 4):
        sys.exit("usage: checks/python_times.py PROGRAM LIBRARY [ROUNDS]")
    program, library = (os.path.abspath(word) for word in sys.argv[1:3])
    rounds = int(sys.argv[3]) if len(sys.argv) == 4 else 10
    with tempfile.TemporaryDirectory(dir="/dev/shm") as folder:
        of_program(folder, program, "make", "-o", "m.las", "-z", "m.laz", "-points", str(POINTS), "-seed", "7",
                   "-format", "1")
        for threads in ("1", "4"):
            found: dict[str, list[float]] = {}
            for _ in range(rounds):
                for name, words in (("unpacking", ["-i", "m.laz", "-o", "a.las"]),
                                    ("packing", ["-i", "m.las", "-o", "a.laz"])):
                    found.setdefault(name, []).append(of_program(folder, program, "laszip", *words, "-cores", threads))
                for call in ("read", "chunks", "create"):
                    found.setdefault(call, []).append(of_call(folder, library, call, threads))
            for call, beside in (("read", "unpacking"), ("chunks", "unpacking"), ("create", "packing")):
                least, other = min(found[call]), min(found[beside])
                middle = statistics.median(found[call]) / statistics.median(found[beside])
                print(f"{threads} threads, {call}: {least * 1000:.0f} ms, {beside} {other * 1000:.0f} ms, "
                      f"{least / other:.2f} times; of the medians {middle:.2f}", flush=True)
    return 0


if __name__ == "__main__":
    sys.exit(main())
