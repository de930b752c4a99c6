"""`make`: both files and the three lines, for each format and any number of workers."""
import struct

import pytest

import runs
from las_files import RECORD_SIZES, counted

pytestmark = pytest.mark.files


def made(points, seed, format_, extra):
    """The plain file that `make` writes."""
    state = seed

    def random():
        nonlocal state
        state = (state * 6364136223846793005 + 1442695040888963407) % 2**64
        return state >> 32

    records = []
    for k in range(points):
        a, b, c, d, e, f, g = (random() for _ in range(7))
        n = 1 + e % 4
        r = 1 + f % n
        point = struct.pack("<iiiHBBbBH", 10 * (k % 1000) + a % 16, 10 * (k // 1000) + b % 16, 5000 + c % 64, d % 4096,
                            r + 8 * n + 64 * (k // 1000 % 2), 1 + g % 6, 0, 0, 1)
        if format_ % 2 == 1:
            point += struct.pack("<Q", 2**62 + 40_000 * k)
        if format_ >= 2:
            h = random()
            point += struct.pack("<3H", 256 * (h % 256), 256 * (h // 256 % 256), 256 * (h % 256))
        records.append(point + bytes((k + j) % 256 for j in range(extra)))
    header = bytearray(227)
    header[0:4] = b"LASF"
    header[24:26] = bytes([1, 2])
    struct.pack_into("<HII", header, 94, 227, 227, 0)
    struct.pack_into("<BH", header, 104, format_, RECORD_SIZES[format_] + extra)
    header[131:155] = bytes.fromhex("7b14ae47e17a843f") * 3
    return counted(bytes(header), records) + b"".join(records)


LAYOUTS = [(0, 0, 0), (0, 0, 1), (0, 3, 3000), (1, 0, 3000), (2, 192, 1500), (3, 2, 3000)]


@pytest.mark.parametrize("format_, extra, points", LAYOUTS, ids=[
    f"{points} points of format {format_}, {extra} extra bytes" for format_, extra, points in LAYOUTS])
def test_files_and_lines(place, format_, extra, points):
    wanted, packed = made(points, points % 7, format_, extra), None
    for cores in ("1", "4"):
        run = place.las("make", "-points", str(points), "-seed", str(points % 7), "-format", str(format_), "-extra",
                        str(extra), "-o", "m.las", "-z", "m.laz", "-chunk_size", "700", "-cores", cores)
        packed = packed or place.read("m.laz")
        runs.ended(run, 0, out=f"points {points}\nplain {len(wanted)}\npacked {len(packed)}\n".encode())
        runs.holds(place, {"m.las": wanted, "m.laz": packed})
    runs.unpacks(place, "m.laz", wanted)


def test_200_000_points(place):
    run = place.las("make", "-points", "200000", "-seed", "7", "-format", "3", "-extra", "2", "-cores", "4", "-o",
                    "m.las", "-z", "m.laz")
    runs.ended(run, 0, out=None)
    assert b"\nplain 7200227\n" in run.stdout


def test_full_standard_output(place):
    with open("/dev/full", "wb") as full:
        run = place.las("make", "-points", "3", "-seed", "1", "-o", "m.las", "-z", "m.laz", stdout=full)
    assert (run.returncode, run.stderr) == (4, b"write fault\n")
    assert place.read("m.las") == made(3, 1, 0, 0)


WRONG = {
    "one name": (["-points", "3", "-o", "m", "-z", "m"], 2, b"usage: word 8\n"),
    "too many points": (["-points", "10000001"], 2, b"usage: word 4\n"),
    "a plain file on a full device": (["-points", "3", "-o", "/dev/full", "-z", "z"], 4, b"write fault\n"),
    "a packed file on a full device": (["-points", "3", "-o", "y.las", "-z", "/dev/full"], 4, b"write fault\n"),
}


@pytest.mark.parametrize("row", WRONG)
def test_wrong(place, row):
    words, status, line = WRONG[row]
    runs.ended(place.las("make", "-seed", "1", *words), status, line)
    runs.holds(place, {"z": None, "m": None})
