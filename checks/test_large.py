"""Five million records, of which every third has the class that is kept."""
import subprocess
import time

import pytest

import runs
from las_files import head, record

pytestmark = [pytest.mark.files, pytest.mark.alone]
COUNT = 5_000_000
BLOCK = [record(i, 2 if i % 3 == 0 else 1, flags=1 + i % 7) for i in range(21_000)]


def large():
    return head(COUNT) + (b"".join(BLOCK) * (COUNT // len(BLOCK) + 1))[: 20 * COUNT]


def kept():
    """What is left, with the numbers by return."""
    thirds = [BLOCK[i] for i in range(0, len(BLOCK), 3)]
    rounds, rest = divmod(COUNT, len(BLOCK))
    counts = [0] * 8
    for point in thirds:
        counts[point[14] % 8] += rounds
    for i in range(0, rest, 3):
        counts[BLOCK[i][14] % 8] += 1
    number = (COUNT + 2) // 3
    return head(number, counts[1:6]) + (b"".join(thirds) * (COUNT // len(BLOCK) + 1))[: 20 * number]


def test_five_million_records_filtered(place, capsys):
    source = place.write("large.las", large())
    started = time.monotonic()
    runs.done(place, "las2las", "-i", "large.las", "-o", "kept.las", "-keep_class", "2")
    filtered = time.monotonic() - started
    runs.holds(place, {"kept.las": kept()})
    started = time.monotonic()
    subprocess.run(["cp", source, place.path("copy.las")], check=True)
    copied = time.monotonic() - started
    with capsys.disabled():
        print(f"\n  five million records filtered in {filtered:.2f} s, copied by cp in {copied:.2f} s")


def test_five_million_records_packed_and_unpacked(place):
    data = large()
    place.write("large.las", data)
    runs.done(place, "laszip", "-i", "large.las", "-o", "large.laz", "-cores", "4")
    runs.unpacks(place, "large.laz", data, "-cores", "4")
