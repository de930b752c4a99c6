"""`lassplit`: each way to split, from plain and packed input, by one and by eight workers."""
import struct

import pytest

import runs
from las_files import counted, head, long_head, many, vlr

pytestmark = pytest.mark.files
POINTS = many(1000)
# the words, and the number of a record's part
RULES = {
    "-split 300": lambda i, point: i // 300,
    "-by_classification": lambda i, point: point[15] % 32,
    "-by_flightline": lambda i, point: struct.unpack_from("<H", point, 18)[0],
    "-by_return": lambda i, point: point[14] % 8,
}


@pytest.mark.parametrize("name, cores", [("a.las", "1"), ("a.laz", "8")], ids=["plain", "packed, by eight workers"])
@pytest.mark.parametrize("minor", [2, 4], ids=lambda number: f"version 1.{number}")
@pytest.mark.parametrize("words", RULES)
def test_parts(place, words, minor, name, cores):
    source = long_head(minor, 0, 0, POINTS, vlr(b"somebody", 7, b"abc"), 1, b"\xdd")
    parts = {}
    for i, point in enumerate(POINTS):
        parts.setdefault(RULES[words](i, point), []).append(point)
    wanted = {f"p_{part:07}.las": counted(source, own) + b"".join(own) for part, own in parts.items()}
    place.write("a.las", source + b"".join(POINTS))
    runs.done(place, "laszip", "-i", "a.las", "-o", "a.laz", "-chunk_size", "256")
    inputs = {name: place.read(name) for name in ("a.las", "a.laz")}
    runs.done(place, "lassplit", "-i", name, "-o", "p.las", "-cores", cores, *words.split())
    assert place.names() == sorted([*inputs, *wanted])
    runs.holds(place, {**inputs, **wanted})


FIVE = POINTS[:5]
FILE = counted(head(0), FIVE) + b"".join(FIVE)
PAIRS = {f"p_{k:07}.las": counted(head(0), FIVE[2 * k:2 * k + 2]) + b"".join(FIVE[2 * k:2 * k + 2]) for k in range(3)}
ROWS = {
    "parts of two": (FILE, ["-o", "p.las", "-split", "2"], 0, b"", PAIRS),
    "parts without an ending": (FILE, ["-o", "p.LAS.x", "-split", "5"], 0, b"", {"p.LAS.x_0000000": FILE}),
    "parts of no record": (head(0), ["-o", "p.las", "-split", "2"], 0, b"", {}),
    "parts of a packed name": (FILE, ["-o", "p.laz", "-split", "2"], 2, b"usage: word 4\n", {}),
    "parts by two rules": (FILE, ["-o", "p.las", "-split", "2", "-by_return"], 2, b"usage: word 7\n", {}),
    "parts in a folder that does not exist": (FILE, ["-o", "none/p.las", "-split", "2"], 4, b"write fault\n", {}),
}


@pytest.mark.parametrize("row", ROWS)
def test_row(place, row):
    data, words, status, line, outputs = ROWS[row]
    place.write("a.las", data)
    runs.ended(place.las("lassplit", "-i", "a.las", *words), status, line)
    assert place.files() == {"a.las": data, **outputs}


def test_input_as_one_of_its_parts(place):
    place.write("p_0000001.las", FILE)
    runs.ended(place.las("lassplit", "-i", "p_0000001.las", "-o", "p.las", "-split", "2"), 2, b"usage: word 4\n")
    assert place.files() == {"p_0000001.las": FILE}


@pytest.mark.parametrize("count, status, line, each", [
    (512, 0, b"", 1), (513, 5, b"refused: a.las: 23 TooManyParts\n", 0)], ids=["512 parts", "513 parts"])
def test_most_parts(place, count, status, line, each):
    """After the refusal of the last part the first 512 stand, unfinished: each without a number in its head."""
    some = many(count)
    place.write("a.las", counted(head(0), some) + b"".join(some))
    runs.ended(place.las("lassplit", "-i", "a.las", "-o", "p.las", "-split", "1"), status, line)
    wanted = {f"p_{k:07}.las": counted(head(0), [some[k]] * each) + some[k] for k in range(512)}
    runs.holds(place, {**wanted, "p_0000512.las": None})
