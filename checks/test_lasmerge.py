"""`lasmerge`: parts into the whole, plain and packed, and each difference of heads."""
import struct

import pytest

import runs
from las_files import chunk_place, counted, head, many

pytestmark = pytest.mark.files
POINTS = many(1000)
WHOLE = counted(head(0), POINTS) + b"".join(POINTS)
NAMES = [f"p_{k:07}.las" for k in range(4)]
INPUTS = [word for name in NAMES for word in ("-i", name)]


@pytest.fixture
def parts(place):
    """Four parts of a file, and the second of them packed, as q.laz."""
    for k, name in enumerate(NAMES):
        own = POINTS[300 * k:300 * (k + 1)]
        place.write(name, counted(head(0), own) + b"".join(own))
    runs.done(place, "laszip", "-i", NAMES[1], "-o", "q.laz", "-chunk_size", "256")
    return place


KINDS = {"plain parts": INPUTS, "plain and packed parts": [word.replace(NAMES[1], "q.laz") for word in INPUTS]}


@pytest.mark.parametrize("kind", KINDS)
def test_merged_to_a_plain_file(parts, kind):
    before = parts.files()
    runs.done(parts, "lasmerge", *KINDS[kind], "-o", "b.las")
    assert parts.files() == {**before, "b.las": WHOLE}


@pytest.mark.parametrize("cores", ["1", "8"])
@pytest.mark.parametrize("kind", KINDS)
def test_merged_to_a_packed_file(parts, kind, cores):
    runs.done(parts, "lasmerge", *KINDS[kind], "-o", "b", "-olaz", "-cores", cores, "-chunk_size", "256")
    runs.unpacks(parts, "b", WHOLE)


def other_format(part):
    struct.pack_into("<BH", part, 104, 1, 28)
    part += bytes(8 * 300)


def other_length(part):
    struct.pack_into("<H", part, 105, 21)
    part += bytes(300)


def flipped(at):
    def change(part):
        part[at] ^= 1
    return change


DIFFERENCES = {"format": other_format, "length": other_length, "scales": flipped(131), "offsets": flipped(178),
               "box": flipped(226)}


@pytest.mark.parametrize("field", DIFFERENCES)
def test_parts_that_differ_in(parts, field):
    part = bytearray(parts.read(NAMES[2]))
    DIFFERENCES[field](part)
    parts.write(NAMES[2], bytes(part))
    runs.ended(parts.las("lasmerge", *INPUTS, "-o", "d.las"), 6, f"unequal: {NAMES[2]}: {field}\n".encode())
    runs.holds(parts, {"d.las": None})


def test_refused_part(parts):
    parts.write(NAMES[2], parts.read(NAMES[2])[:-1])
    runs.ended(parts.las("lasmerge", *INPUTS, "-o", "d.las"), 5, f"refused: {NAMES[2]}: 9 Count\n".encode())
    runs.holds(parts, {"d.las": None})


def test_missing_part(parts):
    run = parts.las("lasmerge", "-i", NAMES[0], "-i", "none.las", "-o", "d.las")
    runs.ended(run, 3, b"read fault: none.las\n")
    runs.holds(parts, {"d.las": None})


def test_32_inputs(parts):
    runs.done(parts, "lasmerge", *["-i", NAMES[3]] * 32, "-o", "d.las")
    last = POINTS[900:] * 32
    runs.holds(parts, {"d.las": counted(head(0), last) + b"".join(last)})


def test_33_inputs(parts):
    runs.ended(parts.las("lasmerge", *["-i", NAMES[3]] * 33, "-o", "e.las"), 2, b"usage: word 65\n")
    runs.holds(parts, {"e.las": None})


def test_bad_chunk(parts):
    bad = bytearray(parts.read("q.laz"))
    chunks, _ = chunk_place(bad)
    bad[chunks + 20:chunks + 24] = b"\xff" * 4
    parts.write("q.laz", bytes(bad))
    run = parts.las("lasmerge", "-i", NAMES[0], "-i", "q.laz", "-o", "f.las")
    runs.ended(run, 5, b"refused: q.laz: 21 BadChunk 0\n")
    runs.holds(parts, {"f.las": head(0) + b"".join(POINTS[:300])})
