"""`lasmerge -copy_chunks`: the chunks as they stand, under the first head with the sums of all counts."""
import struct

import pytest

import failing_calls
import runs
from las_files import ONE_VLR, chunk_place, counted, head, long_head, many, packed_one, record, vlr

pytestmark = pytest.mark.files
MERGE = ["lasmerge", "-i", "a.laz", "-i", "a.laz"]


def two_chunks():
    """The packed file of one record, merged with itself, byte by byte."""
    front = bytearray(packed_one()[:321])
    struct.pack_into("<2I", front, 107, 2, 2)
    front[227 + 54 + 12:227 + 54 + 16] = b"\xff" * 4
    chunk = packed_one()[329:353]
    table = bytes([0, 0, 0, 0, 2, 0, 0, 0, 0x04, 0x8B, 0xD2, 0x25, 0, 0, 0])
    two = bytes(front) + struct.pack("<Q", 377) + chunk + chunk + table
    assert len(two) == 392 and len(ONE_VLR) == 94
    return two


ROWS = {
    "two chunks": ([*MERGE, "-o", "c.laz", "-copy_chunks"], 0, b"", {"c.laz": two_chunks()}),
    "chunks in a file of another name": (
        [*MERGE, "-o", "c", "-olaz", "-copy_chunks"], 0, b"", {"c": two_chunks()}),
    "chunks by eight workers": (
        [*MERGE, "-cores", "8", "-copy_chunks", "-o", "d.laz"], 0, b"", {"d.laz": two_chunks()}),
    "a plain input": (["lasmerge", "-i", "a.laz", "-i", "a.las", "-o", "e.laz", "-copy_chunks"], 5,
                      b"refused: a.las: 27 NotPacked\n", {}),
    "a missing input": (["lasmerge", "-i", "a.laz", "-i", "none", "-o", "e.laz", "-copy_chunks"], 3,
                        b"read fault: none\n", {}),
    "a plain output": (["lasmerge", "-i", "a.laz", "-o", "c.las", "-copy_chunks"], 2, b"usage: word 4\n", {}),
    "a plain output by a word": ([*MERGE, "-o", "e.laz", "-olas", "-copy_chunks"], 2, b"usage: word 8\n", {}),
    "chunks of a size": (
        [*MERGE, "-o", "e.laz", "-copy_chunks", "-chunk_size", "256"], 2, b"usage: word 8\n", {}),
    "chunks copied twice": ([*MERGE, "-o", "e.laz", "-copy_chunks", "-copy_chunks"], 2, b"usage: word 8\n", {}),
}


@pytest.fixture
def one(place):
    place.write("a.laz", packed_one())
    place.write("a.las", head(1, (1, 0, 0, 0, 0)) + record(5, 0))
    return place


@pytest.mark.parametrize("row", ROWS)
def test_row(one, row):
    words, status, line, outputs = ROWS[row]
    before = one.files()
    runs.ended(one.las(*words), status, line)
    assert one.files() == {**before, **outputs}


def test_copied_chunks_are_unpacked(one):
    one.write("c.laz", two_chunks())
    runs.unpacks(one, "c.laz", head(2, (2, 0, 0, 0, 0)) + record(5, 0) * 2)


def test_report_of_copied_chunks(one):
    one.write("c.laz", two_chunks())
    run = one.las("lasinfo", "-i", "c.laz")
    runs.ended(run, 0, out=None)
    assert b"\npoints 2\npacked 4294967295 2\nheader returns 2 0 0 0 0\n" in run.stdout


@pytest.fixture(params=[2, 4], ids=["version 1.2", "version 1.4"])
def files(request, place):
    """The same records in chunks of 256 and in chunks that have numbers of their own, two parts, and a file of none."""
    points = many(2000)
    header = long_head(request.param, 0, 0, points, vlr(b"somebody", 7, b"abc"), 1, b"\xdd")
    place.write("a.las", header + b"".join(points))
    place.write("none.las", counted(header, []))
    runs.done(place, "lassplit", "-i", "a.las", "-o", "p.las", "-split", "500")
    for source, name in [("a.las", "a"), ("none.las", "none"), *[(f"p_{k:07}.las", f"p{k}") for k in range(4)]]:
        runs.done(place, "laszip", "-i", source, "-o", f"{name}.laz", "-chunk_size", "256")
    parts = [word for k in range(4) for word in ("-i", f"p{k}.laz")]
    runs.done(place, "lasmerge", *parts, "-o", "c.laz", "-copy_chunks")
    return place


NAMES = ["p1.laz", "none.laz", "c.laz", "p0.laz", "a.laz", "c.laz"] + ["none.laz"] * 26
WORDS = [word for name in NAMES for word in ("-i", name)]


def test_32_files_of_copied_chunks(files):
    """Unpacked, they are what a merge of the records is, and the chunks stand there as they were."""
    runs.done(files, "lasmerge", *WORDS, "-o", "all.las")
    runs.done(files, "lasmerge", *WORDS, "-o", "all.laz", "-copy_chunks")
    first, end = chunk_place(files.read("all.laz"))
    chunks = [files.read(name)[slice(*chunk_place(files.read(name)))] for name in NAMES]
    assert files.read("all.laz")[first:end] == b"".join(chunks)
    runs.unpacks(files, "all.laz", files.read("all.las"), "-cores", "4")


def test_33_files_of_copied_chunks(files):
    run = files.las("lasmerge", *WORDS, "-i", "a.laz", "-o", "more.laz", "-copy_chunks")
    runs.ended(run, 2, b"usage: word 65\n")
    runs.holds(files, {"more.laz": None})


def test_chunks_are_read_once(files):
    words = ["lasmerge", "-i", "p1.laz", "-i", "a.laz", "-o", "two.laz", "-copy_chunks"]
    run, count = failing_calls.bytes_read(files, "a.laz", words)
    runs.ended(run, 0)
    assert 227 <= count <= len(files.read("a.laz"))
