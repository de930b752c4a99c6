"""`laszip` both ways: the same bytes by any number of workers, files that are cut or have a bad chunk, full devices."""
import resource
import signal
import struct

import pytest

import runs
from las_files import ONE, lidar, long_head, packed_one, vlr

pytestmark = pytest.mark.files
BLOCK = vlr(b"LASF_Projection", 34735, bytes(range(32))) + vlr(b"somebody", 7, b"")


def test_one_record_is_packed(place):
    place.write("a.las", ONE)
    runs.done(place, "laszip", "-i", "a.las", "-o", "a.laz", "-cores", "4")
    runs.holds(place, {"a.laz": packed_one()})


def test_one_record_is_unpacked(place):
    place.write("a.laz", packed_one())
    runs.done(place, "laszip", "-i", "a.laz", "-o", "b.las")
    runs.holds(place, {"b.las": ONE})


@pytest.mark.parametrize("extra, more", [(0, b""), (5, b"\x07\x00\xff")], ids=["no extra bytes", "extra bytes"])
@pytest.mark.parametrize("format_", range(4), ids=lambda number: f"format {number}")
@pytest.mark.parametrize("minor", range(5), ids=lambda number: f"version 1.{number}")
def test_both_ways(place, minor, format_, extra, more):
    points = lidar(format_, extra, 1_100)
    source = long_head(minor, format_, extra, points, BLOCK, 2, b"\xdd\xcc", more) + b"".join(points)
    place.write("a.las", source)
    packed = None
    for cores in ("1", "2", "8"):
        runs.done(place, "laszip", "-i", "a.las", "-o", "a.laz", "-chunk_size", "256", "-cores", cores)
        packed = packed or place.read("a.laz")
        assert place.read("a.laz") == packed, f"{cores} workers"
        runs.unpacks(place, "a.laz", source, "-cores", cores)
        runs.holds(place, {"a.las": source, "a.laz": packed})
    assert len(packed) < len(source)


def cause_of_cut(length):
    """Why the first bytes of the packed file of one record are refused."""
    ends = [(227, "1 Short"), (321, "5 Offset"), (353, "18 TablePointer")]
    return next((cause for end, cause in ends if length < end), "19 Table")


@pytest.mark.parametrize("first", range(0, len(packed_one()), 25), ids=lambda first: f"{first} to {first + 24} bytes")
def test_packed_file_that_ends_early(place, first):
    for length in range(first, min(first + 25, len(packed_one()))):
        place.write("a.laz", packed_one()[:length])
        run = place.las("laszip", "-i", "a.laz", "-o", "b.las")
        runs.ended(run, 5, f"refused: a.laz: {cause_of_cut(length)}\n".encode())
        runs.holds(place, {"b.las": None})


@pytest.mark.parametrize("cores", ["1", "8"])
def test_bad_chunk(place, cores):
    points = lidar(0, 0, 1_280)
    source = long_head(2, 0, 0, points)
    place.write("a.las", source + b"".join(points))
    runs.done(place, "laszip", "-i", "a.las", "-o", "a.laz", "-chunk_size", "256")
    bad = bytearray(place.read("a.laz"))
    at = 227 + 94 + 8
    for chunk in (1, 2, 3):
        at = bad.index(points[256 * chunk], at)
    bad[at + 20:at + 24] = b"\xff\xff\xff\xff"
    place.write("a.laz", bad)
    run = place.las("laszip", "-i", "a.laz", "-o", "c.las", "-cores", cores)
    runs.ended(run, 5, b"refused: a.laz: 21 BadChunk 3\n")
    runs.holds(place, {"a.laz": bytes(bad), "c.las": source + b"".join(points[:768])})


def limit_to(size):
    """The process may write no file beyond this many bytes, and a write beyond fails."""
    def limit():
        signal.signal(signal.SIGXFSZ, signal.SIG_IGN)
        resource.setrlimit(resource.RLIMIT_FSIZE, (size, size))
    return limit


@pytest.fixture(params=["packing", "unpacking"])
def way(request, place):
    """Words of a run, and the draft of its output."""
    points = lidar(3, 2, 600)
    plain = long_head(4, 3, 2, points) + b"".join(points)
    place.write("a.las", plain)
    runs.done(place, "laszip", "-i", "a.las", "-o", "a.laz", "-chunk_size", "256")
    if request.param == "unpacking":
        return ["-i", "a.laz", "-o", "b", "-cores", "2"], plain
    packed, offset = place.read("a.laz"), 375 + 94 + 18
    draft = packed[:offset] + struct.pack("<Q", offset) + packed[offset + 8:]
    return ["-i", "a.las", "-o", "b", "-chunk_size", "256", "-cores", "2"], draft


def test_full_device_is_a_write_fault_and_leaves_a_front_of_the_draft(place, way):
    words, draft = way
    offset = 375 + 94 + 18
    sizes = {0, 1, 374, 375, 468, 469, offset, offset + 1, offset + 8, *range(600, len(draft), 1_777), len(draft) - 1}
    for size in sorted(size for size in sizes if size < len(draft)):
        place.path("b").unlink(missing_ok=True)
        run = place.las("laszip", *words, preexec_fn=limit_to(size))
        runs.ended(run, 4, b"write fault\n")
        left = place.read("b")
        assert len(left) <= size
        assert draft.startswith(left), f"{size} bytes"
