"""Heads of files: what stays of each version and format, and what is refused, for which cause."""
import struct

import pytest

import runs
from las_files import RECORD_SIZES, changed, head, long_head, record, set_counts, vlr

pytestmark = pytest.mark.files
KEEP = ["las2las", "-i", "a.las", "-o", "b.las", "-keep_class", "2"]
BLOCK = vlr(b"LASF_Projection", 34735, bytes(range(32))) + vlr(b"somebody", 7, b"")


@pytest.mark.parametrize("extra, more", [(0, b""), (5, b"\x07\x00\xff")], ids=["no extra bytes", "extra bytes"])
@pytest.mark.parametrize("format_", range(4), ids=lambda number: f"format {number}")
@pytest.mark.parametrize("minor", range(5), ids=lambda number: f"version 1.{number}")
def test_all_but_the_counts_stays(place, minor, format_, extra, more):
    rest = bytes((3 * i) % 256 for i in range(RECORD_SIZES[format_] - 20 + extra))
    points = [record(i, 2 if i % 3 else 6, flags=i % 256) + rest for i in range(300)]
    kept = [point for point in points if point[15] % 32 == 2]
    source = long_head(minor, format_, extra, points, BLOCK, 2, b"\xdd\xcc", more)
    wanted = bytearray(source)
    set_counts(wanted, minor, kept)
    place.write("a.las", source + b"".join(points))
    runs.done(place, *KEEP)
    runs.holds(place, {"b.las": bytes(wanted) + b"".join(kept)})


def far_head(offset, format_byte, points):
    """A head of LAS 1.2 whose point data lies as far off as it may, or farther."""
    header = bytearray(head(len(points), (len(points), 0, 0, 0, 0), format_byte))
    struct.pack_into("<I", header, 96, offset)
    between = bytes(i % 253 for i in range(65_536)) * 257
    return bytes(header) + between[: offset - len(header)]


POINT = record(5, 2)
ACCEPTED = long_head(4, 0, 0, [POINT]) + POINT
THIRD = long_head(3, 0, 0, [POINT]) + POINT
LASZIP = long_head(2, 0, 0, [POINT], vlr(b"laszip encoded", 22204, b"\0" * 40), 1) + POINT
# one change of an accepted file for each condition of a head, and the first condition of two
REFUSED = {
    "another signature": ("2 Magic", lambda: changed(ACCEPTED, 0, "<B", 0)),
    "version 1.5": ("3 Version", lambda: changed(ACCEPTED, 25, "<B", 5)),
    "version 2": ("3 Version", lambda: changed(ACCEPTED, 24, "<B", 2)),
    "a header of 374 bytes in version 1.4": ("4 HeaderSize", lambda: changed(ACCEPTED, 94, "<H", 374)),
    "a header of 234 bytes in version 1.3": ("4 HeaderSize", lambda: changed(THIRD, 94, "<H", 234)),
    "point data inside the header": ("5 Offset", lambda: changed(ACCEPTED, 96, "<I", 374)),
    "point data past the end of the file": ("5 Offset", lambda: changed(ACCEPTED, 96, "<I", 16_777_105)),
    "a VLR that is not there": ("6 Vlrs", lambda: changed(ACCEPTED, 100, "<I", 1)),
    "2^32 - 1 VLRs": ("6 Vlrs", lambda: changed(ACCEPTED, 100, "<I", 2**32 - 1)),
    "format 4": ("7 Format", lambda: changed(ACCEPTED, 104, "<B", 4)),
    "records of 19 bytes": ("8 RecordLength", lambda: changed(ACCEPTED, 105, "<H", 19)),
    "193 extra bytes": ("8 RecordLength", lambda: changed(ACCEPTED, 105, "<H", 213)),
    "an extended VLR": ("25 Extended", lambda: changed(ACCEPTED, 243, "<I", 1)),
    "two numbers of points": ("26 PointCounts", lambda: changed(ACCEPTED, 247, "<Q", 2)),
    "2^32 points": ("26 PointCounts", lambda: changed(ACCEPTED, 247, "<Q", 2**32)),
    "an extended VLR and two numbers of points": (
        "25 Extended", lambda: changed(changed(ACCEPTED, 243, "<I", 1), 247, "<Q", 2)),
    "fewer bytes than records": ("9 Count", lambda: changed(ACCEPTED, 105, "<H", 21)),
    "bytes after the last record": ("10 Trailing", lambda: ACCEPTED + b"\0"),
    "a laszip VLR in a plain file": ("11 StrayVlr", lambda: LASZIP),
    "a plain head of more than 16 MiB": ("5 Offset", lambda: far_head(16_777_105, 0, [POINT]) + POINT),
    "a packed head of 16 MiB without a VLR": ("12 NoVlr", lambda: far_head(16_777_216, 0x80, [POINT]) + POINT),
    "a packed head of more than 16 MiB": ("5 Offset", lambda: far_head(16_777_217, 0x80, [POINT]) + POINT),
}


@pytest.mark.parametrize("file", REFUSED)
def test_refused(place, file):
    cause, data = REFUSED[file]
    place.write("a.las", data())
    runs.ended(place.las(*KEEP), 5, f"refused: a.las: {cause}\n".encode())
    runs.holds(place, {"a.las": data(), "b.las": None})


def test_number_of_records_at_247_alone(place):
    place.write("a.las", changed(ACCEPTED, 107, "<I", 0))
    runs.done(place, *KEEP)
    runs.holds(place, {"b.las": ACCEPTED})


def test_head_of_16_mib(place):
    far = far_head(16_777_104, 0, [POINT]) + POINT
    place.write("a.las", far)
    runs.done(place, *KEEP)
    runs.holds(place, {"b.las": far})
