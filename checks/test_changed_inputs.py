"""Inputs that change between two openings or readings: another file is found at its turn, and the same one is read."""
import struct

import pytest

import runs
from las_files import head, record
from measured import while_changed

THREE_RECORDS = head(3, (3, 0, 0, 0, 0)) + record(7, 1) * 3
SPREAD = 1_000_000
FIRST = 2_000_000


def other_scales():
    scaled = bytearray(THREE_RECORDS)
    scaled[131] ^= 1
    return bytes(scaled)


MERGES = {
    "the same file": (THREE_RECORDS, 0, b""),
    "other scales": (other_scales(), 6, b"unequal: second.las: scales\n"),
    "one record more": (head(4, (4, 0, 0, 0, 0)) + record(7, 1) * 4, 5, b"refused: second.las: 26 PointCounts\n"),
    "a byte fewer": (THREE_RECORDS[:-1], 5, b"refused: second.las: 9 Count\n"),
}


def in_time(tried):
    """A case in which the run may be over before the file was changed: it is tried up to six times."""
    for _ in range(5):
        try:
            return tried()
        except AssertionError:
            pass
    return tried()


@pytest.mark.parametrize("change", MERGES)
def test_input_of_a_merge_that_is_written_over_by(place, change):
    data, status, line = MERGES[change]
    place.write("first.las", head(FIRST, (FIRST, 0, 0, 0, 0)) + record(5, 2) * FIRST)
    words = ["lasmerge", "-i", "first.las", "-i", "second.las", "-o", "both.laz", "-cores", "1"]

    def tried():
        place.write("second.las", THREE_RECORDS)
        run = while_changed(place, words, "both.laz", "second.las", data)
        runs.ended(run, status, line)
        assert place.read("second.las") == data

    in_time(tried)


def spread(count, moved=0):
    """Records of a plain file, each in a cell of its own."""
    return head(count) + b"".join(struct.pack("<iii8x", i + moved, i, 0) for i in range(count))


def thinned_while_changed(place, data):
    """A run that reads its input twice, and the input is written over after the first time."""
    place.write("spread.las", spread(SPREAD))
    words = ["las2las", "-i", "spread.las", "-o", "low.las", "-thin_raw", "1", "-lowest"]
    return while_changed(place, words, "low.las", "spread.las", data)


def test_input_that_is_read_twice_and_is_written_again(place):
    runs.ended(thinned_while_changed(place, spread(SPREAD)), 0)
    runs.holds(place, {"low.las": spread(SPREAD)})


def test_input_that_is_read_twice_and_gets_other_records(place):
    """What was not found at its place is not kept: the output has first records of the input as it was."""
    def tried():
        runs.ended(thinned_while_changed(place, spread(SPREAD, 1)), 0)
        low = place.read("low.las")
        number = struct.unpack_from("<I", low, 107)[0]
        assert number < SPREAD
        assert low[227:] == spread(SPREAD)[227:][:20 * number]

    in_time(tried)


def test_input_that_is_read_twice_and_loses_its_second_half(place):
    half = spread(SPREAD)[:10 * SPREAD]

    def tried():
        runs.ended(thinned_while_changed(place, half), 3, b"read fault: spread.las\n")
        assert place.read("spread.las") == half

    in_time(tried)
