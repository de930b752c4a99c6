"""Short runs of `las2las`, row by row: the status, the line, the output, and that the input stays as it is."""
import pytest

import runs
from las_files import FILE, THREE, head

pytestmark = pytest.mark.files
KEEP = ["las2las", "-i", "a.las", "-o", "b.las", "-keep_class"]

# what it shows: the input, the words, the status, the line, the output
ROWS = {
    "two of three records are kept": (
        FILE, KEEP + ["2"], 0, b"",
        head(2, (2, 0, 0, 0, 0)) + THREE[0] + THREE[2]),
    "no record is kept": (
        FILE, KEEP + ["5"], 0, b"", head(0)),
    "leading zeros of a class": (
        FILE, KEEP + ["00000000000000000001"], 0, b"", head(1, (1, 0, 0, 0, 0)) + THREE[1]),
    "a file of no record": (
        head(0), KEEP + ["2"], 0, b"", head(0)),
    "one byte more": (
        FILE + b"\0", KEEP + ["2"], 5, b"refused: a.las: 10 Trailing\n", None),
    "one byte fewer": (
        FILE[:-1], KEEP + ["2"], 5, b"refused: a.las: 9 Count\n", None),
    "the format byte of a packed file": (
        head(3, format_byte=0x80) + b"".join(THREE), KEEP + ["2"], 5,
        b"refused: a.las: 12 NoVlr\n", None),
    "226 bytes": (
        FILE[:226], KEEP + ["2"], 5, b"refused: a.las: 1 Short\n", None),
    "an empty file": (
        b"", KEEP + ["2"], 5, b"refused: a.las: 1 Short\n", None),
    "a missing option": (
        FILE, ["las2las", "-i", "a"], 2, b"usage: word 3\n", None),
    "an option of another command": (
        FILE, ["laszip", "-i", "a", "-o", "b", "-keep_class", "2"], 2,
        b"usage: word 5\n", None),
    "a command that is not there": (
        FILE, ["lasunzip", "-i", "a", "-o", "b"], 2, b"usage: word 0\n", None),
    "no words": (
        FILE, [], 2, b"usage: word 0\n", None),
    "a class out of range": (
        FILE, KEEP + ["32"], 2, b"usage: word 6\n", None),
    "a class without a number": (
        FILE, KEEP, 2, b"usage: word 6\n", None),
    "a word more": (
        FILE, KEEP + ["2", "x"], 2, b"usage: word 7\n", None),
    "the input as the output": (
        FILE, ["las2las", "-i", "b.las", "-o", "b.las", "-keep_class", "2"], 2, b"usage: word 4\n", None),
    "a chunk size out of range": (
        FILE, ["laszip", "-i", "a.las", "-o", "b", "-chunk_size", "0"], 2,
        b"usage: word 6\n", None),
    "nine workers": (
        FILE, ["laszip", "-i", "a.las", "-o", "b", "-cores", "9"], 2, b"usage: word 6\n", None),
    "a word that is no text": (
        FILE, [b"las2las", b"-i", b"\xff.las", b"-o", b"b.las", b"-keep_class", b"2"], 2,
        b"usage: word 2\n", None),
    "a missing input": (
        FILE, ["las2las", "-i", "none.las", "-o", "b.las", "-keep_class", "2"], 3,
        b"read fault: none.las\n", None),
    "an input that is a folder": (
        FILE, ["las2las", "-i", ".", "-o", "b.las", "-keep_class", "2"], 3,
        b"read fault: .\n", None),
    "an output in a folder that does not exist": (
        FILE, ["las2las", "-i", "a.las", "-o", "none/b.las", "-keep_class", "2"], 4,
        b"write fault\n", None),
    "an output that is a folder": (
        FILE, ["las2las", "-i", "a.las", "-o", "..", "-keep_class", "2"], 4, b"write fault\n", None),
    "an output on a full device": (
        FILE, ["las2las", "-i", "a.las", "-o", "/dev/full", "-keep_class", "2"], 4,
        b"write fault\n", None),
}


@pytest.mark.parametrize("row", ROWS)
def test_row(place, row):
    data, words, status, line, output = ROWS[row]
    place.write("a.las", data)
    runs.ended(place.las(*words), status, line)
    runs.holds(place, {"a.las": data, "b.las": output})


def test_output_that_is_there_is_replaced_by_a_shorter_one(place):
    place.write("a.las", FILE)
    place.write("b.las", b"x" * 1000)
    runs.ended(place.las(*KEEP, "1"), 0)
    runs.holds(place, {"b.las": head(1, (1, 0, 0, 0, 0)) + THREE[1]})


def test_output_stays_before_a_refused_input(place):
    place.write("a.las", FILE[:-1])
    place.write("b.las", b"x" * 1000)
    runs.ended(place.las(*KEEP, "2"), 5, b"refused: a.las: 9 Count\n")
    runs.holds(place, {"b.las": b"x" * 1000})
