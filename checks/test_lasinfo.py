"""`lasinfo`: the report of a packed file, and of a plain one with each tally."""
import pytest

import runs
from las_files import head, packed_one, record

pytestmark = pytest.mark.files
ONE = (b"version 1.2\nheader 227\noffset 321\nvlrs 1\nvlr 6c61737a697020656e636f6465640000 22204 40\n"
       b"format 0\nlength 20\npoints 1\npacked 50000 1\nheader returns 1 0 0 0 0\nrecord returns 1 0 0 0 0\n"
       b"raw x 5 5\nraw y 6 6\nraw z 7 7\n")


@pytest.fixture
def packed(place):
    place.write("a.laz", packed_one())
    return place


@pytest.mark.parametrize("cores", ["1", "8"])
def test_report_of_a_packed_file(packed, cores):
    runs.ended(packed.las("lasinfo", "-cores", cores, "-i", "a.laz"), 0, out=ONE)


def test_tally_of_one_record(packed):
    runs.ended(packed.las("lasinfo", "-i", "a.laz", "-tally", "class"), 0, out=ONE + b"tally class\n0 1\n")


TALLIES = {"intensity": b"2 1\n3 1\n", "return": b"1 1\n2 1\n", "source": b"1 1\n300 1\n", "class": b"1 1\n2 1\n"}


@pytest.fixture
def two(place):
    """Two records that differ in what each tally counts."""
    both = record(5, 2, flags=9) + record(6, 1, flags=18)
    both = both[:12] + b"\xe8\x03" + both[14:32] + b"\xff\x02" + both[34:38] + b"\x2c\x01"
    place.write("both.las", head(2, (1, 1, 0, 0, 0)) + both)
    return place


@pytest.mark.parametrize("name", TALLIES)
def test_tally_by(two, name):
    run = two.las("lasinfo", "-i", "both.las", "-tally", name)
    runs.ended(run, 0, out=None)
    assert run.stdout.endswith(b"tally " + name.encode() + b"\n" + TALLIES[name])


def test_every_tally(two):
    run = two.las("lasinfo", "-i", "both.las", *[word for name in TALLIES for word in ("-tally", name)])
    runs.ended(run, 0, out=None)
    assert run.stdout.endswith(b"".join(b"tally " + name.encode() + b"\n" + TALLIES[name] for name in TALLIES))


def test_tally_of_many_records(place):
    count = 120_000
    place.write("many.las", head(count, (count, 0, 0, 0, 0)) + record(5, 2) * count)
    runs.done(place, "laszip", "-i", "many.las", "-o", "many.laz")
    run = place.las("lasinfo", "-i", "many.laz", "-tally", "class", "-cores", "4")
    runs.ended(run, 0, out=None)
    assert run.stdout.endswith(b"\ntally class\n2 120000\n")


WRONG = {
    "a tally that is not there": (["-i", "a.laz", "-tally", "none"], 2, b"usage: word 4\n"),
    "a tally twice": (["-i", "a.laz", "-tally", "class", "-tally", "class"], 2, b"usage: word 6\n"),
    "a missing file": (["-i", "none.laz"], 3, b"read fault: none.laz\n"),
    "a range of records": (["-i", "a.laz", "-start_at_point", "1"], 2, b"usage: word 3\n"),
}


@pytest.mark.parametrize("words", WRONG)
def test_no_report_with(packed, words):
    line, status, said = WRONG[words]
    runs.ended(packed.las("lasinfo", *line), status, said)


def test_report_on_a_full_device(packed):
    with open("/dev/full", "wb") as full:
        run = packed.las("lasinfo", "-i", "a.laz", stdout=full)
    assert (run.returncode, run.stderr) == (4, b"write fault\n")
