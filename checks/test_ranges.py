"""`las2las` takes the records of a range, from each kind of file and by any number of workers; and what it reads."""
from itertools import product

import pytest

import failing_calls
import runs
from las_files import chunk_place, counted, head, long_head, many, vlr

pytestmark = pytest.mark.files
POINTS = many(2000)
RANGES = [(0, 2000), (0, 0), (0, 1), (256, 512), (255, 257), (300, 600), (511, 513), (700, 700), (1999, 2000),
          (1500, 5000), (2000, 2**32 - 1), (5000, 6000)]
KINDS = {"plain": "a.las", "fixed chunks": "a.laz", "counted chunks": "c.laz"}
kinds = pytest.mark.parametrize("kind", KINDS)
workers = pytest.mark.parametrize("cores", ["1", "8"], ids=lambda cores: f"{cores} workers")


def range_id(pair):
    return f"records {pair[0]} to {pair[1]}"


def range_words(start, stop):
    return ["-start_at_point", str(start), "-stop_at_point", str(stop)]


def prepare(place, header):
    """The same records plain, in chunks of 256, and in chunks that have numbers of their own; and four parts."""
    place.write("a.las", header + b"".join(POINTS))
    runs.done(place, "laszip", "-i", "a.las", "-o", "a.laz", "-chunk_size", "256")
    runs.done(place, "lassplit", "-i", "a.las", "-o", "p.las", "-split", "500")
    words = []
    for k in range(4):
        runs.done(place, "laszip", "-i", f"p_{k:07}.las", "-o", f"p{k}.laz", "-chunk_size", "256")
        words += ["-i", f"p{k}.laz"]
    runs.done(place, "lasmerge", *words, "-o", "c.laz", "-copy_chunks")


@pytest.mark.parametrize("minor", range(5), ids=lambda minor: f"version 1.{minor}")
@pytest.mark.parametrize("taken", RANGES, ids=range_id)
def test_range(place, taken, minor):
    start, stop = taken
    header = long_head(minor, 0, 0, POINTS, vlr(b"somebody", 7, b"abc"), 1, b"\xdd")
    prepare(place, header)
    wanted = counted(header, POINTS[start:stop]) + b"".join(POINTS[start:stop])
    for kind, cores in product(KINDS, ["1", "8"]):
        words = ["las2las", "-i", KINDS[kind], "-cores", cores, *range_words(start, stop)]
        runs.done(place, *words, "-o", "b.las")
        assert place.read("b.las") == wanted, f"of {kind}, by {cores} workers"
        runs.done(place, *words, "-o", "b.laz", "-chunk_size", "256")
        runs.unpacks(place, "b.laz", wanted)


def of_class_2(points):
    return [point for point in points if point[15] % 32 == 2]


FILTERED = {
    "-start_at_point 1234": POINTS[1234:],
    "-stop_at_point 1234": POINTS[:1234],
    "-keep_class 2 -start_at_point 300 -stop_at_point 600": of_class_2(POINTS[300:600]),
    "-start_at_point 300 -stop_at_point 600 -keep_class 2 -set_user_data 9": [
        p[:17] + b"\x09" + p[18:] for p in of_class_2(POINTS[300:600])],
}


@kinds
@pytest.mark.parametrize("words", FILTERED)
def test_range_and_filter(place, words, kind):
    header = counted(head(0), POINTS)
    prepare(place, header)
    runs.done(place, "las2las", "-i", KINDS[kind], "-o", "b.las", *words.split())
    runs.holds(place, {"b.las": counted(header, FILTERED[words]) + b"".join(FILTERED[words])})


WRONG = [("-start_at_point 5 -stop_at_point 4", 8), ("-stop_at_point 4 -start_at_point 5", 8),
         ("-start_at_point 0 -stop_at_point 4294967296", 8), ("-start_at_point -1", 6), ("-start_at_point", 6),
         ("-stop_at_point 1 -stop_at_point 2", 7)]


@pytest.mark.parametrize("words, index", WRONG)
def test_wrong_range(place, words, index):
    place.write("a.las", counted(head(0), POINTS) + b"".join(POINTS))
    run = place.las("las2las", "-i", "a.las", "-o", "none.las", *words.split())
    runs.ended(run, 2, f"usage: word {index}\n".encode())
    runs.holds(place, {"none.las": None})


@pytest.fixture
def bad(place):
    """A file in chunks of 256, 244, 256, 244, 256 ..: the bad one has the number 4, and the records 1000 to 1256."""
    prepare(place, counted(head(0), POINTS))
    data = bytearray(place.read("p2.laz"))
    first, _ = chunk_place(data)
    data[first + 20:first + 24] = b"\xff" * 4
    place.write("p2.laz", bytes(data))
    parts = [word for k in range(4) for word in ("-i", f"p{k}.laz")]
    runs.done(place, "lasmerge", *parts, "-o", "bad.laz", "-copy_chunks")
    return place


LINE = b"refused: bad.laz: 21 BadChunk 4\n"


@workers
@pytest.mark.parametrize("taken", [(0, 1000), (100, 900), (1256, 2000), (1300, 1301), (1100, 1100), (2000, 3000)],
                         ids=range_id)
def test_range_beside_a_bad_chunk(bad, taken, cores):
    start, stop = taken
    runs.done(bad, "las2las", "-i", "bad.laz", "-o", "b.las", "-cores", cores, *range_words(start, stop))
    runs.holds(bad, {"b.las": counted(head(0), POINTS[start:stop]) + b"".join(POINTS[start:stop])})


@workers
@pytest.mark.parametrize("taken", [(0, 1001), (1000, 1256), (1200, 1300), (1255, 2000), (300, 1900)], ids=range_id)
def test_range_of_a_bad_chunk(bad, taken, cores):
    start, stop = taken
    run = bad.las("las2las", "-i", "bad.laz", "-o", "b.las", "-cores", cores, *range_words(start, stop))
    runs.ended(run, 5, LINE)
    runs.holds(bad, {"b.las": counted(head(0), []) + b"".join(POINTS[start:1000])})


def test_bad_chunk_under_its_new_number(bad):
    runs.ended(bad.las("laszip", "-i", "bad.laz", "-o", "b.las"), 5, LINE)
    runs.holds(bad, {"b.las": counted(head(0), POINTS) + b"".join(POINTS[:1000])})


@pytest.fixture
def million(place):
    """A million points, plain and in 1,000 chunks."""
    run = place.las("make", "-o", "m.las", "-z", "m.laz", "-points", "1000000", "-seed", "3", "-chunk_size", "1000")
    runs.ended(run, 0, out=None)
    return place, place.read("m.las"), place.read("m.laz")


def bytes_of_chunks(place, plain, start, stop):
    """The length of the chunks that a range meets, which are packed as a file of their own."""
    low, high = start // 1000 * 1000, -(-stop // 1000) * 1000 if stop > start else start // 1000 * 1000
    part = counted(plain[:227], [plain[at:at + 20] for at in range(227 + 20 * low, 227 + 20 * high, 20)])
    place.write("part.las", part + plain[227 + 20 * low:227 + 20 * high])
    runs.done(place, "laszip", "-i", "part.las", "-o", "part.laz", "-chunk_size", "1000")
    first, end = chunk_place(place.read("part.laz"))
    return end - first


@pytest.mark.parametrize("cores", ["1", "4"], ids=lambda cores: f"{cores} workers")
@pytest.mark.parametrize("name", ["m.laz", "m.las"], ids=["packed", "plain"])
@pytest.mark.parametrize("taken", [(450_000, 550_000), (450_500, 550_500), (999_999, 1_000_000), (7, 7)], ids=range_id)
def test_only_what_a_range_meets_is_read_and_once(million, taken, name, cores):
    place, plain, packed = million
    start, stop = taken
    bound = 227 + 227 + 20 * (stop - start)
    if name == "m.laz":
        bound = 255 + chunk_place(packed)[0] - 8 + 24 * 1000 + bytes_of_chunks(place, plain, start, stop)
    words = ["las2las", "-i", name, "-o", "b.las", "-cores", cores, *range_words(start, stop)]
    run, count = failing_calls.bytes_read(place, name, words)
    runs.ended(run, 0)
    assert 227 <= count <= bound
    assert place.read("b.las")[227:] == plain[227 + 20 * start:227 + 20 * stop]
