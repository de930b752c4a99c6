"""Thinning, repeated positions and tallies of `las2las` on real files, beside a few lines of Python."""
import random
import struct
from itertools import product

import pytest

import runs
from las_files import counted, head

pytestmark = pytest.mark.files
TALLY = ["-tally", "class"]


def point(x, y, z, class_=1, intensity=0):
    return struct.pack("<iiiHBBbBH", x, y, z, intensity, 0x09, class_, 0, 0, 1)


def random_records(count, seed, spread):
    """Records about 0, some of them of one position, in few heights."""
    choose = random.Random(seed)
    place = [choose.randint(-spread, spread) for _ in range(2 * count)]
    return [point(place[i], place[count + i], choose.randint(-2, 2), choose.randint(0, 4), i) for i in range(count)]


def place_of(record):
    return struct.unpack_from("<iii", record, 0)


def thinned(records, step, pick):
    """The records that stay: of each cell the first, or that of the least or the greatest Z."""
    found = {}
    for i, record in enumerate(records):
        x, y, z = place_of(record)
        key = {"first": i, "lowest": (z, i), "highest": (-z, i)}[pick]
        cell = (x // step, y // step)
        if cell not in found or key < found[cell][0]:
            found[cell] = (key, i)
    return [records[i] for i in sorted(i for _, i in found.values())]


def distinct(records):
    seen = set()
    return [r for r in records if place_of(r) not in seen and not seen.add(place_of(r))]


def tallied(records):
    counts = {}
    for record in records:
        counts[record[15] % 32] = counts.get(record[15] % 32, 0) + 1
    return ("tally class\n" + "".join(f"{k} {counts[k]}\n" for k in sorted(counts))).encode()


def prepared(place, records):
    place.write("a.las", counted(head(0), records) + b"".join(records))
    runs.done(place, "laszip", "-i", "a.las", "-o", "a.laz", "-chunk_size", "256")


def compared(place, words, kept, text=b""):
    """Runs of these words, from plain and packed to plain and packed, with any workers."""
    wanted = counted(head(0), kept) + b"".join(kept)
    for name, cores in product(["a.las", "a.laz"], ["1", "8"]):
        for output, form in [("b.las", "-olas"), ("b.laz", "-olaz")]:
            run = place.las("las2las", "-i", name, "-o", output, form, "-cores", cores, "-chunk_size", "300", *words)
            runs.ended(run, 0, out=text)
        runs.holds(place, {"b.las": wanted})
        runs.unpacks(place, "b.laz", wanted)


RECORDS = random_records(3_000, 1, 60)
steps = pytest.mark.parametrize("step", [1, 7, 50, 2_147_483_647], ids=lambda step: f"by {step}")
picks = pytest.mark.parametrize("pick", ["first", "lowest", "highest"])


def thin_words(step, pick):
    return ["-thin_raw", str(step)] + ([f"-{pick}"] if pick != "first" else [])


@picks
@steps
def test_thinned(place, step, pick):
    prepared(place, RECORDS)
    kept = thinned(RECORDS, step, pick)
    compared(place, thin_words(step, pick) + TALLY, kept, tallied(kept))


@picks
@steps
def test_range_filtered_thinned_and_changed(place, step, pick):
    prepared(place, RECORDS)
    some = [r for r in RECORDS[200:2_500] if r[15] % 32 != 3]
    kept = [r[:15] + b"\x05" + r[16:] for r in thinned(distinct(some), step, pick)]
    more = ["-drop_repeated", "-start_at_point", "200", "-stop_at_point", "2500", "-drop_class", "3",
            "-set_classification", "5"]
    compared(place, thin_words(step, pick) + more + TALLY, kept, tallied(kept))


def test_no_position_twice(place):
    prepared(place, RECORDS)
    compared(place, ["-drop_repeated"], distinct(RECORDS))


def test_tally_and_all_records(place):
    prepared(place, RECORDS)
    compared(place, TALLY, RECORDS, tallied(RECORDS))


FIVE = [point(0, 0, 5), point(9, 9, 3), point(-1, 0, 7), point(10, 0, 1), point(9, 0, 8)]


@pytest.mark.parametrize("words, kept", [([], [0, 2, 3]), (["-lowest"], [1, 2, 3]), (["-highest"], [2, 3, 4])],
                         ids=["first", "lowest", "highest"])
def test_records_at_the_edges_of_cells(place, words, kept):
    prepared(place, FIVE)
    compared(place, ["-thin_raw", "10"] + words, [FIVE[i] for i in kept])


def test_two_of_three_records_of_another_class(place):
    prepared(place, [point(5, 6, 7, 2), point(6, 6, 7, 1), point(7, 6, 7, 2)])
    compared(place, ["-keep_class", "2", "-set_classification", "5", *TALLY], [point(5, 6, 7, 5), point(7, 6, 7, 5)],
             b"tally class\n5 2\n")


def test_records_at_the_ends_of_the_raw_range(place):
    edge = [point(-2**31, 2**31 - 1, 0), point(2**31 - 1, -2**31, 0), point(-1, -1, 0), point(0, 0, 0)]
    prepared(place, edge)
    compared(place, ["-thin_raw", "2147483647"], edge)


WRONG = [("-lowest", 5), ("-thin_raw 0", 6), ("-thin_raw 2147483648", 6), ("-thin_raw", 6),
         ("-highest -thin_raw 5 -lowest", 8), ("-drop_repeated -drop_repeated", 6), ("-tally none", 6),
         ("-tally class -tally class", 8)]


@pytest.mark.parametrize("words, index", WRONG)
def test_wrong_words(place, words, index):
    prepared(place, FIVE)
    run = place.las("las2las", "-i", "a.las", "-o", "d.las", *words.split())
    runs.ended(run, 2, f"usage: word {index}\n".encode())
    runs.holds(place, {"d.las": None})


LONG = FIVE + [point(100 * i, 1_000, i) for i in range(600)]


@pytest.fixture
def bad(place):
    """A place with a file of which the second chunk holds no records."""
    prepared(place, LONG)
    data = bytearray(place.read("a.laz"))
    at = data.index(LONG[256])
    data[at + 20:at + 24] = b"\xff" * 4
    place.write("bad.laz", bytes(data))
    return place


@pytest.mark.parametrize("pick, left", [
    ([], head(0) + b"".join(thinned(LONG[:256], 10, "first"))), (["-lowest"], None), (["-highest"], None)],
    ids=["first", "lowest", "highest"])
def test_bad_chunk(bad, pick, left):
    run = bad.las("las2las", "-i", "bad.laz", "-o", "d.las", "-thin_raw", "10", *TALLY, *pick)
    runs.ended(run, 5, b"refused: bad.laz: 21 BadChunk 1\n")
    runs.holds(bad, {"d.las": left})


FAR = [point(0, 0, 1), point(1, 1, 9), point(50, 0, 2), point(2**31 - 1, 0, 4), point(3, 3, 0)]


@pytest.mark.parametrize("pick, kept", [([], [0, 2]), (["-highest"], [1, 2])], ids=["first", "highest"])
def test_coordinate_out_of_range(place, pick, kept):
    prepared(place, FAR)
    run = place.las("las2las", "-i", "a.las", "-o", "d.las", "-thin_raw", "10", "-translate_raw_x", "1", *pick)
    runs.ended(run, 5, b"refused: a.las: 22 RawRange 2\n")
    moved = [(place_of(FAR[i])[0] + 1, *place_of(FAR[i])[1:]) for i in kept]
    runs.holds(place, {"d.las": head(0) + b"".join(point(*place_, 1, 0) for place_ in moved)})


def test_tallies_on_a_full_standard_output(place):
    prepared(place, FAR)
    with open("/dev/full", "wb") as full:
        run = place.las("las2las", "-i", "a.las", "-o", "e.las", *TALLY, stdout=full)
    assert (run.returncode, run.stderr) == (4, b"write fault\n")
    runs.holds(place, {"e.las": counted(head(0), FAR) + b"".join(FAR)})


def test_no_tallies_without_an_output(place):
    prepared(place, FAR)
    runs.ended(place.las("las2las", "-i", "a.las", "-o", "none/e.las", *TALLY), 4, b"write fault\n")
