"""What runs take of memory when a small file claims much: by the greatest resident size of the process, and under a
limit on its address space."""
import struct

import pytest

from las_files import head, vlr
from measured import MEGABYTE, Taken

# the chunk table of one chunk of 24 bytes
TABLE = bytes([0, 0, 0, 0, 1, 0, 0, 0, 0x2C, 0x5C, 0, 0, 0])
LIST_CHUNKS = 1 << 24
SPREAD = 1_000_000


def laszip_vlr(chunk, items):
    payload = struct.pack("<HHBBHIIqqH", 2, 0, 2, 2, 0, 0, chunk, -1, -1, len(items))
    payload += b"".join(struct.pack("<HHH", type_, size, 2) for type_, size in items)
    return vlr(b"laszip encoded", 22204, payload)


def packed_head(points, format_, length, block):
    """A head of LAS 1.2 of a packed file with one VLR, and the pointer's place after it."""
    front = bytearray(head(points, format_byte=0x80 | format_))
    struct.pack_into("<II", front, 96, len(front) + len(block), 1)
    struct.pack_into("<H", front, 105, length)
    return bytes(front) + block


def claiming_file():
    """One chunk of 24 bytes that claims 250,000 records of 226 bytes."""
    block = laszip_vlr(250_000, [(6, 20), (7, 8), (8, 6), (0, 192)])
    front = packed_head(250_000, 3, 226, block)
    chunk = bytes(24)
    return front + struct.pack("<Q", len(front) + 8 + len(chunk)) + chunk + TABLE


def listing_file():
    """2^24 chunks of one point and no bytes each. After the first number each one of the table is as it is foretold,
    which moves no bound of the coder upwards: all bytes after the first four are zero."""
    block = laszip_vlr(2**32 - 1, [(6, 20)])
    front = packed_head(LIST_CHUNKS, 0, 20, block)
    # the first number is 1: no bit of its width, of 33 widths, and then the upper half of a bit
    width = ((2**32 - 1) >> 15) * ((2**31 // 33) >> 16)
    first = (width >> 13) << 12
    table = struct.pack("<II", 0, LIST_CHUNKS) + struct.pack(">I", first) + bytes(16_384)
    return front + struct.pack("<Q", len(front) + 8) + table


PACKED = ["-olaz", "-chunk_size", "250000"]
# the words, and the most that they may take, in megabytes
CLAIMS = {
    "laszip": (["laszip", "-i", "claims.laz", "-o", "claimed.las"], 130),
    "las2las": (["las2las", "-i", "claims.laz", "-o", "claimed.las"], 200),
    "las2las to packed": (["las2las", "-i", "claims.laz", "-o", "claimed.laz", *PACKED], 520),
    "lasinfo": (["lasinfo", "-i", "claims.laz"], 130),
    "lassplit": (["lassplit", "-i", "claims.laz", "-o", "claimed.las", "-split", "10"], 130),
    "lasmerge to packed": (["lasmerge", "-i", "claims.laz", "-o", "claimed.laz", *PACKED], 480),
}


@pytest.mark.parametrize("run", CLAIMS)
def test_eight_workers_take_what_one_takes_for_what_a_small_file_claims(place, run):
    words, most = CLAIMS[run]
    place.write("claims.laz", claiming_file())
    space = (200 + most + most // 2) * MEGABYTE
    taken = {}
    for cores in ("1", "8"):
        taken[cores] = Taken(place, [*words, "-cores", cores], space)
        taken[cores].ended(5, b"refused: claims.laz: 21 BadChunk 0\n", most * MEGABYTE)
    assert abs(taken["8"].bytes - taken["1"].bytes) <= 10 * MEGABYTE


def test_make_takes_for_one_chunk_what_one_worker_takes(place):
    words = ["make", "-o", "made.las", "-z", "made.laz", "-points", "200000", "-seed", "1", "-chunk_size", "250000"]
    one = Taken(place, [*words, "-cores", "1"])
    one.ended(0)
    made = place.read("made.laz")
    Taken(place, [*words, "-cores", "8"]).ended(0, most=one.bytes + 10 * MEGABYTE)
    assert place.read("made.laz") == made


@pytest.mark.slow
def test_six_chunk_lists_of_134_mb_are_opened_in_the_room_of_fewer_than_three(place):
    place.write("list.laz", listing_file())
    words = ["lasmerge", *["-i", "list.laz"] * 6, "-o", "lists.las", "-cores", "1"]
    Taken(place, words, space=400 * MEGABYTE).ended(5, b"refused: list.laz: 21 BadChunk 0\n", 300 * MEGABYTE)


def spread(count):
    """Records of a plain file, each in a cell of its own."""
    return head(count) + b"".join(struct.pack("<iii8x", i, i, 0) for i in range(count))


@pytest.mark.parametrize("words", ["-drop_repeated", "-thin_raw 1"])
def test_sieve_that_runs_out_of_memory_leaves_a_front_of_its_draft(place, words):
    place.write("spread.las", spread(SPREAD))
    run = Taken(place, ["las2las", "-i", "spread.las", "-o", "few.las", *words.split()], space=16 * MEGABYTE)
    run.ended(1, b"no memory\n")
    few, draft = place.read("few.las"), head(0) + spread(SPREAD)[227:]
    assert 227 <= len(few) < len(draft)
    assert draft.startswith(few)


def test_out_of_memory_while_an_input_is_looked_through_leaves_no_output(place):
    place.write("spread.las", spread(SPREAD))
    words = ["las2las", "-i", "spread.las", "-o", "low.laz", "-thin_raw", "1", "-lowest"]
    Taken(place, words, 16 * MEGABYTE).ended(1, b"no memory\n")
    assert place.names() == ["spread.las"]


@pytest.mark.alone
@pytest.mark.parametrize("way", ["packed", "unpacked"])
def test_two_chunks_of_250_000_points_by_one_and_by_four_workers(place, capsys, way):
    """The times are printed; a check of them would rest on what else the machine does."""
    Taken(place, ["make", "-o", "two.las", "-z", "two.laz", "-points", "500000", "-seed", "1", "-chunk_size",
                  "250000"]).ended(0)
    words = {"packed": ["laszip", "-i", "two.las", "-o", "again", "-chunk_size", "250000"],
             "unpacked": ["laszip", "-i", "two.laz", "-o", "again"]}[way]
    best = {}
    for cores in ("1", "4"):
        tries = [Taken(place, [*words, "-cores", cores]) for _ in range(3)]
        for run in tries:
            run.ended(0)
        best[cores] = min(run.seconds for run in tries)
        assert place.read("again") == place.read("two.laz" if way == "packed" else "two.las")
    with capsys.disabled():
        print(f"\n  two chunks {way} in {best['1']:.2f} s by one worker, {best['4']:.2f} s by four")
