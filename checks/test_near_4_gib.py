"""Small files whose heads claim places and numbers near 2^31, 2^32, 2^63 and 2^64: refused, for the cause of the
claim, by every command, by the library for C and by the package for Python.
"""
import resource

import pytest

import commands
import library_files
import runs
from las_files import ONE, changed, long_head, packed_one, record

NEAR_32 = [2**31 - 1, 2**31, 2**31 + 1, 2**32 - 2, 2**32 - 1]
NEAR_64 = [2**32, 2**32 + 353, 2**63 - 1, 2**63, 2**64 - 1]
FOUR = changed(long_head(4, 0, 0, [record(5, 2)]) + record(5, 2), 107, "<I", 0)
CHUNK_SIZE = 227 + 54 + 12

# what is claimed: the file, where the number stands and how, the numbers, and the cause
CLAIMS = {
    "records of a plain file": (ONE, 107, "<I", NEAR_32, "9 Count"),
    "records of a packed file": (packed_one(), 107, "<I", NEAR_32, "19 Table"),
    "records of a plain file in chunks of one point": (
        changed(packed_one(), CHUNK_SIZE, "<I", 1), 107, "<I", NEAR_32, "17 TooManyChunks"),
    "records of version 1.4": (FOUR, 247, "<Q", NEAR_32, "9 Count"),
    "more records than 32 bits": (FOUR, 247, "<Q", NEAR_64, "26 PointCounts"),
    "place of the point data": (ONE, 96, "<I", NEAR_32, "5 Offset"),
    "place of the point data of a packed file": (packed_one(), 96, "<I", NEAR_32, "5 Offset"),
    "VLRs": (packed_one(), 100, "<I", NEAR_32, "6 Vlrs"),
    "place of the chunk table": (packed_one(), 321, "<Q", NEAR_32 + NEAR_64, "18 TablePointer"),
    "chunks": (packed_one(), 357, "<I", NEAR_32, "19 Table"),
}
READERS = {
    "laszip": ["laszip", "-i", "a.laz", "-o", "b.las"],
    "las2las": ["las2las", "-i", "a.laz", "-o", "b.las", "-start_at_point", "4294967290"],
    "lasinfo": ["lasinfo", "-i", "a.laz", "-tally", "class"],
    "lassplit": ["lassplit", "-i", "a.laz", "-o", "b.las", "-split", "4294967295"],
    "lasmerge": ["lasmerge", "-i", "a.laz", "-i", "a.laz", "-o", "b.las"],
}
claims = pytest.mark.parametrize("claim", CLAIMS)


def files_of(claim):
    data, at, form, numbers, cause = CLAIMS[claim]
    return [(number, changed(data, at, form, number)) for number in numbers], cause


def little_memory():
    """A claim that is believed takes more than this."""
    resource.setrlimit(resource.RLIMIT_AS, (400_000_000, 400_000_000))


@pytest.mark.files
@claims
@pytest.mark.parametrize("command", READERS)
def test_command_refuses(place, command, claim):
    files, cause = files_of(claim)
    for number, data in files:
        place.write("a.laz", data)
        run = place.las(*READERS[command], preexec_fn=little_memory, timeout=60)
        assert (number, run.returncode, run.stderr) == (number, 5, f"refused: a.laz: {cause}\n".encode())
        assert place.files() == {"a.laz": data}


@pytest.mark.files
@pytest.mark.parametrize("number", NEAR_32[:-1])
def test_chunk_size_above_all_records_is_one_chunk(place, number):
    place.write("a.laz", changed(packed_one(), CHUNK_SIZE, "<I", number))
    runs.unpacks(place, "a.laz", ONE)


@pytest.mark.parametrize("claim", [claim for claim in CLAIMS if CLAIMS[claim][0][104] & 128])
def test_library_for_c_refuses(tmp_path_factory, tmp_path, claim):
    check = library_files.c_program(tmp_path_factory)
    files, cause = files_of(claim)
    for number, data in files:
        (tmp_path / "a.laz").write_bytes(data)
        said = commands.good([check, "unpack", tmp_path / "a.laz", tmp_path / "b.las"], timeout=60)
        assert (number, said) == (number, cause.split()[0] + "\n")


@claims
def test_package_for_python_refuses(tmp_path_factory, tmp_path, monkeypatch, claim):
    balsamvise = library_files.package(tmp_path_factory, monkeypatch)
    files, cause = files_of(claim)
    for number, data in files:
        (tmp_path / "a.laz").write_bytes(data)
        with pytest.raises(balsamvise.Refused) as caught:
            balsamvise.read(str(tmp_path / "a.laz"))
        assert (number, f"{caught.value.number} {caught.value.cause}") == (number, cause)
