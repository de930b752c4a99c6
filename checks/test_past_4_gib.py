"""Files past 4 GiB: packed, unpacked and compared, read by range at the far end, split, merged both ways, surveyed, by
the program, las-batch, the package for Python and a program in C. They take minutes, and 25 GB of disk.
"""
import os
import re
import shutil
import struct
import subprocess
import sys

import pytest

import commands
import library_files
from las_files import head
from measured import MEGABYTE, Taken
from places import Place
from programs import BATCH, TOP

pytestmark = [pytest.mark.huge, pytest.mark.alone]
RECORDS = 250_000_000
FRONT = head(RECORDS)
PLAIN = len(FRONT) + 20 * RECORDS
LAST = [struct.pack("<iii8x", i, -i, 7) for i in range(1, 11)]
NOISE = 10_000_000  # records of a file that hardly packs, of which 25 are merged


@pytest.fixture(scope="module")
def folder(tmp_path_factory):
    """A folder on the disk with the most room, for all cases of this file."""
    path = tmp_path_factory.mktemp("huge")
    assert shutil.disk_usage(path).free > 25_000_000_000
    yield path
    shutil.rmtree(path)


@pytest.fixture(scope="module")
def huge(program, folder):
    """A plain file of 5 GB, of which the last ten records are not zero, and its packed form."""
    place = Place(folder, program)
    with open(place.path("a.las"), "wb") as file:
        file.write(FRONT)
        file.truncate(PLAIN)
        file.seek(PLAIN - 20 * len(LAST))
        file.write(b"".join(LAST))
    said(place, "packed by four workers", ["laszip", "-i", "a.las", "-o", "a.laz", "-cores", "4"])
    return place


def said(place, what, words, most=600):
    """A run that has to be done in `most` megabytes; what it took goes to the table of docs/performance.md."""
    run = Taken(place, words)
    run.ended(0, most=most * MEGABYTE)
    print(f"{what}: {run.seconds:.1f} s, {run.processor:.1f} s of processors, {run.bytes / MEGABYTE:.0f} MB",
          file=sys.__stderr__, flush=True)


def same(place, one, other, *words):
    """Whether two files are equal, by cmp, which reads them in pieces."""
    assert subprocess.run(["cmp", *words, place.path(one), place.path(other)], check=False).returncode == 0


def removed(place, *names):
    for name in names:
        place.path(name).unlink()


def test_plain_file_is_past_4_gib(huge):
    assert huge.path("a.las").stat().st_size == PLAIN > 2**32


def test_unpacked_to_the_same_bytes(huge):
    said(huge, "unpacked by four workers", ["laszip", "-i", "a.laz", "-o", "b.las", "-cores", "4"])
    same(huge, "a.las", "b.las")
    removed(huge, "b.las")


@pytest.mark.parametrize("name", ["a.las", "a.laz"], ids=["plain", "packed"])
def test_range_at_the_far_end(huge, name):
    said(huge, f"the last ten records of {name}", ["las2las", "-i", name, "-o", "end.las", "-start_at_point",
                                                   str(RECORDS - 10)])
    assert huge.read("end.las")[len(FRONT):] == b"".join(LAST)
    removed(huge, "end.las")


@pytest.mark.parametrize("name", ["a.las", "a.laz"], ids=["plain", "packed"])
def test_survey(huge, name):
    said(huge, f"lasinfo of {name}", ["lasinfo", "-i", name])
    report = commands.good([huge.program, "lasinfo", "-i", huge.path(name)])
    assert f"\npoints {RECORDS}\n" in report
    assert report.endswith("raw x 0 10\nraw y -10 0\nraw z 0 7\n")


def test_split_and_merged(huge):
    said(huge, "split in two", ["lassplit", "-i", "a.las", "-o", "p.las", "-split", str(RECORDS // 2)])
    parts = ["p_0000000.las", "p_0000001.las"]
    assert [huge.path(name).stat().st_size for name in parts] == [len(FRONT) + 20 * RECORDS // 2] * 2
    said(huge, "merged", ["lasmerge", "-i", parts[0], "-i", parts[1], "-o", "m.las"])
    removed(huge, *parts)
    same(huge, "a.las", "m.las", "-i", str(len(FRONT)))
    removed(huge, "m.las")


@pytest.fixture(scope="module")
def noise(program, folder):
    """A file of random records, packed."""
    place = Place(folder, program)
    place.write("n.las", head(NOISE, (0, 0, 0, 0, 0)) + os.urandom(20 * NOISE))
    said(place, "random records packed", ["laszip", "-i", "n.las", "-o", "n.laz", "-cores", "4"])
    return place


@pytest.mark.parametrize("copy", [[], ["-copy_chunks"]], ids=["packed again", "copied chunks"])
def test_packed_files_merged_past_4_gib(noise, copy):
    inputs = ["-i", "n.laz"] * 25
    said(noise, f"25 packed files merged {' '.join(copy)}",
         ["lasmerge", *inputs, "-o", "all.laz", *(copy or ["-cores", "4"])])
    size = noise.path("all.laz").stat().st_size
    assert size > 2**32
    start = 24 * NOISE + NOISE // 2
    said(noise, "records at its far end", ["las2las", "-i", "all.laz", "-o", "end.las", "-start_at_point", str(start)])
    assert noise.read("end.las")[len(FRONT):] == noise.read("n.las")[len(FRONT) + 10 * NOISE:]
    removed(noise, "all.laz", "end.las")


def test_las_batch(huge, folder):
    run = commands.quiet([BATCH, "laszip", "-odir", folder / "packed", folder / "a.las"], timeout=3600)
    assert run.returncode == 0, run.stderr.decode()
    same(huge, "a.laz", "packed/a.laz")
    removed(huge, "packed/a.laz")


@pytest.mark.parametrize("name", ["a.las", "a.laz"], ids=["plain", "packed"])
def test_package_for_python_reads_the_far_end(huge, tmp_path_factory, monkeypatch, name):
    balsamvise = library_files.package(tmp_path_factory, monkeypatch)
    with balsamvise.open(str(huge.path(name))) as file:
        assert len(file) == RECORDS
        assert file.records(RECORDS - 10, RECORDS).tobytes() == b"".join(LAST)


def test_program_in_c(huge, tmp_path_factory):
    there = library_files.library(tmp_path_factory)
    program = huge.path("heights")
    commands.good(["cc", "-O2", f"-I{there}", TOP / "c" / "heights.c", there / "liblaz.a", "-o", program])
    assert re.sub(r"\s+", " ", commands.good([program, huge.path("a.laz")])) == f"points {RECORDS} raw z 0 7 "
