"""What reading takes in memory by the Python package: by the chunks in flight, not by those that a file claims."""
import gzip
import inspect
import os
import struct
import subprocess
import sys
from pathlib import Path

import pytest

import library_files
import needs
from measured import MOST
from programs import TOP

CHUNKS = 2**24
READ = MOST + """import sys
sys.path.insert(0, sys.argv[1])
import balsamvise
try:
    balsamvise.read(sys.argv[2], int(sys.argv[3]))
except balsamvise.Refused as error:
    print(most(), error.cause, error.chunk)
"""
MAKE = """import struct, sys
sys.path.insert(0, sys.argv[1])
import numpy, balsamvise
from balsamvise import library
data = bytearray(bytes(balsamvise.Head.new(0)))
struct.pack_into("<I", data, 107, 2**24)
front = balsamvise.Head(bytes(data)).packed(library.payload_of(0, 0, 1))
table = library.table_of(numpy.zeros(2**24, numpy.uint32))
open(sys.argv[2], "wb").write(front + struct.pack("<Q", len(front) + 8) + table)
"""


@pytest.fixture(scope="module")
def claims(tmp_path_factory: pytest.TempPathFactory) -> "tuple[Path, dict[str, str]]":
    """A file of 5.8 KB that claims 16,777,216 chunks of one point, and what the package needs to read it."""
    needs.module("numpy", "python3-numpy")
    folder = tmp_path_factory.mktemp("claims")
    (folder / "liblaz.so").write_bytes(gzip.decompress((TOP / "release" / "liblaz.so.gz").read_bytes()))
    environment = {**os.environ, "BALSAMVISE_LIBRARY": str(folder), "PYTHONDONTWRITEBYTECODE": "1"}
    line = [sys.executable, "-c", MAKE, str(TOP / "python" / "src"), str(folder / "claims.laz")]
    subprocess.run(line, env=environment, check=True)
    return folder / "claims.laz", environment


def test_the_file_is_small(claims: "tuple[Path, dict[str, str]]") -> None:
    assert claims[0].stat().st_size < 6000
    assert struct.unpack_from("<I", claims[0].read_bytes(), 107)[0] == CHUNKS


@pytest.mark.parametrize("threads", [1, 2, 64, 256])
def test_more_chunks_than_the_file_has_bytes_for_take_no_memory(claims: "tuple[Path, dict[str, str]]",
                                                                threads: int) -> None:
    """It is refused before a list of them is made, which would take 260 MB."""
    path, environment = claims
    line = [sys.executable, "-c", READ, str(TOP / "python" / "src"), str(path), str(threads)]
    done = subprocess.run(line, env=environment, stdout=subprocess.PIPE, check=True, timeout=120)
    most, cause, chunk = done.stdout.decode().split()
    assert (cause, chunk) == ("BadChunk", "None")
    assert int(most) < 100


SPOILT = """from __future__ import annotations
import io, random, struct, sys
sys.path.insert(0, sys.argv[1])
import balsamvise, numpy
""" + MOST + inspect.getsource(library_files.damaged) + """
count, claims = int(sys.argv[2]), sys.argv[3]
choose = random.Random(53)
files = []
for format_, extra in ((0, 0), (1, 4), (3, 192)):
    dtype = balsamvise.dtype_of(format_, extra)
    records = numpy.random.default_rng(1).integers(0, 256, 90 * dtype.itemsize, numpy.uint8).view(dtype)
    head = balsamvise.Head.new(format_, extra=extra, minor=4, crs=25832)
    points = balsamvise.Points(records, head)
    if extra:
        points.head = head.changed(vlrs=[balsamvise.Vlr(b"LASF_Spec", 4, balsamvise.ExtraBytes.new("a", "u2").data)])
    stream = io.BytesIO()
    balsamvise.write(stream, points.head, points, packed=True, chunk=25)
    files.append(stream.getvalue())
with open(claims, "rb") as file:
    claimed = file.read()
causes = {}
for number in range(count):
    data = claimed if number == count // 2 else damaged(choose.choice(files), choose)
    threads = choose.choice([1, 1, 2, 8, 64])
    try:
        with balsamvise.open(io.BytesIO(data)) as file:
            repr(file)
            if choose.random() < 0.5:
                points = file.read(threads)
                [numpy.asarray(points[name]) for name in points.fields]
            else:
                list(file.chunks(7, threads=threads))
        cause = "read"
    except balsamvise.Refused as error:
        cause = error.cause
    causes[cause] = causes.get(cause, 0) + 1
print(most(), *sorted(causes))
"""


@pytest.mark.parametrize("count", [500, pytest.param(20_000, marks=pytest.mark.huge)])
def test_spoilt_files_are_refused_by_name_or_read_below_300_mb(claims: "tuple[Path, dict[str, str]]",
                                                               count: int) -> None:
    path, environment = claims
    line = [sys.executable, "-W", "ignore", "-c", SPOILT, str(TOP / "python" / "src"), str(count), str(path)]
    done = subprocess.run(line, env=environment, stdout=subprocess.PIPE, check=True, timeout=3000)
    most, *causes = done.stdout.decode().split()
    assert {"read", "BadChunk", "Table"} <= set(causes)
    assert int(most) < 300
