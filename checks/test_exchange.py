"""The packed files of examples/exchange, by which other readers are tried."""
import hashlib
import subprocess
import sys

import pytest

import runs
from programs import TOP

FOLDER = TOP / "examples" / "exchange"
SUMS = {line[66:]: line[:64] for line in (FOLDER / "plain.sha256").read_text().splitlines()}
NAMES = sorted(name[:-len(".las")] for name in SUMS)


def test_files_are_those_with_a_sum():
    assert sorted(path.stem for path in FOLDER.glob("*.laz")) == NAMES
    assert len(NAMES) == 24


@pytest.mark.parametrize("name", NAMES)
def test_file_unpacks_to_its_plain_one(place, name):
    packed = (FOLDER / f"{name}.laz").read_bytes()
    assert len(packed) <= 60_000
    place.write("a.laz", packed)
    runs.ended(place.las("laszip", "-i", "a.laz", "-o", "a.las"), 0)
    assert hashlib.sha256(place.read("a.las")).hexdigest() == SUMS[f"{name}.las"]


@pytest.mark.slow(seconds=4)
def test_script_makes_the_same_files_again(program, tmp_path):
    subprocess.run([sys.executable, "-B", FOLDER / "make_exchange.py", program, tmp_path], check=True)
    assert {path.name: path.read_bytes() for path in tmp_path.iterdir()} == {
        path.name: path.read_bytes() for path in FOLDER.iterdir() if path.suffix in (".laz", ".sha256")}
