"""The example in Rust over the installed library for C, by the machine's own compiler."""
import os
import subprocess

import pytest

import needs
from las_files import packed_one
from programs import TOP

SAMPLE = TOP / "examples" / "tile.laz"


@pytest.fixture(scope="module")
def heights(tmp_path_factory):
    """The example, compiled and linked with the library below a prefix, and that prefix."""
    needs.command("rustc", "rustc")
    folder = tmp_path_factory.mktemp("rust")
    subprocess.run([TOP / "install", folder / "prefix"], stdin=subprocess.DEVNULL, stdout=subprocess.DEVNULL,
                   check=True)
    subprocess.run(["rustc", "--edition", "2021", "-O", "-D", "warnings", "-L", folder / "prefix" / "lib",
                    "-o", folder / "heights", TOP / "examples" / "heights.rs"], check=True)
    return folder / "heights", folder / "prefix" / "lib"


def run(heights, *words):
    program, folder = heights
    return subprocess.run([program, *words], env=dict(os.environ, LD_LIBRARY_PATH=str(folder)), stdout=subprocess.PIPE,
                          stderr=subprocess.PIPE, check=False)


def test_sample_is_read(heights):
    ended = run(heights, SAMPLE)
    assert (ended.returncode, ended.stdout, ended.stderr) == (0, b"points 20493\nraw z 21494 23445\n", b"")


def test_cause_of_a_file_that_is_cut_is_told(heights, tmp_path):
    (tmp_path / "cut.laz").write_bytes(SAMPLE.read_bytes()[:-1])
    ended = run(heights, tmp_path / "cut.laz")
    assert (ended.returncode, ended.stderr) == (5, f"{tmp_path}/cut.laz: refused by cause 19\n".encode())


def test_each_cut_of_a_small_file_is_refused(heights, tmp_path):
    for length in range(len(packed_one())):
        (tmp_path / "cut.laz").write_bytes(packed_one()[:length])
        assert run(heights, tmp_path / "cut.laz").returncode == 5, length


def test_file_that_is_not_there_is_told(heights, tmp_path):
    assert run(heights, tmp_path / "none.laz").returncode == 3
