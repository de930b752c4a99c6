"""Clocks that are set back, and times that lie ahead: las-batch compares times for equality, and never for order."""
import os

import pytest

import needs
from batch_places import Tiles
from batch_tiles import ended

AHEAD = (4_102_444_800, 4_102_444_800)  # the year 2100
SET_BACK = r"s/^\(las-batch\t[^\t]*\t[^\t]*\t[^\t]*\t[^\t]*\t\)[0-9]*/\11000/"  # a row that began in 1970


@pytest.fixture
def tiles(program, tmp_path):
    needs.command("parallel", "parallel")
    return Tiles(tmp_path, program)


def test_an_input_whose_time_is_later_than_that_of_its_output_stays_packed(tiles):
    tiles.make("tiles/a.las")
    os.utime(tiles.path("tiles/a.las"), AHEAD)
    ended(tiles.batch("laszip", "-odir", "out", "tiles/a.las"), 0, b"1 done, 0 not")
    ended(tiles.batch("laszip", "-odir", "out", "tiles/a.las"), 0, b"1 of 1 outputs were made")


def test_an_input_that_is_changed_after_the_clock_was_set_back_is_packed_again(tiles):
    tiles.make("tiles/a.las")
    ended(tiles.batch("laszip", "-odir", "out", "tiles/a.las"), 0, b"1 done, 0 not")
    data = tiles.make("tiles/a.las", seed=2)
    os.utime(tiles.path("tiles/a.las"), (1_000_000_000, 1_000_000_000))
    ended(tiles.batch("laszip", "-odir", "out", "tiles/a.las"), 0, b"1 done, 0 not")
    assert tiles.path("out/a.laz").read_bytes() == tiles.packed(data)


def test_an_output_whose_time_lies_ahead_is_no_newer_one(tiles):
    """As after a clock that was ahead while the output was made: a changed input has it made again."""
    tiles.make("tiles/a.las")
    os.utime(tiles.path("tiles/a.las"), AHEAD)
    ended(tiles.batch("laszip", "-odir", "out", "-keep-times", "tiles/a.las"), 0, b"1 done, 0 not")
    assert tiles.path("out/a.laz").stat().st_mtime == AHEAD[1]
    data = tiles.make("tiles/a.las", seed=2)
    ended(tiles.batch("laszip", "-odir", "out", "-keep-times", "tiles/a.las"), 0, b"1 done, 0 not")
    assert tiles.path("out/a.laz").read_bytes() == tiles.packed(data)


def test_an_input_of_a_later_time_than_its_output_is_removed_as_any(tiles):
    data = tiles.make("tiles/a.las")
    os.utime(tiles.path("tiles/a.las"), AHEAD)
    ended(tiles.batch("laszip", "-odir", "out", "-verify", "-delete", "tiles/a.las"), 0, b"1 done, 0 not")
    assert tiles.path("out/a.laz").read_bytes() == tiles.packed(data)
    assert not tiles.path("tiles/a.las").exists()


def test_rows_of_a_clock_that_was_set_back_between_two_runs_are_taken(tiles):
    """The second row says that it began before the first; the log has it so, and the output is the new one."""
    tiles.make("tiles/a.las")
    ended(tiles.batch("laszip", "-odir", "out", "tiles/a.las"), 0, b"1 done, 0 not")
    data = tiles.make("tiles/a.las", seed=2)
    tiles.command("bash", f"/bin/bash \"$@\" | sed '{SET_BACK}'\nexit \"${{PIPESTATUS[0]}}\"")
    ended(tiles.batch("laszip", "-odir", "out", "tiles/a.las", path=str(tiles.path("bin"))), 0, b"1 done, 0 not")
    assert tiles.path("out/las-batch.log").read_bytes().splitlines()[1].split(b"\t")[2] == b"1.000"
    assert tiles.path("out/a.laz").read_bytes() == tiles.packed(data)
    ended(tiles.batch("laszip", "-odir", "out", "tiles/a.las"), 0, b"1 of 1 outputs were made")
