"""Small files by the libraries: little time is taken beside the unpacking."""
import tempfile
from pathlib import Path

import pytest

import library_files
import needs
import small_files


@pytest.mark.alone
@pytest.mark.slow(seconds=4)
@pytest.mark.parametrize("kind", ["Python", "C"])
def test_reading_takes_little_beside_the_unpacking(tmp_path_factory, program, kind):
    """1.06 and 1.02 times as long on a busy machine, and 1.1 is the goal: the slack is for one that is busier still.

    Other work on the machine adds more to a read, which takes memory. So what is too long is measured again.
    """
    needs.module("numpy", "python3-numpy")
    needs.command("cc", "gcc")
    library = library_files.library(tmp_path_factory)
    with tempfile.TemporaryDirectory(dir="/dev/shm") as name:
        tiles = small_files.make_tiles(program, Path(name), 10)
        ratios = []
        while len(ratios) < 4 and (not ratios or ratios[-1] >= 1.15):
            if kind == "Python":
                unpacking, reading = small_files.of_python(library, tiles, 20)
            else:
                unpacking, reading = small_files.of_c(library, Path(name), tiles, 20)
            ratios.append(reading / unpacking)
    assert min(ratios) < 1.15
