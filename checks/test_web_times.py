"""Times in Node, over those of the library for C in the same run, and of four workers over one."""
import os

import pytest

import commands
import library_files
import needs
import web
from programs import TOP

pytestmark = [pytest.mark.browser, pytest.mark.alone]
POINTS = 500_000


@pytest.fixture(scope="module")
def plain(tmp_path_factory, program):
    """A plain file of format 1, and its packed one."""
    folder = tmp_path_factory.mktemp("times")
    commands.good([program, "make", "-points", str(POINTS), "-seed", "3", "-format", "1", "-o", folder / "m.las", "-z",
                   folder / "m.laz", "-cores", "2"])
    return folder / "m.las"


@pytest.fixture(scope="module")
def native(tmp_path_factory):
    """c/times.c over the library for C."""
    folder = tmp_path_factory.mktemp("native")
    commands.good([needs.command("gcc", "gcc"), "-O2", f"-I{TOP / 'c'}", TOP / "c" / "times.c",
                   library_files.library(tmp_path_factory) / "liblaz.a", "-o", folder / "times"])
    return folder / "times"


def test_node_over_the_library(plain, native):
    ratios = []
    for _ in range(3):
        lines = commands.good([native, plain, "50000"]).splitlines()
        packing, unpacking = (float(line.split()[1]) for line in lines)
        own = web.answer("coderTimes", [str(plain), 6])
        ratios.append((own[0] / unpacking, own[1] / packing))
        print(f"unpacking {own[0]:.0f} ns a point, over {unpacking:.0f}; packing {own[1]:.0f} over {packing:.0f}")
    assert min(ratio for ratio, _ in ratios) <= 1.5
    assert min(ratio for _, ratio in ratios) <= 2.0


def test_four_workers_over_one(program, tmp_path):
    """Forty chunks, so that none of the four waits for long at the end."""
    if len(os.sched_getaffinity(0)) < 4:
        needs.missing("there are fewer than four processors", "a machine with four processors")
    packed = str(tmp_path / "m.laz")
    commands.good([program, "make", "-points", "2000000", "-seed", "3", "-format", "1", "-o", tmp_path / "m.las", "-z",
                   packed, "-cores", "4"])
    rates = []
    for _ in range(3):
        one, four = (web.answer("times", [packed, workers, 5]) for workers in (1, 4))
        rates.append(one / four)
        print(f"one worker {one:.0f} ms, four {four:.0f} ms")
    assert max(rates) >= 3
