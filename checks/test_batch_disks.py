"""A disk may have another number after the machine was started anew. las-batch goes on there as if it had the same."""
import os
import sqlite3
import subprocess
from pathlib import Path

import pytest

import commands
import needs
from batch_places import Tiles, wait_until
from batch_trials import TELLING, Trials, faults_library, spread

pytestmark = pytest.mark.root


@pytest.fixture
def disk(small_disk):
    needs.command("parallel", "parallel")
    return small_disk(30_000_000, kind="ext4")


@pytest.fixture
def tiles(program, tmp_path, disk):
    made = Tiles(disk / "w", program)
    made.folder.mkdir()
    return made


def mounted_anew(disk: Path) -> None:
    """Unmounts a disk, and mounts it with another number."""
    before = os.stat(disk).st_dev
    image = disk.with_name(disk.name.replace("disk", "image"))
    device = commands.good(["losetup", "-f", "--show", image]).strip()
    # (a process that was killed may still be there)
    assert wait_until(lambda: subprocess.run(["umount", disk], check=False).returncode == 0, 20)
    # (what was read of the new device before that is old)
    subprocess.run(["blockdev", "--flushbufs", device], check=True)
    subprocess.run(["mount", device, disk], check=True)
    subprocess.run(["losetup", "-d", device], check=True)  # when it is unmounted
    assert os.stat(disk).st_dev != before


def inodes(tiles: Tiles) -> "dict[str, int]":
    return {name: tiles.path(f"out/{name}").stat().st_ino for name in tiles.outputs("out")}


@pytest.mark.parametrize("words", [[], ["-verify"]], ids=["no sums", "sums"])
def test_outputs_stay(tiles, disk, words):
    wanted = tiles.make_all(3)
    assert tiles.batch("laszip", "-odir", "out", *words, *wanted).returncode == 0
    before = inodes(tiles)
    mounted_anew(disk)
    run = tiles.batch("laszip", "-odir", "out", *words, *wanted)
    assert (run.returncode, b"3 of 3 outputs" in run.stderr) == (0, True), run.stderr
    assert (len(before), inodes(tiles)) == (3, before)


@pytest.mark.parametrize("words", [[], ["-verify"]], ids=["no sums", "sums"])
def test_an_output_that_was_changed_is_not_ours(tiles, disk, words):
    """Even if its size and time are those of the output."""
    wanted = tiles.make_all(2)
    assert tiles.batch("laszip", "-odir", "out", *words, *wanted).returncode == 0
    path = tiles.path("out/001.laz")
    before = path.stat()
    other = bytes(before.st_size)
    path.write_bytes(other)
    os.utime(path, ns=(before.st_atime_ns, before.st_mtime_ns))
    mounted_anew(disk)
    run = tiles.batch("laszip", "-odir", "out", *words, *wanted)
    assert (run.returncode, b"not ours" in run.stderr) == (1, True), run.stderr
    assert path.read_bytes() == other


def test_outputs_that_have_their_names_and_are_not_noted_are_done(tiles, disk):
    wanted = tiles.make_all(3)
    assert tiles.batch("laszip", "-odir", "out", *wanted).returncode == 0
    before = inodes(tiles)
    with sqlite3.connect(tiles.path("out/.las-batch/state.db")) as state:
        state.execute("UPDATE job SET state = 1")  # made: they are to get their names
        state.execute("DELETE FROM made")
    state.close()
    mounted_anew(disk)
    run = tiles.batch("-resume", "-odir", "out")
    assert (run.returncode, b"3 done, 0 not" in run.stderr) == (0, True), run.stderr
    assert inodes(tiles) == before
    run = tiles.batch("laszip", "-odir", "out", *wanted)
    assert (run.returncode, b"3 of 3 outputs" in run.stderr) == (0, True), run.stderr


@pytest.fixture
def trials(program, disk, tmp_path):
    needs.command("flock", "util-linux")
    return Trials(disk, program, faults_library(tmp_path))


@pytest.mark.slow(seconds=20)
@pytest.mark.parametrize("where", ["before", "after"])
def test_a_run_that_was_killed_goes_on(trials, disk, where):
    calls = trials.calls()
    for at in spread(calls, TELLING, 3):
        when = f"killed {where} call {at} of {len(calls)}, {calls[at - 1]}"
        trials.again()
        trials.kill(at, where, when)
        mounted_anew(disk)
        trials.ends_well(when)
