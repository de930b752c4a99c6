"""las-batch cut off half way: no output is partial, and -resume does the rest."""
import contextlib
import os
import signal
import subprocess
import time

import pytest

from batch_places import processes_with, wait_until
from batch_tiles import Stock, StockTiles, ended


@pytest.fixture(scope="module")
def stock(program, tmp_path_factory):
    return Stock(tmp_path_factory, program)


@pytest.fixture
def tiles(stock, tmp_path):
    return StockTiles(tmp_path, stock)


def some_done(tiles, name, run, count=25):
    assert wait_until(lambda: run.poll() is not None or len(tiles.outputs(name, hidden=False)) >= count)


@pytest.mark.parametrize("words", [*(pytest.param(it, marks=pytest.mark.slow) for it in ([], ["-verify"])),
                                   ["-verify", "-delete"]], ids=" ".join)
def test_resume_after_a_kill_of_all(tiles, words):
    with tiles.running("laszip", "-odir", "out", *words, *tiles.names(), las=tiles.slow(0.05)) as run:
        some_done(tiles, "out", run)
        os.killpg(run.pid, signal.SIGKILL)
        run.wait()
    assert wait_until(lambda: tiles.free("out"), 20), "the folder stays locked"
    found = tiles.outputs("out", hidden=False)
    assert 0 < len(found) < 200
    assert {name: data for name, data in found.items() if tiles.all_packed.get(name) != data} == {}
    ended(tiles.batch("-resume", "-odir", "out"), 0, b"200 done, 0 not")
    assert tiles.outputs("out") == tiles.all_packed
    assert tiles.outputs("tiles") == ({} if "-delete" in words else tiles.plain)


def test_a_second_run_in_the_same_folder_is_refused_while_the_first_lives(tiles):
    # it lives for 25 seconds: the second one starts late on a busy machine
    with tiles.running("laszip", "-odir", "out", *tiles.names(), las=tiles.slow(0.5)) as run:
        some_done(tiles, "out", run, 5)
        ended(tiles.batch("laszip", "-odir", "out", *tiles.names()), 2, b"another las-batch works in")
        os.kill(run.pid, signal.SIGTERM)
        assert run.wait(60) == 130
    ended(tiles.batch("-resume", "-odir", "out"), 0, b"200 done, 0 not")
    assert tiles.outputs("out") == tiles.all_packed


def test_a_second_run_takes_over_when_the_first_was_killed(tiles):
    with tiles.running("laszip", "-odir", "out", *tiles.names(), las=tiles.slow(0.05)) as run:
        some_done(tiles, "out", run, 5)
        os.kill(run.pid, signal.SIGKILL)
        run.wait()
        assert wait_until(lambda: tiles.free("out"), 20)
        before = tiles.outputs("out")
    run = tiles.batch("laszip", "-odir", "out", *tiles.names())
    ended(run, 0, b"%d of 200 outputs were made" % len(before))
    assert tiles.outputs("out") == tiles.all_packed


def test_the_end_of_the_reader_of_its_lines_ends_it(tiles):
    with tiles.running("laszip", "-odir", "out", *tiles.names(), las=tiles.slow(0.05)) as run:
        some_done(tiles, "out", run, 5)
        os.kill(run.pid, signal.SIGPIPE)
        assert run.wait(60) == 130
    assert not processes_with(tiles.folder)
    assert tiles.parts() == []


def test_no_job_is_begun_after_a_kill_of_las_batch_and_of_its_guard(tiles):
    with tiles.running("laszip", "-odir", "out", *tiles.names(), las=tiles.slow(0.1)) as run:
        some_done(tiles, "out", run, 5)
        for name in os.listdir("/proc"):  # the guard is its child of the same name
            if name.isdigit() and f"\nPPid:\t{run.pid}\n" in status_of(name) and "las-batch" in status_of(name):
                os.kill(int(name), signal.SIGKILL)
        os.kill(run.pid, signal.SIGKILL)
        run.wait()
    time.sleep(1)
    assert wait_until(lambda: not processes_with(tiles.folder), 20), processes_with(tiles.folder)
    ended(tiles.batch("-resume", "-odir", "out"), 0, b"200 done, 0 not")
    assert tiles.outputs("out") == tiles.all_packed


def test_a_job_that_is_killed_loses_the_inputs_that_it_had_begun_and_no_more(tiles):
    """One of the jobs of GNU parallel is killed with its group: the others do the rest, and it is started again."""
    name = tiles.names()[7]
    las = tiles.command("las", '[ "$1" != --version ] || exit 1\n'
                        f'[ "$3" != {name} ] || kill -9 $PPID\nexec {tiles.program} "$@"')
    run = tiles.batch("laszip", "-odir", "out", "-jobs", "1", *tiles.names(), las=str(las))
    left = 200 - len(tiles.outputs("out"))
    assert 1 <= left <= 16, run.stderr
    ended(run, 1, b"%d done, %d not" % (200 - left, left))
    assert tiles.parts() == []
    ended(tiles.batch("-resume", "-odir", "out"), 0, b"200 done, 0 not")
    assert tiles.outputs("out") == tiles.all_packed


def test_a_run_that_is_refused_leaves_no_process(tiles):
    """What is started before the plan is made ends with it, and so does what that has started."""
    tiles.command("parallel", "sleep 300 &\nexec sleep 300")
    words = ["laszip", "-odir", "out", "-lof", "-"]
    with tiles.running(*words, stdin=subprocess.PIPE, path=str(tiles.path("bin"))) as run:
        assert wait_until(lambda: len(those_in(tiles.folder)) == 3), those_in(tiles.folder)
        run.stdin.write(b"tile.txt\n")
        run.stdin.close()
        assert run.wait(60) == 2 and b"ends in .las or .laz" in run.stderr.read()
    assert wait_until(lambda: not those_in(tiles.folder), 5), those_in(tiles.folder)


def those_in(folder):
    """The processes that work in a folder."""
    found = []
    for name in filter(str.isdigit, os.listdir("/proc")):
        with contextlib.suppress(OSError):
            if os.readlink(f"/proc/{name}/cwd") == str(folder):
                found.append(name)
    return found


def status_of(process):
    try:
        with open(f"/proc/{process}/status", encoding="utf-8") as file:
            return file.read()
    except OSError:
        return ""
