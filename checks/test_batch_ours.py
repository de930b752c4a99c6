"""What las-batch takes for its own: what stays, what is made again, -force, -adopt, -check, and refused states."""
import os
import shutil
import sqlite3
import subprocess
import sys
import time
from pathlib import Path

import pytest

import needs
import programs
from batch_places import Tiles
from batch_tiles import ended


@pytest.fixture
def tiles(program, tmp_path):
    needs.command("parallel", "parallel")
    return Tiles(tmp_path, program)


@pytest.fixture
def foreign(tiles):
    """A tile, and an output under its name that las-batch did not make: packed in other chunks."""
    data = tiles.make("tiles/a.las", 1000)
    tiles.path("out").mkdir()
    tiles.path("out/a.laz").write_bytes(tiles.packed(data, "-chunk_size", "300"))
    return tiles.path("out/a.laz").read_bytes()


def test_force_writes_over_an_output_that_is_not_ours(tiles, foreign):
    ended(tiles.batch("laszip", "-odir", "out", "-force", "tiles/a.las"), 0, b"1 done, 0 not")
    assert tiles.path("out/a.laz").read_bytes() != foreign


def test_force_writes_over_no_folder(tiles):
    tiles.make("tiles/a.las")
    tiles.path("out/a.laz").mkdir(parents=True)
    ended(tiles.batch("laszip", "-odir", "out", "-force", "tiles/a.las"), 1, b"not ours")


def test_adopt_takes_an_output_that_unpacks_to_the_input(tiles, foreign):
    ended(tiles.batch("laszip", "-odir", "out", "-adopt", "tiles/a.las"), 0, b"1 done, 0 not")
    assert tiles.path("out/a.laz").read_bytes() == foreign
    ended(tiles.batch("laszip", "-odir", "out", "tiles/a.las"), 0, b"1 of 1 outputs")
    assert tiles.path("out/a.laz").read_bytes() == foreign


def test_adopt_takes_no_output_of_another_content(tiles, foreign):
    other = tiles.make("tiles/a.las", 1000, seed=2)
    ended(tiles.batch("laszip", "-odir", "out", "-adopt", "tiles/a.las"), 1, b"is not what the input gives")
    assert tiles.path("out/a.laz").read_bytes() == foreign and other


def test_adopt_of_a_report(tiles):
    tiles.make("tiles/a.las")
    tiles.batch("lasinfo", "-odir", "one", "tiles/a.las")
    shutil.copytree(tiles.path("one"), tiles.path("two"), ignore=shutil.ignore_patterns(".las-batch"))
    ended(tiles.batch("lasinfo", "-odir", "two", "tiles/a.las"), 1, b"not ours")
    ended(tiles.batch("lasinfo", "-odir", "two", "-adopt", "tiles/a.las"), 0, b"1 done, 0 not")
    assert tiles.parts() == []


def test_check_tells_and_does_nothing(tiles):
    tiles.make_all(3)
    tiles.batch("laszip", "-odir", "out", "tiles/000.las")
    tiles.path("out/001.laz").write_bytes(b"another's")
    before = tiles.outputs("out")
    run = tiles.batch("laszip", "-odir", "out", "-check", "-r", "tiles")
    assert (run.returncode, run.stdout.splitlines()[-1]) == (1, b"las-batch: 1 to do, 1 stay, 1 are refused")
    assert b"not ours    tiles/./001.las" in run.stdout
    assert tiles.outputs("out") == before
    run = tiles.batch("laszip", "-odir", "none", "-check", "-r", "tiles")
    assert run.returncode == 0
    assert not tiles.path("none").exists()


def test_an_output_that_was_changed_is_not_ours(tiles):
    tiles.make("tiles/a.las")
    tiles.batch("laszip", "-odir", "out", "tiles/a.las")
    with open(tiles.path("out/a.laz"), "ab") as file:
        file.write(b"x")
    changed = tiles.path("out/a.laz").read_bytes()
    ended(tiles.batch("laszip", "-odir", "out", "tiles/a.las"), 1, b"changed after it was made")
    assert tiles.path("out/a.laz").read_bytes() == changed


def test_an_output_of_another_input_is_not_written_over(tiles):
    tiles.make("one/a.las", seed=1)
    tiles.make("two/a.las", seed=2)
    tiles.batch("laszip", "-odir", "out", "one/a.las")
    before = tiles.path("out/a.laz").read_bytes()
    ended(tiles.batch("laszip", "-odir", "out", "two/a.las"), 1, b"made from another input")
    assert tiles.path("out/a.laz").read_bytes() == before


def test_the_only_copy_of_a_removed_input_is_not_written_over(tiles):
    first = tiles.make("in/a.las", seed=1)
    ended(tiles.batch("laszip", "-odir", "out", "-verify", "-delete", "in/a.las"), 0)
    tiles.make("in/a.las", seed=2)
    ended(tiles.batch("laszip", "-odir", "out", "in/a.las"), 1, b"the only copy")
    assert tiles.path("out/a.laz").read_bytes() == tiles.packed(first)


def test_an_archive_that_was_moved_stays_if_its_sums_are_known(tiles):
    wanted = tiles.make_all(3)
    tiles.batch("laszip", "-odir", "out", "-verify", *wanted)
    for folder in ("tiles", "out"):
        shutil.copytree(tiles.path(folder), tiles.path("copy") / folder)
        shutil.rmtree(tiles.path(folder))
        shutil.copytree(tiles.path("copy") / folder, tiles.path(folder))
    before = {path: path.stat().st_ino for path in tiles.path("out").glob("*.laz")}
    ended(tiles.batch("laszip", "-odir", "out", *wanted), 0, b"3 of 3 outputs")
    assert before == {path: path.stat().st_ino for path in tiles.path("out").glob("*.laz")}


def test_other_workers_make_nothing_again(tiles):
    tiles.make("tiles/a.las")
    tiles.batch("laszip", "-odir", "out", "-cores", "2", "--", "tiles/a.las")
    ended(tiles.batch("laszip", "-odir", "out", "-cores", "4", "--", "tiles/a.las"), 0, b"1 of 1 outputs")


def test_another_version_of_las_makes_nothing_again(tiles):
    tiles.make("tiles/a.las")
    for version in "1", "2":
        script = f'[ "$1" != --version ] || {{ echo las {version}; exit; }}\nexec {tiles.program} "$@"'
        las = tiles.command("las", script)
        run = tiles.batch("laszip", "-odir", "out", "tiles/a.las", las=str(las))
    ended(run, 0, b"1 of 1 outputs")


def test_an_older_output_keeps_its_mode_and_a_hard_link_its_content(tiles):
    tiles.make("tiles/a.las", seed=1)
    tiles.batch("laszip", "-odir", "out", "tiles/a.las")
    output = tiles.path("out/a.laz")
    before = output.read_bytes()
    os.link(output, tiles.path("linked"))
    output.chmod(0o640)
    new = tiles.make("tiles/a.las", seed=2)
    ended(tiles.batch("laszip", "-odir", "out", "tiles/a.las"), 0, b"1 done")
    assert (output.read_bytes(), output.stat().st_mode & 0o777) == (tiles.packed(new), 0o640)
    assert tiles.path("linked").read_bytes() == before


def cut(path):
    os.truncate(path, path.stat().st_size // 2)


def emptied_page(path):
    with open(path, "r+b") as file:
        file.seek(4096)
        file.write(b"\xff" * 4096)


def another_version(path):
    with sqlite3.connect(path) as base:
        base.execute("PRAGMA user_version = 99")
    base.close()


def another_base(path):
    path.unlink()
    with sqlite3.connect(path) as base:
        base.execute("CREATE TABLE run (id INTEGER)")
    base.close()


def no_base(path):
    path.write_bytes(b"something else\n" * 100)


def another_folder(path):
    shutil.copy(path.parent.parent.parent / "other" / ".las-batch" / "state.db", path)


@pytest.mark.parametrize("resume", [False, pytest.param(True, marks=pytest.mark.slow(seconds=3))],
                         ids=["new", "resume"])
@pytest.mark.parametrize("change", [
    cut, another_folder,
    *(pytest.param(it, marks=pytest.mark.slow(seconds=3))
      for it in (emptied_page, another_version, another_base, no_base))],
                         ids=lambda change: str(change.__name__))
def test_a_state_that_is_none_is_refused_by_name(tiles, change, resume):
    tiles.make("tiles/000.las")
    wanted = [f"tiles/{at:03}.las" for at in range(60)]
    for name in wanted[1:]:
        os.link(tiles.path("tiles/000.las"), tiles.path(name))
    for folder in ("out", "other") if change is another_folder else ("out",):
        tiles.batch("laszip", "-odir", folder, *wanted)
    state = tiles.path("out/.las-batch/state.db")
    change(state)
    before, outputs = state.read_bytes(), tiles.outputs("out")
    run = tiles.batch(*(["-resume", "-odir", "out"] if resume else ["laszip", "-odir", "out", *wanted]))
    ended(run, 2, b"out/.las-batch/state.db")
    assert state.read_bytes() == before
    assert tiles.outputs("out") == outputs


def test_a_state_on_another_disk(tiles):
    wanted = tiles.make_all(3)
    ended(tiles.batch("laszip", "-odir", "out", "-state", "elsewhere", *wanted), 0, b"3 done")
    assert not tiles.path("out/.las-batch/state.db").exists()
    ended(tiles.batch("-resume", "-odir", "out", "-state", "elsewhere"), 0, b"3 done, 0 not")
    ended(tiles.batch("laszip", "-odir", "another", "-state", "elsewhere", *wanted), 2, b"of another folder")


class Mounted:
    """Runs las-batch where the system says of a folder that it is of a kind of file system."""

    def __init__(self, tiles, folder, kind):
        needs.root()
        if not needs.runs("unshare", "-m", "true"):
            needs.missing("a process can't have mounts of its own", "a kernel that lets root do so")
        self.tiles, self.lines = tiles, tiles.path("mountinfo")
        place = str(tiles.path(folder)).replace(" ", "\\040")
        self.lines.write_text(f"36 1 8:1 / / rw,relatime shared:1 - ext4 /dev/sda1 rw\n"
                              f"37 36 0:45 /export {place} rw,relatime shared:2 master:3 - {kind} server:/export rw\n")

    def batch(self, *words):
        """A run whose process has these lines in /proc/self/mountinfo."""
        line = 'mount --bind "$0" "/proc/$$/mountinfo" && exec "$@"'
        options = self.tiles.options(None, {"stdout": subprocess.PIPE, "stderr": subprocess.PIPE})
        return subprocess.run(["unshare", "-m", "sh", "-c", line, self.lines, sys.executable, programs.BATCH, *words],
                              check=False, timeout=120, **options)


KINDS = ("nfs4", "cifs", "9p", "lustre", "ceph", "fuse.sshfs")


def refused_on_a_server(tiles, kind):
    """Runs las-batch into a folder on a file server, which is refused, and returns what runs it there."""
    tiles.make("tiles/a.las")
    tiles.path("a server").mkdir()
    server = Mounted(tiles, "a server", kind)
    run = server.batch("laszip", "-odir", "a server/out", "tiles/a.las")
    ended(run, 2, f"the state can't lie on a file server ({kind}): -state FOLDER names a folder of this".encode())
    assert tiles.outputs("a server/out") == {}
    assert not tiles.path("a server/out/.las-batch/state.db").exists()
    return server


@pytest.mark.root
@pytest.mark.slow
@pytest.mark.parametrize("kind", KINDS)
def test_kind_of_file_server_that_is_known(tiles, kind):
    refused_on_a_server(tiles, kind)


@pytest.mark.root
@pytest.mark.parametrize("kind", ["nfs", *(pytest.param(it, marks=pytest.mark.huge) for it in KINDS)])
def test_no_state_lies_on_a_file_server(tiles, kind):
    server = refused_on_a_server(tiles, kind)
    ended(server.batch("laszip", "-odir", "out", "-state", "a server/state", "tiles/a.las"), 2, b"a file server")
    words = "-odir", "a server/out", "-state", "state"
    ended(server.batch("laszip", *words, "tiles/a.las"), 0, b"1 done, 0 not")
    ended(server.batch("-resume", *words), 0, b"1 done, 0 not")
    ended(server.batch("-resume", *words[:2]), 2, b"no run to go on with")


@pytest.mark.root
def test_a_state_on_a_disk_below_a_file_server(tiles):
    tiles.make("tiles/a.las")
    tiles.path("server/disk").mkdir(parents=True)
    server = Mounted(tiles, "server", "nfs4")
    with open(server.lines, "a", encoding="utf-8") as file:
        file.write(f"38 37 8:2 / {tiles.path('server/disk')} rw - xfs /dev/sdb1 rw\n")
    ended(server.batch("laszip", "-odir", "server/disk/out", "tiles/a.las"), 0, b"1 done, 0 not")


@pytest.mark.root
def test_without_proc_it_is_said(tiles):
    tiles.make("tiles/a.las")
    options = tiles.options(None, {"stdout": subprocess.PIPE, "stderr": subprocess.PIPE})
    line = 'mount -t tmpfs none /proc && exec "$@"'
    run = subprocess.run(["unshare", "-m", "sh", "-c", line, "sh", sys.executable, programs.BATCH, "laszip", "-odir",
                          "out", "tiles/a.las"], check=False, timeout=120, **options)
    ended(run, 2, b"/proc is not mounted")
    assert not tiles.path("out").exists()


def planned(tiles, output):
    """The seconds of the processor, not of the clock, until a plan is there, and the most memory in KB."""
    with tiles.running("laszip", "-odir", output, "-r", "-jobs", "1", "tiles", las=tiles.slow(60),
                       path=str(tiles.path("bin"))) as run:
        places = tiles.path(f"{output}/.las-batch")
        while not list(places.glob("run.*/sent")):
            assert run.poll() is None, run.stderr.read()
            time.sleep(0.01)
        fields = Path(f"/proc/{run.pid}/stat").read_text(encoding="utf-8").rpartition(")")[2].split()
        took = (int(fields[11]) + int(fields[12])) / os.sysconf("SC_CLK_TCK")
        with open(f"/proc/{run.pid}/status", encoding="utf-8") as file:
            peak, = (int(line.split()[1]) for line in file if line.startswith("VmHWM"))
        run.terminate()
        run.wait(60)
    return took, peak


@pytest.mark.alone
@pytest.mark.slow
def test_100_000_inputs_are_planned_in_seconds_and_300_mb(tiles):
    """docs/batch.md has the figure of a quiet machine; a busy one takes up to twice that."""
    for at in range(100_000):
        folder = tiles.path(f"tiles/{at % 100}")
        if at < 100:
            tiles.make(f"tiles/{at}/first.las", seed=at)
        else:
            os.link(folder / "first.las", folder / f"a_tile_with_a_name_{at}.las")
    tiles.command("python3", f'exec {sys.executable} "$@"')  # the one that runs the checks

    def fits(took, peak):
        return took < 8 and peak < 300_000

    found = [planned(tiles, "out0")]
    while not fits(*found[-1]) and len(found) < 3:
        found.append(planned(tiles, f"out{len(found)}"))
    assert fits(*found[-1]), found
