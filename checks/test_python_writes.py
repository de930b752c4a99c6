"""`balsamvise.write`: a file that is there stays until the new one is whole and on the disk. Every call on files fails
in turn, the program is killed and the power cut at each, and names are links, folders, FIFOs and devices.
"""
import gzip
import os
import shutil
import subprocess
import sys
from pathlib import Path

import pytest

import needs
from file_calls import EIO, ENOSPC, Disk, Watcher, after_power_cuts
from programs import TOP

SOURCE = TOP / "python" / "src"
TILE = TOP / "examples" / "tile.laz"
PYTHON = sys.executable
WRITE = """import sys
sys.path.insert(0, sys.argv[1])
import balsamvise
points = balsamvise.read(sys.argv[2])
balsamvise.write(sys.argv[3], points.head, points[:600], chunk=256, threads=int(sys.argv[4]))
"""


@pytest.fixture
def library(tmp_path: Path, monkeypatch: pytest.MonkeyPatch) -> Path:
    """The shared library, where the package looks for it."""
    needs.module("numpy", "python3-numpy")
    folder = tmp_path / "library"
    folder.mkdir()
    (folder / "liblaz.so").write_bytes(gzip.decompress((TOP / "release" / "liblaz.so.gz").read_bytes()))
    monkeypatch.setenv("BALSAMVISE_LIBRARY", str(folder))
    return folder


class Trial:
    """A folder with an older file `a.laz`, and runs that write another one over it."""

    def __init__(self, folder: Path) -> None:
        self.folder = folder / "place"
        self.folder.mkdir()
        self.name = self.folder / "a.laz"
        self.watcher = Watcher(folder, self.folder)
        assert self.write().returncode == 0
        self.new = self.name.read_bytes()
        self.old = b"an older file"
        self.again()

    def again(self) -> None:
        """As it was before."""
        shutil.rmtree(self.folder)
        self.folder.mkdir()
        self.name.write_bytes(self.old)

    def write(self, name: "Path | None" = None, **how: object) -> "subprocess.CompletedProcess[bytes]":
        line = [PYTHON, "-c", WRITE, str(SOURCE), str(TILE), str(name or self.name), "1"]
        return self.watcher.run(*line, **how)  # type: ignore[arg-type]


@pytest.fixture
def trial(library: Path, tmp_path: Path) -> Trial:
    return Trial(tmp_path)


@pytest.mark.parametrize("error", [EIO, pytest.param(ENOSPC, marks=pytest.mark.slow(seconds=4))])
def test_each_call_that_fails_leaves_the_older_file(trial: Trial, error: int) -> None:
    assert trial.write().returncode == 0
    count = len(trial.watcher.calls())
    assert count > 6
    for at in range(1, count + 1):
        trial.again()
        done = trial.write(at=at, how="fails", error=error)
        found = {path.name: path.read_bytes() for path in trial.folder.iterdir()}
        assert set(found) <= {"a.laz"} or b"remove" in done.stderr, (at, set(found))
        assert found["a.laz"] in (trial.old, trial.new), at
        if found["a.laz"] == trial.old:
            assert done.returncode != 0 and b"OSError" in done.stderr, (at, done.stderr)


@pytest.mark.slow(seconds=6)
def test_a_disk_that_is_full_from_each_call_on_leaves_the_older_file(trial: Trial) -> None:
    """Nothing has room from a call to the end: the draft goes, the older file stays, and there is room again later."""
    assert trial.write().returncode == 0
    count = len(trial.watcher.calls())
    failures = 0
    for at in range(1, count + 1):
        trial.again()
        done = trial.write(at=at, how="full")
        found = {path.name: path.read_bytes() for path in trial.folder.iterdir()}
        assert set(found) == {"a.laz"}, at
        assert found["a.laz"] == (trial.old if done.returncode else trial.new) or b"OSError" in done.stderr, at
        failures += done.returncode != 0
        if done.returncode:
            assert b"No space left on device" in done.stderr, (at, done.stderr)
        assert trial.write().returncode == 0
        assert trial.name.read_bytes() == trial.new
    assert failures > 4


@pytest.mark.parametrize("how", [pytest.param("before", marks=pytest.mark.slow(seconds=3)), "after"])
def test_a_kill_at_each_call_leaves_a_whole_file(trial: Trial, how: str) -> None:
    assert trial.write().returncode == 0
    count = len(trial.watcher.calls())
    for at in range(1, count + 1):
        trial.again()
        trial.write(at=at, how=how)
        assert trial.name.read_bytes() in (trial.old, trial.new), at
        left = [path.name for path in trial.folder.iterdir() if path.name != "a.laz"]
        assert all(name.startswith(".a.laz.") and name.endswith(".part") for name in left), left


def test_a_power_cut_at_each_call_leaves_a_whole_file(trial: Trial) -> None:
    disk = Disk(trial.folder)
    assert trial.write().returncode == 0
    calls = trial.watcher.calls()
    for done, state in after_power_cuts(disk, calls):
        assert state[str(trial.name)] in (trial.old, trial.new), (done, calls[done - 1:done])


def test_what_is_written_is_on_the_disk_when_write_returns(trial: Trial) -> None:
    disk = Disk(trial.folder)
    assert trial.write().returncode == 0
    for call in trial.watcher.calls():
        disk.take(call)
    for state in disk.states():
        assert state == {str(trial.name): trial.new}


def test_a_first_file_is_whole_or_not_there_after_a_power_cut(trial: Trial) -> None:
    trial.name.unlink()
    disk = Disk(trial.folder)
    assert trial.write().returncode == 0
    for done, state in after_power_cuts(disk, trial.watcher.calls()):
        assert state.get(str(trial.name), trial.new) == trial.new, done


def test_the_draft_is_made_exclusively_under_a_name_that_cannot_be_foreseen(trial: Trial) -> None:
    drafts = set()
    for _ in range(3):
        assert trial.write().returncode == 0
        made = [call for call in trial.watcher.calls() if call.kind in ("create", "open", "cut") and
                os.path.basename(call.more[0]) not in ("place", "a.laz")]
        assert [call.kind for call in made] == ["create"]
        drafts.add(os.path.basename(made[0].more[0]))
    assert len(drafts) == 3
    assert all(len(name) >= len(".a.laz..part") + 16 for name in drafts)


def test_a_link_stays_and_what_it_names_is_replaced(trial: Trial) -> None:
    os.mkdir(trial.folder / "other")
    target = trial.folder / "other" / "b.laz"
    target.write_bytes(trial.old)
    trial.name.unlink()
    trial.name.symlink_to("other/b.laz")
    assert trial.write().returncode == 0
    assert os.readlink(trial.name) == "other/b.laz"
    assert target.read_bytes() == trial.new
    assert sorted(os.listdir(trial.folder)) == ["a.laz", "other"]


def test_the_mode_of_an_older_file_stays(trial: Trial) -> None:
    trial.name.chmod(0o640)
    assert trial.write().returncode == 0
    assert trial.name.stat().st_mode & 0o7777 == 0o640


@pytest.mark.root
def test_the_owner_of_an_older_file_stays(trial: Trial) -> None:
    os.chown(trial.name, 1234, 2345)
    assert trial.write().returncode == 0
    found = trial.name.stat()
    assert (found.st_uid, found.st_gid) == (1234, 2345)


def test_a_long_name_is_written(trial: Trial) -> None:
    name = trial.folder / ("n" * 251 + ".laz")
    assert trial.write(name).returncode == 0
    assert name.read_bytes() == trial.new


@pytest.mark.parametrize("kind", ["folder", "FIFO", "device", "socket"])
def test_what_is_no_regular_file_is_refused_before_anything_is_made(trial: Trial, kind: str) -> None:
    name = trial.folder / "odd.laz"
    if kind == "folder":
        name.mkdir()
    elif kind == "FIFO":
        os.mkfifo(name)
    elif kind == "device":
        name.symlink_to("/dev/null")
    else:
        import socket
        with socket.socket(socket.AF_UNIX) as made:
            made.bind(str(name))
    before = sorted(os.listdir(trial.folder))
    done = trial.write(name)
    assert done.returncode == 1
    assert b"not a regular file" in done.stderr
    assert sorted(os.listdir(trial.folder)) == before


def test_a_folder_that_is_not_there_is_told(trial: Trial) -> None:
    done = trial.write(trial.folder / "none" / "a.laz")
    assert b"FileNotFoundError" in done.stderr


READ = """import sys
sys.path.insert(0, sys.argv[1])
import balsamvise
balsamvise.open(sys.argv[2])
"""


@pytest.mark.parametrize("kind", ["FIFO", "device"])
def test_what_is_no_regular_file_is_not_opened_for_reading(library: Path, tmp_path: Path, kind: str) -> None:
    name = tmp_path / "odd.laz"
    if kind == "FIFO":
        os.mkfifo(name)
    else:
        name.symlink_to("/dev/zero")
    needs.command("strace", "strace")
    log = tmp_path / "strace"
    line = ["strace", "-f", "-e", "trace=open,openat", "-o", str(log), PYTHON, "-c", READ, str(SOURCE), str(name)]
    try:
        done = subprocess.run(line, stdin=subprocess.DEVNULL, stderr=subprocess.PIPE, timeout=60, check=False)
    except subprocess.TimeoutExpired:
        pytest.fail("it waits for a FIFO")
    assert b"not a regular file" in done.stderr
    assert str(name) not in log.read_text()
