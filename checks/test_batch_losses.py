"""Runs of las-batch that lost data before its state was a database: each kept as the script that shows the loss."""
import os
import shutil
import signal
import subprocess
import time
from pathlib import Path

import pytest

import needs
from batch_places import Tiles, processes_with, signal_all, wait_until, with_descendants


@pytest.fixture
def tiles(program, tmp_path):
    needs.command("parallel", "parallel")
    return Tiles(tmp_path, program)


@pytest.mark.root
def test_resume_after_a_full_disk_deletes_nothing_that_was_not_to_be_deleted(tiles, small_disk):
    out = small_disk(1_000_000)
    tiles.make("first/a.las")
    assert tiles.batch("laszip", "-odir", out, "-verify", "-delete", "first/a.las").returncode == 0
    wanted = tiles.make_all(60, folder="a_folder_with_a_name_of_some_length_so_that_the_list_is_long" * 3)
    with open(out / "fill", "wb", buffering=0) as fill:
        with pytest.raises(OSError):
            while True:
                fill.write(bytes(4096))
    os.truncate(out / "fill", (out / "fill").stat().st_size - 4096)
    tiles.batch("laszip", "-odir", out, *wanted)
    os.remove(out / "fill")
    tiles.batch("-resume", "-odir", out)
    lost = [name for name in wanted if not tiles.path(name).exists()]
    assert lost == []


@pytest.mark.parametrize("turn", range(3))
def test_a_new_delivery_that_took_the_name_of_an_input_after_the_comparison_stays(tiles, turn):
    tiles.make("in/a.las", 100, turn)
    new = tiles.make("new/a.las", 150, 100 + turn)
    tiles.command("cmp", f'/usr/bin/cmp "$@"; status=$?\nmv -f {tiles.path("new/a.las")} {tiles.path("in/a.las")}\n'
                         "exit $status")
    run = tiles.batch("laszip", "-odir", "out", "-verify", "-delete", "in/a.las", path=str(tiles.path("bin")))
    found = [path.read_bytes() for path in tiles.folder.rglob("*.las")]
    assert new in found, run.stderr


@pytest.mark.parametrize("kind", ["an input", "another input", "a text", "an output", "a program"])
def test_the_log_cuts_nothing_that_is_no_log(tiles, kind):
    wanted = tiles.make_all(2)
    assert tiles.batch("laszip", "-odir", "out", "tiles/000.las").returncode == 0
    name = {"an input": "tiles/001.las", "another input": "tiles/000.las", "a text": "notes.txt",
            "an output": "out/000.laz", "a program": "bin/run"}[kind]
    tiles.path("notes.txt").write_text("a line\n")
    tiles.command("run", "true")
    before = tiles.path(name).read_bytes()
    run = tiles.batch("laszip", "-odir", "out", "-log", name, *wanted)
    assert tiles.path(name).read_bytes() == before
    assert run.returncode == 2
    assert b"-log" in run.stderr


def test_a_link_with_the_name_of_a_draft_is_not_followed(tiles):
    data = tiles.make("tiles/a.las")
    tiles.path("victim").write_bytes(b"as it was")
    tiles.path("out").mkdir()
    tiles.path("out/.a.laz.part").symlink_to("../victim")
    run = tiles.batch("laszip", "-odir", "out", "tiles/a.las")
    assert tiles.path("victim").read_bytes() == b"as it was"
    assert run.returncode == 0
    assert tiles.path("out/a.laz").read_bytes() == tiles.packed(data)


def test_a_fifo_with_the_name_of_a_draft_stops_nothing(tiles):
    data = tiles.make("tiles/a.las")
    tiles.path("out").mkdir()
    os.mkfifo(tiles.path("out/.a.txt.part"))
    with tiles.running("lasinfo", "-odir", "out", "tiles/a.las") as run:
        assert wait_until(lambda: run.poll() is not None, 20), "it hangs"
    assert tiles.path("out/a.txt").exists() and data


@pytest.mark.parametrize("kind", ["a folder", "a link", "a FIFO"])
def test_what_is_no_file_under_the_name_of_an_output_is_said(tiles, kind):
    tiles.make("tiles/a.las")
    output = tiles.path("out/a.laz")
    output.parent.mkdir()
    {"a folder": output.mkdir, "a link": lambda: output.symlink_to("../victim"),
     "a FIFO": lambda: os.mkfifo(output)}[kind]()
    tiles.path("victim").write_bytes(b"as it was")
    run = tiles.batch("laszip", "-odir", "out", "tiles/a.las", timeout=30)
    assert run.returncode == 1
    assert b"tiles/a.las" in run.stderr
    assert tiles.path("victim").read_bytes() == b"as it was"


def changed_in_place(tiles: Tiles, path: Path, data: bytes) -> None:
    """The same file, of another content and with its earlier time."""
    before = path.stat()
    with open(path, "r+b") as file:
        file.write(data)
        file.truncate()
    os.utime(path, ns=(before.st_atime_ns, before.st_mtime_ns))


def replaced_with_an_older_time(tiles: Tiles, path: Path, data: bytes) -> None:
    other = path.with_suffix(".new")
    other.write_bytes(data)
    os.utime(other, (1_000_000_000, 1_000_000_000))
    os.replace(other, path)


def brought_by_rsync(tiles: Tiles, path: Path, data: bytes) -> None:
    """A newer delivery with its own, older time, as `rsync -t` brings it."""
    needs.command("rsync", "rsync")
    source = tiles.path("source.las")
    source.write_bytes(data)
    os.utime(source, (1_000_000_000, 1_000_000_000))
    subprocess.run(["rsync", "-t", source, path], check=True)


@pytest.mark.parametrize("change", [changed_in_place, replaced_with_an_older_time, brought_by_rsync],
                         ids=lambda change: str(change.__name__))
def test_a_changed_input_is_packed_again(tiles, change):
    tiles.make("tiles/a.las", 100, 1)
    assert tiles.batch("laszip", "-odir", "out", "tiles/a.las").returncode == 0
    new = tiles.make("other.las", 100, 2)
    time.sleep(0.02)
    change(tiles, tiles.path("tiles/a.las"), new)
    run = tiles.batch("laszip", "-odir", "out", "tiles/a.las")
    assert run.returncode == 0
    assert tiles.path("out/a.laz").read_bytes() == tiles.packed(new)


def test_other_words_into_the_same_folder_make_an_output_again(tiles):
    data = tiles.make("tiles/a.las", 1000)
    assert tiles.batch("laszip", "-odir", "out", "tiles/a.las").returncode == 0
    run = tiles.batch("laszip", "-odir", "out", "-chunk_size", "300", "--", "tiles/a.las")
    assert run.returncode == 0
    assert tiles.path("out/a.laz").read_bytes() == tiles.packed(data, "-chunk_size", "300")


def test_the_output_of_another_is_not_written_over(tiles):
    tiles.make("tiles/a.las")
    tiles.path("out").mkdir()
    tiles.path("out/a.laz").write_bytes(b"a vendor's file")
    os.utime(tiles.path("out/a.laz"), (1, 1))
    run = tiles.batch("laszip", "-odir", "out", "tiles/a.las")
    assert tiles.path("out/a.laz").read_bytes() == b"a vendor's file"
    assert run.returncode == 1
    assert b"not ours" in run.stderr


@pytest.mark.root
@pytest.mark.parametrize("turn", [0, *(pytest.param(it, marks=pytest.mark.slow(seconds=3)) for it in (1, 2))])
def test_resume_goes_on_after_a_power_cut(tiles, small_disk, turn):
    disk = small_disk(30_000_000, kind="ext4")
    wanted = tiles.make_all(40)
    out = disk / "out"
    las = tiles.slow(0.05)
    with tiles.running("laszip", "-odir", out, *wanted, las=las) as run:
        assert wait_until(lambda: out.is_dir() and len(list(out.glob("*.laz"))) > 5 + 3 * turn)
        # what ext4 has not yet written is not in its image; nothing is written while it is copied
        for _ in range(3):
            processes = with_descendants(run.pid)
            signal_all(processes, signal.SIGSTOP)
        time.sleep(0.2)
        image = shutil.copy(tiles.path("image0"), tiles.path("after"))
        signal_all(processes, signal.SIGKILL)
    assert wait_until(lambda: not processes_with(out), 20)
    subprocess.run(["umount", disk], check=True)
    subprocess.run(["mount", "-o", "loop", image, disk], check=True)
    for path in out.glob("*.laz"):
        assert path.read_bytes() == tiles.packed(wanted[f"tiles/{path.stem}.las"])
    again = tiles.batch("-resume", "-odir", out)
    assert (again.returncode, b"40 done, 0 not" in again.stderr) == (0, True), again.stderr
    assert {name: tiles.packed(data) for name, data in wanted.items()} == {
        f"tiles/{Path(name).stem}.las": data for name, data in tiles.outputs(str(out)).items()}


def test_a_kill_of_las_batch_alone_ends_its_jobs(tiles):
    wanted = tiles.make_all(60)
    with tiles.running("laszip", "-odir", "out", "-jobs", "4", *wanted, las=tiles.slow(0.3)) as run:
        assert wait_until(lambda: len(tiles.outputs("out", hidden=False)) > 3)
        os.kill(run.pid, signal.SIGKILL)
        run.wait()
        assert wait_until(lambda: tiles.free("out"), 10), "the folder stays locked"
        assert wait_until(lambda: not processes_with(tiles.folder), 10), processes_with(tiles.folder)
        before = len(tiles.outputs("out"))
        time.sleep(1)
        assert len(tiles.outputs("out")) == before < 60
        assert tiles.parts() == []
    again = tiles.batch("-resume", "-odir", "out")
    assert (again.returncode, b"60 done, 0 not" in again.stderr) == (0, True), again.stderr


@pytest.mark.parametrize("number", [signal.SIGINT, *(pytest.param(it, marks=pytest.mark.slow(seconds=3)) for it in (
    signal.SIGTERM, signal.SIGHUP))])
def test_an_interrupt_says_one_line_and_leaves_no_draft(tiles, number):
    tiles.make("tiles/000.las")
    for at in range(1, 3000):
        os.link(tiles.path("tiles/000.las"), tiles.path(f"tiles/{at:03}.las"))
    with tiles.running("laszip", "-odir", "out", "-jobs", "4", "-r", "tiles", las=tiles.slow(0.2)) as run:
        assert wait_until(lambda: len(tiles.outputs("out", hidden=False)) > 3)
        os.killpg(run.pid, number)
        said = run.communicate(timeout=60)[1]
    lines = said.splitlines()
    assert (run.returncode, len(lines)) == (130, 1), lines[:5]
    assert b"done" in lines[0] and b"-resume" in lines[0]
    assert tiles.parts() == []
