"""The program web/las.mjs in Node: what it prints, what it writes, and what stands when it fails."""
import os
import re
import signal
import stat
import subprocess
import time
from pathlib import Path

import pytest

import commands
import needs
import web
from las_files import FILE, lidar, long_head
from programs import TOP

SAMPLE = TOP / "examples" / "tile.laz"


def run(place, *words, **options):
    return commands.quiet([web.node(), web.PROGRAM, *words], cwd=place.folder, **options)


def ended(done, status, line=""):
    assert (done.returncode, done.stderr.decode().splitlines()[:1]) == (status, [line] if line else []), done.stderr
    assert done.stdout == b""


@pytest.fixture
def plain(place):
    """The plain file of the sample, by `las`."""
    commands.good([place.program, "laszip", "-i", SAMPLE, "-o", place.path("tile.las")])
    return place.read("tile.las")


LONG = long_head(4, 3, 2, lidar(3, 2, 500)) + b"".join(lidar(3, 2, 500))
COUNTED = TOP / "examples" / "exchange" / "counted_12_3.laz"


@pytest.mark.parametrize("name", ["the sample", "a plain file", "LAS 1.4", "counted chunks"])
def test_info_is_the_report_of_lasinfo(place, name):
    place.write("a.las", LONG if name == "LAS 1.4" else FILE)
    path = {"the sample": SAMPLE, "counted chunks": COUNTED}.get(name, place.path("a.las"))
    report = commands.good([place.program, "lasinfo", "-i", path])
    done = run(place, "info", path)
    assert (done.returncode, done.stdout.decode(), done.stderr) == (0, report, b"")


@pytest.mark.parametrize("workers", [[], ["--workers", "3"]], ids=["alone", "3 workers"])
def test_outputs_are_those_of_laszip(place, plain, workers):
    ended(run(place, "unpack", SAMPLE, "-o", "b.las", *workers), 0)
    ended(run(place, "pack", "b.las", "-o", "c.laz", *workers), 0)
    ended(run(place, "pack", "b.las", "-o", "d.laz", "--chunk-size", "300", *workers), 0)
    commands.good([place.program, "laszip", "-i", place.path("b.las"), "-o", place.path("e.laz"), "-chunk_size", "300"])
    assert place.read("b.las") == plain
    assert place.read("c.laz") == SAMPLE.read_bytes()
    assert place.read("d.laz") == place.read("e.laz")
    assert place.names() == ["b.las", "c.laz", "d.laz", "e.laz", "tile.las"]


def test_one_that_exists_stays_without_force(place, plain):
    place.write("b.las", b"mine")
    ended(run(place, "unpack", SAMPLE, "-o", "b.las"), 4, "write fault: b.las exists; --force replaces it")
    assert place.files() == {"b.las": b"mine", "tile.las": plain}


def test_link_that_leads_nowhere_stays_without_force(place):
    os.symlink("none", place.path("b.las"))
    ended(run(place, "unpack", SAMPLE, "-o", "b.las"), 4, "write fault: b.las exists; --force replaces it")
    assert os.readlink(place.path("b.las")) == "none"
    assert place.names() == ["b.las"]


def test_force_replaces_what_a_link_leads_to_and_keeps_its_mode(place, plain):
    place.write("real.las", b"older").chmod(0o640)
    os.link(place.path("real.las"), place.path("other name"))
    os.symlink("real.las", place.path("b.las"))
    ended(run(place, "unpack", SAMPLE, "-o", "b.las", "--force"), 0)
    assert os.readlink(place.path("b.las")) == "real.las"
    assert place.read("real.las") == plain
    assert stat.S_IMODE(place.path("real.las").stat().st_mode) == 0o640
    assert place.read("other name") == b"older"


def test_folder_and_fifo_are_refused(place):
    place.path("folder").mkdir()
    os.mkfifo(place.path("fifo"))
    for name in ("folder", "fifo"):
        ended(run(place, "unpack", SAMPLE, "-o", name, "--force", timeout=60), 4, f"write fault: {name}")
        ended(run(place, "info", name, timeout=60), 3, f"read fault: {name}")
    assert place.names() == ["fifo", "folder"]
    assert list(place.path("folder").iterdir()) == []


def test_output_that_is_the_input(place, plain):
    os.link(place.path("tile.las"), place.path("same.las"))
    for name in ("tile.las", "same.las"):
        ended(run(place, "pack", "tile.las", "-o", name, "--force"), 2, "usage: the output is the input")
    assert place.read("tile.las") == plain


USAGE = {
    "nothing": [], "no file": ["info"], "an unknown command": ["list", "a"], "an unknown word": ["info", "a", "-x"],
    "info with an output": ["info", "a", "-o", "b"], "no output": ["pack", "a"], "two files": ["info", "a", "b"],
    "no number": ["pack", "a", "-o", "b", "--chunk-size"],
    "chunk size 0": ["pack", "a", "-o", "b", "--chunk-size", "0"],
    "chunk size of unpack": ["unpack", "a", "-o", "b", "--chunk-size", "7"],
    "65 workers": ["pack", "a", "-o", "b", "--workers", "65"], "two outputs": ["pack", "a", "-o", "b", "-o", "c"],
}


@pytest.mark.parametrize("name", USAGE)
def test_wrong_words(place, name):
    done = run(place, *USAGE[name])
    assert (done.returncode, done.stderr[:7], place.names()) == (2, b"usage: ", [])


def test_packed_and_plain_are_not_taken_for_each_other(place, plain):
    ended(run(place, "unpack", "tile.las", "-o", "b.las"), 2, "usage: the file is plain")
    ended(run(place, "pack", SAMPLE, "-o", "b.laz"), 2, "usage: the file is packed")
    assert place.names() == ["tile.las"]


def test_missing_input(place):
    ended(run(place, "info", "none.laz"), 3, "read fault: none.laz")
    ended(run(place, "unpack", "none.laz", "-o", "b.las"), 3, "read fault: none.laz")
    assert place.names() == []


def test_bad_chunk_leaves_no_output(place):
    data = bytearray(SAMPLE.read_bytes())
    data[700:900] = bytes(255 for _ in range(200))
    place.write("bad.laz", bytes(data))
    older = place.write("b.las", b"older")
    for words in (["-o", "c.las"], ["-o", "b.las", "--force"], ["-o", "c.las", "--workers", "2"]):
        ended(run(place, "unpack", "bad.laz", *words), 5, "refused: bad.laz: 21 BadChunk 0")
    assert older.read_bytes() == b"older"
    assert place.names() == ["b.las", "bad.laz"]


def test_full_disk(place, small_disk):
    folder = small_disk(300_000)
    ended(run(place, "unpack", SAMPLE, "-o", folder / "b.las"), 4, f"write fault: {folder / 'b.las'}")
    assert list(folder.iterdir()) == []


def test_full_standard_output(place):
    with open("/dev/full", "wb") as full:
        done = run(place, "info", SAMPLE, stdout=full)
    assert (done.returncode, done.stderr) == (4, b"write fault\n")


def begun(place, *words):
    """A run that has begun its output: the process, and the name of the draft."""
    process = subprocess.Popen([web.node(), web.PROGRAM, *words], cwd=place.folder, stdin=subprocess.DEVNULL,
                               stdout=subprocess.PIPE, stderr=subprocess.PIPE)
    for _ in range(3000):
        drafts = [name for name in place.names() if name.endswith(".part")]
        if drafts and place.path(drafts[0]).stat().st_size > 0:
            return process, drafts[0]
        assert process.poll() is None, process.communicate()
        time.sleep(0.01)
    raise AssertionError("no output was begun")


@pytest.fixture
def long_file(place):
    """A packed file that takes seconds."""
    commands.good([place.program, "make", "-points", "2000000", "-seed", "3", "-o", place.path("m.las"), "-z",
                   place.path("m.laz"), "-cores", "2"])
    place.path("m.las").unlink()


def test_draft_is_hidden_and_an_interrupt_removes_it(place, long_file):
    process, draft = begun(place, "unpack", "m.laz", "-o", "b.las")
    assert draft.startswith(".b.las.")
    assert "b.las" not in place.names()
    process.send_signal(signal.SIGTERM)
    process.communicate(timeout=60)
    assert process.returncode == 128 + signal.SIGTERM
    assert place.names() == ["m.laz"]


def test_input_that_is_changed_meanwhile(place, long_file):
    process, _ = begun(place, "unpack", "m.laz", "-o", "b.las")
    os.utime(place.path("m.laz"), (1, 1))
    _, said = process.communicate(timeout=120)
    assert (process.returncode, said) == (3, b"read fault: m.laz\n")
    assert place.names() == ["m.laz"]


def test_file_that_comes_meanwhile_stays(place, long_file):
    process, _ = begun(place, "unpack", "m.laz", "-o", "b.las")
    place.write("b.las", b"mine")
    _, said = process.communicate(timeout=120)
    assert (process.returncode, said) == (4, b"write fault: b.las exists; --force replaces it\n")
    assert place.files()["b.las"] == b"mine"
    assert place.names() == ["b.las", "m.laz"]


def traced(text):
    """The calls of a trace of threads: the name, the line, and the numbers of the lines where it begins and ends."""
    found, begun_calls = [], {}
    for at, line in enumerate(text.splitlines()):
        match = re.match(r"(\d+) +(?:<\.\.\. )?(\w+)(?:\(| (resumed))", line)
        if match and match[3]:
            found.append((match[2], *begun_calls.pop(match.group(1, 2)), at))
        elif match and "<unfinished" in line:
            begun_calls[match.group(1, 2)] = (line, at)
        elif match:
            found.append((match[2], line, at, at))
    return sorted(found, key=lambda call: call[2])


def test_file_is_synced_before_it_has_its_name_and_the_folder_after(place):
    needs.command("strace", "strace")
    calls = "trace=openat,fsync,link,linkat,rename,renameat2,unlink,unlinkat"
    done = commands.quiet(["strace", "-f", "-y", "-e", calls, "-o", place.path("trace"), web.node(), web.PROGRAM,
                           "unpack", SAMPLE, "-o", "b.las"], cwd=place.folder)
    if b"ptrace" in done.stderr:
        needs.missing("strace may not trace here", "to be allowed to trace")
    assert done.returncode == 0, done.stderr
    calls = [call for call in traced(place.read("trace").decode()) if call[0] == "fsync" or ".part" in call[1]]
    first = {name: (begins, ends) for name, _, begins, ends in reversed(calls)}
    for one, next_one in (("openat", "fsync"), ("fsync", "link"), ("link", "unlink")):
        assert first[one][1] < first[next_one][0], (one, next_one)
    assert calls[-1][0] == "fsync"
    assert str(place.folder) in calls[-1][1]
    assert Path(place.folder, "b.las").exists()
