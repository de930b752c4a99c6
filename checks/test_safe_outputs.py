"""Outputs that appear whole or not at all, under LAS_SAFE: kills, failing calls, full disks, power loss, links, what
other programs change during a run, and two runs on one output.
"""
import errno
import os
import signal
import stat
import subprocess
from pathlib import Path

import pytest

import changed_calls
import commands
import needs
import power_loss
import runs
from las_files import FILE, ONE, THREE, head, lidar, packed_one, record
from places import Place

OLD = head(1, (1, 0, 0, 0, 0)) + record(77, 9)  # no command writes this
SPLIT = ["lassplit", "-i", "a.las", "-o", "p.las", "-by_classification"]

# the commands that write, their words, and their outputs in the order in which they are begun
COMMANDS: dict[str, tuple[list[str], list[str]]] = {
    "laszip packs": (["laszip", "-i", "a.las", "-o", "b.laz"], ["b.laz"]),
    "laszip unpacks": (["laszip", "-i", "one.laz", "-o", "b.las"], ["b.las"]),
    "las2las": (["las2las", "-i", "a.las", "-o", "b.las", "-keep_class", "2"], ["b.las"]),
    "lassplit": (SPLIT, ["p_0000002.las", "p_0000001.las"]),
    "lasmerge": (["lasmerge", "-i", "a.las", "-i", "c.las", "-o", "b.laz"], ["b.laz"]),
    "make": (["make", "-o", "b.las", "-z", "b.laz", "-points", "300", "-seed", "1"], ["b.las", "b.laz"]),
}
EACH = pytest.mark.parametrize("command", COMMANDS)
INPUTS = {"a.las": FILE, "c.las": FILE, "one.laz": packed_one()}
INFO = ["lasinfo", "-i", "a.las"]


@pytest.fixture(scope="session")
def library(tmp_path_factory):
    return changed_calls.built(tmp_path_factory.mktemp("library"))


@pytest.fixture
def calls(library, place):
    """The place with the inputs of all commands, and a way to run the program there under the library."""
    for name, data in INPUTS.items():
        place.write(name, data)
    return changed_calls.Calls(library, place)


def safely(place: Place, *words: str, safe: str = "1", **options):
    return place.las(*words, env={**os.environ, "LAS_SAFE": safe}, **options)


def begin(place: Place) -> None:
    for name, data in INPUTS.items():
        place.write(name, data)


def plain_outputs(place: Place, command: str) -> dict[str, bytes]:
    """What the command writes without LAS_SAFE. The outputs are removed again."""
    words, names = COMMANDS[command]
    run = place.las(*words)
    assert (run.returncode, run.stderr) == (0, b"")
    made = {name: place.read(name) for name in names}
    for name in names:
        place.path(name).unlink()
    return made


def with_a_bad_chunk(place: Place) -> bytes:
    """A packed file in which the stream after the first record of its chunk is no stream."""
    run = place.las("make", "-o", "made.las", "-z", "made.laz", "-points", "300", "-seed", "1")
    assert (run.returncode, run.stderr) == (0, b"")
    packed = place.read("made.laz")
    for name in ("made.las", "made.laz"):
        place.path(name).unlink()
    return packed[:349] + b"\xff\xff\xff\xff" + packed[353:]


def drafts(place: Place) -> list[str]:
    return [name for name in place.names() if name.startswith(".") and name.endswith(".part")]


def is_whole_or_old(place: Place, made: dict[str, bytes], old: bytes) -> bool:
    return all(not place.path(name).exists() or place.read(name) in (data, old) for name, data in made.items())


# What is written, and under which names

@EACH
def test_outputs_are_those_of_a_plain_run(place, command):
    begin(place)
    made = plain_outputs(place, command)
    run = safely(place, *COMMANDS[command][0])
    assert (run.returncode, run.stderr) == (0, b"")
    assert place.files() == {**INPUTS, **made}


@EACH
def test_an_older_file_is_replaced(place, command):
    begin(place)
    made = plain_outputs(place, command)
    for name in made:
        place.write(name, OLD)
    run = safely(place, *COMMANDS[command][0])
    assert (run.returncode, run.stderr) == (0, b"")
    assert place.files() == {**INPUTS, **made}


def test_lasinfo_reports_the_same(place):
    place.write("a.las", FILE)
    plain = place.las(*INFO)
    run = safely(place, *INFO)
    assert (run.returncode, run.stdout, run.stderr) == (0, plain.stdout, b"")


@pytest.mark.parametrize("value", ["", "0"])
def test_values_that_ask_for_plain_outputs(calls, value):
    log = calls.log(COMMANDS["laszip packs"][0], value)
    assert [call[2] for call in log if call[0] == "create"] == ["b.laz"]


@pytest.mark.parametrize("value", ["1", "keep", "yes", "a value that is long"])
def test_values_that_ask_for_drafts(calls, value):
    log = calls.log(COMMANDS["laszip packs"][0], value)
    created = [call[2] for call in log if call[0] == "create"]
    assert len(created) == 1
    assert created[0].startswith(".b.laz.las-") and created[0].endswith("-0000.part")


def test_a_draft_is_synced_before_it_is_moved_and_its_folder_after(calls):
    log = calls.log(COMMANDS["make"][0])
    assert [call[0] for call in log if call[0] not in ("write", "truncate")] == [
        "create", "create", "sync", "sync", "rename", "rename", "syncfolder"]


def test_a_draft_has_no_more_than_255_bytes_of_name(place):
    place.write("a.las", FILE)
    name = "\u00e9" * 125 + ".las"
    run = safely(place, "las2las", "-i", "a.las", "-o", name, "-keep_class", "2")
    assert (run.returncode, run.stderr) == (0, b"")
    assert place.names() == ["a.las", name]


def test_a_hidden_name_that_is_taken_is_left_alone(place, calls):
    """A program that is run by `exec` keeps its number, so the names of its drafts can be taken before."""
    line = 'for n in 0000 0001; do echo mine >".b.laz.las-$$-$n.part"; done; exec "$0" laszip -i a.las -o b.laz'
    made = plain_outputs(place, "laszip packs")["b.laz"]
    run = subprocess.run(["sh", "-c", line, place.program], cwd=place.folder, env={**os.environ, "LAS_SAFE": "1"},
                         stderr=subprocess.PIPE, check=False)
    assert (run.returncode, run.stderr, place.read("b.laz")) == (0, b"", made)
    assert [place.read(name) for name in drafts(place)] == [b"mine\n", b"mine\n"]


@pytest.mark.parametrize("number", [0, 1])
def test_a_link_under_the_hidden_name_is_not_followed(place, calls, number):
    place.write("precious", b"precious")
    line = f'ln -s precious ".b.laz.las-$$-000{number}.part"; exec "$0" laszip -i a.las -o b.laz'
    run = subprocess.run(["sh", "-c", line, place.program], cwd=place.folder, env={**os.environ, "LAS_SAFE": "1"},
                         stderr=subprocess.PIPE, check=False)
    assert (run.returncode, run.stderr, place.read("precious")) == (0, b"", b"precious")


# Kills and signals

@EACH
def test_a_kill_at_any_call_leaves_each_output_whole_or_as_it_was(calls, place, command):
    made = plain_outputs(place, command)
    words = COMMANDS[command][0]
    count = calls.count(words)
    assert count > 10
    for at in range(1, count + 1):
        for name in place.names():
            if name not in INPUTS:
                place.path(name).unlink()
        for name in made:
            place.write(name, OLD)
        run = calls.run(words, at=at, do="kill")
        assert run.returncode == -signal.SIGKILL
        assert is_whole_or_old(place, made, OLD), f"call {at}"
        assert {name: place.read(name) for name in INPUTS} == INPUTS
        assert set(place.names()) == {*INPUTS, *made, *drafts(place)}


@pytest.mark.parametrize("number", [signal.SIGINT, signal.SIGTERM, signal.SIGHUP])
def test_a_signal_leaves_a_good_older_output(calls, place, number):
    place.write("b.las", OLD)
    words = COMMANDS["las2las"][0]
    done = calls.aside / "waits"
    done.unlink(missing_ok=True)
    environment = calls.settings("1", kind="write", at=2, do="wait", done=done)
    with subprocess.Popen([place.program, *words], cwd=place.folder, env=environment,
                          preexec_fn=commands.heed_signals) as child:
        changed_calls.wait_until(done.exists, child)
        child.send_signal(number)
        assert child.wait(changed_calls.END) == -number
    assert place.read("b.las") == OLD


def test_the_draft_of_a_live_run_is_locked_and_that_of_a_killed_one_is_not(calls, place):
    def locked(name: str) -> bool:
        needs.command("flock", "util-linux")
        return subprocess.run(["flock", "-n", place.path(name), "true"], check=False).returncode == 1

    words = COMMANDS["laszip packs"][0]
    seen = []
    run = calls.during(words, lambda: seen.extend(map(locked, drafts(place))), "write", 2)
    assert (run.returncode, seen) == (0, [True])
    calls.run(words, kind="write", at=2, do="kill")
    assert [locked(name) for name in drafts(place)] == [False]


# Failing calls and full disks

@EACH
@pytest.mark.parametrize("error", [errno.ENOSPC, errno.EIO, errno.EACCES])
def test_each_call_failing_leaves_each_output_whole_or_as_it_was(calls, place, command, error):
    made = plain_outputs(place, command)
    words = COMMANDS[command][0]
    for kind in ["open", "stat", "read", "write", "rename", "sync", "lock", "unlink", "chmod", "chown"]:
        for at in range(1, calls.count(words, kind=kind) + 1):
            for name in made:
                place.write(name, OLD)
            run = calls.run(words, kind=kind, at=at, do=error)
            said = f"{kind} {at}: {run.returncode} {run.stderr!r}"
            assert run.returncode in (0, 1, 3, 4), said
            assert is_whole_or_old(place, made, OLD), said
            assert {name: place.read(name) for name in INPUTS} == INPUTS, said
            assert (run.returncode == 0) == ({name: place.read(name) for name in made} == made) \
                or kind in ("sync", "stat"), said
            assert not drafts(place), said
            assert run.returncode or not run.stderr, said


def test_an_output_that_can_not_be_moved_is_named_and_the_moved_ones_stay(calls, place):
    parts = [f"p_{i:07}.las" for i in range(1, 6)]
    place.write("a.las", head(5, (5, 0, 0, 0, 0)) + b"".join(
        THREE[0][:15] + bytes([i]) + THREE[0][16:] for i in range(1, 6)))
    run = calls.run(SPLIT, kind="rename", at=3, do=errno.EIO)
    assert (run.returncode, run.stderr.decode().splitlines()) == (4, [
        "write fault: p_0000003.las",
        "written: p_0000001.las", "written: p_0000002.las",
        "not written: p_0000003.las", "not written: p_0000004.las", "not written: p_0000005.las"])
    assert [name for name in place.names() if name not in INPUTS] == parts[:2]
    assert [len(place.read(name)) for name in parts[:2]] == [247, 247]


def test_a_folder_that_can_not_be_synced_is_a_write_fault(calls, place):
    run = calls.run(COMMANDS["las2las"][0], kind="sync", at=2, do=errno.EIO)
    runs.ended(run, 4, b"write fault: b.las\nwritten: b.las\n")
    assert not drafts(place)


def test_a_file_system_that_can_not_sync_folders_is_no_fault(calls):
    runs.ended(calls.run(COMMANDS["las2las"][0], kind="sync", at=2, do=errno.EINVAL), 0)


def test_a_file_system_without_locks_is_no_fault(calls):
    runs.ended(calls.run(COMMANDS["las2las"][0], kind="lock", at=1, do=errno.ENOLCK), 0)


@pytest.mark.root
@EACH
def test_a_full_disk_leaves_older_outputs_and_no_draft(place, small_disk, command):
    begin(place)
    made = plain_outputs(place, command)
    disk = Place(small_disk(20 * 4096), place.program)
    begin(disk)
    for name in made:
        disk.write(name, OLD)
    with open(disk.path("filler"), "wb", buffering=0) as file:
        with pytest.raises(OSError):
            for _ in range(100):
                file.write(bytes(4096))
    before = disk.files()
    run = safely(disk, *COMMANDS[command][0])
    assert (run.returncode, run.stderr) == (4, b"write fault\n")
    assert disk.files() == before


@pytest.mark.root
@pytest.mark.parametrize("safe, held", [("1", True), (None, False)])
def test_on_a_full_disk_the_older_output_is_lost_without_it(place, small_disk, safe, held):
    place.write("a.las", head(5000, (5000, 0, 0, 0, 0)) + b"".join(THREE[0] for _ in range(5000)))
    disk = small_disk(16 * 4096)
    (disk / "b.las").write_bytes(OLD)
    environment = {**os.environ, **({"LAS_SAFE": safe} if safe else {})}
    run = place.las("las2las", "-i", "a.las", "-o", disk / "b.las", env=environment)
    runs.ended(run, 4, b"write fault\n")
    assert ((disk / "b.las").read_bytes() == OLD) == held


# Refusals and faults of the run itself

@pytest.mark.parametrize("words, status", [
    (["las2las", "-i", "a.las", "-o", "b.las", "-translate_raw_x", "2147483647"], 5),
    (["laszip", "-i", "bad.laz", "-o", "b.las"], 5),
    (["lasmerge", "-i", "a.las", "-i", "other.las", "-o", "b.las"], 6),
    (["laszip", "-i", "none.las", "-o", "b.las"], 3),
    (["laszip", "-i", "a.las", "-o", "b.las", "-cores", "9"], 2)])
def test_a_run_that_fails_leaves_the_older_output_and_no_draft(place, words, status):
    begin(place)
    place.write("bad.laz", with_a_bad_chunk(place))
    place.write("other.las", head(1, (1, 0, 0, 0, 0), 0)[:131] + bytes(8) + head(1, (1, 0, 0, 0, 0))[139:] + THREE[0])
    place.write("b.las", OLD)
    before = place.files()
    run = safely(place, *words)
    assert run.returncode == status, run.stderr
    assert place.files() == before


def test_keep_keeps_the_records_before_a_refusal(place):
    begin(place)
    words = ["las2las", "-i", "a.las", "-o", "b.las", "-translate_raw_x", "2147483647"]
    plain = place.las(*words)
    left = place.read("b.las")
    place.write("b.las", OLD)
    run = safely(place, *words, safe="keep")
    assert (run.returncode, run.stderr) == (5, plain.stderr + b"kept: b.las.part\n")
    assert place.files() == {**INPUTS, "b.las": OLD, "b.las.part": left}


def test_keep_writes_over_nothing(place):
    begin(place)
    place.write("b.las.part", b"mine")
    run = safely(place, "las2las", "-i", "a.las", "-o", "b.las", "-translate_raw_x", "2147483647", safe="keep")
    hidden = drafts(place)
    assert (run.returncode, len(hidden)) == (5, 1)
    assert run.stderr.endswith(b"kept: " + hidden[0].encode() + b"\n")
    assert place.read("b.las.part") == b"mine"


def test_keep_leaves_nothing_beside_outputs_that_are_whole(place):
    begin(place)
    runs.ended(safely(place, *COMMANDS["las2las"][0], safe="keep"), 0)
    assert set(place.names()) == {*INPUTS, "b.las"}


# Links, and names that lead to no file

def test_a_link_stays_and_what_it_names_is_replaced(place):
    begin(place)
    place.path("in").mkdir()
    place.write("in/real.las", OLD)
    place.path("b.las").symlink_to("in/real.las")
    runs.ended(safely(place, *COMMANDS["las2las"][0]), 0)
    assert os.readlink(place.path("b.las")) == "in/real.las"
    assert place.read("in/real.las") != OLD
    assert os.listdir(place.path("in")) == ["real.las"]


def test_a_chain_of_links_to_a_file_that_is_not_there_yet(place):
    begin(place)
    place.path("in").mkdir()
    place.path("in/second").symlink_to("../real.las")
    place.path("b.las").symlink_to(place.path("in/second"))
    runs.ended(safely(place, *COMMANDS["las2las"][0]), 0)
    assert not place.path("real.las").is_symlink()
    assert place.path("b.las").is_symlink() and place.path("in/second").is_symlink()
    assert os.listdir(place.path("in")) == ["second"]


def test_a_hard_link_of_the_older_output_keeps_the_older_bytes(place):
    begin(place)
    place.write("b.las", OLD)
    os.link(place.path("b.las"), place.path("other.las"))
    runs.ended(safely(place, *COMMANDS["las2las"][0]), 0)
    assert place.read("other.las") == OLD
    assert place.read("b.las") != OLD


def make_fifo(path: Path) -> None:
    os.mkfifo(path)


def make_loop(path: Path) -> None:
    path.symlink_to(path.name)


def make_link_to_input(path: Path) -> None:
    path.symlink_to("a.las")


def make_hard_link_of_input(path: Path) -> None:
    os.link(path.parent / "a.las", path)


def make_device(path: Path) -> None:
    path.symlink_to("/dev/null")


def make_folder(path: Path) -> None:
    path.mkdir()


REFUSED = [make_fifo, make_folder, make_loop, make_link_to_input, make_hard_link_of_input, make_device]


@pytest.mark.parametrize("make", REFUSED)
@pytest.mark.parametrize("command", ["laszip packs", "las2las", "lassplit", "lasmerge", "make"])
def test_an_output_that_is_no_file_or_an_input_is_refused_before_any_draft(calls, place, make, command):
    words, names = COMMANDS[command]
    if command == "make" and "input" in make.__name__:
        return
    make(place.path(names[0]))
    before = {name: (os.lstat(place.path(name)).st_ino, os.lstat(place.path(name)).st_size) for name in place.names()}
    log = calls.aside / "log"
    log.unlink(missing_ok=True)
    run = calls.run(words, log=log)
    runs.ended(run, 4, b"write fault\n", None)
    assert "create" not in (log.read_text() if log.exists() else "")
    after = {name: (os.lstat(place.path(name)).st_ino, os.lstat(place.path(name)).st_size) for name in place.names()}
    assert after == before
    assert {name: place.read(name) for name in INPUTS} == INPUTS


@pytest.mark.parametrize("name", ["none/b.las", "b.las/", "a.las/b.las", "."])
def test_an_output_that_can_not_be_made_is_a_write_fault(place, name):
    begin(place)
    before = place.files()
    runs.ended(safely(place, "las2las", "-i", "a.las", "-o", name), 4, b"write fault\n")
    assert place.files() == before


@pytest.mark.parametrize("second", ["./b.las", "link.las"])
def test_two_outputs_at_one_place_are_refused(place, second):
    place.path("link.las").symlink_to("b.las")
    words = ["make", "-o", "b.las", "-z", second, "-points", "300", "-seed", "1"]
    runs.ended(safely(place, *words), 4, b"write fault\n")
    assert place.names() == ["link.las"]


# Modes and owners

def test_a_new_output_has_the_mode_that_the_mask_leaves(place):
    begin(place)
    run = subprocess.run(["sh", "-c", 'umask 027; exec "$0" "$@"', place.program, *COMMANDS["las2las"][0]],
                         cwd=place.folder, env={**os.environ, "LAS_SAFE": "1"}, check=False)
    assert run.returncode == 0
    assert stat.S_IMODE(place.path("b.las").stat().st_mode) == 0o640


@pytest.mark.parametrize("mode", [0o600, 0o664, 0o640])
def test_the_mode_of_an_older_output_is_kept(place, mode):
    begin(place)
    place.write("b.las", OLD).chmod(mode)
    runs.ended(safely(place, *COMMANDS["las2las"][0]), 0)
    assert stat.S_IMODE(place.path("b.las").stat().st_mode) == mode


def test_a_draft_that_replaces_a_file_is_for_its_owner_alone(calls, place):
    place.write("b.las", OLD).chmod(0o600)
    seen = []
    run = calls.during(COMMANDS["las2las"][0], lambda: seen.extend(
        stat.S_IMODE(place.path(name).stat().st_mode) for name in drafts(place)), "write", 2)
    assert (run.returncode, seen) == (0, [0o600])


@pytest.mark.root
def test_the_owner_and_the_group_of_an_older_output_are_kept(place):
    begin(place)
    os.chown(place.write("b.las", OLD), 12345, 23456)
    runs.ended(safely(place, *COMMANDS["las2las"][0]), 0)
    found = place.path("b.las").stat()
    assert (found.st_uid, found.st_gid) == (12345, 23456)


@pytest.mark.root
@pytest.mark.parametrize("mode, wanted", [(0o660, 0o600), (0o664, 0o644), (0o644, 0o644)])
def test_a_group_that_can_not_be_kept_gets_what_all_others_have(place, mode, wanted):
    begin(place)
    place.folder.chmod(0o777)
    for folder in [place.folder, *place.folder.parents][:4]:
        if folder != Path("/tmp"):
            folder.chmod(folder.stat().st_mode | 0o711)
    os.chown(place.write("b.las", OLD), 12345, 23456)
    place.path("b.las").chmod(mode)

    def become() -> None:
        os.setgroups([])
        os.setgid(12345)
        os.setuid(12345)

    run = safely(place, *COMMANDS["las2las"][0], preexec_fn=become)
    runs.ended(run, 0)
    found = place.path("b.las").stat()
    assert (found.st_uid, found.st_gid, stat.S_IMODE(found.st_mode)) == (12345, 12345, wanted)


@pytest.mark.root
def test_an_older_output_that_may_not_be_written_stays(place):
    begin(place)
    place.folder.chmod(0o777)
    for folder in [place.folder, *place.folder.parents][:4]:
        if folder != Path("/tmp"):
            folder.chmod(folder.stat().st_mode | 0o711)
    place.write("b.las", OLD).chmod(0o444)

    def become() -> None:
        os.setgroups([])
        os.setgid(12345)
        os.setuid(12345)

    before = place.files()
    runs.ended(safely(place, *COMMANDS["las2las"][0], preexec_fn=become), 4, b"write fault\n")
    assert place.files() == before


# What other programs change during a run

CHANGES = {
    "written in place": lambda path: path.write_bytes(path.read_bytes()),
    "longer": lambda path: path.write_bytes(path.read_bytes() + b"x"),
    "replaced by the same bytes": lambda path: replaced(path, path.read_bytes()),
    "removed": lambda path: path.unlink(),
    "written in place with its time put back": lambda path: written_quietly(path),
}


# a write of each command after which its input is not opened or read any more: the kind of the call, and its number
LAST_WRITES = {
    "laszip packs": ("write", 3), "las2las": ("write", 3), "lassplit": ("write", 4), "lasmerge": ("write", 3)}


def replaced(path: Path, data: bytes) -> None:
    """Puts another file under the name. The one that was there is kept, so that its inode is not used again."""
    aside = path.parent.parent / "aside"
    aside.mkdir(exist_ok=True)
    os.link(path, aside / f"{path.name}.{len(os.listdir(aside))}")
    (aside / "new").write_bytes(data)
    os.replace(aside / "new", path)


def written_quietly(path: Path) -> None:
    found = path.stat()
    path.write_bytes(path.read_bytes())
    os.utime(path, ns=(found.st_atime_ns, found.st_mtime_ns))


@pytest.mark.parametrize("change", CHANGES)
@pytest.mark.parametrize("command", ["laszip packs", "las2las", "lassplit", "lasmerge"])
def test_an_input_that_is_changed_is_a_read_fault_and_nothing_is_moved(calls, place, command, change):
    words, names = COMMANDS[command]
    for name in names:
        place.write(name, OLD)
    run = calls.during(words, lambda: CHANGES[change](place.path("a.las")), *LAST_WRITES[command])
    runs.ended(run, 3, b"read fault: a.las\n", None)
    assert [place.read(name) for name in names] == [OLD] * len(names)
    assert not drafts(place)


@pytest.mark.parametrize("change", ["written in place", "removed"])
def test_an_input_that_is_changed_is_a_read_fault_of_lasinfo(calls, place, change):
    run = calls.during(INFO, lambda: CHANGES[change](place.path("a.las")), "read", 2)
    runs.ended(run, 3, b"read fault: a.las\n", None)


@EACH
@pytest.mark.parametrize("change", ["removed", "replaced", "renamed"])
def test_an_output_that_is_changed_during_the_run_is_there_whole_after_it(calls, place, command, change):
    made = plain_outputs(place, command)
    words, names = COMMANDS[command]
    for name in names:
        place.write(name, OLD)

    def other() -> None:
        for name in names:
            if change == "removed":
                place.path(name).unlink()
            elif change == "replaced":
                replaced(place.path(name), b"another file")
            else:
                place.path(name).rename(place.path(name + ".bak"))

    run = calls.during(words, other, "write", 2)
    runs.ended(run, 0, b"", None)
    assert {name: place.read(name) for name in names} == made


@pytest.mark.parametrize("make", [make_fifo, make_folder, make_hard_link_of_input, make_link_to_input])
def test_what_is_no_output_stays_though_it_came_during_the_run(calls, place, make):
    run = calls.during(COMMANDS["las2las"][0], lambda: make(place.path("b.las")), "write", 2)
    status = 3 if make is make_hard_link_of_input else 4
    assert run.returncode == status
    assert os.path.lexists(place.path("b.las"))
    assert {name: place.read(name) for name in INPUTS} == INPUTS
    assert not drafts(place)


@pytest.mark.parametrize("change", ["removed", "replaced"])
def test_a_draft_that_another_program_changed_is_a_write_fault(calls, place, change):
    place.write("b.las", OLD)

    def other() -> None:
        for name in drafts(place):
            if change == "removed":
                place.path(name).unlink()
            else:
                replaced(place.path(name), b"another file")

    run = calls.during(COMMANDS["las2las"][0], other, "write", 2)
    runs.ended(run, 4, b"write fault: b.las\n")
    assert place.read("b.las") == OLD
    assert [place.read(name) for name in drafts(place)] == ([] if change == "removed" else [b"another file"])


def test_two_runs_on_one_output_end_with_one_whole_output(place):
    points = lidar(0, 0, 20000)
    place.write("one.las", head(20000, (0, 0, 0, 0, 0)) + b"".join(points))
    place.write("two.las", head(20000, (0, 0, 0, 0, 0)) + b"".join(reversed(points)))
    words = [["laszip", "-i", name, "-o", "b.laz", "-chunk_size", "256"] for name in ("one.las", "two.las")]
    wanted = []
    for line in words:
        runs.ended(place.las(*line), 0)
        wanted.append(place.read("b.laz"))
    assert wanted[0] != wanted[1]
    environment = {**os.environ, "LAS_SAFE": "1"}
    for _ in range(20):
        children = [subprocess.Popen([place.program, *line], cwd=place.folder, env=environment) for line in words]
        assert [child.wait(60) for child in children] == [0, 0]
        assert place.read("b.laz") in wanted
        assert not drafts(place)


@pytest.mark.parametrize("first", [0, 1])
def test_two_runs_on_one_output_that_write_in_turn(calls, place, first):
    """The one run waits in the middle of its output while the other runs from its beginning to its end."""
    made = plain_outputs(place, "laszip packs")["b.laz"]
    place.write("d.las", ONE)
    other = ["laszip", "-i", "d.las", "-o", "b.laz"]
    run = calls.during(COMMANDS["laszip packs"][0],
                       lambda: runs.ended(safely(place, *other), 0), "write", 2 + first)
    runs.ended(run, 0)
    assert place.read("b.laz") == made


# Many outputs, and few handles

def test_as_many_drafts_as_parts_under_a_low_limit_of_open_files(place):
    points = lidar(0, 0, 400)
    place.write("a.las", head(400, (0, 0, 0, 0, 0)) + b"".join(points))
    words = ["lassplit", "-i", "a.las", "-o", "p.las", "-split", "2"]
    run = subprocess.run(["sh", "-c", 'ulimit -n 32; exec "$0" "$@"', place.program, *words], cwd=place.folder,
                         env={**os.environ, "LAS_SAFE": "1"}, stderr=subprocess.PIPE, check=False)
    assert (run.returncode, run.stderr) == (0, b"")
    assert len(place.names()) == 201
    assert not drafts(place)


# Power loss, simulated from a log of the calls

def lost(calls, place, command: str, safe, old: bytes) -> list[int]:
    """The calls after which a power loss may leave an output that is neither whole nor as it was."""
    words, names = COMMANDS[command]
    made = plain_outputs(place, command)
    for name in names:
        place.write(name, old)
    before = {name: (place.path(name).stat().st_ino, place.read(name)) for name in names}
    log = calls.log(words, safe)
    return sorted({at for at, disk in power_loss.losses(before, log)
                   if any(disk.get(name) not in (made[name], old) for name in names)})


@EACH
def test_a_power_loss_after_any_call_leaves_each_output_whole_or_as_it_was(calls, place, command):
    assert lost(calls, place, command, "1", OLD) == []


def test_a_power_loss_loses_an_output_without_it(calls, place):
    assert lost(calls, place, "las2las", None, OLD) != []


@EACH
def test_status_0_means_that_a_power_loss_takes_no_output(calls, place, command):
    made = plain_outputs(place, command)
    log = calls.log(COMMANDS[command][0])
    last = len(log)
    for at, disk in power_loss.losses({}, log):
        if at == last:
            assert {name: disk.get(name) for name in made} == made


# Without LAS_SAFE nothing is different

@EACH
def test_without_it_outputs_are_written_under_their_own_names(calls, command):
    log = calls.log(COMMANDS[command][0], None)
    assert [call[2] for call in log if call[0] == "create"] == COMMANDS[command][1]
    assert not [call for call in log if call[0] in ("rename", "sync", "syncfolder", "unlink", "link")]
