"""The launcher when a signal ends its program: which outputs are parts, which drafts go. And the line that shows how
far a run is.
"""
import fcntl
import os
import pty
import select
import signal
import subprocess
import time
from pathlib import Path

import pytest

import commands
import needs
from places import Place
from programs import LAUNCHER, TOP

# Writes a draft as the program does under LAS_SAFE, tells that it is there, and waits.
DRAFTS = """#!/bin/sh
: >"$PWD/.b.las.las-$$-a1b2.part"
[ -z "${OTHERS-}" ] || : >"$PWD/.b.las.las-$OTHERS-a1b2.part"
[ "${LAS_SAFE-}" = "$WANTED" ] || exit 9
: >ready
sleep 30
"""


def launched(folder: Path, script: str) -> Path:
    """An installed launcher whose program is a script."""
    prefix = folder / "prefix"
    (prefix / "bin").mkdir(parents=True)
    (prefix / "libexec" / "las").mkdir(parents=True)
    (prefix / "share" / "las").mkdir(parents=True)
    os.symlink(TOP / "help", prefix / "share" / "las" / "help")
    os.symlink(TOP / "release" / "processor.sh", prefix / "share" / "las" / "processor.sh")
    (prefix / "bin" / "las").write_bytes(LAUNCHER.read_bytes())
    for name in ("bin/las", "libexec/las/las-x86-64-v2"):
        if name.startswith("lib"):
            (prefix / name).write_text(script)
        (prefix / name).chmod(0o755)
    return prefix / "bin" / "las"


def wait_for(path: Path) -> None:
    for _ in range(600):
        if path.exists():
            return
        time.sleep(0.05)
    pytest.fail(f"{path} does not come")


def start(place: Place, *words: str, **more: str) -> "subprocess.Popen[bytes]":
    return subprocess.Popen(list(words), cwd=place.folder, env={**os.environ, **more}, start_new_session=True,
                            stdin=subprocess.DEVNULL, stdout=subprocess.DEVNULL, stderr=subprocess.PIPE,
                            preexec_fn=commands.heed_signals)


def ended(process: "subprocess.Popen[bytes]") -> "tuple[int, str]":
    _, said = process.communicate(timeout=60)
    return process.returncode, said.decode()


MAKE = ["make", "-o", "m.las", "-z", "m.laz", "-points", "10000000", "-seed", "1"]


@pytest.mark.parametrize("number", [signal.SIGINT, signal.SIGTERM, signal.SIGHUP])
def test_a_signal_names_the_outputs_that_are_parts(place: Place, number: signal.Signals) -> None:
    run = start(place, str(LAUNCHER), *MAKE, LAS_HINTS="1")
    wait_for(place.path("m.las"))
    os.killpg(run.pid, number)
    status, said = ended(run)
    assert status == -number
    assert "'m.las' is perhaps a part: this run has made it." in said
    assert "las --safe make" in said


def test_a_signal_names_no_file_that_the_run_had_not_begun(place: Place) -> None:
    place.write("m.laz", b"older")
    os.utime(place.path("m.laz"), (1, 1))
    run = start(place, str(LAUNCHER), *MAKE, LAS_HINTS="1")
    wait_for(place.path("m.las"))
    os.killpg(run.pid, signal.SIGINT)
    _, said = ended(run)
    if place.read("m.laz") == b"older":
        assert "m.laz" not in said


def test_a_program_that_is_killed_leaves_a_part_that_is_named(place: Place, tmp_path: Path) -> None:
    las = launched(tmp_path, '#!/bin/sh\necho x >b.las\nkill -9 $$\n')
    status, said = ended(start(place, str(las), "las2las", "-i", "a.las", "-o", "b.las", LAS_HINTS="1"))
    assert status == 137
    assert "'b.las' is perhaps a part: this run has made it." in said


def test_parts_of_lassplit_are_counted(place: Place, tmp_path: Path) -> None:
    place.write("p_0000001.las", b"older")
    os.utime(place.path("p_0000001.las"), (1, 1))
    las = launched(tmp_path, '#!/bin/sh\nsleep .1; echo x >p_0000002.las; echo x >p_0000006.las\nkill -9 $$\n')
    _, said = ended(start(place, str(las), "lassplit", "-i", "a.las", "-o", "p.las", "-by_return", LAS_HINTS="1"))
    assert "This run has written 2 files, 'p_0000002.las' to 'p_0000006.las'" in said
    assert "p_0000001" not in said


@pytest.mark.parametrize("words, wanted", [(["--safe"], "1"), ([], "1")])
@pytest.mark.parametrize("number", [signal.SIGINT, signal.SIGTERM])
def test_drafts_of_the_program_go_after_a_signal(place: Place, tmp_path: Path, words: "list[str]", wanted: str,
                                                 number: signal.Signals) -> None:
    las = launched(tmp_path, DRAFTS)
    place.write(".b.las.las-1-a1b2.part", b"another's")
    more = {} if words else {"LAS_SAFE": "1"}
    run = start(place, str(las), *words, "las2las", "-i", "a.las", "-o", "b.las", WANTED=wanted, OTHERS="2", **more)
    wait_for(place.path("ready"))
    os.killpg(run.pid, number)
    status, said = ended(run)
    assert (status, said) == (-number, "")
    drafts = [name for name in place.names() if name.endswith(".part")]
    assert drafts == [".b.las.las-1-a1b2.part", ".b.las.las-2-a1b2.part"]


def test_an_older_draft_of_the_same_number_stays(place: Place, tmp_path: Path) -> None:
    """A process number comes again; the draft of another run that had it is not ours."""
    las = launched(tmp_path, '#!/bin/sh\n: >.b.las.las-$$-old0.part; touch -d 2001-01-01 .b.las.las-$$-old0.part\n'
                             ': >.b.las.las-$$-new0.part\nkill -9 $$\n')
    ended(start(place, str(las), "--safe", "las2las", "-i", "a.las", "-o", "b.las"))
    drafts = [name for name in place.names() if name.endswith(".part")]
    assert [name[-9:] for name in drafts] == ["old0.part"]


def test_drafts_stand_beside_what_a_link_names(place: Place, tmp_path: Path) -> None:
    place.path("far").mkdir()
    place.path("b.las").symlink_to("far/c.las")
    las = launched(tmp_path, '#!/bin/sh\n: >far/.c.las.las-$$-new0.part\nkill -9 $$\n')
    ended(start(place, str(las), "--safe", "las2las", "-i", "a.las", "-o", "b.las"))
    assert os.listdir(place.path("far")) == []


def test_drafts_that_are_to_be_kept_stay(place: Place, tmp_path: Path) -> None:
    las = launched(tmp_path, '#!/bin/sh\n: >.b.las.las-$$-new0.part\nkill -9 $$\n')
    ended(start(place, str(las), "--safe", "las2las", "-i", "a.las", "-o", "b.las", LAS_SAFE="keep"))
    assert len([name for name in place.names() if name.endswith(".part")]) == 1


def test_a_safe_run_ends_as_its_program_does(place: Place, tmp_path: Path) -> None:
    las = launched(tmp_path, '#!/bin/sh\necho "$LAS_SAFE" >&2\nexit 5\n')
    assert ended(start(place, str(las), "--safe", "laszip")) == (5, "1\n")


def on_terminal(place: Place, *line: str) -> str:
    """What a terminal of its own gets from a run."""
    pid, terminal = pty.fork()
    if pid == 0:
        os.chdir(place.folder)
        os.execv(line[0], list(line))
    shown = b""
    while select.select([terminal], [], [], 60)[0]:
        try:
            part = os.read(terminal, 4096)
        except OSError:
            break
        if not part:
            break
        shown += part
    os.waitpid(pid, 0)
    os.close(terminal)
    return shown.decode()


def screen(shown: str) -> "list[str]":
    """The lines that stay on a terminal: a carriage return goes to the begin of a line, and one code empties it."""
    lines = []
    for line in shown.replace("\r\n", "\n").split("\n"):
        kept = ""
        for part in line.split("\r"):
            part = part if not part.startswith("\x1b[K") else part[3:]
            kept = part if part or line.endswith("\r\x1b[K") else kept
        lines.append(kept)
    return [line for line in lines if line]


def test_a_long_run_shows_how_far_it_is_in_a_line_that_goes(place: Place, tmp_path: Path) -> None:
    with open(place.path("a.las"), "wb") as file:
        file.truncate(800_000_000)
    las = launched(tmp_path, "#!/bin/sh\nexec /usr/bin/python3 -c '\nimport os, time\nfd = os.open(\"a.las\", 0)\n"
                             "for _ in range(8):\n    os.read(fd, 100000000)\n    time.sleep(.5)'\n")
    shown = on_terminal(place, str(las), "laszip", "-i", "a.las", "-o", "b.laz")
    assert "% of 800 MB read" in shown
    assert shown.endswith("\r\x1b[K")
    assert screen(shown) == []


@pytest.mark.alone
def test_a_short_run_shows_nothing(place: Place, tmp_path: Path) -> None:
    las = launched(tmp_path, "#!/bin/sh\nexit 0\n")
    start_time = time.monotonic()
    assert on_terminal(place, str(las), "laszip", "-i", "a.las", "-o", "b.laz") == ""
    assert time.monotonic() - start_time < 1.9


def test_nothing_is_left_in_the_folder_for_what_is_temporary(place: Place, tmp_path: Path) -> None:
    las = launched(tmp_path, "#!/bin/sh\nexit 0\n")
    temporary = tmp_path / "temporary"
    temporary.mkdir()
    ended(start(place, str(las), "--safe", "laszip", LAS_HINTS="1", TMPDIR=str(temporary)))
    assert os.listdir(temporary) == []


@pytest.mark.parametrize("safe", ["", "1"])
def test_drafts_that_nobody_holds_are_named_before_a_safe_run(tmp_path: Path, safe: str) -> None:
    """Those that are locked, and one that is so new that it is perhaps not locked yet, are of a run that lives."""
    needs.command("flock", "util-linux")
    launcher = launched(tmp_path, "#!/bin/sh\nexit 0\n")
    out = tmp_path / "out put"
    out.mkdir()
    names = [".b.laz.las-4711-Xy12.part", ".a.laz.las-4711-Xy13.part", ".c.laz.las-4711-held.part",
             ".d.laz.las-4711-new.part", ".hidden.part", ".las-0123456789abcdef-1.part"]
    for name in names:
        (out / name).write_bytes(b"x")
        if "new" not in name:
            os.utime(out / name, (0, time.time() - 120))
    line = [str(launcher), "laszip", "-i", "none.las", "-o", "out put/a.laz", "-z", "out put/b.laz"]
    with open(out / names[2], "rb") as held:
        fcntl.flock(held, fcntl.LOCK_EX)
        run = subprocess.run(line, cwd=tmp_path, env={**os.environ, "LAS_SAFE": safe}, stdout=subprocess.PIPE,
                             stderr=subprocess.PIPE, check=False)
    wanted = f"las: '{out}' has 2 drafts of runs that have ended; to remove them: las-batch clean '{out}'\n"
    assert (run.returncode, run.stderr.decode()) == (0, wanted if safe else "")
    assert sorted(os.listdir(out)) == sorted(names)
