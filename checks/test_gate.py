"""The gate, `.ci/run`, over a tree of stand-ins: what it calls, in which order, and that each part can fail it."""
import contextlib
import gzip
import os
import shutil
import signal
import subprocess
from pathlib import Path

import pytest

import programs
from batch_places import wait_until
from programs import TOP

pytestmark = pytest.mark.slow(seconds=1)

# Each stand-in notes its words, lasts if $LASTS fits them, and fails if $FAILS does.
STAND_IN = """#!/bin/sh
said="${0##*/} $*"
echo "$said" >>"$NOTES"
case $said in
$LASTS)
    sleep 0.5
    echo "$said ends" >>"$NOTES"
    ;;
$STAYS) exec sleep 60 ;;
esac
case $said in
$FAILS) exit "${STATUS-1}" ;;
esac
"""
FUZZING = "check --all -n 0 -k test_a_minute_finds_nothing"
SUITE = "check --all --costs --durations=25 -k not test_a_minute_finds_nothing --program crates/las/out/las"
FILES = "check --all -m files --program crates/las/out/las-x86-64-v3"
PARTS = ["packages ", "rt ci", "edits --gate", "make --check", FUZZING, SUITE,
         pytest.param(FILES, marks=pytest.mark.skipif(not programs.runs_v3(), reason="the processor is too old"))]


class Gate:
    """A tree with the gate and stand-ins for all that it calls."""

    def __init__(self, folder: Path) -> None:
        self.folder = folder
        for name in (".ci/run", ".ci/lanes.sh", "release/processor.sh"):
            (folder / name).parent.mkdir(parents=True, exist_ok=True)
            shutil.copy2(TOP / name, folder / name)
        for name in (".ci/packages", ".ci/times", ".ci/edits", "release/make", "check", "bin/rt",
                     "crates/las/out/las-x86-64-v3"):
            (folder / name).parent.mkdir(parents=True, exist_ok=True)
            (folder / name).write_text(STAND_IN)
            (folder / name).chmod(0o755)
        for level in ("v2", "v3"):
            (folder / "release" / f"las-x86-64-{level}.gz").write_bytes(gzip.compress(b"a program"))
        (folder / "tmp").mkdir()

    def begun(self, **more: str) -> "subprocess.Popen[bytes]":
        environment = {**os.environ, "NOTES": str(self.folder / "notes"), "TMPDIR": str(self.folder / "tmp"),
                       "PATH": f"{self.folder / 'bin'}:{os.environ['PATH']}", "LASTS": "", "STAYS": "", "FAILS": "",
                       **more}
        return subprocess.Popen([self.folder / ".ci" / "run"], env=environment, stdin=subprocess.DEVNULL,
                                stdout=subprocess.DEVNULL, stderr=subprocess.DEVNULL, start_new_session=True,
                                preexec_fn=lambda: signal.signal(signal.SIGINT, signal.default_int_handler))

    def ended(self, **more: str) -> int:
        status = self.begun(**more).wait(60)
        assert list((self.folder / "tmp").iterdir()) == []
        return status

    def notes(self) -> "list[str]":
        """What was called, but for `.ci/times`, which has the number of a process in its words."""
        lines = (self.folder / "notes").read_text().splitlines() if (self.folder / "notes").exists() else []
        return [line for line in lines if not line.startswith("times ")]


@pytest.fixture
def gate(tmp_path: Path) -> Gate:
    return Gate(tmp_path)


def test_all_parts_are_called(gate: Gate) -> None:
    assert gate.ended() == 0
    files = [FILES] if programs.runs_v3() else []
    wanted = ["packages ", "rt ci", "edits --gate", "make --check", FUZZING, "make --compares", SUITE, *files]
    assert sorted(gate.notes()) == sorted(wanted)


@pytest.mark.parametrize("part", PARTS)
def test_each_part_that_fails_fails_the_gate_and_the_others_run(gate: Gate, part: str) -> None:
    assert gate.ended(FAILS=part) == 1
    assert [it for it in (SUITE, "edits --gate", "rt ci") if it not in gate.notes()] == []


def test_edits_and_the_release_wait_for_the_proofs_and_the_suite_for_the_edits(gate: Gate) -> None:
    assert gate.ended(LASTS="rt ci") == 0
    notes = gate.notes()
    assert notes.index("rt ci ends") < min(notes.index("edits --gate"), notes.index("make --check"))
    (gate.folder / "notes").unlink()
    assert gate.ended(LASTS="edits --gate") == 0
    notes = gate.notes()
    assert notes.index("make --check") < notes.index("edits --gate ends") < notes.index(SUITE)


def test_programs_of_another_kit_are_tried_too(gate: Gate) -> None:
    assert gate.ended(FAILS="make --check", STATUS="3") == 0
    tried = [line.rpartition("/")[2] for line in gate.notes() if line.startswith("check --all -m files")]
    assert tried == (["las-x86-64-v3", "las-v2", "las-v3"] if programs.runs_v3() else ["las-v2"])


def of_session(session: int) -> "dict[int, str]":
    """The processes of a session that still run, and their command lines."""
    found = {}
    for folder in Path("/proc").iterdir():
        with contextlib.suppress(OSError):
            if folder.name.isdigit():
                fields = (folder / "stat").read_text().rpartition(")")[2].split()
                if int(fields[3]) == session and fields[0] != "Z":
                    found[int(folder.name)] = (folder / "cmdline").read_text().replace("\0", " ")
    return found


@pytest.mark.parametrize("number, status", [(signal.SIGINT, 130), (signal.SIGTERM, 143)], ids=["INT", "TERM"])
@pytest.mark.parametrize("part", PARTS)
def test_a_signal_ends_all_that_runs(gate: Gate, part: str, number: int, status: int) -> None:
    run = gate.begun(STAYS=part)
    try:
        assert wait_until(lambda: part in gate.notes(), 30)
        os.kill(run.pid, number)
        assert run.wait(10) == status
        assert wait_until(lambda: not of_session(run.pid), 5), of_session(run.pid)
        assert list((gate.folder / "tmp").iterdir()) == []
    finally:
        for process in of_session(run.pid):
            with contextlib.suppress(ProcessLookupError):
                os.kill(process, signal.SIGKILL)
