"""A checkout that several users share, one on a full disk, and the way to a program there."""
import os
import shutil
import subprocess
import tempfile
from collections.abc import Iterator
from pathlib import Path

import pytest

import needs
from install_trials import Trial

BUILDS = """#!/bin/sh
case $1 in
version) echo 'kit of a check' ;;
run) echo built >>"$BUILDS"; exit 1 ;;
esac
"""


@pytest.fixture
def checkout() -> "Iterator[Trial]":
    """A checkout that each user can look into."""
    with tempfile.TemporaryDirectory(dir="/tmp") as name:
        os.chmod(name, 0o755)
        yield Trial(Path(name))


def run_as(user: int, trial: Trial, umask: int = 0o022) -> "subprocess.CompletedProcess[bytes]":
    line = ["setpriv", "--reuid", str(user), "--regid", str(user), "--clear-groups"]
    line += [str(trial.folder / "las"), "laszip"]
    home = trial.folder.parent / f"home{user}"
    if not home.exists():
        home.mkdir()
        os.chown(home, user, user)
    environment = {"PATH": os.environ["PATH"], "HOME": str(home)}
    return subprocess.run(line, env=environment, stdin=subprocess.DEVNULL, stdout=subprocess.PIPE, check=False,
                          stderr=subprocess.PIPE, timeout=60, preexec_fn=lambda: os.umask(umask) and None)


@pytest.mark.root
@pytest.mark.parametrize("umask", [0o022, 0o077])
def test_a_second_user_runs_the_program_that_the_first_has_unpacked(checkout: Trial, umask: int) -> None:
    needs.command("setpriv", "util-linux")
    subprocess.run(["chown", "-R", "1234", str(checkout.folder)], check=True)
    first = run_as(1234, checkout)
    assert (first.returncode, first.stdout, first.stderr) == (0, b"version 1\n", b"")
    assert (checkout.folder / "release" / "out" / "stamp.sh").exists()
    for _ in range(2):
        second = run_as(2345, checkout, umask)
        assert (second.returncode, second.stdout, second.stderr) == (0, b"version 1\n", b"")
    assert not (checkout.folder.parent / "home2345" / ".cache").exists()


@pytest.mark.root
def test_a_stamp_that_another_user_has_closed_is_passed_over(checkout: Trial) -> None:
    needs.command("setpriv", "util-linux")
    subprocess.run(["chown", "-R", "1234", str(checkout.folder)], check=True)
    assert run_as(1234, checkout).returncode == 0
    (checkout.folder / "release" / "out" / "stamp.sh").chmod(0o600)
    for _ in range(2):
        second = run_as(2345, checkout)
        assert (second.returncode, second.stdout, second.stderr) == (0, b"version 1\n", b"")


@pytest.mark.root
def test_no_proof_begins_on_a_full_disk(tmp_path: Path, small_disk) -> None:
    """Nothing can be unpacked, so the launcher would prove the program anew, for which there is no room either."""
    disk = small_disk(8_000_000)
    trial = Trial(tmp_path)
    shutil.move(str(trial.folder), str(disk / "checkout"))
    folder = disk / "checkout"
    tools = tmp_path / "kit"
    tools.mkdir()
    (tools / "rt").write_text(BUILDS)
    (tools / "rt").chmod(0o755)
    (folder / "crates" / "las" / "src" / "lib.rt").write_text("fn main() { }\n")
    builds = tmp_path / "builds"
    environment = {**os.environ, "PATH": f"{tools}:{os.environ['PATH']}", "BUILDS": str(builds), "HOME": str(tmp_path)}
    done = subprocess.run([folder / "las", "laszip"], env=environment, stdin=subprocess.DEVNULL, check=False,
                          stdout=subprocess.PIPE, stderr=subprocess.PIPE, timeout=60)
    assert done.returncode == 1
    assert b"KB are left, and 1 GB is needed" in done.stderr
    assert not builds.exists()
