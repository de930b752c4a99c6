"""`./check` itself: which cases it runs, on which program, and what it says of what is missing."""
import os
import shutil
import signal
import subprocess
import sys
from pathlib import Path
from typing import Any

import pytest

from batch_places import wait_until
from programs import TOP

pytestmark = pytest.mark.slow(seconds=1)

SUITE = """
import os
import time

import pytest

import needs


def note(word):
    with open(os.environ["NOTES"], "a") as file:
        file.write(word + "\\n")


@pytest.mark.alone
@pytest.mark.parametrize("number", [1, 2])
def test_alone(number):
    note("alone begins")
    time.sleep(0.2)
    note("alone ends")


@pytest.mark.parametrize("number", range(4))
def test_plain(number):
    time.sleep(0.1)
    note("plain")


@pytest.mark.slow
def test_long():
    note("slow")


@pytest.mark.huge
def test_giant():
    note("huge")


@pytest.mark.parametrize("word", ["slow", "huge", "alone", "root", "kit"])
def test_named_as_a_marker(word):
    note(word)


def test_wanting():
    needs.command("no-such-command", "no-such-package")


def test_program(program):
    note(program)


def test_failing():
    assert "FAILS" not in os.environ


@pytest.mark.alone
def test_failing_last():
    assert "FAILS_LAST" not in os.environ


def test_disk(small_disk):
    (small_disk(100_000) / "file").write_bytes(b"here")
    note("mounted")
    time.sleep(float(os.environ.get("SLEEPS", 0)))
"""

OTHER = """
from test_some import note


def test_other():
    note("other")


def test_another():
    note("another")
"""


class Suite:
    """A checkout that has `./check`, what it needs, and cases that note that they ran."""

    def __init__(self, folder: Path) -> None:
        self.folder = folder
        (folder / "checks").mkdir(parents=True)
        for name in ("check", *(f"checks/{it}" for it in ("pytest.ini", "conftest.py", "costs.py", "needs.py",
                                                          "places.py", "programs.py"))):
            shutil.copy2(TOP / name, folder / name)
        (folder / "checks" / "test_some.py").write_text(SUITE)
        (folder / "las").write_text("#!/bin/sh\necho las\necho program released release/out/las\n")
        (folder / "release" / "out").mkdir(parents=True)
        for name in ("las", "release/out/las", "other"):
            (folder / name).touch()
            (folder / name).chmod(0o755)

    def begun(self, *words: str, **environment: str) -> "subprocess.Popen[str]":
        clean = {name: value for name, value in os.environ.items() if not name.startswith(("PYTEST", "LAS", "PYTHON"))}
        places = {"NOTES": str(self.folder / "notes"), "XDG_CACHE_HOME": str(self.folder / "cache")}
        return subprocess.Popen([self.folder / "check", *words], env={**clean, **places, **environment}, text=True,
                                stdin=subprocess.DEVNULL, stdout=subprocess.PIPE, stderr=subprocess.STDOUT,
                                start_new_session=True)

    def ended(self, *words: str, **environment: str) -> "tuple[int, str]":
        """The status, and what was said."""
        run = self.begun(*words, **environment)
        said, _ = run.communicate(timeout=120)
        return run.returncode, said

    def notes(self) -> "list[str]":
        path = self.folder / "notes"
        return path.read_text().splitlines() if path.exists() else []


@pytest.fixture
def suite(tmp_path: Path) -> Suite:
    return Suite(tmp_path / "a checkout")


def test_a_case_is_run_by_its_name(suite: Suite) -> None:
    status, said = suite.ended("-n", "0", "-k", "test_plain and 2")
    assert status == 0, said
    assert suite.notes() == ["plain"]


@pytest.mark.parametrize("word, ran", [
    ("checks/test_other.py", ["other", "another"]),
    ("checks/test_other.py::test_another", ["another"]),
], ids=["a file", "a case of a file"])
def test_a_file_of_cases_is_run_instead_of_all(suite: Suite, word: str, ran: "list[str]") -> None:
    (suite.folder / "checks" / "test_other.py").write_text(OTHER)
    status, said = suite.ended("-n", "0", str(suite.folder / word))
    assert status == 0, said
    assert suite.notes() == ran


def test_a_name_that_no_case_has_is_said(suite: Suite) -> None:
    status, said = suite.ended("-n", "0", "-k", "nothing_of_this_name")
    assert status == 5
    assert said.endswith("check: no case has this name\n")


@pytest.mark.parametrize("words, ran", [
    ([], []),
    (["--all"], ["slow"]),
    (["--huge"], ["huge"]),
], ids=["plain", "all", "huge"])
def test_which_long_cases_run(suite: Suite, words: "list[str]", ran: "list[str]") -> None:
    status, said = suite.ended("-n", "0", "-rs", "-k", "test_long or test_giant", *words)
    assert status == (0 if ran or "slow" in said else 5), said
    assert suite.notes() == ran
    assert ("slow: ./check --all runs it" in said) == (not words)


def test_cases_marked_alone_run_after_the_others_one_at_a_time(suite: Suite) -> None:
    status, said = suite.ended("-n", "3", "-k", "test_plain or test_alone")
    assert status == 0, said
    assert suite.notes() == ["plain"] * 4 + ["alone begins", "alone ends"] * 2


def test_a_parameter_named_as_a_marker_marks_nothing(suite: Suite) -> None:
    status, said = suite.ended("-n", "0", "-k", "named_as_a_marker", "--alone=without")
    assert status == 0, said
    assert suite.notes() == ["slow", "huge", "alone", "root", "kit"] * 2  # in both parts of a run


@pytest.mark.parametrize("word", [None, "--all"], ids=["skipped", "all"])
def test_what_is_missing_is_said_with_its_package(suite: Suite, word: "str | None") -> None:
    status, said = suite.ended("-n", "0", "-k", "wanting", *[word] if word else [])
    assert "no-such-command is missing: apt-get install no-such-package" in said
    assert status == (1 if word else 0)
    assert ("1 failed" in said, "1 skipped" in said) == (bool(word), not word)


@pytest.mark.parametrize("name", ["FAILS", "FAILS_LAST"], ids=["side by side", "alone"])
def test_a_case_that_fails_fails_the_run(suite: Suite, name: str) -> None:
    status, said = suite.ended("-n", "0", "-k", "failing", **{name: "1"})
    assert status == 1
    assert said.count("1 failed") == 1, said


@pytest.mark.parametrize("words, environment, named", [
    ([], {}, "release/out/las"),
    (["--program", "{}/other"], {}, "other"),
    (["--program={}/other"], {}, "other"),
    ([], {"LAS_PROGRAM": "{}/other"}, "other"),
], ids=["the launcher's", "a word more", "one word", "a variable"])
def test_the_program_that_is_checked(suite: Suite, words: "list[str]", environment: "dict[str, str]",
                                     named: str) -> None:
    filled = {name: value.format(suite.folder) for name, value in environment.items()}
    status, said = suite.ended("-n", "0", "-k", "test_program", *(it.format(suite.folder) for it in words), **filled)
    assert status == 0, said
    assert suite.notes() == [str(suite.folder / named)]


@pytest.mark.parametrize("word", ["--program", "--program="])
def test_a_program_that_is_not_named_is_refused(suite: Suite, word: str) -> None:
    assert suite.ended("-n", "0", "-k", "test_program", word) == (4, "check: --program needs a file\n")
    assert suite.notes() == []


def python(folder: Path, text: str) -> str:
    """A folder with a `python3` that is this script, to be the first of PATH."""
    folder.mkdir()
    (folder / "python3").write_text(f"#!/bin/sh\n{text}\n")
    (folder / "python3").chmod(0o755)
    return f"{folder}:{os.environ['PATH']}"


def test_a_python_without_pytest_is_passed_over(suite: Suite, tmp_path: Path) -> None:
    text = (suite.folder / "check").read_text()
    assert text.count("/usr/bin/python3") == 1
    (suite.folder / "check").write_text(text.replace("/usr/bin/python3", sys.executable))
    status, said = suite.ended("-n", "0", "-k", "test_plain", PATH=python(tmp_path / "bin", "exit 1"))
    assert status == 0, said
    assert suite.notes() == ["plain"] * 4


def test_without_pytest_the_line_that_installs_it_is_said(suite: Suite, tmp_path: Path) -> None:
    text = (suite.folder / "check").read_text()
    (suite.folder / "check").write_text(text.replace("/usr/bin/python3", "/nowhere/python3"))
    status, said = suite.ended(PATH=python(tmp_path / "bin", "exit 1"))
    assert (status, said) == (1, "check: no python3 has pytest: apt-get install python3-pytest python3-pytest-xdist\n")


def test_nothing_is_written_in_the_checkout_and_a_changed_case_is_read_anew(suite: Suite) -> None:
    before = sorted(suite.folder.rglob("*"))
    assert suite.ended("-n", "0", "-k", "test_failing")[0] == 0
    kept = suite.folder / "cache"
    assert sorted(it for it in suite.folder.rglob("*") if it != kept and kept not in it.parents) == before
    assert list(kept.rglob("test_some*.pyc"))
    path = suite.folder / "checks" / "test_some.py"
    path.write_text(path.read_text().replace('"FAILS" not in os.environ', '"FAILS" in os.environ'))
    assert suite.ended("-n", "0", "-k", "test_failing")[0] == 1


def mounted_below(folder: Path) -> bool:
    told: Any = Path("/proc/self/mounts").read_bytes()
    return str(folder).encode().replace(b" ", b"\\040") in told


@pytest.mark.root
def test_a_small_disk_goes_with_a_suite_that_is_killed(suite: Suite) -> None:
    place = suite.folder / "temporary"
    place.mkdir()
    run = suite.begun("-n", "0", "-k", "test_disk", SLEEPS="60", TMPDIR=str(place))
    try:
        assert wait_until(lambda: suite.notes() == ["mounted"], 60)
    finally:
        os.killpg(run.pid, signal.SIGKILL)
        run.communicate(timeout=60)
    assert wait_until(lambda: not mounted_below(place), 10)
