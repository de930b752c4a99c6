"""Planted wrong bodies: the command's table, what it keeps, and what it does where the planter fails."""
import os
import shutil
import signal
import subprocess
import sys
import time
from pathlib import Path

import pytest

from programs import TOP

pytestmark = pytest.mark.slow(seconds=2)

# Stands in for the planter of the kit: it plants three bodies in each of two functions, and $SAID tells what comes of
# the first one.
PLANTER = r"""
import os
import time

KINDS = "proves same refused elsewhere not-judged not-source not-run".split()
GIVES_UP = ["constant"]
Plant = type("Plant", (), {"stem": "_plant"})


class It:
    def __init__(self, **said):
        self.__dict__.update(said)


class Source:
    data = {}

    def __init__(self, folder):
        self.folder = folder

    def read(self, file):
        assert os.path.isfile(file)

    def read_specs(self):
        pass


class Crate:
    def __init__(self, here, root, said, name):
        assert os.path.isdir(f"{here}/out/rlib/{name}.rlib")
        self.name = name


rt = It(SEALED=(), Crate=Crate, crates_below=lambda top: [])
bodies = It(Source=Source)
libraries = lambda crate: {}
Copy = lambda crate, source, room, flags, seconds: It(room=room)


def chosen(crate, source, symbols, only):
    assert symbols == {"one::f": "proved"}
    return [It(shown="src/lib.rt:1 f"), It(shown="src/lib.rt:3 h")], []


def plant(crate, copy, functions, proved, most):
    open(os.environ["LOG"], "a").write(f"planted {crate.name}\n")
    time.sleep(60 if os.environ["SAID"] == "waits" else 0)
    if os.environ["SAID"] == "ended":
        os.kill(os.getpid(), 9)
    if os.environ["SAID"] == "fault":
        raise ValueError("no such token")
    made = [(os.environ["SAID"], "0"), ("refused", "1"), ("not-source", "x")]
    return [It(kind=kind, f=functions[0], body=body, form="constant") for kind, body in made]
"""
RATTLE = r"""#!/bin/sh
for word; do last=$word; done
mkdir -p "$last/toolchain"
: >"$last/format"
echo '[["one::f", {"body": []}], ["one::F", {}], ["other::g", {"body": []}]]' >"$last/toolchain/mir.json"
echo built >>"$LOG"
"""


@pytest.fixture
def tree(tmp_path: Path) -> Path:
    """A checkout of one crate, and a kit with a planter of a few lines."""
    for name, text in [("crates.txt", "one:\n"), ("HANDLES", ""), ("crates/one/src/lib.rt", "fn f() {}\n\nfn h() {}\n"),
                       ("kit/KIT-ID", "a kit"), ("kit/START-HERE.md", ""), ("kit/bin/rattle", RATTLE),
                       ("kit/bin/rt-plant", PLANTER), ("bin/rt", f"#!/bin/sh\necho {tmp_path}/kit/START-HERE.md\n"),
                       ("log", "")]:
        (tmp_path / name).parent.mkdir(parents=True, exist_ok=True)
        (tmp_path / name).write_text(text)
    for name in (".ci", "tmp"):
        (tmp_path / name).mkdir()
    for name in ("plant", "scratch.py"):
        shutil.copy2(TOP / ".ci" / name, tmp_path / ".ci")
    for name in ("bin/rt", "kit/bin/rattle"):
        (tmp_path / name).chmod(0o755)
    return tmp_path


def environment(tree: Path, said: str) -> "dict[str, str]":
    return {**os.environ, "SAID": said, "LOG": str(tree / "log"), "TMPDIR": str(tree / "tmp"),
            "XDG_CACHE_HOME": str(tree / "cache"), "PATH": f"{tree / 'bin'}:{os.environ['PATH']}"}


def planted(tree: Path, said: str, *words: str) -> "subprocess.CompletedProcess[str]":
    run = subprocess.run([sys.executable, tree / ".ci" / "plant", *words], env=environment(tree, said), cwd=tree,
                         text=True, capture_output=True, timeout=60, check=False)
    assert list((tree / "tmp").iterdir()) == []
    return run


def log(tree: Path) -> "list[str]":
    return (tree / "log").read_text().splitlines()


def row(run: "subprocess.CompletedProcess[str]") -> str:
    return next(line for line in run.stdout.splitlines() if line.startswith("| `"))


def test_a_body_that_is_proved_is_listed_and_a_function_that_no_body_tried(tree: Path) -> None:
    run = planted(tree, "proves")
    assert run.returncode == 0
    assert row(run) == "| `one` | 1 | 1 | 0 | 0 | 0 |"
    assert "one: proved: src/lib.rt:1 f: { 0 }" in run.stdout
    assert "one: not tried: src/lib.rt:3 h" in run.stdout


def test_a_refused_body_is_counted_alone(tree: Path) -> None:
    run = planted(tree, "refused")
    assert row(run) == "| `one` | 2 | 0 | 0 | 0 | 0 |"
    assert "proved:" not in run.stdout


def test_an_unchanged_crate_is_not_planted_again_and_a_changed_one_is(tree: Path) -> None:
    first = planted(tree, "proves")
    assert planted(tree, "refused").stdout == first.stdout
    assert log(tree) == ["built", "planted one"]
    (tree / "crates" / "one" / "src" / "lib.rt").write_text("fn f() {}\n")
    assert row(planted(tree, "refused")) == "| `one` | 2 | 0 | 0 | 0 | 0 |"
    assert log(tree) == ["built", "planted one"] * 2
    assert planted(tree, "refused", "--anew").returncode == 0
    assert log(tree) == ["built", "planted one"] * 3


def test_a_planter_that_fails_is_said_and_not_kept(tree: Path) -> None:
    run = planted(tree, "fault")
    assert run.returncode == 1
    assert "plant: one: ValueError('no such token')" in run.stderr
    assert "| `one`" not in run.stdout
    assert row(planted(tree, "refused")) == "| `one` | 2 | 0 | 0 | 0 | 0 |"


def test_a_planter_that_is_killed_is_said_and_not_kept(tree: Path) -> None:
    run = planted(tree, "ended", "--jobs", "16")
    assert run.returncode == 1
    assert "plant: one: its process was ended" in run.stderr
    assert planted(tree, "refused", "--jobs", "16").returncode == 0


def test_a_crate_that_is_not_there_is_refused(tree: Path) -> None:
    run = planted(tree, "refused", "two")
    assert (run.returncode, run.stderr, log(tree)) == (1, "plant: there is no crate two\n", [])


@pytest.mark.parametrize("number", [signal.SIGINT, signal.SIGTERM])
def test_an_interrupt_ends_it_and_leaves_nothing(tree: Path, number: signal.Signals) -> None:
    (tree / "crates.txt").write_text("one:\ntwo:\n")
    shutil.copytree(tree / "crates" / "one", tree / "crates" / "two")
    run = subprocess.Popen([sys.executable, tree / ".ci" / "plant", "--jobs", "1"], env=environment(tree, "waits"),
                           cwd=tree, stdout=subprocess.DEVNULL, stderr=subprocess.DEVNULL)
    end = time.monotonic() + 40
    while "planted one" not in log(tree) and time.monotonic() < end:
        time.sleep(0.05)
    run.send_signal(number)
    assert run.wait(timeout=30) == 128 + number
    assert log(tree).count("planted one") == 1 and "planted two" not in log(tree)
    assert list((tree / "tmp").iterdir()) == []
