"""What every check gets: the program that is checked, a place to work in, a small disk, and what a check needs."""
import os
import shlex
import shutil
import subprocess
import sys
import tempfile
from pathlib import Path

import pytest

# What pytest compiles of the suite is kept, and not in the checkout: else each process takes 3 seconds more to begin.
CACHE = os.environ.get("XDG_CACHE_HOME") or os.path.expanduser("~/.cache")
sys.pycache_prefix = os.path.join(CACHE, "balsamvise", "checks")
sys.dont_write_bytecode = False
pytest.register_assert_rewrite("runs", "commands", "measured", "failing_calls", "library_files")

import costs  # noqa: E402
import needs  # noqa: E402
import programs  # noqa: E402
from places import Place  # noqa: E402

MARKERS = [
    "slow(seconds): takes long, or tries more of what other cases try; `./check --all` runs it, the longest first by "
    "about how many seconds of a processor it takes",
    "huge: takes minutes, or many gigabytes: `./check --huge` runs these alone, beside the gate",
    "root: needs to be root, to mount a disk or to become another user",
    "servers: starts a server on this machine, as ssh or Slurm",
    "kit: needs `rt` of the Rattle kit",
    "systems: long trials of the programs for other systems: `-m systems` runs these, beside the gate",
    "files: a whole run of the program on real files, and nothing else: tried on each build of the program",
    "browser: needs browsers or Wine: `./check --browser` runs these alone, beside the gate, as .ci/check_web does",
    "alone: measures time, or waits for servers: runs after the rest, one at a time",
]


def pytest_addoption(parser):
    group = parser.getgroup("balsamvise")
    group.addoption("--program", metavar="FILE", help="the program that is checked; else LAS_PROGRAM, else the one "
                                                      "that the launcher runs")
    group.addoption("--all", action="store_true", help="slow cases too; what is missing for a case is a failure")
    group.addoption("--huge", action="store_true", help="the cases marked `huge`, alone; what is missing is a failure")
    group.addoption("--browser", action="store_true", help="the cases marked `browser`, alone; what is missing is a "
                                                           "failure")
    group.addoption("--costs", action="store_true", help="tells the processor seconds of each file and each function")
    group.addoption("--alone", choices=["only", "without"], help="cases marked `alone` alone, or all others")


def pytest_configure(config):
    for marker in MARKERS:
        config.addinivalue_line("markers", marker)
    named = config.getoption("--program") or os.environ.get("LAS_PROGRAM")
    # (the launcher, which is checked too, takes LAS_PROGRAM for the name of a released program)
    os.environ.pop("LAS_PROGRAM", None)
    if named:
        config.option.program = programs.named = os.path.abspath(named)
    if not hasattr(config, "workerinput"):
        find_python_first(config)
    if config.getoption("--costs"):
        config.pluginmanager.register(costs.Costs())
    needs.required = any(config.getoption(word) for word in ("--all", "--huge", "--browser"))


def find_python_first(config):
    """`python3`, by which las-batch is started, is the Python of the suite: what has that name may be a script that
    looks for one, as pyenv's, which takes longer than las-batch does.
    """
    folder = tempfile.mkdtemp(prefix="checks-")
    config.add_cleanup(lambda: shutil.rmtree(folder, ignore_errors=True))
    python = os.path.join(folder, "python3")
    with open(python, "w", encoding="utf-8") as file:
        file.write(f'#!/bin/sh\nexec {shlex.quote(sys.executable)} "$@"\n')
    os.chmod(folder, 0o755)
    os.chmod(python, 0o755)
    os.environ["PATH"] = f"{folder}:{os.environ['PATH']}"


def pytest_report_header(config):
    return f"checked is {programs.found()}"


def has(item, marker):
    """Whether a case has a marker. (Its keywords have the id of its parameters too, which may be the same word.)"""
    return item.get_closest_marker(marker) is not None


def dealt_out(items, workers):
    """The cases in the order that keeps all workers busy: each begins with its share of the slow ones, longest first.

    xdist sends each worker a run of cases that follow one another to begin with, a quarter of its share; then it sends
    what is left to those that have done theirs.
    """
    slow = [item for item in items if has(item, "slow")]
    slow.sort(key=lambda item: item.get_closest_marker("slow").kwargs.get("seconds", 1), reverse=True)
    others = [item for item in items if not has(item, "slow")]
    size = max(len(items) // workers // 4, 2)
    order = []
    for worker in range(workers):
        share = slow[worker::workers]
        order += share + others[:max(size - len(share), 0)]
        others = others[max(size - len(share), 0):]
    return order + others


def pytest_collection_modifyitems(config, items):
    wanted = config.getoption("--alone")
    beside = "systems" in config.getoption("-m")
    kept = [item for item in items if all(has(item, word) == config.getoption(f"--{word}")
                                          for word in ("huge", "browser"))
            and has(item, "systems") == beside]
    if wanted:
        kept = [item for item in kept if has(item, "alone") == (wanted == "only")]
    chosen = set(kept)
    config.hook.pytest_deselected(items=[item for item in items if item not in chosen])
    items[:] = dealt_out(kept, getattr(config, "workerinput", {}).get("workercount", 1))
    for item in items:
        if has(item, "slow") and not config.getoption("--all") and not config.getoption("--huge"):
            item.add_marker(pytest.mark.skip(reason="slow: ./check --all runs it"))


def pytest_runtest_setup(item):
    if has(item, "root"):
        needs.root()
    if has(item, "kit"):
        needs.command("rt", "the Rattle kit")


@pytest.fixture(scope="session")
def program():
    """The path of the program that is checked."""
    path = programs.found()
    assert os.path.isfile(path), f"there is no program {path}"
    return path


@pytest.fixture
def tmp_path(tmp_path):
    """pytest's, which is removed after the case: pytest itself keeps what three runs of the suite made."""
    yield tmp_path
    shutil.rmtree(tmp_path, ignore_errors=True)


@pytest.fixture
def place(program, tmp_path):
    """An empty folder in which the program is run."""
    return Place(tmp_path, program)


@pytest.fixture
def small_disk(tmp_path):
    """Makes a disk of a size in bytes, mounts it, and returns its folder: `small_disk(2_000_000, kind="ext4")`."""
    needs.root()
    mounted = []

    def mount(size: int, kind: str = "tmpfs") -> Path:
        folder = tmp_path / f"disk{len(mounted)}"
        folder.mkdir()
        if kind == "tmpfs":
            line = ["mount", "-t", "tmpfs", "-o", f"size={size},mode=755", "none", str(folder)]
        else:
            image = tmp_path / f"image{len(mounted)}"
            with open(image, "wb") as file:
                file.truncate(size)
            needs.command(f"mkfs.{kind}", "e2fsprogs" if kind == "ext4" else f"{kind}progs")
            subprocess.run([f"mkfs.{kind}", "-q", str(image)], check=True)
            line = ["mount", "-o", "loop", str(image), str(folder)]
        if subprocess.run(line, stderr=subprocess.DEVNULL, check=False).returncode != 0:
            needs.missing(f"a disk can't be mounted here ({kind})", "a machine that lets root mount disks")
        mounted.append(folder)
        return folder

    yield mount
    for folder in mounted:
        subprocess.run(["umount", "-l", str(folder)], check=False)
