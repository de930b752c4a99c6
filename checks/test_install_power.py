"""The power is cut at each call of `install` that changes a file: what has a name is whole, the program that is there
runs, and the same line installs.
"""
import multiprocessing
import os
from collections.abc import Iterator
from pathlib import Path
from typing import Optional

import pytest

from file_calls import Watcher
from install_power import Store, Tree, TreeDisk, states, trees_after_cuts
from install_trials import Trial, differences, final, in_memory

UPGRADES = pytest.mark.parametrize("upgrades", [
    False, pytest.param(True, marks=pytest.mark.slow(seconds=5))], ids=["first", "upgrade"])
PART = 8  # states that a process is given at a time


class Cuts:
    """An install, or an upgrade of one, and the trees that a cut may leave of it."""

    def __init__(self, folder: Path, upgrades: bool, whole: bool) -> None:
        folder.chmod(0o755)
        self.folder = folder
        self.trial = Trial(folder, whole=whole).staged(folder / "stage")
        if upgrades:
            assert self.trial.install().returncode == 0
            self.trial.release(2)
        self.before = self.trial.tree()
        self.versions: "set[Optional[str]]" = {"version 1", "version 2" if upgrades else None}
        disk = TreeDisk(self.trial.prefix)
        watcher = Watcher(folder, self.trial.prefix)
        prefix, environment = self.trial.where()
        done = watcher.run(str(self.trial.folder / "install"), prefix, TMPDIR=str(self.trial.temporary), **environment)
        assert done.returncode == 0, done.stderr
        self.wanted = self.trial.tree()
        calls = watcher.calls()
        self.count = len(calls)
        assert self.count > 200
        self.trees = list(trees_after_cuts(disk, calls))
        self.ended = list(disk.trees())
        self.states = list(states(self.trees))

    def again(self, trial: Trial, store: Store, at: int, tree: Tree) -> "list[str]":
        """What is wrong with the program that a cut has left, and with the same line again."""
        store.write(trial.prefix, tree)
        found = trial.version()
        if found not in self.versions:
            return [f"a cut after call {at} of {self.count}: the program is {found}"]
        done = trial.install()
        if done.returncode != 0:
            return [f"a cut after call {at} of {self.count}: {done.stderr.decode()}"]
        return [f"a cut after call {at} of {self.count}: {name} differs"
                for name in differences(trial.tree(), self.wanted) if name != "share/las/installed"]

    def tried(self, those: "list[tuple[int, Tree]]") -> "tuple[list[str], int]":
        """What is wrong with these states, and how many files of them were read; they are tried side by side."""
        store = Store(self.folder / "store")
        for _, tree in those:
            store.add(tree)
        parts = [those[at:at + PART] for at in range(0, len(those), PART)]
        with multiprocessing.get_context("fork").Pool(processes(), initializer=begin, initargs=(self, store)) as pool:
            wrong = [line for lines in pool.imap_unordered(try_part, parts) for line in lines]
        wrong += [f"{path}, a copy under another name, was read" for path in store.was_read(copies=True)]
        read = len(store.was_read(copies=False))
        return wrong + [f"{path} was written in place" for path in store.was_written()], read


def processes() -> int:
    """Half of the processors, since an upgrade is tried beside a first install."""
    return max(len(os.sched_getaffinity(0)) // 2, 1)


HERE: "list[tuple[Cuts, Trial, Store]]" = []


def begin(cuts: Cuts, store: Store) -> None:
    """Of a process: where it installs."""
    HERE[:] = [(cuts, cuts.trial.staged(cuts.folder / f"stage{os.getpid()}"), store)]


def try_part(those: "list[tuple[int, Tree]]") -> "list[str]":
    cuts, trial, store = HERE[0]
    return [line for at, tree in those for line in cuts.again(trial, store, at, tree)]


@pytest.fixture
def cuts(tmp_path: Path, upgrades: bool, request: pytest.FixtureRequest) -> "Iterator[Cuts]":
    """All files are installed beside the gate, and one of las-batch's in the gate, where the others are of its kind."""
    with in_memory(tmp_path) as folder:
        yield Cuts(folder, upgrades, whole=request.node.get_closest_marker("huge") is not None)


@UPGRADES
def test_a_power_cut_leaves_whole_files_and_takes_none_after_the_end(cuts: Cuts) -> None:
    leaves_whole_files(cuts)
    assert [differences(tree, cuts.wanted) for tree in cuts.ended] == [[]] * len(cuts.ended)


def leaves_whole_files(cuts: Cuts) -> None:
    old, new = final(cuts.before), final(cuts.wanted)
    started = {name for name in new if name.startswith(("libexec/", "share/las/"))}
    for at, tree in cuts.trees:
        found = final(tree)
        for name, kept in found.items():
            assert kept in (old.get(name), new.get(name)), f"{name}, a cut after call {at} of {cuts.count}"
        missing = (set(old) & set(new)) - set(found)
        assert not missing, f"a cut after call {at} of {cuts.count}"
        if found.get("bin/las") == new["bin/las"] and not old:  # what the launcher starts and reads is there before it
            assert started <= set(found), f"a cut after call {at} of {cuts.count}"
    assert len(cuts.trees) > 300


@pytest.mark.slow
@UPGRADES
def test_an_install_after_some_power_cuts(cuts: Cuts) -> None:
    wrong, read = cuts.tried(cuts.states[::max(1, len(cuts.states) // 6)])
    assert wrong == []
    assert read > 0


@pytest.mark.huge
@UPGRADES
def test_an_install_after_each_power_cut(cuts: Cuts, capsys: pytest.CaptureFixture[str]) -> None:
    """Each state that may be found is tried once."""
    leaves_whole_files(cuts)
    with capsys.disabled():
        print(f"\n  {len(cuts.trees)} trees after {cuts.count} calls, {len(cuts.states)} of them tried", flush=True)
    wrong, read = cuts.tried(cuts.states)
    assert wrong == []
    assert read > 0
