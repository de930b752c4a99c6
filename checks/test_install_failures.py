"""`install` with each of its steps failing, killed at each, and on a full disk: nothing half is left under a name,
another run mends it, and what it put there can be taken away.
"""
import os
import pickle
import subprocess
from collections.abc import Iterator
from pathlib import Path
from typing import NamedTuple, Union

import pytest

import shared
from file_calls import Call, Watcher
from install_power import Store
from install_trials import Trial, differences, final, in_memory

HOWS = ["fails", "before", "after", "interrupt"]
FULL = "full"  # no room from that step to the end
SHARES = 16  # of all steps, beside the gate, which takes some of each kind
SOME = "some"
SHARE = [pytest.param(SOME, marks=pytest.mark.slow(seconds=5)),
         *(pytest.param(share, marks=pytest.mark.huge) for share in range(SHARES))]


def some_of(steps: "list[str]", how: str, turn: int) -> "list[int]":
    """A step of every fifth command by which `install` changes files: each command is met by one of the ways to end, by
    another one in each turn, and each way has its steps in another part of the run.
    """
    ways = [*HOWS, FULL]
    way = ways.index(how)
    found = set()
    for name in list(dict.fromkeys(steps))[(way + turn) % len(ways)::len(ways)]:
        places = [at for at, one in enumerate(steps, 1) if one == name]
        found.add(places[way * (len(places) - 1) // len(HOWS)])
    return sorted(found)


def chosen(steps: "list[str]", how: str, share: Union[int, str], turn: int = 0) -> "list[int]":
    """The steps of a share of them. Each way to end takes every third one, so that each step is met by one or two. A
    full disk takes every second one, since of two steps in a row no more than one is a copy.
    """
    if isinstance(share, str):
        return some_of(steps, how, turn)
    mine = range(1, len(steps) + 1, 2) if how == FULL else range(1 + HOWS.index(how) % 3, len(steps) + 1, 3)
    return list(mine)[share::SHARES]


@pytest.fixture
def trial(tmp_path: Path, request: pytest.FixtureRequest) -> "Iterator[Trial]":
    """All files are installed beside the gate, and one of each kind in the gate."""
    with in_memory(tmp_path) as folder:
        yield staged(folder, request)


def staged(folder: Path, request: pytest.FixtureRequest) -> Trial:
    folder.chmod(0o755)
    return Trial(folder, whole=has_all(request)).staged(folder / "stage")


def has_all(request: pytest.FixtureRequest) -> bool:
    return request.node.get_closest_marker("huge") is not None


class Known(NamedTuple):
    """What installs leave that nothing disturbs, and the command of each step."""

    first: "dict[str, object]"  # the tree of version 1
    second: "dict[str, object]"
    steps: "list[str]"  # of a first install
    upgrade: "list[str]"
    removal: "list[str]"


@pytest.fixture
def known(tmp_path_factory: pytest.TempPathFactory, request: pytest.FixtureRequest) -> Known:
    """It is the same for each case, so that it is found once in a run of the suite."""
    def make(place: Path) -> None:
        with in_memory(place) as folder:
            trial = staged(folder, request)
            first, steps = whole(trial), trial.steps()
            trial.release(2)
            upgrade = trial.steps()
            assert trial.install("--remove").returncode == 0
            second = whole(trial)
            trial.release(1)
            assert trial.install().returncode == 0
            found = Known(first, second, steps, upgrade, trial.steps("--remove"))
        (place / "known").write_bytes(pickle.dumps(found))

    place = shared.once(tmp_path_factory, f"installs of {'all' if has_all(request) else 'few'} files", make)
    found = pickle.loads((place / "known").read_bytes())
    assert isinstance(found, Known)
    return found


def same(trial: Trial, wanted: "dict[str, object]") -> "list[str]":
    """How the tree differs from the wanted one. An installer that is killed between its first two folders leaves one
    that the next can't know for its own, so the list of what was made may differ by that.
    """
    return [name for name in differences(trial.tree(), wanted) if name != "share/las/installed"]


def is_empty(trial: Trial) -> bool:
    return trial.tree() in ({}, {"share": None})


def whole(trial: Trial) -> "dict[str, object]":
    """The tree of an install that nothing disturbs; it is removed again."""
    assert trial.install().returncode == 0
    tree = trial.tree()
    assert trial.install("--remove").returncode == 0
    assert trial.tree() == {}
    return tree


@pytest.mark.parametrize("share", SHARE)
@pytest.mark.parametrize("how", [*HOWS, FULL])
def test_a_first_install_that_ends_at_a_step_is_mended_by_the_next(trial: Trial, known: Known, how: str,
                                                                   share: Union[int, str]) -> None:
    wanted = known.first
    assert len(known.steps) > 20
    failures = 0
    for at in chosen(known.steps, how, share):
        ended = trial.install(at=at, how=how)
        left = final(trial.tree())
        assert left.items() <= final(wanted).items(), (at, differences(left, final(wanted)))
        assert ended.returncode != 0 or left == final(wanted), at
        failures += ended.returncode != 0
        again = trial.install()
        assert again.returncode == 0, (at, again.stderr)
        assert same(trial, wanted) == [], at
        removed = trial.install("--remove")
        assert (removed.returncode, removed.stderr) == (0, b""), at
        assert is_empty(trial), at
    assert failures > 0


@pytest.mark.parametrize("share", SHARE)
@pytest.mark.parametrize("how", [*HOWS, FULL])
def test_an_upgrade_that_ends_at_a_step_leaves_a_program_that_runs(trial: Trial, known: Known, how: str,
                                                                   share: Union[int, str]) -> None:
    first, wanted = known.first, known.second
    store = Store(trial.temporary / "store")
    store.add(first)
    trial.release(2)
    for at in chosen(known.upgrade, how, share, turn=2):
        store.write(trial.prefix, first)
        trial.install(at=at, how=how)
        assert trial.version() in ("version 1", "version 2"), at
        for name, kept in final(trial.tree()).items():
            assert kept in (first.get(name), wanted.get(name)), (at, name)
        again = trial.install()
        assert again.returncode == 0, (at, again.stderr)
        assert same(trial, wanted) == [], at
    assert store.was_written() == []


@pytest.mark.parametrize("every", [pytest.param(80, marks=pytest.mark.slow(seconds=3)),
                                   pytest.param(8, marks=pytest.mark.huge)])
@pytest.mark.parametrize("how", HOWS)
def test_an_install_that_was_cut_off_can_be_removed(trial: Trial, known: Known, how: str, every: int) -> None:
    for at in range(1 + HOWS.index(how), len(known.steps) + 1, every):
        trial.install(at=at, how=how)
        removed = trial.install("--remove")
        left = {name for name, kept in trial.tree().items() if kept is not None}
        assert not left, (at, removed.stderr)
        assert removed.returncode == 0 or b"nothing is installed" in removed.stderr, (at, removed.stderr)
        assert trial.install().returncode == 0
        assert trial.install("--remove").returncode == 0


@pytest.mark.parametrize("every", [pytest.param(36, marks=pytest.mark.slow(seconds=3)),
                                   pytest.param(8, marks=pytest.mark.huge)])
@pytest.mark.parametrize("how", [*HOWS, FULL])
def test_a_removal_that_ends_at_a_step_can_be_repeated(trial: Trial, known: Known, how: str, every: int) -> None:
    for at in range(1 + [*HOWS, FULL].index(how), len(known.removal) + 1, every):
        assert trial.install().returncode == 0
        (trial.prefix / "bin" / "mine").write_bytes(b"mine")
        trial.install("--remove", at=at, how=how)
        again = trial.install("--remove")
        assert again.returncode == 0 or b"nothing is installed" in again.stderr, (at, again.stderr)
        left = {name: kept for name, kept in trial.tree().items() if kept is not None}
        assert set(left) == {"bin/mine"}, at
        (trial.prefix / "bin" / "mine").unlink()


@pytest.mark.root
@pytest.mark.parametrize("step", [pytest.param(20, marks=pytest.mark.slow(seconds=6)),
                                  pytest.param(7, marks=pytest.mark.huge)])
def test_a_disk_that_is_full_at_any_place(tmp_path: Path, small_disk, step: int) -> None:
    """The disk has room for a number of blocks; then it gets room, and the same line installs."""
    disk = small_disk(64_000_000)
    tmp_path.chmod(0o755)
    trial = Trial(tmp_path, disk / "prefix")
    trial.prefix.mkdir()
    wanted = whole(trial)

    def room(size: int) -> None:
        subprocess.run(["mount", "-o", f"remount,size={size}", str(disk)], check=True)

    failures = 0
    for blocks in range(1, 400, step):
        room(4096 * blocks)
        limited = trial.install()
        if limited.returncode == 0:
            break
        failures += 1
        left = final(trial.tree())
        assert left.items() <= final(wanted).items(), (blocks, differences(left, final(wanted)))
        room(64_000_000)
        again = trial.install()
        assert again.returncode == 0, (blocks, again.stderr)
        assert same(trial, wanted) == [], blocks
        assert trial.install("--remove").returncode == 0
        assert trial.tree() == {}, blocks
    assert failures > 4


@pytest.mark.root
@pytest.mark.slow(seconds=3)
def test_an_upgrade_on_a_full_disk_leaves_what_is_installed(tmp_path: Path, small_disk) -> None:
    disk = small_disk(64_000_000)
    tmp_path.chmod(0o755)
    trial = Trial(tmp_path, disk / "prefix")
    assert trial.install().returncode == 0
    before = trial.tree()
    used = int(subprocess.run(["du", "-s", "-B4096", str(disk)], stdout=subprocess.PIPE, check=True).stdout.split()[0])
    trial.release(2)
    for more in (1, 2, 3, 5, 7):
        subprocess.run(["mount", "-o", f"remount,size={4096 * (used + more)}", str(disk)], check=True)
        assert trial.install().returncode == 1
        assert trial.version() == "version 1", more
        assert final(trial.tree()) == final(before), more
    subprocess.run(["mount", "-o", "remount,size=64000000", str(disk)], check=True)
    assert trial.install().returncode == 0
    assert trial.version() == "version 2"


def calls_of_install(trial: Trial, folder: Path) -> "list[Call]":
    """The calls that change files below the prefix, of all the commands that `install` runs, in their order."""
    watcher = Watcher(folder, trial.prefix)
    prefix, environment = trial.where()
    done = watcher.run(str(trial.folder / "install"), prefix, TMPDIR=str(trial.temporary), **environment)
    assert done.returncode == 0, done.stderr
    return watcher.calls()


@pytest.mark.parametrize("upgrades", [False, True])
def test_what_gets_a_name_is_on_the_disk_before_and_its_folder_after(trial: Trial, tmp_path: Path,
                                                                     upgrades: bool) -> None:
    """In the order of the calls: each copy is synced after its last byte and before its move, the list is there before
    the first copy, and the folders are synced before the list says that all is done.
    """
    if upgrades:
        assert trial.install().returncode == 0
        trial.release(2)
    calls = calls_of_install(trial, tmp_path)
    inodes, clean, moves, synced_at = {}, set(), [], {}
    for at, call in enumerate(calls):
        if call.kind == "create":
            inodes[call.more[0]] = call.number
        elif call.kind == "write":
            clean.discard(call.number)
        elif call.kind == "sync":
            clean.add(call.number)
            synced_at[call.number] = at
        elif call.kind == "move":
            moves.append((at, call.more[1]))
            assert inodes[call.more[0]] in clean or os.path.islink(call.more[1]), call
    listed = str(trial.prefix / "share" / "las" / "installed")
    first, last = (next(at for at, name in order if name == listed) for order in (moves, moves[::-1]))
    copies = [at for at, call in enumerate(calls) if call.kind == "create" and "installed" not in call.more[0]]
    assert first < min(copies)
    assert max(at for at, name in moves if name != listed) < last
    assert len(moves) > 20
    for at, name in moves:
        folder = os.stat(os.path.dirname(name)).st_ino
        assert at < synced_at[folder], name
        if name != listed:
            assert synced_at[folder] < last or os.path.dirname(name) == os.path.dirname(listed), name
