"""File calls of las-batch in turn: one fails, the process is killed there, or an input is replaced before it.

In the gate these are the first and the last of each kind of call that gives a name or takes one away; `--huge` tries
each of those, what follows each, and every other call.
"""
import errno

import pytest

import needs
from batch_trials import PLAIN_WORDS, TAKING, TELLING, WORDS, Trials, faults_library, spread

SPREAD = "some"  # the part that is in the gate
PARTS = 32  # of all calls, beside those that tell, which are part 0


@pytest.fixture(scope="module")
def library(tmp_path_factory):
    return faults_library(tmp_path_factory.mktemp("faults"))


@pytest.fixture
def trials(program, tmp_path, library):
    needs.command("parallel", "parallel")
    needs.command("flock", "util-linux")
    return Trials(tmp_path, program, library)


def those_of(part, calls, after=0):
    """The calls of one part. Part 0 is those that tell, and `after` calls after each."""
    assert len(calls) > 200 and "renameat2" in calls, calls
    if part == SPREAD:
        return spread(calls, TELLING)
    if part == 0:
        telling = [at for at, name in enumerate(calls, 1) if name in TELLING]
        return sorted({at + more for at in telling for more in range(after + 1)} & set(range(len(calls) + 1)))
    return range(part, len(calls) + 1, PARTS)


def each(trials, part, after=0):
    """Each call of a part, in a folder as it was, with the words for it."""
    calls = trials.calls()
    for at in those_of(part, calls, after):
        trials.again()
        yield at, f"at call {at} of {len(calls)}, {calls[at - 1]}"


every_part = pytest.mark.parametrize("part", [
    pytest.param(SPREAD, marks=pytest.mark.slow(seconds=9)),
    *(pytest.param(at, marks=pytest.mark.huge) for at in range(PARTS + 1))])


@every_part
def test_a_kill_before_each_call(trials, part):
    for at, when in each(trials, part, after=1):
        trials.kill(at, "before", when)
        trials.ends_well(when)


@pytest.mark.huge
@pytest.mark.parametrize("part", range(PARTS + 1))
def test_a_kill_after_each_call(trials, part):
    for at, when in each(trials, part):
        trials.kill(at, "after", when)
        trials.ends_well(when)


@every_part
def test_an_error_of_each_call(trials, part):
    for at, when in each(trials, part, after=1):
        trials.error(at, errno.EIO, when)
        trials.ends_well(when)


def full_disk(trials, chosen, calls, **fault):
    for at in chosen:
        when = f"no room at call {at} of {len(calls)}, {calls[at - 1]}"
        trials.again()
        trials.error(at, errno.ENOSPC, when, **fault)
        trials.ends_well(when)


stays_full = pytest.mark.parametrize("fault", [{}, {"stays": 1}], ids=["once", "from then on"])


@pytest.mark.parametrize("count", [pytest.param(1, marks=pytest.mark.slow(seconds=9)),
                                   pytest.param(4, marks=pytest.mark.huge)])
@stays_full
def test_a_full_disk_at_some_calls(trials, fault, count):
    """The first call of each name that takes room, or the last one if the disk stays full; beside the gate four of
    each, in both ways.
    """
    calls = trials.calls()
    full_disk(trials, spread(calls, TAKING, count, last=bool(fault)), calls, **fault)


@pytest.mark.huge
@stays_full
@pytest.mark.parametrize("part", range(PARTS + 1))
def test_a_full_disk_at_each_call(trials, part, fault):
    calls = trials.calls()
    full_disk(trials, those_of(part, calls), calls, **fault)


# the calls that a full disk lets fail: those between them are no other trial
ROOM = {"write", "pwrite64", "fsync", "fdatasync", "mkdir", "linkat"}


@pytest.mark.huge
@pytest.mark.parametrize("share", range(6))
@pytest.mark.parametrize("words", [WORDS, PLAIN_WORDS], ids=["-verify -delete", "plain"])
def test_a_disk_that_is_full_from_each_call_on(trials, words, share):
    """Every call that takes room, and all that follow it, to the end of the run."""
    trials.words = words
    calls = trials.calls()
    chosen = [at for at, name in enumerate(calls, 1) if name in ROOM]
    assert len(chosen) > 60, calls
    full_disk(trials, chosen[share::6], calls, stays=1)


@every_part
def test_an_input_that_is_replaced_before_each_call(trials, part):
    for at, when in each(trials, part):
        trials.replaced(at, when)


def each_of_a_plain_run(trials, part):
    """The syncs and names of a run that removes no input and has the drafts synced last: some of each kind, or each of
    them and the call after it.
    """
    trials.words = PLAIN_WORDS
    calls = trials.calls()
    assert calls.count("fsync") > 4 and "renameat2" in calls, calls
    names = {"fsync", "rename", "renameat2"}
    if part == SPREAD:
        chosen = spread(calls, names)
    else:
        chosen = sorted({at + more for at, name in enumerate(calls, 1) if name in names for more in (0, 1)})
    for at in (at for at in chosen if at <= len(calls)):
        trials.again()
        yield at, f"at call {at} of {len(calls)}, {calls[at - 1]}"


some_or_each = pytest.mark.parametrize("part", [pytest.param(SPREAD, marks=pytest.mark.slow(seconds=6)),
                                                pytest.param("each", marks=pytest.mark.huge)])


@some_or_each
def test_a_kill_before_each_sync_and_name_of_a_plain_run(trials, part):
    for at, when in each_of_a_plain_run(trials, part):
        trials.kill(at, "before", when)
        trials.ends_well(when)


@some_or_each
def test_an_error_of_each_sync_and_name_of_a_plain_run(trials, part):
    for at, when in each_of_a_plain_run(trials, part):
        trials.error(at, errno.EIO, when)
        trials.ends_well(when)


RESUME = ["-resume", "-odir", "out"]


def cut_off_twice(trials, first, fault, chosen):
    """A run is killed before one of the calls that tell; then `-resume` has a fault at some of its own."""
    calls = trials.calls()
    at = [at for at, name in enumerate(calls, 1) if name in TELLING][first]
    trials.again()
    trials.kill(at, "before", f"at call {at}")
    again = trials.calls(*RESUME)
    for second in chosen(again):
        when = f"{fault} at call {second} of -resume, {again[second - 1]}, after a kill at call {at}, {calls[at - 1]}"
        trials.again()
        trials.kill(at, "before", when)
        if fault == "kill":
            trials.faulty(*RESUME, at=second, kill="before")
        else:
            number = errno.EIO if fault == "error" else errno.ENOSPC
            trials.said_is_true(trials.faulty(*RESUME, at=second, error=number), when)
        trials.nothing_is_lost(when)
        trials.ends_well(when)


@pytest.mark.parametrize("first, fault", [
    *(pytest.param(first, fault, marks=pytest.mark.slow(seconds=7))
      for first, fault in ((4, "kill"), (9, "error"), (4, "full disk"))),
    *(pytest.param(first, fault, marks=pytest.mark.huge)
      for first, fault in ((9, "kill"), (4, "error"), (9, "full disk")))])
def test_a_resume_that_is_cut_off_at_some_calls(trials, first, fault):
    """Each sixth of the calls by which `-resume` gives names and takes them away."""
    cut_off_twice(trials, first, fault,
                  lambda again: [at for at, name in enumerate(again, 1) if name in TELLING][first % 3::6])


@pytest.mark.huge
@pytest.mark.parametrize("fault", ["kill", "error", "full disk"])
@pytest.mark.parametrize("first", range(14))
def test_a_resume_that_is_cut_off_at_each_call(trials, first, fault):
    """At each call that tells and the one after it; at each call at all, if `-resume` has few."""
    cut_off_twice(trials, first, fault,
                  lambda again: those_of(0, again, after=1) if len(again) > 200 else range(1, len(again) + 1))
