"""Each call of the system fails in turn, or falls short, in whole runs of each command."""
import errno

import pytest

import failing_calls
from failing_calls import KINDS, PACK, Runs

ERRORS = {"ENOSPC": errno.ENOSPC, "EIO": errno.EIO, "EINTR": errno.EINTR, "nothing is taken or given": 0}

COMMANDS = {
    "laszip, packing": (["laszip", "-i", "in.las", "-o", "o.laz", *PACK], ["o.laz"]),
    "laszip, unpacking": (["laszip", "-i", "in.laz", "-o", "o.las"], ["o.las"]),
    "las2las": (["las2las", "-i", "in.laz", "-o", "o.laz", "-keep_class", "1", "2", *PACK], ["o.laz"]),
    "las2las of a range": (
        ["las2las", "-i", "in.laz", "-o", "o.las", "-start_at_point", "200", "-stop_at_point", "550"], ["o.las"]),
    "las2las in two readings": (
        ["las2las", "-i", "in.laz", "-o", "o.las", "-thin_raw", "50", "-lowest", "-tally", "class"], ["o.las"]),
    "lasinfo": (["lasinfo", "-i", "in.laz", "-tally", "class"], []),
    "lassplit": (
        ["lassplit", "-i", "in.laz", "-o", "p.las", "-by_return"], [f"p_000000{i}.las" for i in (1, 2, 3)]),
    "lasmerge": (["lasmerge", "-i", "in.las", "-i", "in.laz", "-o", "o.laz", *PACK], ["o.laz"]),
    "lasmerge of copied chunks": (
        ["lasmerge", "-i", "in.laz", "-i", "in.laz", "-o", "o.laz", "-copy_chunks"], ["o.laz"]),
    "make": (["make", "-o", "m.las", "-z", "m.laz", "-points", "600", "-seed", "1", *PACK], ["m.las", "m.laz"]),
}


@pytest.fixture(scope="session")
def preloaded(tmp_path_factory):
    return failing_calls.library(tmp_path_factory)


def is_met(command, kind):
    """Whether a command has to have calls of a kind: one that is never met would be a check that can't fail."""
    outputs = COMMANDS[command][1]
    return kind in ["open", "stat", "close", "pipe", *["read"] * (command != "make"), *["write", "truncate"] *
                    bool(outputs), *["text"] * (not outputs)]


@pytest.mark.parametrize("kind", KINDS)
@pytest.mark.parametrize("command", COMMANDS)
def test_each_call_fails_in_turn(preloaded, place, command, kind):
    words, outputs = COMMANDS[command]
    tried = Runs(preloaded, place, [*words, "-cores", "1"], outputs)
    errors = ERRORS if kind in ("read", "write") else [name for name in ERRORS if ERRORS[name]]
    for name in errors:
        assert tried.sweep(kind, ERRORS[name]) > 0 or not is_met(command, kind), name


@pytest.mark.parametrize("command", COMMANDS)
def test_each_call_fails_in_turn_with_two_workers(preloaded, place, command):
    words, outputs = COMMANDS[command]
    tried = Runs(preloaded, place, [*words, "-cores", "2"], outputs)
    for kind in KINDS:
        assert tried.sweep(kind, errno.EIO) > 0 or not is_met(command, kind), kind


@pytest.mark.parametrize("cores", ["1", "2"])
@pytest.mark.parametrize("most", [1, 7], ids=lambda most: f"{most} bytes")
@pytest.mark.parametrize("command", COMMANDS)
def test_reads_and_writes_fall_short(preloaded, place, command, most, cores):
    words, outputs = COMMANDS[command]
    tried = Runs(preloaded, place, [*words, "-cores", cores], outputs)
    tried.is_finished(tried.run(FAULT_MOST=most))


@pytest.mark.parametrize("error, line", [("EIO", b""), ("ENOSPC", b""), ("EINTR", b"read fault: none\n")])
def test_line_that_cannot_be_put(preloaded, place, error, line):
    tried = Runs(preloaded, place, ["lasinfo", "-i", "in.laz"], [])
    run = tried.run(["lasinfo", "-i", "none"], FAULT_CALL="text", FAULT_AT=1, FAULT_ERROR=ERRORS[error])
    assert (run.returncode, run.stdout, run.stderr) == (3, b"", line)
