"""Each command with each of the standard streams closed or open: only a report that can't be put is a fault."""
from itertools import combinations

import pytest

import commands
import runs
from programs import LAUNCHER
from real_inputs import COMMANDS, with_inputs

CLOSED = [closed for count in range(4) for closed in combinations(range(3), count)]
closed_ones = pytest.mark.parametrize("closed", CLOSED, ids=lambda closed: "closed " + (
    " ".join(map(str, closed)) or "none"))
starts = pytest.mark.parametrize("start", ["launcher", "program"])


@pytest.fixture
def started(place, start):
    """Runs of the program by the launcher or by itself, with streams closed."""
    def run(closed, *words):
        return place.las(*words, program=LAUNCHER if start == "launcher" else place.program,
                         preexec_fn=commands.without(closed))
    return run


@starts
@closed_ones
@pytest.mark.parametrize("command", COMMANDS)
def test_command(place, started, command, closed):
    with_inputs(place)
    before = place.files()
    words, outputs = COMMANDS[command]
    whole = place.las(command, *words)
    runs.ended(whole, 0, out=None)
    finished = place.files()
    assert {*finished} == {*before, *outputs}
    for name in outputs:
        place.path(name).unlink()
    run = started(closed, command, *words)
    lost = 1 in closed and whole.stdout != b""
    assert run.returncode == (4 if lost else 0)
    assert run.stderr == (b"write fault\n" if lost and 2 not in closed else b"")
    assert run.stdout == (b"" if 1 in closed else whole.stdout)
    assert place.files() == finished


@starts
@closed_ones
def test_refusal_with_an_output_that_is_begun(place, started, closed):
    """A line that can't be put goes into no file."""
    with_inputs(place)
    bad = bytearray(place.read("in.laz"))
    at = bad.index(place.read("in.las")[227 + 20 * 256:][:20])
    bad[at + 20:at + 24] = b"\xff\xff\xff\xff"
    place.write("bad.laz", bytes(bad))
    words = ["laszip", "-i", "bad.laz", "-o", "bad.las"]
    line = b"refused: bad.laz: 21 BadChunk 1\n"
    runs.ended(place.las(*words), 5, line)
    left = place.files()
    place.path("bad.las").unlink(missing_ok=True)
    runs.ended(started(closed, *words), 5, b"" if 2 in closed else line)
    assert place.files() == left


@closed_ones
@pytest.mark.parametrize("status, line, words", [
    (2, b"usage: word 0\n", []), (3, b"read fault: none\n", ["lasinfo", "-i", "none"])],
    ids=["wrong words", "a missing input"])
def test_line(place, status, line, words, closed):
    run = place.las(*words, preexec_fn=commands.without(closed))
    runs.ended(run, status, b"" if 2 in closed else line)
    assert place.names() == []
