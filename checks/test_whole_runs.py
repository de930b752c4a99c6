"""One run of each command against bytes that the program did not make: its status, its streams, each byte of its
outputs, that there is no file more, and that its inputs stay. So a case says what is wrong with a program.
"""
import struct

import pytest

from las_files import FILE, ONE, ONE_VLR, THREE, head, packed_one
from test_lasinfo import ONE as REPORT
from test_make import made

pytestmark = pytest.mark.files
MADE = made(1, 3, 0, 0)
Whole = tuple[dict[str, bytes], list[str], bytes, dict[str, bytes]]
# the files that are there, the words, standard output and the outputs of a run that is done
DONE: dict[str, Whole] = {
    "laszip": ({"a.las": ONE}, ["-i", "a.las", "-o", "b.laz"], b"", {"b.laz": packed_one()}),
    "las2las": ({"a.las": FILE}, ["-i", "a.las", "-o", "b.las", "-keep_class", "1"], b"",
                {"b.las": head(1, (1, 0, 0, 0, 0)) + THREE[1]}),
    "lasinfo": ({"a.laz": packed_one()}, ["-i", "a.laz"], REPORT, {}),
    "lassplit": ({"a.las": FILE}, ["-i", "a.las", "-o", "p.las", "-split", "2"], b"", {
        "p_0000000.las": head(2, (2, 0, 0, 0, 0)) + THREE[0] + THREE[1],
        "p_0000001.las": head(1, (1, 0, 0, 0, 0)) + THREE[2]}),
    "lasmerge": ({"a.las": FILE, "b.las": ONE}, ["-i", "a.las", "-i", "b.las", "-o", "c.las"], b"",
                 {"c.las": head(4, (4, 0, 0, 0, 0)) + b"".join(THREE) + ONE[227:]}),
    "make": ({}, ["-o", "m.las", "-z", "m.laz", "-points", "1", "-seed", "3"],
             b"points 1\nplain 247\npacked 366\n", {"m.las": MADE}),
}
# the words of a run that is refused, after the first input has lost a byte, with its status and its line
REFUSED = {command: (5, b"refused: a.las: 9 Count\n") for command in ("laszip", "las2las", "lassplit", "lasmerge")}
REFUSED["lasinfo"] = (5, b"refused: a.laz: 19 Table\n")
REFUSED["make"] = (2, b"usage: word 4\n")


def packed_made():
    """The packed form of the one point that `make` made."""
    front = bytearray(MADE[:227])
    struct.pack_into("<II", front, 96, 321, 1)
    front[104] = 0x80
    return bytes(front) + ONE_VLR + struct.pack("<Q", 353) + MADE[227:] + packed_one()[349:353] + packed_one()[353:]


DONE["make"][3]["m.laz"] = packed_made()
commands = pytest.mark.parametrize("command", DONE)


@pytest.fixture
def done(place, command):
    """A run that is done: the run, the files that stand there after it, and those that have to."""
    inputs, words, _, outputs = DONE[command]
    for name, data in inputs.items():
        place.write(name, data)
    run = place.las(command, *words)
    return run, place.files(), {**inputs, **outputs}


@pytest.fixture
def refused(place, command):
    inputs, words, _, _ = DONE[command]
    for name, data in inputs.items():
        place.write(name, data[:-1])
    run = place.las(command, *words) if command != "make" else place.las(*"make -o a -points x".split())
    return run, place.files(), {name: data[:-1] for name, data in inputs.items()}


@commands
def test_status_of_a_run_that_is_done(done, command):
    assert done[0].returncode == 0


@commands
def test_status_of_a_run_that_is_refused(refused, command):
    assert refused[0].returncode == REFUSED[command][0]


@commands
def test_line_on_standard_error(refused, command):
    assert refused[0].stderr == REFUSED[command][1]


@commands
def test_nothing_on_standard_error_if_it_is_done(done, command):
    assert done[0].stderr == b""


@commands
def test_standard_output(done, command):
    assert done[0].stdout == DONE[command][2]


@pytest.mark.parametrize("command", [command for command in DONE if DONE[command][3]])
def test_each_byte_of_the_outputs(done, command):
    _, found, wanted = done
    for name in DONE[command][3]:
        pairs = enumerate(zip(found.get(name, b""), wanted[name]))
        assert [(at, one, other) for at, (one, other) in pairs if one != other] == [], name


@pytest.mark.parametrize("command", [command for command in DONE if DONE[command][3]])
def test_length_of_the_outputs(done, command):
    _, found, wanted = done
    outputs = DONE[command][3]
    assert {name: len(found.get(name, b"")) for name in outputs} == {name: len(data) for name, data in outputs.items()}


@commands
def test_no_file_more_if_it_is_done(done, command):
    _, found, wanted = done
    assert sorted(found) == sorted(wanted)


@commands
def test_no_file_more_if_it_is_refused(refused, command):
    _, found, wanted = refused
    assert sorted(found) == sorted(wanted)


@pytest.mark.parametrize("command", [command for command in DONE if DONE[command][0]])
def test_inputs_stay(done, command):
    _, found, _ = done
    inputs = DONE[command][0]
    assert {name: found.get(name) for name in inputs} == inputs
