"""Limits of a process: on the size of files, and on the number of those that are open."""
import resource

import pytest

import runs
from las_files import long_head
from programs import LAUNCHER
from real_inputs import COMMANDS, WITH_OUTPUTS, flight_lines, with_inputs

STARTS = ["launcher", "program"]


def limited(kind, most):
    """The process has a limit of its own. Python has set the signal of a file that is too long to its default."""
    def limit():
        resource.setrlimit(kind, (most, most))
    return limit


@pytest.mark.parametrize("start", STARTS)
@pytest.mark.parametrize("command", WITH_OUTPUTS)
def test_limit_on_the_size_of_files_is_a_write_fault(place, command, start):
    """By the launcher, and by the program if the signal is ignored."""
    with_inputs(place, 1_400)
    before = place.files()
    words = [command, *COMMANDS[command][0]]
    program = LAUNCHER
    if start == "program":
        words, program = ["-c", 'trap "" XFSZ; exec "$@"', "sh", place.program, *words], "/bin/sh"
    else:
        place.las("laszip", program=program)  # (the limit would hold for the program that is unpacked, too)
    run = place.las(*words, program=program, preexec_fn=limited(resource.RLIMIT_FSIZE, 1_024))
    runs.ended(run, 4, b"write fault\n")
    now = place.files()
    assert {name: now.pop(name) for name in before} == before
    assert {name: len(data) for name, data in now.items() if len(data) > 1_024} == {}


@pytest.fixture
def few_descriptors():
    return {"preexec_fn": limited(resource.RLIMIT_NOFILE, 32)}


POINTS = flight_lines(1_500, 500)
PARTS = {"in turn": (["-split", "3"], range(500)), "that take turns": (["-by_flightline"], range(1, 501))}


@pytest.mark.parametrize("order", PARTS)
def test_500_parts_by_32_descriptors(place, few_descriptors, order):
    words, numbers = PARTS[order]
    place.write("in.las", long_head(2, 0, 0, POINTS) + b"".join(POINTS))
    files = []
    for folder, options in [("free", {}), ("limited", few_descriptors)]:
        place.path(folder).mkdir()
        run = place.las("lassplit", "-i", "in.las", "-o", f"{folder}/p.las", *words, **options)
        runs.ended(run, 0)
        files.append({path.name: path.read_bytes() for path in place.path(folder).iterdir()})
    assert sorted(files[0]) == [f"p_{number:07}.las" for number in numbers]
    assert files[0] == files[1]


def test_32_inputs_by_32_descriptors(place, few_descriptors):
    words = []
    for i in range(32):
        place.write(f"{i}.las", long_head(2, 0, 0, POINTS[i::32]) + b"".join(POINTS[i::32]))
        words += ["-i", f"{i}.las"]
    runs.done(place, "lasmerge", *words, "-o", "free.laz")
    runs.ended(place.las("lasmerge", *words, "-o", "limited.laz", **few_descriptors), 0)
    assert place.read("free.laz") == place.read("limited.laz")
