"""An output that is an input, or another output, under another name is a write fault, and nothing was changed."""
import os
import shutil

import pytest

import runs
from programs import LAUNCHER
from real_inputs import with_inputs

WRITE_FAULT = (4, b"write fault\n")
NAMES = ["by way of the folder", "absolute", "a symbolic link", "a hard link"]
names = pytest.mark.parametrize("other", NAMES)


def other_name(place, name, kind):
    """Another name of a file."""
    if kind == "by way of the folder":
        return f"./{name}"
    if kind == "absolute":
        return str(place.path(name))
    if kind == "a symbolic link":
        os.symlink(name, place.path("other.las"))
    else:
        os.link(place.path(name), place.path("other.las"))
    return "other.las"


RUNS = {
    "laszip, packing": ("in.las", ["laszip", "-i", "in.las", "-o", "OTHER"]),
    "laszip, unpacking": ("in.laz", ["laszip", "-i", "in.laz", "-o", "OTHER"]),
    "las2las": ("in.las", ["las2las", "-i", "in.las", "-o", "OTHER", "-keep_class", "2"]),
    "las2las to packed": ("in.laz", ["las2las", "-i", "in.laz", "-o", "OTHER", "-olaz", "-keep_class", "2"]),
    "lasmerge, the first input": ("in.las", ["lasmerge", "-i", "in.las", "-i", "in.laz", "-o", "OTHER"]),
    "lasmerge, the last input": ("in.las", ["lasmerge", "-i", "in.laz", "-i", "in.las", "-o", "OTHER"]),
}


@pytest.mark.parametrize("start", ["launcher", "program"])
@names
@pytest.mark.parametrize("run_", RUNS)
def test_output_is_the_input(place, run_, other, start):
    source, words = RUNS[run_]
    with_inputs(place)
    name = other_name(place, source, other)
    before = place.files()
    run = place.las(*[name if word == "OTHER" else word for word in words],
                    program=LAUNCHER if start == "launcher" else place.program)
    runs.ended(run, *WRITE_FAULT)
    assert place.files() == before


@names
def test_part_is_the_input(place, other):
    with_inputs(place)
    part = place.path("p_0000002.las")
    source = {"by way of the folder": "./p_0000002.las", "absolute": str(part)}.get(other, "in.las")
    if other == "a symbolic link":
        os.symlink("in.las", part)
    elif other == "a hard link":
        os.link(place.path("in.las"), part)
    else:
        shutil.move(place.path("in.las"), part)
    whole = part.read_bytes()
    runs.ended(place.las("lassplit", "-i", source, "-o", "p.las", "-by_return"), *WRITE_FAULT)
    assert part.read_bytes() == whole


def test_two_parts_are_one_file(place):
    with_inputs(place)
    os.symlink("p_0000001.las", place.path("p_0000002.las"))
    runs.ended(place.las("lassplit", "-i", "in.las", "-o", "p.las", "-by_return"), *WRITE_FAULT)


@names
def test_both_outputs_of_make_are_one_file(place, other):
    words = ["make", "-points", "700", "-seed", "1", "-o", "a", "-z"]
    runs.ended(place.las(*words, "b"), 0, out=None)
    plain = place.read("a")
    runs.ended(place.las(*words, other_name(place, "a", other)), *WRITE_FAULT)
    assert place.read("a") == plain
