"""Files without permission, and streams that take nothing."""
import os
import shutil
import tempfile
from pathlib import Path

import pytest

import commands
import runs
from las_files import FILE, THREE, head
from places import Place

pytestmark = pytest.mark.files
KEEP = ["las2las", "-i", "a.las", "-o", "b.las", "-keep_class"]


@pytest.fixture
def as_nobody(program):
    """A place whose program is run by a user who may not write anywhere: root's runs are those of nobody, from a copy,
    since nobody may not read where root keeps the program."""
    with tempfile.TemporaryDirectory() as folder:
        os.chmod(folder, 0o755)
        copy = os.path.join(folder, "program")
        shutil.copy(program, copy)
        os.chmod(copy, 0o755)
        os.mkdir(os.path.join(folder, "place"))
        place = Place(Path(folder, "place"), copy)
        place.write("a.las", FILE)
        place.user = {"preexec_fn": commands.become_nobody} if os.getuid() == 0 else {}
        yield place
        os.chmod(place.folder, 0o755)


def test_output_without_permission(as_nobody):
    as_nobody.folder.chmod(0o555)
    runs.ended(as_nobody.las(*KEEP, "2", **as_nobody.user), 4, b"write fault\n")
    runs.holds(as_nobody, {"a.las": FILE, "b.las": None})


def test_input_without_permission(as_nobody):
    as_nobody.path("a.las").chmod(0o000)
    as_nobody.folder.chmod(0o755)
    runs.ended(as_nobody.las(*KEEP, "2", **as_nobody.user), 3, b"read fault: a.las\n")
    runs.holds(as_nobody, {"b.las": None})


def test_standard_error_on_a_full_device(place):
    with open("/dev/full", "wb") as full:
        assert place.las("las2las", stderr=full).returncode == 2


@pytest.fixture
def closed_pipe():
    """The end of a pipe that nobody reads."""
    reader, writer = os.pipe()
    os.close(reader)
    yield writer
    os.close(writer)


def test_standard_error_on_a_closed_pipe(place, closed_pipe):
    assert place.las("las2las", stderr=closed_pipe).returncode == 2


def test_standard_output_on_a_closed_pipe(place, closed_pipe):
    place.write("a.las", FILE)
    assert place.las(*KEEP, "1", stdout=closed_pipe).returncode == 0
    runs.holds(place, {"b.las": head(1, (1, 0, 0, 0, 0)) + THREE[1]})
