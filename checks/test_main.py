"""What the program's first function does beside the run: which words are the command, which stream is which, and that
the status of the run is that of the program.
"""
import resource
import subprocess

import pytest

import runs
from las_files import FILE, packed_one

pytestmark = pytest.mark.files


def given(place, name, *words, **options):
    """A run whose first word, which is no part of the command, is this name."""
    return subprocess.run([name, *words], executable=place.program, cwd=place.folder, stdin=subprocess.DEVNULL,
                          stdout=subprocess.PIPE, stderr=subprocess.PIPE, check=False, timeout=60, **options)


@pytest.mark.parametrize("name", ["las", "", "laszip", "lasinfo", "-i", "/a/b c/ä"])
def test_the_first_word_is_no_part_of_the_command(place, name):
    place.write("a.las", FILE)
    runs.ended(given(place, name, "laszip", "-i", "a.las", "-o", "b.laz"), 0)
    runs.unpacks(place, "b.laz", FILE)
    runs.ended(given(place, name, "lasinfo"), 2, b"usage: word 1\n")


def test_without_any_other_word_the_command_is_missing(place):
    runs.ended(given(place, "lasinfo"), 2, b"usage: word 0\n")


def status_0(place):
    return place.las("laszip", "-i", "a.las", "-o", "b.laz")


def status_1(place):
    def little_memory():
        resource.setrlimit(resource.RLIMIT_AS, (1 << 23, 1 << 23))
    return place.las("make", "-o", "m.las", "-z", "m.laz", "-points", "50000", "-seed", "1", preexec_fn=little_memory)


def status_2(place):
    return place.las("laszip", "-i")


def status_3(place):
    return place.las("laszip", "-i", "missing.las", "-o", "b.laz")


def status_4(place):
    return place.las("laszip", "-i", "a.las", "-o", "no/b.laz")


def status_5(place):
    return place.las("laszip", "-i", "short.las", "-o", "b.laz")


def status_6(place):
    return place.las("lasmerge", "-i", "a.las", "-i", "other.las", "-o", "b.las")


LINES = {
    0: b"",
    1: b"no memory\n",
    2: b"usage: word 2\n",
    3: b"read fault: missing.las\n",
    4: b"write fault\n",
    5: b"refused: short.las: 1 Short\n",
    6: b"unequal: other.las: scales\n",
}


@pytest.mark.parametrize("status", sorted(LINES))
def test_the_status_of_the_run_is_that_of_the_program_and_its_line_is_on_standard_error(place, status):
    place.write("a.las", FILE)
    place.write("short.las", FILE[:100])
    other = bytearray(FILE)
    other[131 + 7] ^= 1
    place.write("other.las", bytes(other))
    run = globals()[f"status_{status}"](place)
    runs.ended(run, status, LINES[status])


def test_the_report_is_on_standard_output(place):
    place.write("a.laz", packed_one())
    run = place.las("lasinfo", "-i", "a.laz")
    assert run.returncode == 0
    assert run.stderr == b""
    assert run.stdout.startswith(b"version ")
