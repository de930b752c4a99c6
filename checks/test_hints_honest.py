"""Hints of the launcher: they tell what is so, call a part only what this run has made or written over, and never
advise to remove anything else.
"""
import os
import subprocess
import tempfile
from collections.abc import Iterator
from pathlib import Path

import pytest

import needs
from las_files import FILE, head, packed_one, record
from places import Place
from programs import LAUNCHER, TOP


def hinted(place: Place, *words: str, **more: str) -> "tuple[int, str]":
    """A run of the launcher with hints, without a terminal: the status, and what standard error has."""
    done = place.las(*words, program=str(LAUNCHER), env={**os.environ, "LAS_HINTS": "1", **more})
    return done.returncode, done.stderr.decode()


KEEP = ["las2las", "-i", "a.las", "-o", "b.las"]
# what was typed: the words, parts of the hint, and what it must not say
USAGE: "dict[str, tuple[list[str], list[str], list[str]]]" = {
    "-lowest alone": (
        [*KEEP, "-lowest"], ["-lowest<<<", "goes with -thin_raw N, which is not given"], ["too often", "excludes"]),
    "two dashes": (
        [*KEEP, "--keep_class", "2"], ["Options have one dash: -keep_class", "0 to 31"], ["Needed. The output"]),
    "a name without its option": (
        ["lasinfo", "a.las"], ["belongs to no option", "-i a.las"], ["no option of"]),
    "many names": (
        ["laszip", "a.las", "b.las", "c.las"], ["A run has one input", "las-batch laszip -odir FOLDER"], []),
    "many names after -i": (
        ["laszip", "-i", "a.las", "c.las", "d.las"], ["A run has one input", "las-batch"], ["Needed. The input"]),
    "names after one -i of lasmerge": (
        ["lasmerge", "-i", "a.las", "c.las", "-o", "b.las"], ["Before each input stands -i: -i c.las"], []),
    "an option given twice": (
        [*KEEP, "-keep_class", "2", "-keep_class", "6"],
        ["given before. All numbers stand after one, with blanks between them: -keep_class"], ["excludes"]),
    "an option without a list given twice": (
        [*KEEP, "-cores", "2", "-cores", "3"], ["This option is given before.", "1 to 8"], ["All numbers"]),
    "an option beside one that excludes it": (
        [*KEEP, "-olas", "-olaz"], ["does not go beside one that is given before it"], ["given before."]),
    "numbers with commas": (
        [*KEEP, "-keep_class", "2,6"], ["Numbers have blanks between them: -keep_class 2 6", "0 to 31"], []),
    "a value out of its range": (
        [*KEEP, "-keep_class", "2", "99"], [">>>99<<<", "0 to 31"], ["belongs to no option"]),
    "a word too many": (
        [*KEEP, "-cores", "2", "3"], ["belongs to no option"], ["1 to 8", "-i 3"]),
    "an option spelt wrongly": (
        [*KEEP, "-keep_clas", "2"], ["no option of las2las", "Perhaps this is meant: -keep_class"], []),
    "an option of no likeness": (
        [*KEEP, "-frobnicate"], ["no option of las2las"], ["Perhaps"]),
    "an option taken for a name": (
        ["las2las", "-i", "a.las", "-o", "-keep_class", "2"],
        ["'-keep_class' is taken as the name of the output here, since it follows -o"], ["-i 2"]),
}


@pytest.mark.parametrize("name", USAGE)
def test_after_a_wrong_word(place: Place, name: str) -> None:
    words, parts, others = USAGE[name]
    place.write("a.las", FILE)
    place.write("c.las", FILE)
    status, said = hinted(place, *words)
    assert status == 2
    assert said.startswith("usage: word ")
    assert [part for part in parts if part not in said] == []
    assert [part for part in others if part in said] == []
    assert place.names() == ["a.las", "c.las"]


def names_a_part(said: str) -> bool:
    return "part" in said.replace("apart", "") or "emove" in said


UNTOUCHED = {
    "the input under another name": ["laszip", "-i", "a.las", "-o", "./a.las"],
    "a folder": ["laszip", "-i", "a.las", "-o", "folder"],
    "a folder that is not there": ["laszip", "-i", "a.las", "-o", "none/b"],
    "a device": ["laszip", "-i", "a.las", "-o", "/dev/full"],
    "an input that is not there": ["laszip", "-i", "none.las", "-o", "older.laz"],
    "an input that is refused": ["laszip", "-i", "short.las", "-o", "older.laz"],
}


@pytest.mark.parametrize("name", UNTOUCHED)
def test_nothing_is_called_a_part_that_was_not_touched(place: Place, name: str) -> None:
    place.write("a.las", FILE)
    place.write("short.las", FILE[:-1])
    place.write("older.laz", packed_one())
    place.path("folder").mkdir()
    before = place.files()
    status, said = hinted(place, *UNTOUCHED[name])
    assert status in (3, 4, 5)
    assert not names_a_part(said), said
    assert place.files() == before


@pytest.mark.root
def test_a_file_without_permission_is_not_called_a_part(open_place: Path) -> None:
    needs.command("setpriv", "util-linux")
    (open_place / "a.las").write_bytes(FILE)
    (open_place / "b.laz").write_bytes(b"older")
    os.chmod(open_place / "b.laz", 0o444)
    line = ["setpriv", "--reuid", "65534", "--regid", "65534", "--clear-groups", str(installed(open_place)), "laszip",
            "-i", "a.las", "-o", "b.laz"]
    done = subprocess.run(line, env={**os.environ, "LAS_HINTS": "1", "TMPDIR": "/tmp"}, cwd=open_place, check=False,
                          stdin=subprocess.DEVNULL, stdout=subprocess.PIPE, stderr=subprocess.PIPE, timeout=60)
    said = done.stderr.decode()
    assert done.returncode == 4
    assert "There is no permission to write 'b.laz'." in said
    assert not names_a_part(said), said


@pytest.fixture
def open_place() -> "Iterator[Path]":
    """A folder that each user can look into, which those of pytest are not."""
    with tempfile.TemporaryDirectory(dir="/tmp") as name:
        os.chmod(name, 0o755)
        yield Path(name)


def installed(folder: Path) -> Path:
    """An installed launcher whose program is the released one."""
    prefix = folder / "prefix"
    if not prefix.exists():
        subprocess.run([TOP / "install", prefix], stdout=subprocess.DEVNULL, check=True)
    return prefix / "bin" / "las"


def test_an_output_that_was_made_before_a_refusal_is_a_part(place: Place) -> None:
    place.write("a.las", head(1, (1, 0, 0, 0, 0)) + record(2**31 - 1, 2))
    status, said = hinted(place, "las2las", "-i", "a.las", "-o", "b.las", "-translate_raw_x", "1")
    assert status == 5
    assert "'b.las' is perhaps a part: this run has made it." in said
    assert "las --safe las2las" in said


def test_an_older_file_that_was_written_over_is_told_and_not_to_be_removed(place: Place) -> None:
    place.write("a.las", head(1, (1, 0, 0, 0, 0)) + record(2**31 - 1, 2))
    place.write("b.las", b"older")
    os.utime(place.path("b.las"), (1, 1))
    status, said = hinted(place, "las2las", "-i", "a.las", "-o", "b.las", "-translate_raw_x", "1")
    assert status == 5
    assert "'b.las' is perhaps a part: this run has written over the file that was there." in said
    assert "emove" not in said


def test_a_bad_chunk_without_an_output_names_none(place: Place) -> None:
    data = bytearray(packed_one())
    data[-14:-13] = b"\xff"
    place.write("a.laz", bytes(data))
    status, said = hinted(place, "lasinfo", "-i", "a.laz")
    assert status in (0, 5)
    assert "emove" not in said


@pytest.mark.root
def test_a_full_disk_leaves_a_part_that_is_named(place: Place, small_disk) -> None:
    disk = small_disk(40_000)
    status, said = hinted(place, "make", "-o", str(disk / "m.las"), "-z", "m.laz", "-points", "5000", "-seed", "1")
    assert status == 4
    assert f"'{disk / 'm.las'}' is perhaps a part: this run has made it." in said
    assert f"The disk of '{disk}' is full" in said


@pytest.mark.root
def test_it_runs_without_hints_if_the_folder_for_what_is_temporary_takes_no_file(place: Place, small_disk) -> None:
    disk = small_disk(40_000)
    subprocess.run(["mount", "-o", "remount,nr_inodes=2", str(disk)], check=True)  # its own folder, and one more
    place.write("a.las", head(0))
    assert hinted(place, "laszip", "-i", "a.las", "-o", "a.laz", TMPDIR=str(disk)) == (0, "")
    assert place.read("a.laz")


@pytest.mark.root
def test_the_line_is_told_when_the_folder_for_what_is_temporary_is_full(place: Place, small_disk) -> None:
    disk = small_disk(40_000)
    filler = os.open(disk / "filler", os.O_WRONLY | os.O_CREAT)
    try:
        while os.write(filler, bytes(4096)):
            pass
    except OSError:
        pass
    finally:
        os.close(filler)
    status, said = hinted(place, "laszip", "-i", "none.las", "-o", "b", TMPDIR=str(disk))
    assert status == 3
    assert said.startswith("read fault: none.las\n")


UNEQUAL = {
    "format": (bytes([1]) + (28).to_bytes(2, "little"), 104, "point data format is another"),
    "scales": (bytes([9]), 131, "scale factors are others"),
    "offsets": (bytes([9]), 155, "offsets of x, y and z are others"),
    "box": (bytes([9]), 179, "header's box"),
}


@pytest.mark.parametrize("field", UNEQUAL)
def test_inputs_that_differ_are_explained(place: Place, field: str) -> None:
    value, at, part = UNEQUAL[field]
    data = bytearray(head(0))
    place.write("a.las", bytes(data))
    data[at:at + len(value)] = value
    place.write("b.las", bytes(data))
    status, said = hinted(place, "lasmerge", "-i", "a.las", "-i", "b.las", "-o", "c.las")
    assert (status, said.split("\n")[0]) == (6, f"unequal: b.las: {field}")
    assert part in said


def test_a_name_of_one_dash_gets_a_note(place: Place) -> None:
    place.write("a.las", FILE)
    status, said = hinted(place, "laszip", "-i", "a.las", "-o", "-")
    assert status == 0
    assert "a file of the name '-'" in said
    assert place.names() == ["-", "a.las"]


@pytest.mark.parametrize("output, kind", [("c.las", "packed"), ("c.laz", None), ("c", None), ("c.LAS", "packed")])
def test_an_ending_of_the_other_kind_gets_a_note(place: Place, output: str, kind: "str | None") -> None:
    place.write("a.las", FILE)
    status, said = hinted(place, "laszip", "-i", "a.las", "-o", output)
    assert status == 0
    assert said == (f"'{output}' is {kind}, as its ending does not say.\n" if kind else "")


def test_unpacking_to_the_ending_of_packed_files_gets_a_note(place: Place) -> None:
    place.write("a.laz", packed_one())
    status, said = hinted(place, "laszip", "-i", "a.laz", "-o", "c.laz")
    assert (status, said) == (0, "'c.laz' is plain, as its ending does not say.\n")


def test_without_hints_the_line_stands_alone(place: Place) -> None:
    done = place.las("laszip", "-i", "none.las", "-o", "b", program=str(LAUNCHER))
    assert (done.returncode, done.stderr) == (3, b"read fault: none.las\n")


@pytest.mark.parametrize("topic", ["badchunk", "BADCHUNK", "BadChunk", "21"])
def test_help_on_a_cause_in_any_letters(place: Place, topic: str) -> None:
    done = place.las("help", topic, program=str(LAUNCHER))
    assert done.returncode == 0
    assert done.stdout.startswith(b"las: cause 21 BadChunk\n")


def test_help_on_las_batch(place: Place) -> None:
    done = place.las("help", "las-batch", program=str(LAUNCHER))
    assert (done.returncode, done.stdout) == (0, (TOP / "help" / "batch").read_bytes())


def test_help_tells_of_the_box_of_the_header(place: Place) -> None:
    done = place.las("help", "las2las", program=str(LAUNCHER))
    assert b"the box, the least and greatest x, y and z" in b" ".join(done.stdout.split())
