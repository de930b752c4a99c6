"""The library for C: how it is built, and a C program with sanitizers over it, beside the program."""
import random
import re
import shutil
import struct
from pathlib import Path

import pytest

import commands
import library_files
import needs
from las_files import RECORD_SIZES
from library_files import LAYOUTS, V3, blocks
from programs import TOP

HOSTILE = 88  # for each layout, kind of chunks and round


@pytest.fixture(scope="session")
def library(tmp_path_factory):
    return library_files.library(tmp_path_factory)


@pytest.fixture(scope="session")
def check(tmp_path_factory):
    return library_files.c_program(tmp_path_factory)


@pytest.fixture(scope="session")
def files(tmp_path_factory, program):
    return library_files.plain_files(tmp_path_factory, program)


@pytest.mark.kit
@(pytest.mark.slow if library_files.as_built() else pytest.mark.huge)
def test_library_is_built_twice_alike(library, tmp_path):
    """In the gate release/make --check compares it with that of the release, if the tools are those that built it."""
    if not library_files.as_built():
        needs.missing("the crates are not proved here", "LAS_AS_BUILT=1 after `rt ci`")
    commands.good([TOP / "release" / "library", "--as-built", tmp_path], timeout=5400)
    other = {name: (tmp_path / name).read_bytes() for name in library_files.RELEASED}
    assert [name for name, data in other.items() if (library / name).read_bytes() != data] == []


@pytest.mark.parametrize("name", ["liblaz.so", V3])
def test_header_and_library_have_the_same_calls(library, name):
    needs.command("nm", "binutils")
    header = set(re.findall(r"^(?! \*)[a-z].*?\b(laz_\w+)\(", (TOP / "c" / "las.h").read_text(), re.MULTILINE))
    names = commands.good(["nm", "-D", "--defined-only", library / name])
    assert sorted(line.split()[-1] for line in names.splitlines()) == sorted(header)


def test_wrong_lengths_null_pointers_and_every_allocation_that_fails(check):
    assert int(commands.good([check, "arguments"])) > 1800


@pytest.mark.parametrize("format_, extra", LAYOUTS, ids=lambda number: str(number))
class TestLayout:
    """The C program and `las` pack each plain file alike, and unpack each other's files, fixed and counted chunks."""

    def test_c_packs_as_las(self, check, files, tmp_path, format_, extra):
        name = files / f"{format_}_{extra}"
        commands.good([check, "pack", f"{name}.las", tmp_path / "c.laz", "256"])
        assert (tmp_path / "c.laz").read_bytes() == Path(f"{name}.laz").read_bytes()

    @pytest.mark.parametrize("kind", [".laz", ".counted.laz"], ids=["fixed chunks", "counted chunks"])
    def test_c_unpacks(self, check, files, tmp_path, format_, extra, kind):
        name = files / f"{format_}_{extra}"
        commands.good([check, "unpack", f"{name}{kind}", tmp_path / "c.las"])
        assert (tmp_path / "c.las").read_bytes() == Path(f"{name}.las").read_bytes()

    def test_las_unpacks_counted_chunks_of_c(self, program, files, tmp_path, format_, extra):
        name = files / f"{format_}_{extra}"
        commands.good([program, "laszip", "-i", f"{name}.counted.laz", "-o", tmp_path / "b.las"])
        assert (tmp_path / "b.las").read_bytes() == Path(f"{name}.las").read_bytes()


def damaged_files(check, files, folder, format_, extra, chunk, seed):
    """Packed files of a few chunks, each with a random change."""
    choose = random.Random(seed)
    data = (files / f"{format_}_{extra}.las").read_bytes()
    offset, size = struct.unpack_from("<I", data, 96)[0], RECORD_SIZES[format_] + extra
    head = bytearray(data[:offset])
    struct.pack_into("<I", head, 107, 30)
    (folder / "short.las").write_bytes(bytes(head) + data[offset:offset + 30 * size])
    commands.good([check, "pack", folder / "short.las", folder / "short.laz", chunk])
    packed = (folder / "short.laz").read_bytes()
    for i in range(HOSTILE):
        (folder / str(i)).write_bytes(library_files.damaged(packed, choose))
    return [str(folder / str(i)) for i in range(HOSTILE)]


def answer_of(program, name):
    """What `las laszip` answers for a file, as the C program says it, and what it wrote."""
    output = Path(name + ".las")
    run = commands.quiet([program, "laszip", "-i", name, "-o", output], timeout=60)
    data = output.read_bytes() if output.exists() else b""
    output.unlink(missing_ok=True)
    if run.returncode == 0:
        return ("plain", None) if data[104] & 128 else ("0", data)
    assert run.returncode == 5, f"{name}: {run}"
    words = run.stderr.decode().strip().split(": ")[-1].split()
    return " ".join([words[0]] + words[2:]), None


ROUNDS = [pytest.param(1, marks=pytest.mark.slow(seconds=1)),
          *(pytest.param(at, marks=pytest.mark.huge) for at in (2, 3, 4))]


@pytest.mark.parametrize("round_", ROUNDS, ids=lambda number: f"round {number}")
@pytest.mark.parametrize("chunk", ["9", "0"], ids=["fixed chunks", "counted chunks"])
@pytest.mark.parametrize("format_, extra", LAYOUTS, ids=lambda number: str(number))
def test_c_answers_as_las_for_damaged_files(program, check, files, tmp_path, format_, extra, chunk, round_):
    """And writes the same where both accept."""
    names = damaged_files(check, files, tmp_path, format_, extra, chunk, f"{format_} {extra} {chunk} {round_}")
    lines = "".join(name + "\n" for name in names).encode()
    answers = commands.good([check, "all"], cwd=tmp_path, stdin=None, input=lines)
    wanted = [answer_of(program, name) for name in names]
    assert answers.splitlines() == [answer for answer, _ in wanted]
    for name, (_, data) in zip(names, wanted):
        if data is not None:
            assert Path(name + ".out").read_bytes() == data, name
    # enough of each kind, so that the comparison says something
    assert sum(answer == "0" for answer, _ in wanted) >= 1
    assert sum(answer.startswith("21 ") for answer, _ in wanted) >= HOSTILE // 8


@pytest.fixture
def documented(program, library, tmp_path):
    """A folder as the lines of docs/library.md want it: lib/ and c/ of the checkout, and m.laz."""
    needs.command("cc", "gcc")
    shutil.copytree(library, tmp_path / "lib")
    shutil.copytree(TOP / "c", tmp_path / "c")
    commands.good([program, "make", "-o", tmp_path / "m.las", "-z", tmp_path / "m.laz", "-points", "200000", "-seed",
                   "7", "-format", "3"])
    report = commands.good([program, "lasinfo", "-i", tmp_path / "m.laz"])
    wanted = sorted(line for line in report.splitlines() if line.startswith(("points ", "raw z ")))
    assert len(wanted) == 2
    return tmp_path, wanted


def built_as_documented(place):
    lines, = [block for block in blocks("sh") if "lib/liblaz.a -o heights" in block]
    return commands.good(["sh", "-euc", lines], cwd=place)


def test_c_program_of_the_page(documented):
    place, wanted = documented
    assert sorted(built_as_documented(place).splitlines()) == wanted


def test_c_program_of_the_page_reads_a_plain_file_and_refuses_others(documented):
    place, wanted = documented
    built_as_documented(place)
    assert sorted(commands.good([place / "heights", "m.las"], cwd=place).splitlines()) == wanted
    run = commands.quiet([place / "heights", "heights"], cwd=place)
    assert (run.returncode, run.stdout, run.stderr) == (2, b"", b"heights: refused: 2 Magic\n")


def test_page_shows_the_c_program_as_it_is():
    shown, = blocks("c")
    assert shown in (TOP / "c" / "heights.c").read_text()


def test_c_program_by_pkg_config(documented):
    place, wanted = documented
    needs.command("pkg-config", "pkg-config")
    script = """mkdir -p there/lib/pkgconfig there/include
cp -r lib/liblaz.so* lib/glibc-hwcaps there/lib; cp lib/las.h lib/laz.hpp there/include
sed "s|@prefix@|$PWD/there|; s|@version@|1.0|" lib/liblaz.pc.in >there/lib/pkgconfig/liblaz.pc
export PKG_CONFIG_PATH="$PWD/there/lib/pkgconfig"
cc -O2 c/heights.c $(pkg-config --cflags --libs liblaz) -o shared
LD_LIBRARY_PATH="$PWD/there/lib" ./shared m.laz"""
    assert sorted(commands.good(["sh", "-euc", script], cwd=place).splitlines()) == wanted


def test_program_that_times_the_coder(documented):
    place, _ = documented
    script = "cc -O2 -Wall -Wextra -Werror -Ilib c/times.c lib/liblaz.a -o times; ./times m.las 50000"
    said = commands.good(["sh", "-euc", script], cwd=place)
    assert re.fullmatch(r"packing [1-9]\d* ns a point\nunpacking [1-9]\d* ns a point\n", said)
