"""Whole files by the library for C and C++: what is read and written is what `las` reads and writes."""
import os
import random
import re
import shutil
import struct
import subprocess
from pathlib import Path

import pytest

import commands
import library_files
import needs
import shared
from file_calls import EIO, ENOSPC, Disk, Watcher, after_power_cuts
from library_files import LAYOUTS
from programs import TOP
from test_library_c import HOSTILE, answer_of, damaged_files

TILE = TOP / "examples" / "tile.laz"
SOURCES = [TOP / "c" / f"{name}.c" for name in ("laz_reader", "laz_writer", "laz_paths")]
STRICT = ["-std=c11", "-O1", "-g", "-Wall", "-Wextra", "-Wpedantic", "-Wconversion", "-Werror", f"-I{TOP / 'c'}"]
WRAPPED = "-Wl,--wrap=malloc,--wrap=calloc,--wrap=realloc"
SANITIZERS = ["-fsanitize=address,undefined", "-fno-sanitize-recover=all"]


def good(*line, **more):
    """What a command prints, which has to end with status 0."""
    return commands.good([str(word) for word in line], **more)


@pytest.fixture(scope="session")
def archive(tmp_path_factory):
    return library_files.library(tmp_path_factory) / "liblaz.a"


@pytest.fixture(scope="session")
def built(tmp_path_factory, archive):
    """Programs over the library: check_files of the sources with sanitizers, and the rest over the archive."""
    needs.command("gcc", "gcc")

    def make(folder):
        check = TOP / "c" / "check_files.c"
        commands.good(["gcc", *STRICT, *SANITIZERS, WRAPPED, check, *SOURCES, archive, "-o", folder / "check_files"])
        commands.good(["gcc", *STRICT, WRAPPED, check, archive, "-o", folder / "check_archive"])
        commands.good(["gcc", *STRICT, "-fsanitize=thread", TOP / "c" / "filter.c", *SOURCES, archive, "-o",
                       folder / "filter_threads"])
        commands.good(["gcc", *STRICT, TOP / "c" / "filter.c", archive, "-o", folder / "filter"])

    return shared.once(tmp_path_factory, "whole_files", make)


@pytest.fixture(scope="session")
def files(tmp_path_factory, program):
    return library_files.plain_files(tmp_path_factory, program)


@pytest.mark.parametrize("threads, batch", [(1, 1000), (3, 77)], ids=str)
@pytest.mark.parametrize("format_, extra", LAYOUTS, ids=lambda number: str(number))
def test_each_layout_is_packed_and_unpacked_as_las_does(built, files, tmp_path, format_, extra, threads, batch):
    """For any threads and batches, under the head as it stands and under one that is counted anew."""
    name = files / f"{format_}_{extra}"
    good(built / "check_files", "copy", f"{name}.las", tmp_path / "a.laz", 256, threads % 2, threads, batch)
    assert (tmp_path / "a.laz").read_bytes() == Path(f"{name}.laz").read_bytes()
    for kind in (".las", ".laz", ".counted.laz"):
        good(built / "check_files", "copy", f"{name}{kind}", tmp_path / "a.las", 0, 0, threads, batch)
        assert (tmp_path / "a.las").read_bytes() == Path(f"{name}.las").read_bytes(), kind
    assert sorted(os.listdir(tmp_path)) == ["a.las", "a.laz"]


@pytest.mark.parametrize("kind", [".las", ".laz", ".counted.laz"], ids=["plain", "fixed chunks", "counted chunks"])
@pytest.mark.parametrize("start, stop", [(0, 1000), (0, 0), (999, 1000), (255, 257), (256, 512), (3, 990)], ids=str)
def test_range(built, files, tmp_path, kind, start, stop):
    data = (files / "3_4.las").read_bytes()
    first = struct.unpack_from("<I", data, 96)[0]
    good(built / "check_files", "range", files / f"3_4{kind}", tmp_path / "a", start, stop, 3)
    assert (tmp_path / "a").read_bytes() == data[first + 38 * start:first + 38 * stop]


def test_range_reads_only_its_chunks_and_gives_those_before_a_bad_one(built, files, tmp_path):
    data = bytearray((files / "0_0.laz").read_bytes())
    first = struct.unpack_from("<I", data, 96)[0] + 8
    plain = (files / "0_0.las").read_bytes()[-20_000:]
    bad = data.find(plain[20 * 256:20 * 257])  # the first record of chunk 1 stands in it as it is
    assert bad > first
    data[bad:bad + 60] = bytes(60)
    (tmp_path / "bad.laz").write_bytes(data)
    line = [built / "check_files", "range", tmp_path / "bad.laz", tmp_path / "a"]
    for start, stop in ((0, 256), (512, 1000)):
        good(*line, start, stop, 2)
        assert (tmp_path / "a").read_bytes() == plain[20 * start:20 * stop]
    run = commands.quiet([str(it) for it in (*line, 100, 900, 3)])
    assert (run.returncode, run.stderr.decode()) == (2, f"{tmp_path}/bad.laz: refused: 21 BadChunk 1\n")
    assert (tmp_path / "a").read_bytes() == plain[20 * 100:20 * 256]


@pytest.mark.parametrize("chunk", ["9", "0"], ids=["fixed chunks", "counted chunks"])
@pytest.mark.parametrize("format_, extra", [(0, 0), (1, 4), (3, 192)], ids=str)
def test_answers_are_those_of_las_for_damaged_files(program, built, files, tmp_path, tmp_path_factory, format_, extra,
                                                    chunk):
    check = library_files.c_program(tmp_path_factory)
    names = damaged_files(check, files, tmp_path, format_, extra, chunk, f"whole {format_} {extra} {chunk}")
    lines = "".join(name + "\n" for name in names).encode()
    answers = good(built / "check_files", "all", "3", cwd=tmp_path, stdin=None, input=lines)
    wanted = [answer_of(program, name) for name in names]
    assert answers.splitlines() == [answer for answer, _ in wanted]
    for name, (_, data) in zip(names, wanted):
        assert Path(name + ".out").exists() == (data is not None), name
        assert data is None or Path(name + ".out").read_bytes() == data, name
    assert sum(answer.startswith("21 ") for answer, _ in wanted) >= HOSTILE // 8


def test_a_table_pointer_outside_the_file_is_refused_as_las_refuses_it(program, built, files, tmp_path):
    data = bytearray((files / "1_1.laz").read_bytes())
    first = struct.unpack_from("<I", data, 96)[0]
    names = []
    for at, pointer in enumerate((0, first, first + 7, len(data) + 1, 2**63, 2**64 - 1, 2**64 - 2)):
        struct.pack_into("<Q", data, first, pointer)
        (tmp_path / str(at)).write_bytes(data)
        names.append(str(tmp_path / str(at)))
    (tmp_path / "cut").write_bytes(data[:first + 5])
    names.append(str(tmp_path / "cut"))
    said = good(built / "check_files", "all", "2", stdin=None, input="".join(f"{it}\n" for it in names).encode())
    assert said.splitlines() == [answer_of(program, name)[0] for name in names]
    assert "18" in said.splitlines()


@pytest.fixture
def few(program, built, files, tmp_path):
    """A packed file of 90 points in three chunks, and the plain one."""
    good(program, "las2las", "-i", files / "1_1.las", "-o", tmp_path / "few.las", "-stop_at_point", 90)
    good(built / "check_files", "copy", tmp_path / "few.las", tmp_path / "few.laz", 40, 0, 1, 90)
    return tmp_path


@pytest.mark.parametrize("kind, chunk", [(".laz", 40), (".laz", 0), (".las", 40)], ids=str)
def test_each_allocation_and_each_call_of_a_file_that_fails(built, few, kind, chunk):
    assert int(good(built / "check_archive", "failing", few / f"few{kind}", chunk)) > 15


def test_wrong_arguments(built, files):
    good(built / "check_files", "wrong", files / "3_4.laz")


@pytest.mark.slow(seconds=20)
def test_valgrind_finds_nothing(built, files, few):
    needs.command("valgrind", "valgrind")
    line = ["valgrind", "-q", "--error-exitcode=7", "--leak-check=full", built / "check_archive"]
    good(*line, "wrong", files / "3_4.laz", timeout=900)
    good(*line, "copy", few / "few.laz", few / "a.laz", 40, 3, 3, 25, timeout=900)
    good(*line, "failing", few / "few.laz", 40, timeout=1800)


def test_threads_have_no_race(program, built, tmp_path):
    commands.good([built / "filter_threads", TILE, tmp_path / "a.laz", "2"])
    commands.good([program, "las2las", "-i", TILE, "-o", tmp_path / "b.laz", "-keep_class", "2"])
    assert (tmp_path / "a.laz").read_bytes() == (tmp_path / "b.laz").read_bytes()


@pytest.mark.parametrize("flags", [[], ["-ffreestanding", "-nostdinc"]], ids=["here", "without the system's headers"])
@pytest.mark.parametrize("name", ["laz_reader", "laz_writer"])
def test_the_part_over_calls_needs_nothing_of_the_system(tmp_path, name, flags):
    needs.command("nm", "binutils")
    headers = commands.good(["gcc", "-print-file-name=include"]).strip()  # those of C itself
    commands.good(["gcc", *STRICT, *flags, "-isystem", headers, "-c", TOP / "c" / f"{name}.c", "-o",
                   tmp_path / "object"])
    used = commands.good(["nm", "-u", tmp_path / "object"]).split()[1::2]
    assert {it for it in used if not it.startswith("laz_c_")} <= {"malloc", "calloc", "realloc", "free", "memcpy",
                                                                  "memmove", "memset"}


@pytest.mark.parametrize("name, end", [("3_4.laz", 0), ("1_0.las", 0), ("0_0.counted.laz", 0), ("none", 4),
                                       ("head", 2)])
def test_heights_over_calls_are_those_by_the_path(files, archive, tmp_path, name, end):
    for program in ("heights", "heights_io"):
        commands.good(["gcc", *STRICT, *SANITIZERS, TOP / "c" / f"{program}.c", archive, "-o", tmp_path / program])
    (tmp_path / "head").write_bytes(b"no head of a file")
    path = tmp_path / name if name in ("none", "head") else files / name
    ours, theirs = (commands.quiet([tmp_path / program, path]) for program in ("heights_io", "heights"))
    assert (ours.returncode, ours.stdout) == (theirs.returncode, theirs.stdout)
    assert ours.returncode == end
    assert ours.stderr.split()[:3] == theirs.stderr.split()[:3]  # a path has an errno beside it


@pytest.mark.parametrize("name, most", [("heights.c", 30), ("filter.c", 60), ("filter.cpp", 30)])
def test_programs_are_short(name, most):
    assert len((TOP / "c" / name).read_text().splitlines()) <= most


def test_each_call_is_documented_as_doxygen_reads_it(tmp_path):
    needs.command("clang", "clang")
    header = (TOP / "c" / "las.h").read_text()
    commands.good(["clang", "-fsyntax-only", "-Wdocumentation", "-Wdocumentation-pedantic", "-Werror", "-x", "c",
                   TOP / "c" / "las.h"])
    calls = re.findall(r"(?:^.*\n)(?=^[a-z][^\n(]*\blaz_\w+\([^;]*;)", header, re.MULTILINE)
    assert len(calls) >= 25
    assert [line for line in calls if not line.rstrip().endswith("*/")] == []


@pytest.mark.slow(seconds=5)
def test_cpp_filters_as_las2las(program, archive, tmp_path):
    needs.command("g++", "g++")
    sources = [it for name in SOURCES for it in (tmp_path / f"{name.stem}.o",)]
    for source, made in zip(SOURCES, sources):
        commands.good(["gcc", *STRICT, *SANITIZERS, "-c", source, "-o", made])
    commands.good(["g++", "-std=c++17", "-g", "-Wall", "-Wextra", "-Wpedantic", "-Wconversion", "-Werror", *SANITIZERS,
                   f"-I{TOP / 'c'}", TOP / "c" / "filter.cpp", *sources, archive, "-o", tmp_path / "filter"])
    commands.good([tmp_path / "filter", TILE, tmp_path / "a.laz", "6"])
    commands.good([program, "las2las", "-i", TILE, "-o", tmp_path / "b.laz", "-keep_class", "6"])
    assert (tmp_path / "a.laz").read_bytes() == (tmp_path / "b.laz").read_bytes()
    run = commands.quiet([tmp_path / "filter", tmp_path / "filter", tmp_path / "c.laz", "6"])
    assert (run.returncode, run.stderr.decode()) == (2, f"{tmp_path}/filter: refused: 2 Magic\n")
    assert not (tmp_path / "c.laz").exists()


class Trial:
    """A folder with an older file `a.laz`, and runs of the filter that write another one over it."""

    def __init__(self, folder, program):
        self.folder = folder / "place"
        self.folder.mkdir()
        self.name = self.folder / "a.laz"
        self.watcher = Watcher(folder, self.folder)
        self.program = program
        assert self.write().returncode == 0
        self.new = self.name.read_bytes()
        self.old = b"an older file"
        self.again()

    def again(self):
        shutil.rmtree(self.folder)
        self.folder.mkdir()
        self.name.write_bytes(self.old)

    def write(self, **how):
        return self.watcher.run(str(self.program), str(TILE), str(self.name), "6", **how)


@pytest.fixture
def trial(built, tmp_path):
    return Trial(tmp_path, built / "filter")


@pytest.mark.parametrize("error", [ENOSPC, EIO])
def test_each_call_of_the_system_that_fails_leaves_the_older_file(trial, error):
    assert trial.write().returncode == 0
    count = len(trial.watcher.calls())
    assert count > 5
    for at in range(1, count + 1):
        trial.again()
        done = trial.write(at=at, how="fails", error=error)
        found = {path.name: path.read_bytes() for path in trial.folder.iterdir()}
        assert found["a.laz"] in (trial.old, trial.new), at
        assert found["a.laz"] == trial.new or done.returncode == 5, at


@pytest.mark.parametrize("how", ["before", "after"])
def test_a_kill_at_each_call_leaves_a_whole_file(trial, how):
    assert trial.write().returncode == 0
    for at in range(1, len(trial.watcher.calls()) + 1):
        trial.again()
        trial.write(at=at, how=how)
        assert trial.name.read_bytes() in (trial.old, trial.new), at
        left = [path.name for path in trial.folder.iterdir() if path.name != "a.laz"]
        assert all(name.startswith(".a.laz.") and name.endswith(".part") for name in left), left


def test_a_power_cut_at_each_call_leaves_a_whole_file(trial):
    disk = Disk(trial.folder)
    assert trial.write().returncode == 0
    calls = trial.watcher.calls()
    for done, state in after_power_cuts(disk, calls):
        assert state[str(trial.name)] in (trial.old, trial.new), (done, calls[done - 1:done])


@pytest.mark.parametrize("kind", ["folder", "FIFO", "device", "a link that leads nowhere"])
def test_what_is_no_regular_file_is_not_written(built, tmp_path, kind):
    name = tmp_path / "odd.laz"
    if kind == "folder":
        name.mkdir()
    elif kind == "FIFO":
        os.mkfifo(name)
    else:
        name.symlink_to("/dev/null" if kind == "device" else "none")
    run = commands.quiet([built / "filter", TILE, name, "6"], timeout=60)
    assert run.returncode == 5
    assert os.listdir(tmp_path) == ["odd.laz"]
    if kind == "FIFO":
        assert commands.quiet([built / "filter", name, tmp_path / "a.laz", "6"], timeout=60).returncode == 4


def test_a_link_and_the_mode_stay(built, tmp_path):
    (tmp_path / "real.laz").write_bytes(b"old")
    (tmp_path / "real.laz").chmod(0o640)
    (tmp_path / "a.laz").symlink_to("real.laz")
    commands.good([built / "filter", TILE, tmp_path / "a.laz", "6"])
    assert (tmp_path / "a.laz").is_symlink()
    assert (tmp_path / "real.laz").stat().st_mode & 0o777 == 0o640
    assert (tmp_path / "real.laz").stat().st_size > 100


@pytest.mark.parametrize("threads", ["1", "64"])
def test_spoilt_files_take_little_memory(built, files, tmp_path, threads):
    """Many damaged files in one process below 300 MB."""
    choose = random.Random(53)
    data = (files / "3_4.laz").read_bytes()
    names = [tmp_path / str(number) for number in range(300)]
    for name in names:
        name.write_bytes(library_files.damaged(data, choose))
    script = "import resource, subprocess, sys; subprocess.run(sys.argv[1:], check=True); " \
             "print(resource.getrusage(resource.RUSAGE_CHILDREN).ru_maxrss // 1024)"
    run = subprocess.run(["/usr/bin/python3", "-c", script, built / "check_archive", "all", threads], check=True,
                         stdout=subprocess.PIPE, input="".join(f"{name}\n" for name in names).encode(), timeout=300)
    assert int(run.stdout.split()[-1]) < 300
