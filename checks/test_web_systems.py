"""The library for C on Windows, run under Wine; those for macOS, as far as they can be looked at without a Mac."""
import gzip
import os
import random
import re
import subprocess

import pytest

import commands
import library_files
import needs
from programs import TOP

ARCHIVES = {
    "windows": "liblaz-x86_64-pc-windows-gnu.a", "macOS on Intel": "liblaz-x86_64-apple-macosx11-untried.a",
    "macOS on Apple silicon": "liblaz-aarch64-apple-macosx11-untried.a"}
# all but those that need POSIX
CALLS = {name for name in re.findall(r"^(?! \*)[a-z].*?\b(laz_\w+)\(", (TOP / "c" / "las.h").read_text(), re.MULTILINE)
         if not name.endswith("_path")}


def objects(data: bytes) -> dict[str, bytes]:
    """The objects of an archive, by name. Its other members are lists of names."""
    assert data[:8] == b"!<arch>\n"
    at, found = 8, {}
    while at < len(data):
        name, size = data[at:at + 16].decode().strip(), int(data[at + 48:at + 58])
        member = data[at + 60:at + 60 + size]
        if name.startswith("#1/"):  # the name stands before the bytes
            length = int(name[3:])
            name, member = member[:length].rstrip(b"\0").decode(), member[length:]
        if name.rstrip("/").endswith(".o"):
            found[name.rstrip("/")] = member
        at += 60 + size + size % 2
    return found


@pytest.mark.parametrize("name", ARCHIVES)
def test_archive_is_of_its_system_and_has_each_call(name):
    data = gzip.decompress((TOP / "release" / f"{ARCHIVES[name]}.gz").read_bytes())
    begins = {"windows": b"\x64\x86", "macOS on Intel": b"\xcf\xfa\xed\xfe\x07\0\0\x01",
              "macOS on Apple silicon": b"\xcf\xfa\xed\xfe\x0c\0\0\x01"}
    found = objects(data)
    assert sorted(found) == ["laz.o", "laz_reader.o", "laz_writer.o"]
    assert [one for one, member in found.items() if not member.startswith(begins[name])] == []
    assert len(CALLS) == 25
    assert [call for call in CALLS if call.encode() not in data] == []
    assert b"/tmp/" not in data


@pytest.fixture(scope="module")
def programs(tmp_path_factory):
    """checks/portable_cases.c and checks/portable_files.c over the library of Linux, and over that of Windows."""
    compiler = needs.command("x86_64-w64-mingw32-gcc", "gcc-mingw-w64-x86-64")
    folder = tmp_path_factory.mktemp("programs")
    (folder / "liblaz.a").write_bytes(gzip.decompress((TOP / "release" / f"{ARCHIVES['windows']}.gz").read_bytes()))
    flags = ["-std=c11", "-O2", "-Wall", "-Wextra", "-Werror", f"-I{TOP / 'c'}"]
    commands.good([compiler, *flags, TOP / "c" / "heights_io.c", folder / "liblaz.a", "-o", folder / "heights.exe"])
    native = library_files.library(tmp_path_factory) / "liblaz.a"
    for name in ("cases", "files"):
        source = TOP / "checks" / f"portable_{name}.c"
        commands.good([compiler, *flags, source, folder / "liblaz.a", "-o", folder / f"{name}.exe"])
        commands.good([needs.command("gcc", "gcc"), *flags, source, native, "-pthread", "-o", folder / name])
    return folder


def under_wine(folder, *line):
    wine = next((path for path in ("/usr/lib/wine/wine64", "/usr/bin/wine64", "/usr/bin/wine") if os.path.exists(path)),
                None)
    if wine is None:
        needs.missing("wine64 is missing", "wine64")
    settings = {**os.environ, "WINEPREFIX": str(folder / "wine"), "WINEDEBUG": "-all", "DISPLAY": ""}
    run = subprocess.run([wine, *line], cwd=folder, env=settings, stdin=subprocess.DEVNULL, stdout=subprocess.PIPE,
                         stderr=subprocess.PIPE, timeout=1200, check=False)
    assert run.returncode == 0, run.stderr.decode(errors="replace")[-2000:]
    return run.stdout.decode().replace("\r\n", "\n")


@pytest.fixture(scope="module")
def count(programs, tmp_path_factory, program):
    """The number of files whose names are in `list`, and for Windows in `windows`: 32 whole ones, and damaged ones."""
    files = library_files.plain_files(tmp_path_factory, program)
    whole = [files / f"{format_}_{extra}{kind}.laz" for format_, extra in library_files.LAYOUTS
             for kind in ("", ".counted")]
    choose, names = random.Random(5), list(whole)
    for number in range(400):
        path = programs / f"{number}.laz"
        path.write_bytes(library_files.damaged(choose.choice(whole).read_bytes(), choose))
        names.append(path)
    (programs / "list").write_text("".join(f"{name}\n" for name in names))
    (programs / "windows").write_text("".join(f"Z:{name}\n" for name in names))
    return len(names)


def fnv(data: bytes) -> str:
    total = 14695981039346656037
    for byte in data:
        total = (total ^ byte) * 1099511628211 % 2**64
    return f"{total:016x}"


@pytest.mark.browser
def test_whole_files_on_windows_are_those_of_linux(programs, count, tmp_path_factory, program):
    """Over calls of the caller's. Of the whole files the sums are those of the files that `las` makes."""
    wanted = commands.good([programs / "files", "list"], cwd=programs)
    lines, files = wanted.splitlines(), library_files.plain_files(tmp_path_factory, program)
    assert len(lines) == count
    for (format_, extra), line in zip(library_files.LAYOUTS, lines[:32:2]):
        plain, packed = ((files / f"{format_}_{extra}{end}").read_bytes() for end in (".las", ".laz"))
        assert line == f"done {fnv(plain)} {fnv(packed)}"
    assert sum(line.startswith("refused: 21 BadChunk ") for line in lines) > 50
    assert under_wine(programs, "files.exe", "windows") == wanted


@pytest.mark.browser
def test_windows_answers_as_linux(programs, count):
    wanted = commands.good([programs / "cases", "list"], cwd=programs)
    lines = wanted.splitlines()
    assert len(lines) == count
    assert all(line.split()[1] == line.split()[2] for line in lines[:32])  # packed again to the same bytes
    assert sum(line.startswith("21 ") for line in lines) > 50
    assert under_wine(programs, "cases.exe", "windows") == wanted


@pytest.mark.browser
def test_heights_of_the_sample(programs):
    said = under_wine(programs, "heights.exe", f"Z:{TOP / 'examples' / 'tile.laz'}")
    assert said == "points 20493\nraw z 21494 23445\n"


def test_heights_by_calls_of_its_own_are_those_of_the_library(tmp_path, tmp_path_factory):
    """The example of docs/web.md, on this system."""
    gcc, archive = needs.command("gcc", "gcc"), library_files.library(tmp_path_factory) / "liblaz.a"
    strict = ["-std=c11", "-O2", "-Wall", "-Wextra", "-Werror", f"-I{TOP / 'c'}"]
    (tmp_path / "cut.laz").write_bytes((TOP / "examples" / "tile.laz").read_bytes()[:50_000])
    files, ends = [TOP / "examples" / "tile.laz", tmp_path / "cut.laz"], []
    for name in ("heights_io", "heights"):
        commands.good([gcc, *strict, TOP / "c" / f"{name}.c", archive, "-o", tmp_path / name])
        runs = [commands.quiet([tmp_path / name, file]) for file in files]
        ends.append([(run.returncode, run.stdout, run.stderr) for run in runs])
    assert ends[0] == ends[1]
    assert [status for status, _, _ in ends[0]] == [0, 2]
