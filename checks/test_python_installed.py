"""The Python package as docs/library.md says it is installed: which library it loads, its program and its plot."""
import os
import re
import shutil

import pytest

import commands
import library_files
import needs
import shared
from library_files import V3, blocks
from programs import TOP, runs_v3

LOADED = """import balsamvise.library as library
library._calls()
print(library._library._name)
"""


@pytest.fixture(scope="session")
def place(tmp_path_factory, program):
    """A folder as the lines of docs/library.md want it, with the package in a virtual environment."""
    needs.module("numpy", "python3-numpy")
    needs.module("ensurepip", "python3-venv")
    needs.module("setuptools", "python3-setuptools")
    needs.module("wheel", "python3-wheel")
    library = library_files.library(tmp_path_factory)

    def make(folder):
        shutil.copytree(library, folder / "lib")
        shutil.copytree(TOP / "python", folder / "python",
                        ignore=shutil.ignore_patterns("build", "*.egg-info", "__pycache__"))
        commands.good([program, "make", "-o", folder / "m.las", "-z", folder / "m.laz", "-points", "200000", "-seed",
                       "7", "-format", "3"])
        lines, = [block for block in blocks("sh") if "build-isolation ./python" in block]
        commands.good(["sh", "-euc", lines], cwd=folder, env=environment(folder))

    return shared.once(tmp_path_factory, "installed", make)


def environment(place, **more):
    return dict(os.environ, PATH=f"/usr/bin:{os.environ['PATH']}", PYTHONDONTWRITEBYTECODE="1",
                MPLCONFIGDIR=str(place), **more)


def said(place, script, **more):
    return commands.good([place / "venv" / "bin" / "python", "-c", script], cwd=place, env=environment(place, **more))


def test_package_is_installed(place):
    assert said(place, "import balsamvise; print(balsamvise.__file__)").startswith(str(place / "venv"))


def test_build_that_suits_the_processor_is_taken_from_a_folder(place):
    best = place / "lib" / (V3 if runs_v3() else "liblaz.so")
    assert os.path.normpath(said(place, LOADED, BALSAMVISE_LIBRARY=str(place / "lib")).strip()) == str(best)


def test_file_that_is_named_is_taken(place):
    named = str(place / "lib" / "liblaz.so")
    assert os.path.normpath(said(place, LOADED, BALSAMVISE_LIBRARY=named).strip()) == named


def test_folder_with_one_build(place, tmp_path):
    shutil.copy(place / "lib" / "liblaz.so", tmp_path)
    assert said(place, LOADED, BALSAMVISE_LIBRARY=str(tmp_path)).strip() == str(tmp_path / "liblaz.so")


def test_launcher_and_package_know_x86_64_v3_by_the_same_flags(place):
    shell = (TOP / "release" / "processor.sh").read_text()
    flags = re.search(r"runs_v3\(\) \{\n.*\n +has_flags (.*)\n", shell).group(1).split()
    assert said(place, "import balsamvise.library as it; print(*sorted(it.V3_FLAGS))").split() == sorted(flags)


def test_python_program_of_the_page(place, tmp_path):
    shutil.copy(place / "m.laz", tmp_path)
    programs = blocks("python")
    assert programs
    run = commands.good([place / "venv" / "bin" / "python", "-c", programs[0]], cwd=tmp_path,
                        env=environment(place, BALSAMVISE_LIBRARY=str(place / "lib")))
    assert run.startswith("200000 points")
    assert (tmp_path / "first.laz").is_file()


def test_commands_of_the_page(place, tmp_path):
    needs.module("matplotlib", "python3-matplotlib")
    os.symlink(place / "venv", tmp_path / "venv")
    shutil.copy(place / "m.laz", tmp_path)
    lines, = [block for block in blocks("sh") if "fit-box" in block]
    said = commands.good(["sh", "-euc", lines], cwd=tmp_path,
                         env=environment(place, BALSAMVISE_LIBRARY=str(place / "lib")))
    assert said == "m.laz: the box is mended\nfew.laz: 1000 points\n"
    image = (tmp_path / "m.png").read_bytes()
    assert image[:8] == b"\x89PNG\r\n\x1a\n"
    assert len(image) > 10_000
