"""Installing in an empty folder, running there without the checkout, and removing."""
import os
import shutil
from pathlib import Path

import pytest

import commands
import shared
from checkouts import Checkout
from las_files import FILE
from places import Place

INSTALLED = ["bin/las", "bin/las-batch", "bin/las-batch-job", "share/las/help/batch", "libexec/las/las-x86-64-v2",
             "libexec/las/las-x86-64-v3", "lib/liblaz.a", "lib/liblaz.so", "lib/pkgconfig/liblaz.pc", "include/las.h",
             "include/laz.hpp", "lib/glibc-hwcaps/x86-64-v3/liblaz.so", "share/man/man1/las.1",
             "share/bash-completion/completions/las", "share/las/help/options", "share/doc/las/web/viewer.html",
             "share/doc/las/web/laz.wasm", "share/doc/las/web/laz.mjs", "share/doc/las/web/laz.d.mts",
             "share/doc/las/web/las.mjs"]


def tree(folder):
    """Every name below a folder, with what a file holds."""
    return {os.path.relpath(os.path.join(at, name), folder): Path(at, name).read_bytes() if name in files else None
            for at, folders, files in os.walk(folder) for name in folders + files}


class Installing:
    """A checkout with the program that is checked, and a folder to install in."""

    PREFIX = "prefix with blank"

    def __init__(self, folder, program):
        self.at = Checkout(folder, Path(program).read_bytes())
        self.at.without_rt()
        self.prefix = folder / self.PREFIX

    def __call__(self, *words, status=0, part="", **more):
        run = commands.quiet([self.at.path("install"), *words], env={**self.at.environment, **more})
        assert run.returncode == status, run
        assert part in (run.stdout + run.stderr).decode()


@pytest.fixture
def install(program, tmp_path):
    return Installing(tmp_path, program)


@pytest.fixture
def installed(install, tmp_path):
    """The place of the installed program, with the tools that it uses, and no checkout."""
    install.prefix.mkdir()
    install(install.prefix, part="installed below")
    hidden = tmp_path / "hidden"
    install.at.folder.rename(hidden)
    here = tmp_path / "here"
    here.mkdir()
    place = Place(here, str(install.prefix / "bin" / "las"))
    place.environment = {**os.environ, "PATH": str(hidden / "tools")}
    return place


@pytest.fixture(scope="module")
def whole(program, tmp_path_factory):
    """A folder with all that is installed, which cases look at and do not change."""
    def make(folder):
        install = Installing(folder, program)
        install.prefix.mkdir()
        install(install.prefix, part="installed below")

    return shared.once(tmp_path_factory, "all that install puts there", make) / Installing.PREFIX


@pytest.mark.parametrize("name", INSTALLED)
def test_what_is_installed(whole, name):
    assert (whole / name).is_file()


def test_installed_program_packs_and_unpacks_without_the_checkout_and_rt(installed):
    installed.write("a.las", FILE)
    for words in (["-i", "a.las", "-o", "a.laz"], ["-i", "a.laz", "-o", "b.las"]):
        run = installed.las("laszip", *words, env=installed.environment)
        assert (run.returncode, run.stderr) == (0, b"")
    assert installed.read("b.las") == FILE


def test_installed_help(installed):
    run = installed.las("help", "laszip", env=installed.environment)
    assert run.returncode == 0
    assert run.stdout.startswith(b"las laszip: ")


def test_installed_version(installed):
    run = installed.las("--version", env=installed.environment)
    assert run.returncode == 0
    assert b"\nkit kit of a check\n" in run.stdout


def test_install_again(install):
    install.prefix.mkdir()
    install(install.prefix)
    install(install.prefix, part="installed below")


def test_what_was_not_installed_stays_after_removing(install):
    install.prefix.mkdir()
    install(install.prefix)
    (install.prefix / "bin" / "mine").write_bytes(b"mine")
    install("--remove", install.prefix)
    assert tree(install.prefix) == {"bin": None, "bin/mine": b"mine"}


def test_nothing_is_left_to_remove(install):
    install.prefix.mkdir()
    install(install.prefix)
    install("--remove", install.prefix)
    install("--remove", install.prefix, status=1, part="nothing is installed below")


def test_another_program_is_not_written_over(install):
    (install.prefix / "bin").mkdir(parents=True)
    (install.prefix / "bin" / "las").write_bytes(b"another program")
    before = tree(install.prefix)
    install(install.prefix, status=1, part="is there already")
    assert tree(install.prefix) == before


def test_folder_that_was_made_is_removed(install):
    install(install.prefix)
    install("--remove", install.prefix)
    assert not install.prefix.exists()


def test_install_below_destdir(install, tmp_path):
    install("/usr", DESTDIR=str(tmp_path / "stage"))
    assert (tmp_path / "stage" / "usr" / "bin" / "las").is_file()
    shutil.rmtree(tmp_path / "stage")


def test_option_that_is_none(install):
    install("--none", status=1, part="is no option")
