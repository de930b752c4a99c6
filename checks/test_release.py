"""The release step of the gate refuses a stale release, another program, and no release."""
import gzip
import os
import re

import pytest

import needs
import commands
from checkouts import PACKED, TELLER, Checkout, packages
from programs import TOP

NO_BUILD = "there is no crates/las/out/las"


def no_build(at):
    pass


def stale(at):
    at.source().write_text("pub fn other() {}\n")


def changed_program(at):
    at.path("release", "las-x86-64-v3.gz").write_bytes(gzip.compress(b"other"))


# What these give (the real ones need proved crates); a program of aarch64 is run as the others. Each build notes the
# folder for what is checked, and fails beside another one.
BUILD_FOR = ('#!/bin/sh\n[ "$1" = --checked ] && mkdir -p "$2" && mkdir "$2/now" || exit 1\n'
             'echo "$2" >>"$BUILDS"\nchecked=$2\nshift 2\n'
             'cp "$TELLER" "$2" && echo "logic=proved target=$1" && rmdir "$checked/now"\n')
LINK = '#!/bin/sh\ncp "$GIVES" "$3"\n'
LIBRARY = ('#!/bin/sh\n[ "$3" = --keep ] && echo module >"$4" && shift 4\n[ $# = 1 ] || exit 1\nset -- 1 2 "$1"\n'
           'mkdir -p "$3/glibc-hwcaps/x86-64-v3" "$3/aarch64"\n'
           'for target in x86-64-v2 x86-64-v3 aarch64; do\n'
           'echo "$target logic=proved target=$target"\ndone >"$3/verdicts"\n'
           'for name in liblaz.a liblaz.so glibc-hwcaps/x86-64-v3/liblaz.so aarch64/liblaz.a aarch64/liblaz.so; do\n'
           'cp "$TELLER" "$3/$name"\ndone\n')
WASM = ('#!/bin/sh\nmkdir -p "$2"\nfor name in laz.wasm liblaz-x86_64-pc-windows-gnu.a '
        'liblaz-x86_64-apple-macosx11-untried.a liblaz-aarch64-apple-macosx11-untried.a; do\n'
        'cp "$TELLER" "$2/$name"\ndone\n')
QEMU = '#!/bin/sh\nshift 2\nexec "$@"\n'


def built(at):
    at.own()
    at.environment["GIVES"] = str(at.path("teller"))
    for folder, name, text in (("release", "build_for", BUILD_FOR), ("release", "link", LINK),
                               ("release", "library", LIBRARY), ("release", "wasm", WASM),
                               ("bin", "qemu-aarch64", QEMU)):
        at.path(folder, name).write_text(text)
        at.path(folder, name).chmod(0o755)
    if at.path("release", "BUILT_FROM").exists():
        tools = commands.good(["sh", "-c", '. release/build.sh && compiler'], cwd=at.path("."), env=at.with_rt())
        made_by(at, tools.strip())


def made_by(at, tools):
    """Notes what tools the module of the release was made by."""
    place = at.path("release", "BUILT_FROM")
    place.write_text(re.sub(r"^compiler .*\n", "", place.read_text(), flags=re.MULTILINE) + f"compiler {tools}\n")
    at.document()


def other_v2(at):
    built(at)
    at.own(b"other")


def no_object(at):
    built(at)
    at.path("crates", "las", "out", "las.o").unlink()


def other_object(at):
    built(at)
    at.path("crates", "las", "out", "las.o").write_bytes(b"other")


def other_v3(at):
    built(at)
    at.path("teller").write_bytes(b"other")


def other_kit(at):
    built(at)
    place = at.path("release", "BUILT_FROM")
    place.write_text(place.read_text().replace("kit kit", "kit other kit"))
    at.document()


def other_document(at):
    at.path("release", "balsamvise.spdx.json").write_text("{}")


def other_linked(at):
    built(at)
    at.path("linked").write_text("other")
    at.environment["GIVES"] = str(at.path("linked"))


def other_packages(at):
    """What other packages give is tried: here a program that copies, so that it packs and unpacks the sample."""
    other_linked(at)
    at.path("linked").write_text('#!/bin/sh\ncp "$3" "$5"\n')
    at.path("linked").chmod(0o755)
    at.path("examples").mkdir()
    at.path("examples", "tile.laz").write_bytes(b"sample")
    place = at.path("release", "BUILT_FROM")
    place.write_text(re.sub(r"libc6-dev [^,]+", "libc6-dev 1.0", place.read_text()))
    at.document()


def other_packages_and_a_bad_program(at):
    other_packages(at)
    at.path("linked").write_text("#!/bin/sh\nexit 0\n")


def other_tools(at):
    """A module that other tools give is tried by the cases of Node."""
    built(at)
    made_by(at, "another one")
    at.path("check").write_text('#!/bin/sh\n[ -s "$LAZ_MODULE" ] && [ "$1 $2" = "-k test_web_node" ]\n')
    at.path("check").chmod(0o755)


def other_module(at):
    built(at)
    at.path("release", "wasm").write_text(WASM + 'echo more >>"$2/laz.wasm"\n')


def other_tools_and_a_bad_module(at):
    other_tools(at)
    at.path("check").write_text("#!/bin/sh\necho 3 failed\nexit 1\n")


def incomplete(at):
    place = at.path("release", "BUILT_FROM")
    place.write_text(re.sub(r"^las-aarch64-static .*\n", "", place.read_text(), flags=re.MULTILINE))


def no_release(at):
    built(at)
    at.path("release", "BUILT_FROM").unlink()


STATES = {
    "a release without a build": (no_build, 1, NO_BUILD),
    "a stale release": (stale, 1, "the release is stale: sources were changed after it: run release/make"),
    "a packed program that was changed": (changed_program, 1, "is not the file that release/BUILT_FROM names"),
    "an SPDX document of another release": (other_document, 1, "is not what release/spdx prints of the release"),
    "a release of these programs": (built, 0, ""),
    "a build without its object": (no_object, 0, ""),
    "another object": (other_object, 1, "release/las-x86-64.o.gz is not what the proved sources give"),
    "another static program": (other_linked, 1, "las-aarch64.gz is not the program that the proved sources give"),
    "other packages": (other_packages, 0, "libc6-dev (1.0 there, "),
    "other packages and a program that does not pack": (
        other_packages_and_a_bad_program, 1, "las-aarch64, linked with the packages of this machine, does not pack"),
    "other tools": (other_tools, 0, "laz.wasm was made by another one, and here is "),
    "other tools and a module that answers otherwise": (
        other_tools_and_a_bad_module, 1, "laz.wasm, made by the tools of this machine, does not do what the library"),
    "another module": (other_module, 1, "release/laz.wasm.gz is not what the library's module gives"),
    "a release without a program": (incomplete, 1, "the release has no las-aarch64-static"),
    "another program for x86-64-v2": (
        other_v2, 1, "the release for x86-64-v2 is not the program that the proved sources give"),
    "another program for x86-64-v3": (
        other_v3, 1, "the release for x86-64-v3 is not the program that the proved sources give"),
    "a release of another kit": (other_kit, 3, "bytes can't be compared"),
    "no release": (no_release, 1, "there is no release: run release/make"),
}


@pytest.mark.slow(seconds=4)
def test_release_that_is_made_anew_passes(tmp_path):
    """What is there of a build is packed, with what it was built from, the verdicts among it."""
    needs.command("ld", "binutils")
    needs.command("aarch64-linux-gnu-gcc", "gcc-aarch64-linux-gnu")
    at = Checkout(tmp_path, b'#!/bin/sh\ncp "$3" "$5"\n')
    built(at)
    at.own(b'#!/bin/sh\ncp "$3" "$5"\n')
    at.path("teller").chmod(0o755)
    at.path("examples").mkdir()
    at.path("examples", "tile.laz").write_bytes(b"sample")
    for name in PACKED:
        at.path("release", f"{name}.gz").unlink()
    at.path("release", "BUILT_FROM").unlink()
    printed = commands.good([at.path("release", "make"), "--as-built"], env=at.with_rt())
    lines = dict(line.split(" ", 1) for line in printed.splitlines())
    assert {*PACKED} <= {*lines}
    assert lines["packages"] == packages()
    assert lines["verdict:las:aarch64"] == "logic=proved target=aarch64"
    assert lines["verdict:laz_c:x86-64-v3"] == "logic=proved target=x86-64-v3"
    assert {path.name for path in at.path("release").glob("*.gz")} == {f"{name}.gz" for name in PACKED}
    made_in = at.builds.read_text().splitlines()
    assert "give" in commands.good([at.path("release", "make"), "--check"], env=at.with_rt())
    checked_in = at.builds.read_text().splitlines()[len(made_in):]
    assert (len(made_in), len(checked_in)) == (3, 2)
    # a folder of each run, which is gone after it
    assert (len({*made_in}), len({*checked_in}), len({*made_in, *checked_in})) == (1, 1, 2)
    assert not any(os.path.exists(path) for path in (*made_in, *checked_in))
    assert at.path("crates", "laz_c", "out", "laz.bc").read_text() == "module\n"


@pytest.mark.slow
@pytest.mark.parametrize("state", STATES)
def test_gate_on(tmp_path, state):
    needs.command("ld", "binutils")  # release/make compares the library only if the same linker made it
    make, status, part = STATES[state]
    at = Checkout(tmp_path, TELLER.encode())
    at.document()
    make(at)
    run = commands.quiet([at.path("release", "make"), "--check"], env=at.with_rt())
    assert run.returncode == status, run.stderr
    assert part in (run.stderr if status else run.stdout).decode()
    assert bool(run.stderr) == bool(status)


def changed_header(at):
    at.path("c", "las.h").write_text("/* another */\n")


@pytest.mark.parametrize("change, status", [(no_build, 0), (stale, 1), (changed_header, 1), (other_kit, 1), (None, 1)],
                         ids=["the same tools", "a source", "a header", "another kit", "another linker"])
def test_whether_the_library_would_be_compared(tmp_path, change, status):
    """release/make --compares, by which the gate tries the released library in the place of one that it builds."""
    needs.command("ld", "binutils")
    at = Checkout(tmp_path)
    if change:
        linker = commands.good(["sh", "-c", ". release/build.sh; linker"], cwd=TOP).strip()
        place = at.path("release", "BUILT_FROM")
        place.write_text(place.read_text().replace("linker of a check", f"linker {linker}"))
        change(at)
    run = commands.quiet([at.path("release", "make"), "--compares"], env=at.with_rt())
    assert (run.returncode, run.stdout, run.stderr) == (status, b"", b"")
