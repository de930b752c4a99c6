"""Released programs for other systems, and how they are run on this machine."""
import gzip
import shutil
from pathlib import Path

import commands
import needs
from programs import TOP

LINKED = ("las-aarch64", "las-x86-64-static", "las-aarch64-static")
CROSS = "gcc-aarch64-linux-gnu libc6-dev-arm64-cross"
QEMU = ("qemu-aarch64", "-L", "/usr/aarch64-linux-gnu")


def released(name: str) -> bytes:
    """A file of the release, unpacked."""
    return gzip.decompress((TOP / "release" / f"{name}.gz").read_bytes())


def unpacked(name: str, folder: Path) -> Path:
    """A released program, unpacked in a folder."""
    path = folder / name
    path.write_bytes(released(name))
    path.chmod(0o755)
    return path


def is_foreign(name: str) -> bool:
    """Whether a program of this name is for another processor than this machine's."""
    return "aarch64" in name


def emulator(name: str, pages: int = 0) -> list[str]:
    """The words that run a program of this name here, with pages of that many bytes."""
    if not is_foreign(name):
        return []
    needs.command("qemu-aarch64", "qemu-user")
    if not Path(QEMU[-1]).is_dir():
        needs.missing("there is no C library for aarch64", CROSS)
    return [QEMU[0], *(["-p", str(pages)] if pages else []), *QEMU[1:]]


def runnable(program: Path, pages: int = 0) -> Path:
    """A program of this machine that stands for another one: the program itself, or one that has it emulated."""
    run = emulator(program.name, pages)
    if not run:
        return program
    path = program.with_name(f"{program.name}-emulated{pages or ''}")
    compiled(path, run, program)
    return path


def compiled(path: Path, run: list[str], program: Path) -> None:
    """Compiles the program that has another one run by an emulator."""
    gcc = needs.command("gcc", "gcc libc6-dev")
    first = shutil.which(run[0]) or run[0]
    words = ", ".join(f'"{word}"' for word in [first, *run[1:]])
    commands.good([gcc, "-static", "-O1", "-Wall", "-Wextra", f"-DRUN={words}", f'-DPROGRAM="{program}"', "-o", path,
                   TOP / "checks" / "emulated.c"])
