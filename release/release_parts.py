"""What the scripts of the packages share: the version, its date, what `./install` would put where, and archives whose
bytes depend on nothing but their contents.
"""
import gzip
import hashlib
import io
import os
import re
import shutil
import subprocess
import sys
import tarfile
from pathlib import Path

TOP = Path(__file__).resolve().parent.parent
NAME = "balsamvise"
LICENCES = ("LICENSE-APACHE", "LICENSE-MIT")
MACHINES = ("x86_64", "aarch64")
SUMMARY = "packs the point clouds of laser scanners without loss, proved"


def fail(what: str) -> None:
    sys.exit(f"{os.path.basename(sys.argv[0])}: {what}")


def text(name: str) -> str:
    return (TOP / name).read_text(encoding="utf-8")


def version() -> str:
    return text("help/version").strip()


def epoch() -> int:
    """SOURCE_DATE_EPOCH, else midnight of the day that CHANGELOG.md gives the version."""
    if os.environ.get("SOURCE_DATE_EPOCH"):
        return int(os.environ["SOURCE_DATE_EPOCH"])
    found = re.search(rf"^## {re.escape(version())}, (\d+)-(\d+)-(\d+)$", text("CHANGELOG.md"), re.MULTILINE)
    if not found:
        fail(f"CHANGELOG.md has no entry of {version()} with a date")
        raise AssertionError
    from datetime import datetime, timezone
    year, month, day = (int(part) for part in found.groups())
    return int(datetime(year, month, day, tzinfo=timezone.utc).timestamp())


def built_from() -> dict[str, str]:
    return dict(line.split(" ", 1) for line in text("release/BUILT_FROM").splitlines())


def released(name: str) -> bytes:
    """A program or library of the release, compared with the sum that release/BUILT_FROM has of it."""
    data = gzip.decompress((TOP / "release" / f"{name}.gz").read_bytes())
    if hashlib.sha256(data).hexdigest() != built_from().get(name):
        fail(f"release/{name}.gz is not what release/BUILT_FROM names")
    return data


def staged(folder: Path, prefix: str, machine: str) -> Path:
    """What `./install` puts below a folder for a machine, x86_64 or aarch64. Answers the folder of the prefix, without
    the list of installed files.
    """
    run = subprocess.run([TOP / "install", prefix], env=dict(os.environ, DESTDIR=str(folder), LAS_MACHINE=machine),
                         stdin=subprocess.DEVNULL, stdout=subprocess.DEVNULL, check=False)
    if run.returncode != 0:
        fail("./install failed")
    root = folder / prefix.lstrip("/")
    (root / "share" / "las" / "installed").unlink()
    if not (root / "lib" / "liblaz.a").exists():
        fail("the release is not that of the present sources: run release/make first")
    return root


def add_documents(folder: Path) -> None:
    """Licences, changes and pages for users, in a folder of documents."""
    folder.mkdir(parents=True, exist_ok=True)
    for name in ("README.md", "CHANGELOG.md", "SECURITY.md", *LICENCES):
        shutil.copy(TOP / name, folder / name)
    for name in sorted(os.listdir(TOP / "docs")):
        if name.endswith((".md", ".svg", ".png")):
            (folder / "docs").mkdir(exist_ok=True)
            shutil.copy(TOP / "docs" / name, folder / "docs" / name)
    (folder / "examples").mkdir(exist_ok=True)
    for name in ("tile.laz", "tile.png"):
        shutil.copy(TOP / "examples" / name, folder / "examples" / name)
    for path in folder.rglob("*"):
        path.chmod(0o755 if path.is_dir() else 0o644)


COMMAND = """#!/usr/bin/env python3
\"\"\"Commands over point clouds: balsamvise COMMAND ...\"\"\"
{path}
from balsamvise.__main__ import main

sys.exit(main())
"""


def add_command(folder: Path, modules: str = "") -> None:
    """The command `balsamvise`, over the package in a folder beside that of the command, or over the installed one.

    The library is in the folder of that folder then.
    """
    lines = ["import os", "import sys", "", "here = os.path.dirname(os.path.realpath(__file__))",
             f"sys.path.insert(0, os.path.join(here, {modules!r}))",
             f"os.environ.setdefault(\"BALSAMVISE_LIBRARY\", os.path.join(here, {os.path.dirname(modules)!r}))"]
    lines = lines if modules else ["import sys", ""]
    folder.mkdir(parents=True, exist_ok=True)
    path = folder / "balsamvise"
    path.write_text(COMMAND.format(path="\n".join(lines)))
    path.chmod(0o755)


def write_whole(path: Path, data: bytes) -> None:
    """Writes a file aside, and gives it its name when it is whole and on the disk."""
    aside = path.with_name(f".{path.name}.{os.getpid()}.new")
    with open(aside, "xb") as file:
        file.write(data)
        file.flush()
        os.fsync(file.fileno())
    os.replace(aside, path)


def packed_tar(folder: Path, name: str, extra: int = 0) -> bytes:
    """A packed archive of a folder, under another name: entries in order, of root, and of the time of the version."""
    buffer = io.BytesIO()
    with tarfile.open(fileobj=buffer, mode="w", format=tarfile.PAX_FORMAT) as archive:
        for path in [folder, *sorted(folder.rglob("*"))]:
            entry = archive.gettarinfo(path, str(Path(name, path.relative_to(folder))))
            entry.uid = entry.gid = 0
            entry.uname = entry.gname = "root"
            entry.mtime = epoch()
            if entry.isfile():
                entry.mode = 0o755 if entry.mode & 0o100 else 0o644
                archive.addfile(entry, io.BytesIO(path.read_bytes()))
            else:
                entry.mode = 0o755 if entry.isdir() else 0o777
                archive.addfile(entry)
    return gzip.compress(buffer.getvalue(), 9, mtime=0)


def output_folder(words: list[str]) -> Path:
    """The folder that the command line names."""
    if len(words) != 2 or words[1].startswith("-"):
        fail(f"usage: {words[0]} FOLDER")
    folder = Path(words[1])
    folder.mkdir(parents=True, exist_ok=True)
    return folder.resolve()


def note_sum(folder: Path, path: Path) -> None:
    """Writes the SHA-256 of a file into SHA256SUMS of its folder, in the place of an older one, and says the file."""
    sums = folder / "SHA256SUMS"
    lines = sums.read_text().splitlines() if sums.exists() else []
    others = [line for line in lines if line.split("  ", 1)[1] != path.name]
    lines = [line for line in others if (folder / line.split("  ", 1)[1]).exists()]
    lines.append(f"{hashlib.sha256(path.read_bytes()).hexdigest()}  {path.name}")
    write_whole(sums, "".join(f"{line}\n" for line in sorted(lines, key=lambda line: line.split("  ", 1)[1])).encode())
    print(path)
