"""A checkout of its own that is installed with one step failing, or with the installer killed there."""
import copy
import gzip
import hashlib
import os
import shutil
import subprocess
import tempfile
from collections.abc import Iterator
from contextlib import contextmanager
from pathlib import Path
from typing import Any, Optional

import commands
from programs import TOP

# The commands by which `install` changes files. Each is counted, and one of them fails or is where the installer dies.
CHANGING = ("cp", "mv", "ln", "rm", "rmdir", "mkdir", "chmod", "sync", "mktemp")
COUNTED = r"""#!/bin/sh
read -r count <"$COUNT"
count=$((count + 1))
printf '%s\n' "$count" >"$COUNT"
[ "$HOW" != counted ] || printf '%s\n' "${0##*/}" >>"$COUNT.names"
if [ "$HOW" = full ] && [ "$AT" -gt 0 ] && [ "$count" -ge "$AT" ]; then
    # of a copy there is a first part
    case ${0##*/} in
    cp) while [ $# -gt 2 ]; do shift; done; head -c 20 -- "$1" >"$2" ;;
    ln | mkdir | mktemp | sync) ;;
    *) exec "$REAL/${0##*/}" "$@" ;;
    esac
    echo "${0##*/}: No space left on device" >&2
    exit 1
elif [ "$count" -eq "$AT" ]; then
    case $HOW in
    fails) echo "${0##*/}: No space left on device" >&2 && exit 1 ;;
    before) kill -9 0 ;;
    after) "$REAL/${0##*/}" "$@"; kill -9 0 ;;
    interrupt) kill -INT 0; sleep 5 ;;
    esac
fi
exec "$REAL/${0##*/}" "$@"
"""
LIBRARIES = ("liblaz.a", "liblaz.so", "liblaz-x86-64-v3.so")
PROGRAMS = ("las-x86-64-v2", "las-x86-64-v3")


def program_of(version: int) -> bytes:
    """A program that says which one it is, and fills a few blocks of a disk."""
    return f"#!/bin/sh\necho version {version}\nexit\n".encode() + b"# filler\n" * 1500


class Trial:
    """A small checkout with this repository's `install`, a prefix, and a count of the steps."""

    def __init__(self, folder: Path, prefix: Optional[Path] = None, whole: bool = True) -> None:
        """Without `whole` the package `batch` has one file alone, and there are completions for one shell and one
        manual page: the others would be installed like these.
        """
        self.folder = folder / "checkout"
        self.prefix = prefix or folder / "prefix"
        self.stage: Optional[Path] = None
        self.temporary = folder / "temporary"
        self.count = folder / "count"
        self.tools = folder / "tools"
        for new in (self.folder, self.temporary, self.tools):
            new.mkdir()
        self._copy(whole)
        self.release(1)
        for name in CHANGING:
            (self.tools / name).write_text(COUNTED)
            (self.tools / name).chmod(0o755)

    def _copy(self, whole: bool) -> None:
        for name in ("las", "install", "las-batch", "las-batch-job"):
            shutil.copy(TOP / name, self.folder / name)
        for name in ("help", "c"):
            shutil.copytree(TOP / name, self.folder / name)
        for name in ("sources", "choose.sh", "build.sh", "processor.sh"):
            (self.folder / "release").mkdir(exist_ok=True)
            shutil.copy(TOP / "release" / name, self.folder / "release" / name)
        if (TOP / "batch").is_dir():
            shutil.copytree(TOP / "batch", self.folder / "batch", ignore=shutil.ignore_patterns("__pycache__"))
        for path in sorted((self.folder / "help" / "commands").iterdir()):
            if path.name != "laszip":
                path.unlink()  # fewer files, fewer steps
        if not whole:
            for path in (self.folder / "batch").glob("[a-z]*.py"):
                path.unlink()
            for name in ("las.zsh", "las.fish", "las-batch.1"):
                (self.folder / "help" / name).unlink()
        (self.folder / "crates" / "las" / "src").mkdir(parents=True)
        (self.folder / "crates" / "las" / "src" / "lib.rt").write_text("fn main() {}\n")
        (self.folder / "crates.txt").write_text("las:\n")

    def release(self, version: int) -> None:
        """Makes a release of a program that says its version, and of libraries of that version."""
        sources = self.run(str(self.folder / "release" / "sources")).stdout.decode().strip()
        lines = ["kit of a check", f"sources {sources}"]
        for name in (*PROGRAMS, *LIBRARIES):
            data = program_of(version) if name in PROGRAMS else f"{name} {version}\n".encode()
            self._packed(name, data, lines)
        self._built_from(lines)

    def real_libraries(self) -> None:
        """Makes a release of the program of `release`, and of its real libraries."""
        sources = self.run(str(self.folder / "release" / "sources")).stdout.decode().strip()
        lines = ["kit of a check", f"sources {sources}"]
        for name in (*PROGRAMS, *LIBRARIES):
            self._packed(name, gzip.decompress((TOP / "release" / f"{name}.gz").read_bytes()), lines)
        self._built_from(lines)

    def _packed(self, name: str, data: bytes, lines: "list[str]") -> None:
        (self.folder / "release" / f"{name}.gz").write_bytes(gzip.compress(data, mtime=0))
        lines.append(f"{name} {hashlib.sha256(data).hexdigest()}")

    def _built_from(self, lines: "list[str]") -> None:
        (self.folder / "release" / "BUILT_FROM").write_text("".join(line + "\n" for line in lines))

    def run(self, *words: str, at: int = 0, how: str = "", **more: Any) -> "subprocess.CompletedProcess[bytes]":
        """A run of a command; `how` says what becomes of its step number `at`: fails, before, after, interrupt, full
        (the disk is full from it on).
        """
        real = os.path.dirname(shutil.which("cp") or "/usr/bin/cp")
        environment = {**os.environ, "TMPDIR": str(self.temporary), "COUNT": str(self.count), "AT": str(at), "HOW": how,
                       "REAL": real, "HOME": str(self.folder), **more}
        if how:
            environment["PATH"] = f"{self.tools}:{os.environ['PATH']}"
            self.count.write_text("0\n")
        return subprocess.run(words, env=environment, stdin=subprocess.DEVNULL, stdout=subprocess.PIPE,
                              stderr=subprocess.PIPE, timeout=120, check=False, start_new_session=True,
                              preexec_fn=commands.heed_signals)

    def staged(self, stage: Path) -> "Trial":
        """The same checkout, installed below a stage: the prefix that files hold is the same below each."""
        other = copy.copy(self)
        other.stage, other.prefix = stage, stage / "prefix"
        other.count = stage / "count"
        other.prefix.mkdir(parents=True)
        return other

    def where(self) -> "tuple[str, dict[str, Any]]":
        """The word for PREFIX, and the environment that goes with it."""
        return (str(self.prefix), {}) if self.stage is None else ("/prefix", {"DESTDIR": str(self.stage)})

    def install(self, *words: str, at: int = 0, how: str = "", **more: Any) -> "subprocess.CompletedProcess[bytes]":
        prefix, environment = self.where()
        return self.run(str(self.folder / "install"), *words, prefix, at=at, how=how, **environment, **more)

    def steps(self, *words: str) -> "list[str]":
        """Installs (or removes) with every step counted, and answers the command of each."""
        names = self.count.with_suffix(".names")
        names.write_text("")
        done = self.install(*words, how="counted")
        assert done.returncode == 0, done.stderr
        return names.read_text().split()

    def tree(self) -> "dict[str, object]":
        """Every name below the prefix: what a file holds, where a link goes, None for a folder."""
        found: "dict[str, object]" = {}
        for at, folders, files in os.walk(self.prefix):
            for name in folders + files:
                path = Path(at) / name
                kept: object = None
                if path.is_symlink():
                    kept = f"-> {os.readlink(path)}"
                elif path.is_file():
                    kept = (path.stat().st_mode & 0o777, path.read_bytes())
                found[str(path.relative_to(self.prefix))] = kept
        return found

    def version(self) -> Optional[str]:
        """What the installed launcher's program says, None if there is no launcher."""
        launcher = self.prefix / "bin" / "las"
        if not os.path.lexists(launcher):
            return None
        done = self.run(str(launcher), "laszip")
        return (done.stdout + done.stderr).decode().strip()


@contextmanager
def in_memory(folder: Path) -> "Iterator[Path]":
    """A folder in memory, where a machine has room there and runs programs from it, else the folder that is given."""
    memory = Path("/dev/shm")
    if not os.access(memory, os.W_OK) or shutil.disk_usage(memory).free < 1_000_000_000:
        yield folder
        return
    with tempfile.TemporaryDirectory(dir=memory, prefix="checks-") as name:
        script = Path(name) / "script"
        script.write_text("#!/bin/sh\n")
        script.chmod(0o755)
        runs = os.access(script, os.X_OK)
        script.unlink()
        yield Path(name) if runs else folder


def differences(found: "dict[str, object]", wanted: "dict[str, object]") -> "list[str]":
    """The names that are in one tree alone, or differ."""
    return sorted(name for name in found.keys() | wanted.keys() if found.get(name, 0) != wanted.get(name, 0))


def final(tree: "dict[str, object]") -> "dict[str, object]":
    """The files and links of a tree without hidden names, the list of what was installed, and folders."""
    return {name: kept for name, kept in tree.items()
            if kept is not None and not os.path.basename(name).startswith(".") and name != "share/las/installed"}
