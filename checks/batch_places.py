"""Folders of tiles, runs of las-batch over them, and what stands there afterwards."""
import contextlib
import os
import signal
import subprocess
import time
from collections.abc import Iterator
from pathlib import Path
from typing import Any, Optional, Union

import programs
from runs_of_batch import hidden_parts

Word = Union[str, bytes, Path]


class Tiles:
    """A folder in which las-batch runs, with a program `las` that can be put in the place of the checked one."""

    def __init__(self, folder: Path, program: str) -> None:
        self.folder = folder
        self.program = program

    def path(self, name: str) -> Path:
        return self.folder / name

    def make(self, name: str, points: int = 100, seed: int = 1) -> bytes:
        """Writes a tile of random points, and answers what it holds."""
        path = self.path(name)
        path.parent.mkdir(parents=True, exist_ok=True)
        made = [str(self.folder / f".making{end}") for end in (".las", ".laz")]
        subprocess.run([self.program, "make", "-o", made[0], "-z", made[1], "-points", str(points), "-seed", str(seed)],
                       stdout=subprocess.DEVNULL, check=True)
        os.remove(made[1])
        os.replace(made[0], path)
        return path.read_bytes()

    def make_all(self, count: int, folder: str = "tiles", points: int = 100) -> dict[str, bytes]:
        """Writes tiles `000.las`, `001.las` and so on, and answers what each path holds."""
        names = [f"{folder}/{number:03}.las" for number in range(count)]
        return {name: self.make(name, points, seed) for seed, name in enumerate(names)}

    def packed(self, data: bytes, *words: str) -> bytes:
        """What `las` alone packs a plain file to."""
        plain, made = self.folder / ".plain.las", self.folder / ".made.laz"
        plain.write_bytes(data)
        subprocess.run([self.program, "laszip", "-i", plain, "-o", made, *words], check=True)
        found = made.read_bytes()
        os.remove(plain)
        os.remove(made)
        return found

    def command(self, name: str, script: str) -> Path:
        """Writes a script of the shell into the folder `bin`."""
        path = self.path("bin") / name
        path.parent.mkdir(exist_ok=True)
        path.write_text(f"#!/bin/bash\n{script}\n")
        path.chmod(0o755)
        return path

    def slow(self, seconds: float) -> str:
        """A program that is as `las`, but takes so long."""
        script = f'[ "$1" != --version ] || exit 1\nsleep {seconds}\nexec {self.program} "$@"'
        return str(self.command("slow_las", script))

    def options(self, las: Optional[str], extra: dict[str, Any]) -> dict[str, Any]:
        environment = dict(os.environ, LAS=las or self.program, **extra.pop("environment", {}))
        environment["PATH"] = f"{extra.pop('path', '')}:{environment['PATH']}".lstrip(":")
        return {"cwd": self.folder, "env": environment, "stdin": subprocess.DEVNULL, **extra}

    def batch(self, *words: Word, las: Optional[str] = None, **extra: Any) -> "subprocess.CompletedProcess[bytes]":
        """A run of las-batch, with both streams kept."""
        extra = {"stdout": subprocess.PIPE, "stderr": subprocess.PIPE, "timeout": 240, **extra}
        if "input" in extra:
            extra["stdin"] = None
        return subprocess.run([programs.BATCH, *words], check=False, **self.options(las, extra))

    def begin(self, *words: Word, las: Optional[str] = None, **extra: Any) -> "subprocess.Popen[bytes]":
        """A run of las-batch that goes on beside the check."""
        extra = {"stdout": subprocess.DEVNULL, "stderr": subprocess.PIPE, "start_new_session": True, **extra}
        return subprocess.Popen([programs.BATCH, *words], **self.options(las, extra))

    @contextlib.contextmanager
    def running(self, *words: Word, **extra: Any) -> Iterator["subprocess.Popen[bytes]"]:
        """As `begin`; what is left of it ends with the block."""
        run = self.begin(*words, **extra)
        try:
            yield run
        finally:
            with contextlib.suppress(ProcessLookupError):
                os.killpg(run.pid, signal.SIGKILL)
            run.wait()
            if run.stderr:
                run.stderr.close()

    def outputs(self, name: str, hidden: bool = True) -> dict[str, bytes]:
        """The files below a folder of outputs, but for the log and the folder of the batch itself."""
        found = {}
        for folder, below, files in os.walk(self.path(name)):
            if ".las-batch" in below:
                below.remove(".las-batch")
            for file in files:
                if file != "las-batch.log" and (hidden or not file.startswith(".")):
                    path = Path(folder) / file
                    found[os.path.relpath(path, self.path(name))] = path.read_bytes()
        return found

    def free(self, name: str) -> bool:
        """Whether no run holds the folder of outputs."""
        lock = self.path(name) / ".las-batch" / "lock"
        return subprocess.run(["flock", "-n", lock, "true"], check=False).returncode == 0

    def parts(self) -> list[str]:
        return hidden_parts(self.folder)


def wait_until(holds: Any, seconds: float = 60) -> bool:
    """Waits until something holds, and answers whether it did in time."""
    end = time.monotonic() + seconds
    while not holds():
        if time.monotonic() > end:
            return False
        time.sleep(0.01)
    return True


def with_descendants(process: int) -> list[int]:
    """A process and all that it started, as far as their parents live."""
    below: dict[int, list[int]] = {}
    for name in os.listdir("/proc"):
        if name.isdigit():
            with contextlib.suppress(OSError):
                fields = Path("/proc", name, "stat").read_text().rpartition(")")[2].split()
                below.setdefault(int(fields[1]), []).append(int(name))
    found = [process]
    for one in found:
        found += below.get(one, [])
    return found


def signal_all(processes: list[int], number: int) -> None:
    for process in processes:
        with contextlib.suppress(ProcessLookupError):
            os.kill(process, number)


def processes_with(text: Union[str, Path]) -> list[str]:
    """The command lines of running processes that hold a text."""
    found = []
    for name in os.listdir("/proc"):
        if name.isdigit() and int(name) != os.getpid():
            with contextlib.suppress(OSError):
                line = Path("/proc", name, "cmdline").read_bytes()
                if os.fsencode(text) in line:
                    found.append(os.fsdecode(line.replace(b"\0", b" ")))
    return found
