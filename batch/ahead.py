"""What is started before the plan is made, since it takes as long: GNU parallel, and a question to `las`."""
from __future__ import annotations

import contextlib
import functools
import os
import re
import shlex
import shutil
import signal
import subprocess
from types import FrameType
from typing import Optional

from .texts import refuse
from .words import Words

MARK = "LAS_BATCH_TOKEN"
SIGNALS = (signal.SIGINT, signal.SIGTERM, signal.SIGHUP, signal.SIGPIPE)


class Stop:
    """Whether a signal asked for an end, and which."""

    def __init__(self) -> None:
        self.number = 0
        for number in SIGNALS:
            signal.signal(number, self.note)

    def note(self, number: int, _: Optional[FrameType]) -> None:
        self.number = self.number or number


def needed(*names: str) -> None:
    packages = {"sbatch": "slurm-client"}
    for name in names:
        if not shutil.which(name):
            refuse(f"{name} is missing; on Debian: apt-get install {packages.get(name, name)}")


class Question:
    """Asks the launcher for the program that it would start, and for its version."""

    def __init__(self, top: bytes) -> None:
        las = os.environ.get("LAS") or os.path.join(os.fsdecode(top), "las")
        if not os.access(las, os.X_OK) or os.path.isdir(las):
            las = shutil.which("las") or refuse("the program las is missing")
        self.las = las
        try:
            self.child = subprocess.Popen([las, "--version"], stdin=subprocess.DEVNULL, stdout=subprocess.PIPE,
                                          stderr=subprocess.DEVNULL, start_new_session=True)
        except OSError as problem:
            refuse(f"the program las can't be started: {problem}")

    @functools.cached_property
    def answer(self) -> tuple[bytes, str]:
        found = self.child.communicate()[0].decode(errors="replace")
        program = re.search(r"^program [0-9a-f]* (.*)$", found, flags=re.MULTILINE)
        version = re.search(r"^las (.*)$", found, flags=re.MULTILINE)
        las = os.path.realpath(os.fsencode(program.group(1) if program else self.las))
        return las, version.group(1) if version else ""


def environment_of(token: str) -> dict[str, str]:
    """What the processes know that a start of las-batch begins."""
    found = dict(os.environ, **{MARK: token, "LAS_BATCH_PID": str(os.getpid())})
    found.setdefault("HOME", "/tmp")  # GNU parallel warns if there is none
    return found


class Workers:
    """GNU parallel with jobs that wait for a list. It ends without one if its standard input does."""

    def __init__(self, runner: bytes, token: str, most: int) -> None:
        line = ["parallel", "--will-cite", "--plain", "-0", "-u", "--retries", "3", "--jobs", str(most),
                f"bash {shlex.quote(os.fsdecode(runner))} work"]
        self.errors = os.fdopen(os.memfd_create("errors"), "w+b")
        self.child = subprocess.Popen(line, stdin=subprocess.PIPE, stdout=subprocess.PIPE, stderr=self.errors,
                                      env=environment_of(token), start_new_session=True)

    def begin(self, place: bytes, count: int) -> None:
        """Starts so many jobs on the list in a folder."""
        assert self.child.stdin
        with contextlib.suppress(BrokenPipeError):
            self.child.stdin.write((place + b"\0") * count)
            self.child.stdin.close()


class Ahead:
    """What is begun as soon as the words are read."""

    def __init__(self, top: bytes, words: Words) -> None:
        if not os.path.exists("/proc/self/mountinfo"):
            refuse("/proc is not mounted: from it las-batch knows its processes and the kinds of disks")
        needed("sbatch" if words.has("slurm") else "parallel", *(["rsync"] if words.has("ship") else []))
        self.runner = os.path.join(top, b"las-batch-job")
        self.token = os.urandom(8).hex()
        self.stop = Stop()
        self.question = Question(top)
        self.workers: Optional[Workers] = None
        if not any(words.has(name) for name in ("hosts", "slurm", "check", "resume")):
            self.start_workers(words.number("jobs", len(os.sched_getaffinity(0))))

    def start_workers(self, most: int) -> Workers:
        """Starts GNU parallel for at most so many jobs at a time, if it was not started yet."""
        if not self.workers:
            self.workers = Workers(self.runner, self.token, most)
        return self.workers

    def closed_by_guard(self) -> list[int]:
        return [self.workers.child.stdin.fileno()] if self.workers and self.workers.child.stdin else []

    def end(self) -> None:
        """Ends what was not needed after all."""
        for child in [self.question.child] + ([self.workers.child] if self.workers else []):
            if child.poll() is None:
                with contextlib.suppress(ProcessLookupError):
                    os.killpg(child.pid, signal.SIGKILL)  # GNU parallel may have begun something at its start
                child.wait()
