"""Runs of the program: progress, cancelling, and drafts that are removed."""
from __future__ import annotations

import fcntl
import os
import re
import signal
import subprocess
import tempfile
import time
from collections.abc import Callable, Iterable
from typing import Any, Optional, Protocol

from . import program

_PATIENCE = 10.0
"""How many seconds a run has to end after SIGTERM, before SIGKILL."""
_DRAFT = re.compile(r"\..*\.las-(\d+)-\d+\.part", re.DOTALL)


class Feedback(Protocol):
    """What of QGIS's feedback is used."""

    def isCanceled(self) -> bool: ...
    def setProgress(self, percent: float) -> None: ...


class Cancelled(Exception):
    """The run was cancelled; no output was written."""


class Ended:
    """How a run has ended."""

    def __init__(self, status: int, out: str, err: str) -> None:
        self.status, self.out = status, out
        self.line, _, self.hints = err.strip().partition("\n")


def _processes(pid: int) -> list[int]:
    """A process and those that it has started, and so on."""
    found = [pid]
    for each in found:
        try:
            with open(f"/proc/{each}/task/{each}/children", encoding="ascii") as file:
                found += [int(word) for word in file.read().split() if int(word) not in found]
        except OSError:  # it has ended
            pass
    return found


def _bytes_read(pids: Iterable[int]) -> int:
    """The most that one of the processes has read."""
    most = 0
    for pid in pids:
        try:
            with open(f"/proc/{pid}/io", encoding="ascii") as file:
                most = max(most, int(file.readline().split()[1]))
        except (OSError, IndexError, ValueError):
            pass
    return most


def by_bytes(total: int) -> Callable[[list[int]], float]:
    """The percentage of `total` bytes that a run has read."""
    return lambda pids: min(99.0, 100.0 * _bytes_read(pids) / total) if total else 0.0


def by_log(path: str, total: int) -> Callable[[list[int]], float]:
    """The percentage of `total` inputs that have a line in the log of las-batch. The log's first line is its head."""
    def percentage(pids: list[int]) -> float:
        try:
            with open(path, "rb") as file:
                return min(99.0, 100.0 * max(file.read().count(b"\n") - 1, 0) / total) if total else 0.0
        except OSError:
            return 0.0
    return percentage


def _end(child: "subprocess.Popen[bytes]") -> None:
    """Ends a run and all that it has started, and waits until it has ended."""
    for number in (signal.SIGTERM, signal.SIGKILL):
        try:
            os.killpg(child.pid, number)
        except ProcessLookupError:
            pass
        try:
            child.wait(_PATIENCE)
            return
        except subprocess.TimeoutExpired:
            pass
    child.wait()


def remove_drafts(folders: Iterable[str], pids: set[int], begun: float) -> list[str]:
    """Removes the drafts that processes of a run have left; answers those that stay.

    A draft has the number of its process in its name. One that is older than the run, or that a process holds locked,
    is of another program.
    """
    left = []
    for folder in set(folders):
        for entry in os.scandir(folder) if os.path.isdir(folder) else ():
            match = _DRAFT.fullmatch(entry.name)
            if match and int(match[1]) in pids and entry.is_file(follow_symlinks=False):
                if entry.stat(follow_symlinks=False).st_mtime >= begun - 1 and not _removed(entry.path):
                    left.append(entry.path)
    return left


def _removed(path: str) -> bool:
    """Removes a draft if no process holds its lock."""
    try:
        file = os.open(path, os.O_RDONLY | os.O_NOFOLLOW)
    except OSError:
        return False
    try:
        fcntl.flock(file, fcntl.LOCK_EX | fcntl.LOCK_NB)
        os.unlink(path)
    except OSError:
        return False
    finally:
        os.close(file)
    return True


def run(line: list[str], feedback: Feedback, progress: Callable[[list[int]], float], folders: Iterable[str],
        more: Optional[dict[str, str]] = None) -> Ended:
    """Runs a command line until it ends, or until `feedback` says that it is cancelled: then `Cancelled` is raised.

    `progress` answers a percentage by the numbers of the processes. `folders` are those in which drafts may be.
    """
    begun, seen = time.time(), set()
    with tempfile.TemporaryFile() as out, tempfile.TemporaryFile() as err:
        child = subprocess.Popen(
            [*program.keeper(), *line], stdin=subprocess.DEVNULL, stdout=out, stderr=err, start_new_session=True,
            env={**program.environment(), **(more or {})}, restore_signals=False)
        ended = False
        try:
            while not ended:
                pids = _processes(child.pid)
                seen.update(pids)
                feedback.setProgress(progress(pids))
                try:
                    child.wait(0.1)
                    ended = True
                except subprocess.TimeoutExpired:
                    if feedback.isCanceled():
                        break
        finally:
            if not ended:
                seen.update(_processes(child.pid))
                _end(child)
                left = remove_drafts(folders, seen, begun)
        if not ended:
            raise Cancelled("\n".join(["Cancelled: no output was written.",
                                       *(f"A draft could not be removed: {path}" for path in left)]))
        told = [_text(file) for file in (out, err)]
    if child.returncode != 0:
        remove_drafts(folders, seen, begun)
    return Ended(child.returncode, *told)


def _text(file: Any) -> str:
    file.seek(0)
    text: str = file.read().decode("utf-8", "replace")
    return text


def write_whole(path: str, data: bytes) -> None:
    """Writes a file aside, and gives it its name when it is whole and on the disk."""
    folder = os.path.dirname(os.path.abspath(path))
    handle, draft = tempfile.mkstemp(prefix=".balsamvise-", suffix=".part", dir=folder)
    try:
        with os.fdopen(handle, "wb") as file:
            umask = os.umask(0)
            os.umask(umask)
            os.fchmod(file.fileno(), 0o666 & ~umask)
            file.write(data)
            file.flush()
            os.fsync(file.fileno())
        os.replace(draft, path)
    except BaseException:
        os.unlink(draft)
        raise
