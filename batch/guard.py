"""Ends what was started, and removes its drafts: after a signal, and when las-batch itself was killed."""
from __future__ import annotations

import contextlib
import os
import signal
import time
from collections.abc import Iterable

from .ahead import MARK
from .rows import is_draft


def started(token: str) -> list[int]:
    """The processes that a start of las-batch began: its random token is in their environment."""
    mark, found = f"{MARK}={token}".encode(), []
    for name in os.listdir("/proc"):
        if name.isdigit() and int(name) != os.getpid():
            with contextlib.suppress(OSError):
                with open(f"/proc/{name}/environ", "rb") as file:
                    if mark in file.read().split(b"\0"):
                        found.append(int(name))
    return found


def end_all(token: str, patience: float = 5) -> None:
    """Ends these processes, and waits until they are gone: jobs remove their drafts when they are ended by SIGTERM."""
    begun = time.monotonic()
    number, turn = int(signal.SIGTERM), 0
    while True:
        left = started(token)
        if not left or time.monotonic() - begun > 2 * patience:
            return
        if turn % 20 == 0:
            if time.monotonic() - begun > patience:
                number = signal.SIGKILL
            for process in left:
                with contextlib.suppress(OSError):
                    os.kill(process, number)
        turn += 1
        time.sleep(0.05)


def sweep(folders: Iterable[bytes], token: str) -> None:
    """Removes the drafts of a start of las-batch. What waits for its name in the state is no draft any more."""
    for folder in folders:
        with contextlib.suppress(OSError):
            for name in os.listdir(folder):
                if is_draft(os.fsencode(name), token):
                    with contextlib.suppress(OSError):
                        os.unlink(os.path.join(folder, os.fsencode(name)))


class Guard:
    """A process beside las-batch that waits for its end. If las-batch does not say farewell, it was killed."""

    def __init__(self, token: str, folders: list[bytes], closed: list[int]) -> None:
        """`closed` are files that this process closes, since others wait for their end."""
        reading, self.writing = os.pipe()
        self.process = os.fork()
        if self.process == 0:
            try:
                for file in (self.writing, *closed):
                    os.close(file)
                self.watch(reading, token, folders)
            finally:
                os._exit(0)
        os.close(reading)

    @staticmethod
    def watch(reading: int, token: str, folders: list[bytes]) -> None:
        os.setsid()
        for ignored in (signal.SIGINT, signal.SIGTERM, signal.SIGHUP, signal.SIGPIPE):
            signal.signal(ignored, signal.SIG_IGN)
        nothing = os.open("/dev/null", os.O_RDWR)
        for number in range(3):
            os.dup2(nothing, number)
        if os.read(reading, 1) == b"":
            end_all(token)
            sweep(folders, token)

    def farewell(self) -> None:
        with contextlib.suppress(OSError):
            os.write(self.writing, b".")
        os.close(self.writing)
        with contextlib.suppress(ChildProcessError):
            os.waitpid(self.process, 0)
