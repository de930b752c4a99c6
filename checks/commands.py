"""Runs of any command line, with both streams kept; a process that begins as another user or with closed streams."""
import os
import signal
import subprocess
from collections.abc import Callable, Iterable, Sequence
from pathlib import Path
from typing import Any, Union

NOBODY = 65534
Word = Union[str, bytes, Path]


def quiet(line: Sequence[Word], **options: Any) -> "subprocess.CompletedProcess[bytes]":
    """A run of any command line, with both streams kept."""
    for stream in ("stdout", "stderr"):
        options.setdefault(stream, subprocess.PIPE)
    options.setdefault("stdin", subprocess.DEVNULL)
    options.setdefault("timeout", 600)
    return subprocess.run(line, check=False, **options)


def good(line: Sequence[Word], **options: Any) -> str:
    """What a command printed, which has to end with status 0."""
    run = quiet(line, **options)
    assert run.returncode == 0, f"{os.fsdecode(line[0])}: {(run.stderr or run.stdout)[-3000:].decode(errors='replace')}"
    return str(run.stdout.decode())


def become_nobody() -> None:
    """For `preexec_fn`: root's process goes on as the user nobody."""
    os.setgroups([])
    os.setgid(NOBODY)
    os.setuid(NOBODY)


def heed_signals() -> None:
    """For `preexec_fn`: signals end the process, also if those who started the checks ignore them, as `nohup` does."""
    for number in (signal.SIGHUP, signal.SIGINT, signal.SIGTERM):
        signal.signal(number, signal.SIG_DFL)


def without(closed: Iterable[int]) -> Callable[[], None]:
    """For `preexec_fn`: the process begins with these standard streams closed."""
    def close() -> None:
        for number in closed:
            os.close(number)
    return close
