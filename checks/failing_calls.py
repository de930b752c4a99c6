"""Runs of the program in which calls of the C library fail, fall short or are noted, by a library that is preloaded."""
import errno
import os
import re
import struct
import subprocess
from collections.abc import Iterable, Sequence
from pathlib import Path
from typing import Any, Optional

import pytest

import commands
import needs
import shared
from las_files import long_head, record
from places import Place, Word
from programs import TOP

PACK = ["-chunk_size", "256"]
# The kinds of calls: whether the call is made again after EINTR; one that is ignored has no effect on a run.
KINDS = {"open": True, "stat": False, "read": True, "write": True, "text": True, "truncate": True, "close": None,
         "pipe": False}
# What stood in the place of an output, which a run cuts; a new file it does not.
STOOD = b"what stood there"


def library(tmp_path_factory: pytest.TempPathFactory) -> Path:
    """The library that makes calls fail and logs them."""
    gcc = needs.command("gcc", "gcc")

    def make(folder: Path) -> None:
        commands.good([gcc, "-shared", "-fPIC", "-O1", "-Wall", "-Wextra", "-o", folder / "failing_calls.so",
                       TOP / "checks" / "failing_calls.c", "-ldl"])

    return shared.once(tmp_path_factory, "failing_calls", make) / "failing_calls.so"


def bytes_read(place: Place, name: str, words: Sequence[Word]) -> tuple[Any, int]:
    """A run of the program in a place, and how many bytes it read of the file of this name there, as strace tells: also
    of a static program, and of one that an emulator runs."""
    needs.command("strace", "strace")
    log = place.path("strace")
    line: list[Word] = ["-f", "-e", "quiet=all", "-e", "trace=read,pread64,readv,preadv,mmap", "-P", name, "-P",
                        place.path(name), "-o", log, place.program]
    run = place.las(*line, *words, program="strace")
    calls = log.read_text()
    log.unlink()
    assert "mmap(" not in calls
    return run, sum(map(int, re.findall(r" = (\d+)$", calls, re.MULTILINE)))


class Text:
    """What an output is made of: the draft, from its first byte on, and then patches, as a run without faults wrote."""

    def __init__(self, writes: Iterable[tuple[int, bytes]]) -> None:
        self.draft = b""
        self.patches: list[tuple[int, bytes]] = []
        for at, data in writes:
            if at == len(self.draft) and not self.patches:
                self.draft += data
            else:
                self.patches.append((at, data))

    def states(self) -> Iterable[bytes]:
        """The draft after some of its patches, the last of them perhaps in part."""
        now = self.draft
        yield now
        for at, data in self.patches:
            for n in range(1, len(data) + 1):
                yield now[:at] + data[:n] + now[at + n:]
            now = now[:at] + data + now[at + len(data):]

    def may_be_left(self, data: bytes) -> bool:
        return self.draft.startswith(data) or any(state == data for state in self.states())


class Runs:
    """Runs of one command in a place of its own, with calls that fail."""

    def __init__(self, preloaded: Path, place: Place, words: list[str], outputs: list[str]) -> None:
        self.preloaded, self.place, self.words, self.outputs = preloaded, place, words, outputs
        points = [record(7 * i, 1 + i % 6, flags=1 + i % 3 + 8 * (1 + i % 3)) for i in range(600)]
        place.write("in.las", long_head(2, 0, 0, points) + b"".join(points))
        place.las("laszip", "-i", "in.las", "-o", "in.laz", *PACK)
        self.inputs = {name: place.read(name) for name in ("in.las", "in.laz")}
        log = place.path("log")
        self.whole = self.run(FAULT_LOG=log)
        self.finished = self.left()
        assert (self.whole.returncode, self.whole.stderr) == (0, b"")
        assert {*self.finished} == {*outputs}
        self.texts = self.read(log.read_bytes()) if outputs else {}
        # so that nothing is compared with it in vain
        for name, text in self.texts.items():
            assert list(text.states())[-1] == self.finished[name], f"{name} is not what was written"

    def run(self, words: Optional[list[str]] = None, stood: bool = False,
            **settings: Any) -> "subprocess.CompletedProcess[bytes]":
        for name in self.outputs:
            if stood:
                self.place.write(name, STOOD)
            else:
                self.place.path(name).unlink(missing_ok=True)
        texts = {name: str(value) for name, value in settings.items()}
        return self.place.las(*(words or self.words),
                              env={**os.environ, "LD_PRELOAD": str(self.preloaded), **texts})

    def left(self) -> dict[str, bytes]:
        return {name: self.place.read(name) for name in self.outputs if self.place.path(name).exists()}

    def read(self, log: bytes) -> dict[str, Text]:
        """The writes of each output, from the log of all writes."""
        writes: dict[tuple[int, int], list[tuple[int, bytes]]] = {}
        at = 0
        while at < len(log):
            device, inode, position, length = struct.unpack_from("<4Q", log, at)
            at += 32 + length
            writes.setdefault((device, inode), []).append((position, log[at - length:at]))
        texts = {}
        for name in self.outputs:
            found = self.place.path(name).stat()
            texts[name] = Text(writes.get((found.st_dev, found.st_ino), []))
        return texts

    def is_finished(self, run: Any) -> None:
        assert (run.returncode, run.stdout, run.stderr) == (0, self.whole.stdout, b"")
        assert self.left() == self.finished

    def failed(self, run: Any, may_be_done: bool) -> None:
        """A run in which a call has failed: done only if it may be and has to be; else a line and what may be left."""
        for name, data in self.inputs.items():
            assert self.place.read(name) == data, f"{name} is changed"
        if may_be_done:
            self.is_finished(run)
            return
        assert run.returncode in (3, 4), "the fault is not seen"
        # `make` reads what it has written
        lines = {3: [f"read fault: {name}\n".encode() for name in [*self.inputs, *self.outputs]], 4: [b"write fault\n"]}
        assert run.stderr in lines[run.returncode]
        assert self.whole.stdout.startswith(run.stdout)
        for name, data in self.left().items():
            assert data == STOOD or self.texts[name].may_be_left(data), f"{name} has bytes that no unfinished one has"

    def sweep(self, kind: str, error: int) -> int:
        """Each call of a kind fails in turn. Gives how many there were."""
        done = self.place.path("done")
        repeats = KINDS[kind]
        for at in range(1, 2_000):
            run = self.run(stood=kind == "truncate", FAULT_CALL=kind, FAULT_AT=at, FAULT_ERROR=error, FAULT_DONE=done)
            if not done.exists():
                self.is_finished(run)
                return at - 1
            done.unlink()
            try:
                self.failed(run, repeats is None or (repeats and error == errno.EINTR))
            except AssertionError as found:
                what = errno.errorcode.get(error, "nothing")
                raise AssertionError(f"{kind} number {at} fails with {what}") from found
        raise AssertionError(f"there is no end of calls of {kind}")
