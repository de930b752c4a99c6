"""The calls by which a program changes files below a folder: written down, one of them failing, or the program killed
there; and what a disk may hold after the power was cut at any of them.
"""
import itertools
import os
import subprocess
from collections.abc import Iterator
from pathlib import Path
from typing import NamedTuple, Optional

import needs

SOURCE = Path(__file__).resolve().parent / "file_calls.c"
ENOSPC, EIO = 28, 5


class Call(NamedTuple):
    """A call that was done."""

    kind: str
    number: int
    """The inode."""
    more: "tuple[str, ...]"


class Watcher:
    """Runs programs, and knows the calls that change files below a folder."""

    def __init__(self, folder: Path, watched: Path) -> None:
        needs.command("cc", "gcc libc6-dev")
        self.log = folder / "calls"
        self.watched = watched
        self.library = folder / "file_calls.so"
        subprocess.run(["cc", "-O1", "-shared", "-fPIC", "-o", str(self.library), str(SOURCE), "-ldl"], check=True)

    def run(self, *line: str, at: int = 0, how: str = "", error: int = EIO,
            **more: str) -> "subprocess.CompletedProcess[bytes]":
        """A run; `how` says what becomes of its call number `at`: fails, before, after; full: no room from it on."""
        self.log.unlink(missing_ok=True)
        environment = {**os.environ, "LD_PRELOAD": str(self.library), "CALLS_BELOW": str(self.watched),
                       "CALLS_LOG": str(self.log), "CALLS_AT": str(at), "CALLS_HOW": how, "CALLS_ERROR": str(error),
                       "PYTHONDONTWRITEBYTECODE": "1", **more}
        return subprocess.run(line, env=environment, stdin=subprocess.DEVNULL, stdout=subprocess.PIPE,
                              stderr=subprocess.PIPE, timeout=300, check=False)

    def calls(self) -> "list[Call]":
        """The calls of the last run."""
        if not self.log.exists():
            return []
        rows = [line.split("\t") for line in self.log.read_text().splitlines()]
        return [Call(row[0], int(row[1]), tuple(row[2:])) for row in rows]


class Disk:
    """What the calls put on a disk, by what is known to be there and what is not yet: the bytes of a file by its inode;
    what a folder has by the names, of which changes are there in the order in which they were made.
    """

    def __init__(self, folder: Path) -> None:
        self.names = {str(path): path.stat().st_ino for path in folder.iterdir()}
        self.folders = {str(folder): folder.stat().st_ino}
        self.written = {number: Path(path).read_bytes() for path, number in self.names.items()}
        self.synced = dict(self.written)
        self.waiting: "list[tuple[str, Optional[str], int]]" = []

    def take(self, call: Call) -> None:
        """Does a call."""
        if call.kind in ("create", "cut"):
            self.written[call.number] = b""
            if call.kind == "create":
                self.synced.setdefault(call.number, b"")
                self.waiting.append(("add", call.more[0], call.number))
        elif call.kind == "write":
            at, data = int(call.more[0]), bytes.fromhex(call.more[1])
            before = self.written[call.number].ljust(at, b"\0")
            self.written[call.number] = before[:at] + data + before[at + len(data):]
        elif call.kind == "length":
            length = int(call.more[0])
            self.written[call.number] = self.written[call.number][:length].ljust(length, b"\0")
        elif call.kind == "move":
            self.waiting.append(("move " + call.more[0], call.more[1], 0))
        elif call.kind == "remove":
            self.waiting.append(("remove", call.more[0], 0))
        elif call.kind == "sync" and call.number in self.folders.values():
            self.names = self._after(len(self.waiting))
            self.waiting = []
        elif call.kind == "sync":
            self.synced[call.number] = self.written[call.number]

    def _after(self, count: int) -> "dict[str, int]":
        """The names after the first changes that wait."""
        names = dict(self.names)
        for what, name, number in self.waiting[:count]:
            assert name is not None
            if what == "add":
                names[name] = number
            elif what == "remove":
                names.pop(name, None)
            elif what[5:] in names:
                names[name] = names.pop(what[5:])
        return names

    def states(self) -> "Iterator[dict[str, bytes]]":
        """Each folder that may be found after a cut now: the changes of names up to any, and of each file what was
        synced, or all, or the length alone with zeros in it.
        """
        for count in range(len(self.waiting) + 1):
            names = self._after(count)
            for kept in itertools.product(range(3), repeat=len(names)):
                yield {name: self._bytes(number, how) for (name, number), how in zip(sorted(names.items()), kept)}

    def _bytes(self, number: int, how: int) -> bytes:
        synced, written = self.synced[number], self.written[number]
        if how == 0 or synced == written:
            return synced
        return written if how == 1 else bytes(len(written))


def after_power_cuts(disk: Disk, calls: "list[Call]") -> "Iterator[tuple[int, dict[str, bytes]]]":
    """What may be found after a cut before each call, and after the last, with the number of calls that were done."""
    for done in range(len(calls) + 1):
        for state in disk.states():
            yield done, state
        if done < len(calls):
            disk.take(calls[done])
