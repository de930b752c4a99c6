"""Where the bytes of a file come from."""
from __future__ import annotations

import errno
import os
import stat
import threading
from typing import BinaryIO


def _cut(name: str) -> OSError:
    return OSError(errno.EIO, "the file became shorter while it was read", name)


def not_regular(name: str, mode: int) -> OSError:
    """What is told of a name that is that of something else than a regular file."""
    return OSError(errno.EISDIR if stat.S_ISDIR(mode) else errno.EINVAL, "not a regular file", name)


def _open(name: str, flags: int) -> int:
    """Opens a file without waiting, should it have become a FIFO."""
    return os.open(name, flags | os.O_NONBLOCK | os.O_NOCTTY)


class PathSource:
    """A regular file by its name. Threads read it side by side."""

    def __init__(self, name: str) -> None:
        self.name = name
        # looked at first, since to open a FIFO waits and to open a device may do something
        mode = os.stat(name).st_mode
        if not stat.S_ISREG(mode):
            raise not_regular(name, mode)
        self._file = open(name, "rb", buffering=0, opener=_open)
        status = os.fstat(self._file.fileno())
        if not stat.S_ISREG(status.st_mode):
            self._file.close()
            raise not_regular(name, status.st_mode)
        self.size = status.st_size

    def close(self) -> None:
        self._file.close()

    def stamp(self) -> tuple[int, ...]:
        """What changes if the file is written to: its size and times."""
        status = os.fstat(self._file.fileno())
        return status.st_size, status.st_mtime_ns, status.st_ctime_ns

    def read(self, at: int, length: int) -> bytes:
        """So many bytes from a place of the file."""
        parts = []
        while length > 0:
            part = os.pread(self._file.fileno(), min(length, 2**30), at)
            if not part:
                raise _cut(self.name)
            parts.append(part)
            at += len(part)
            length -= len(part)
        return parts[0] if len(parts) == 1 else b"".join(parts)

    def read_into(self, at: int, room: memoryview) -> None:
        """Fills bytes from a place of the file."""
        while len(room) > 0:
            count = os.preadv(self._file.fileno(), [room[:2**30]], at)
            if count == 0:
                raise _cut(self.name)
            at += count
            room = room[count:]


class StreamSource:
    """A binary stream that can seek, as a file that is open or `io.BytesIO`. It is not closed here."""

    def __init__(self, stream: BinaryIO) -> None:
        self.name = str(getattr(stream, "name", "stream"))
        self._stream = stream
        self._lock = threading.Lock()
        self.size = stream.seek(0, os.SEEK_END)

    def close(self) -> None:
        pass

    def stamp(self) -> tuple[int, ...]:
        """Nothing: a stream does not tell."""
        return ()

    def read(self, at: int, length: int) -> bytes:
        """So many bytes from a place of the stream."""
        parts = []
        with self._lock:
            self._stream.seek(at)
            while length > 0:
                part = self._stream.read(length)
                if not part:
                    raise _cut(self.name)
                parts.append(part)
                length -= len(part)
        return parts[0] if len(parts) == 1 else b"".join(parts)

    def read_into(self, at: int, room: memoryview) -> None:
        """Fills bytes from a place of the stream."""
        room[:] = self.read(at, len(room))
