"""Files that are written, whole or in a stream."""
from __future__ import annotations

import os
from array import array
from types import TracebackType
from typing import Any, BinaryIO, Tuple

import numpy as np

from . import library
from .arrays import Array
from .head import LASZIP, Head
from .outputs import Output
from .points import Points, checked_one_scale, dtype_of, layout_of
from .progress import Progress, Told
from .reading import LasFile, Path
from .tally import Tally
from .thread_pool import ThreadPool, checked_threads

CHUNK = 50_000
"""The number of points of a chunk, if none is given."""
MAX_CHUNK = 250_000
MAX_PLAIN_OFFSET = 2**24 - 112

_LOST = "the file was not written, since an earlier call of write failed"

Packed = Tuple[bytes, int, Tally]
"""The bytes of a chunk, the number of its records, and their counts."""


class LasWriter:
    """A file that is written in a stream. `balsamvise.create` and `balsamvise.append` make it.

    It is whole when the `with` block ends, or when `close` is called: then the head gets the counts and the box of all
    points, the file is synced, and takes its name. If the block ends by an error, what stood under the name stays.
    """

    def __init__(self, target: Path | BinaryIO, head: Head, *, packed: bool | None, chunk: int, threads: int,
                 bounds: bool, progress: Progress = None, total: int | None = None) -> None:
        checked_threads(threads)
        if not 1 <= chunk <= MAX_CHUNK and chunk != library.COUNTED:
            raise ValueError(f"chunk is {chunk}, and not 1 to {MAX_CHUNK}")
        self._head = _checked(head)
        self._points = 0
        self._is_open = False
        self._failed = False
        self._dtype = dtype_of(head.format, head.extra)
        self._chunk = min(chunk, CHUNK) if chunk == library.COUNTED else chunk
        self._sizes = array("I") if chunk == library.COUNTED else None
        self._counts = array("I")
        self._tally = Tally()
        self._bounds = bounds
        self._waiting = np.empty(0, self._dtype)
        self._filled = 0
        self._spare: list[Array] = []  # rooms of chunks that are written, for those to come
        self._targets: list[Array] = []  # rooms for packed chunks, as many as threads pack at a time
        self._output: Output | None = None
        if isinstance(target, (str, os.PathLike)):
            name = os.fspath(target)
            self._packed = name.endswith((".laz", ".LAZ")) if packed is None else packed
            self._output = Output(name)
            self._file = self._output.__enter__()
        else:
            self._packed = bool(packed)
            self._file = _stream(target)
        self._pool: ThreadPool[Packed] = ThreadPool(threads)
        self._threads = threads
        self._told = Told(progress, total)
        self._is_open = True
        try:
            self._file.write(self._front())
        except BaseException as error:
            self._leave(error)
            raise

    @property
    def head(self) -> Head:
        """The head, as it was given; when the file is closed, as it stands in the file."""
        return self._head

    @property
    def points(self) -> int:
        """How many points are written so far."""
        return self._points

    def __setattr__(self, name: str, value: Any) -> None:
        if not name.startswith("_"):
            raise AttributeError(f"{name} of a file that is written can't be set: its head is given to create")
        super().__setattr__(name, value)

    def __enter__(self) -> LasWriter:
        return self

    def __exit__(self, kind: type[BaseException] | None, error: BaseException | None,
                 trace: TracebackType | None) -> None:
        if error is None:
            self.close()
        else:
            self._leave(error)

    def __del__(self) -> None:
        if getattr(self, "_is_open", False):
            self._leave(RuntimeError("the file was never closed"))

    def __repr__(self) -> str:
        return f"<LasWriter, {self.points:,} points so far\n{self.head!r}>"

    def _front(self) -> bytes:
        """The bytes before the points."""
        if not self._packed:
            return bytes(self.head)
        chunk = library.COUNTED if self._sizes is not None else self._chunk
        return self.head.packed(library.payload_of(self.head.format, self.head.extra, chunk)) + bytes(8)

    def write(self, points: Array) -> None:
        """Takes records after those that were taken before: `Points`, or an array of structs as of `dtype_of`.

        They have the format and the extra bytes of the head, and `Points` its scales and offsets too, else it raises
        `ValueError`. The array may be changed when the call returns. After any other error the file is not made, as
        points are missing: it is closed, and `close` and the end of the `with` block raise `ValueError`.
        """
        self._take(points, borrowed=False)

    def _take(self, points: Array, borrowed: bool) -> None:
        """Takes records. If they are borrowed, they are all of the file, and stay as they are until it is closed."""
        if not self._is_open:
            raise ValueError(_LOST if self._failed else "the file is closed")
        if isinstance(points, Points):
            checked_one_scale([self.head, points.head])
        records = np.ascontiguousarray(np.asarray(points)).reshape(-1)
        if records.dtype != self._dtype:
            raise ValueError(f"records of format {self.head.format} with {self.head.extra} extra bytes are written, "
                             f"and these have other fields: {records.dtype}")
        if self.points + len(records) >= 2**32:
            raise ValueError("a file has fewer than 2^32 points")
        try:
            self._put_records(records, borrowed)
        except BaseException as error:
            self._failed = True
            self._leave(error)
            raise

    def _put_records(self, records: Array, borrowed: bool) -> None:
        self._points += len(records)
        if not self._packed:
            self._tally.add([Tally.of(records)])
            self._file.write(records.view(np.uint8).data)
            self._told.add(len(records))
            return
        at = 0
        lent = 0  # how many calls have to end before the caller may change the records
        while at < len(records):
            if self._filled == 0 and (borrowed or self._is_lent(len(records) - at)):
                self._give(records[at:at + self._chunk])
                at += self._chunk
                lent = 0 if borrowed else self._pool.submitted
            else:
                at += self._keep(records[at:])
        self._pool.wait_for(lent)

    def _is_lent(self, left: int) -> bool:
        """Whether the next chunk is packed out of the caller's records, of which so many are left.

        The last ones are copied, one for each thread, so that all threads have work when the call returns: it waits for
        the others.
        """
        return left >= self._chunk * (1 if self._threads == 1 else self._threads + 1)

    def _keep(self, records: Array) -> int:
        """Copies records to the chunk that waits, which is packed when it is full; answers how many."""
        if self._filled == 0:
            self._waiting = self._spare.pop() if self._spare else np.empty(self._chunk, self._dtype)
        count = min(len(records), self._chunk - self._filled)
        # as bytes: numpy copies structs one by one
        first, size = self._filled * self._dtype.itemsize, count * self._dtype.itemsize
        self._waiting.view(np.uint8)[first:first + size] = records[:count].view(np.uint8)
        self._filled += count
        if self._filled == self._chunk:
            self._filled = 0
            self._give(self._waiting, self._waiting)
        return count

    def _give(self, records: Array, room: Array | None = None) -> None:
        """Has a chunk packed, and writes those that are; `room` may be used again when this one is written."""
        def pack() -> Packed:
            layout = self.head.format, self.head.extra
            try:
                target = self._targets.pop()
            except IndexError:
                target = np.empty(library.room_of(*layout, self._chunk), np.uint8)
            data = library.pack(*layout, records, target)
            self._targets.append(target)  # it is used again, since the system takes long to give such large ones
            tally = Tally.of(records)
            if room is not None:
                self._spare.append(room)
            return data, len(records), tally

        for packed in self._pool.submit(pack):
            self._put(*packed)

    def _put(self, data: bytes, count: int, tally: Tally) -> None:
        self._file.write(data)
        self._counts.append(len(data))
        if self._sizes is not None:
            self._sizes.append(count)
        self._tally.add([tally])
        self._told.add(count)

    def copy_of(self, file: LasFile) -> None:
        """Takes all points of a file of the same head: full chunks as they stand, the others packed again.

        All of them are unpacked too, to count what the head says of them.
        """
        if not file.is_packed or not self._packed:
            for points in file.chunks():
                self.write(points)
            return
        for chunk in file.packed_chunks():
            if self._sizes is None and chunk.points != self._chunk:
                self.write(chunk.unpacked())
            else:
                self._points += chunk.points
                for packed in self._pool.submit(chunk.counted):
                    self._put(*packed)

    def close(self) -> None:
        """Ends the file: it is whole, synced, and has its name. It may be called again.

        It raises `ValueError` if a call of `write` failed, so that points are missing: then there is no file.
        """
        if self._failed:
            raise ValueError(_LOST)
        if not self._is_open:
            return
        try:
            self._finish()
        except BaseException as error:
            self._leave(error)
            raise
        self._leave(None)

    def _finish(self) -> None:
        if self._filled:
            self._give(self._waiting[:self._filled])
            self._filled = 0
        for packed in self._pool.drain():
            self._put(*packed)
        length = len(self._front())
        self._head = self.head.counted(self._tally, self.head.format, self.head.extra, self._bounds)
        front = self._front()
        if self._packed:
            place = length + sum(self._counts)
            sizes = None if self._sizes is None else np.array(self._sizes, np.uint32)
            self._file.write(library.table_of(np.array(self._counts, np.uint32), sizes))
            front = front[:-8] + place.to_bytes(8, "little")
        self._file.seek(0)
        self._file.write(front)
        self._file.seek(0, os.SEEK_END)

    def _leave(self, error: BaseException | None) -> None:
        """Lets the file have its name, or takes it away if there was an error."""
        if not self._is_open:
            return
        self._is_open = False
        self._pool.close()
        self._told.__exit__(None, None, None)
        if self._output is not None:
            self._output.__exit__(type(error) if error else None, error, None)
        elif error is None:
            self._file.flush()


def _stream(stream: BinaryIO) -> BinaryIO:
    """A stream that a file can be written to."""
    if not stream.seekable() or stream.tell() != 0:
        raise ValueError("a file is written to a stream that can seek, from its start on")
    return stream


def create(target: Path | BinaryIO, head: Head, *, packed: bool | None = None, chunk: int = CHUNK, threads: int = 1,
           bounds: bool = True, progress: Progress = None) -> LasWriter:
    """A new file under a head, to which records are written in a stream, in constant memory:

        with balsamvise.create("out.laz", head, threads=4) as out:
            out.write(points)

    All but `progress` is as of `write`; that is called with the number of points that are written, and None. `target`
    may also be a binary stream that can seek and stands at its start, as `io.BytesIO`: it is packed only if `packed` is
    true, it is not closed, and after an error it holds a part.
    """
    return LasWriter(target, head, packed=packed, chunk=chunk, threads=threads, bounds=bounds, progress=progress)


def append(path: Path, *, threads: int = 1, progress: Progress = None) -> LasWriter:
    """A file with more points after those that it has, as a new file that takes the name when it is whole and synced.

        with balsamvise.append("tile.laz", threads=4) as out:
            out.write(points)

    A packed file's chunk table follows its chunks, so nothing can be added in place: the chunks are copied as
    they stand, and a last one that is not full is packed again with what comes. All chunks are unpacked to count what
    the head says of them, and a bad one raises `Refused`. Chunks keep their size; a file of chunks with numbers of
    points of their own gets chunks of 50,000. Until the file is closed it takes the room of both files.
    """
    with LasFile(path) as file:
        chunk = file.chunk_size or CHUNK
        out = LasWriter(path, file.head, packed=file.is_packed, threads=threads, bounds=True, progress=progress,
                        chunk=CHUNK if MAX_CHUNK < chunk < library.COUNTED else chunk)
        try:
            out.copy_of(file)
            for packed in out._pool.drain():  # while the file is open
                out._put(*packed)
        except BaseException as error:
            out._leave(error)
            raise
    return out


def write(path: Path | BinaryIO, head: Head, array: Array, *, packed: bool | None = None, chunk: int = CHUNK,
          threads: int = 1, bounds: bool = True, progress: Progress = None) -> None:
    """Writes point records under a head, which gets their format and counts, and their bounds unless `bounds` is false.

    A bound that is right to the resolution of its scale stays as it is, so that a file that is read and written again
    is the same file if its bounds are right. `Points` are written under a head of the same scales, offsets and fields
    of extra bytes: for another one it raises `ValueError`, and `Points.rescaled` gives them its scales.

    The file is packed if `packed` is true, or if it is None and the name ends in `.laz` or `.LAZ`. A packed file has
    chunks of `chunk` points, 1 to 250,000, which `threads` threads pack side by side: 1 to 256. The bytes are the same
    for any number of threads, and those that `las laszip` writes. `progress` is called with the number of points that
    are written and the number of all; if it is True and the package tqdm is installed, that shows a bar.

    The file is written under another name in its folder, and takes its own name when it is whole and on the disk;
    before that, a file that is there stays. It keeps that file's mode, and owner and group where the system allows. A
    symbolic link stays, and what it names is replaced. What is there and is no regular file, as a folder, a FIFO or a
    device, is refused by `OSError`. In the place of a name a binary stream may stand, as of `create`.
    """
    if isinstance(array, Points):
        checked_one_scale([head, array.head])
    records = np.ascontiguousarray(np.asarray(array)).reshape(-1)
    format, extra = layout_of(records.dtype)
    if len(records) >= 2**32:
        raise ValueError("a file has fewer than 2^32 points")
    head = head.changed(format=format, extra=extra)
    with LasWriter(path, head, packed=packed, chunk=chunk, threads=threads, bounds=bounds, progress=progress,
                   total=len(records)) as out:
        out._take(records, borrowed=True)


def _checked(head: Head) -> Head:
    if head.vlrs.get(LASZIP[0].rstrip(b"\0"), LASZIP[1]) is not None:
        raise ValueError("the head has a laszip VLR of its own")
    if head.offset > MAX_PLAIN_OFFSET:
        raise ValueError(f"the head has {head.offset} bytes, and more than {MAX_PLAIN_OFFSET}")
    return head
