"""Files that are read."""
from __future__ import annotations

import os
import struct
from collections import deque
from dataclasses import dataclass
from functools import partial
from types import TracebackType
from typing import Any, BinaryIO, Callable, Iterator, Sequence, Union, overload

import numpy as np

from . import library
from .arrays import Array, RecordArray
from .errors import BAD_CHUNK, TABLE_POINTER, Refused
from .head import Head, plain_head
from .points import Points, dtype_of
from .progress import Progress, Told
from .sources import PathSource, StreamSource
from .sums import EvenSums, Sums
from .tally import Tally
from .thread_pool import ThreadPool, checked_threads
from .vlrs import Vlrs

Path = Union[str, "os.PathLike[str]"]
_PLAIN_CHUNK = 50_000
_BLOCK = 4096
"""How much is read at once of a head or a chunk table, which are mostly shorter."""
_MANY_CHUNKS = 65_536
"""Of more chunks than this no list is made before it is known that the file has bytes for them."""
_JOB = 16_384
"""Chunks are read together up to this number of points: a small file can claim 16,777,216 of them."""


class LasFile:
    """A LAS or LAZ file that is open. It is made by `balsamvise.open`, and is closed by `close` or a `with` block."""

    head: Head
    """The head of the plain file."""
    is_packed: bool
    """Whether the points are packed."""

    def __init__(self, source: Path | BinaryIO) -> None:
        self._source: PathSource | StreamSource
        self._points: Points | None = None
        self._firsts: EvenSums | Sums
        if isinstance(source, (str, os.PathLike)):
            self._source = PathSource(os.fspath(source))
        else:
            self._source = StreamSource(source)
        self.name = self._source.name
        try:
            self._begin()
        except BaseException:
            self._source.close()
            raise

    def _begin(self) -> None:
        size = self._source.size
        front = self._source.read(0, min(size, _BLOCK))
        offset = library.need(self.name, front[:library.FRONT], size)
        data = front[:offset] if offset <= len(front) else self._source.read(0, offset)
        raw = library.read_head(self.name, data, size)
        self.is_packed = raw.chunk != 0
        self._chunk_size: int = raw.chunk
        self._start = offset
        if self.is_packed:
            self.head = plain_head(data, raw.laszip_start, raw.laszip_length)
            self._read_table(raw, size)
        else:
            self.head = Head(data)
            self._firsts = EvenSums(_PLAIN_CHUNK, raw.points)
        self.dtype = dtype_of(self.head.format, self.head.extra)

    def _read_table(self, raw: library.RawHead, size: int) -> None:
        first = self._start + 8
        end = size
        if size < first:
            raise Refused(self.name, TABLE_POINTER)
        (table,) = struct.unpack("<Q", self._source.read(self._start, 8))
        if table == 2**64 - 1:
            if size < first + 8:
                raise Refused(self.name, TABLE_POINTER)
            end = size - 8
            (table,) = struct.unpack("<Q", self._source.read(end, 8))
        if not first <= table <= end:
            raise Refused(self.name, TABLE_POINTER)
        data = self._source.read(table, min(end - table, _BLOCK))
        if len(data) >= 8:
            count = struct.unpack_from("<I", data, 4)[0]
            claimed = -(-raw.points // raw.chunk) if raw.chunk != library.COUNTED else min(raw.points, 2**24)
            if _MANY_CHUNKS < count <= claimed and count * raw.record_length > table - first:
                # each has a record, which stands in it as it is: without a list of all it is known that one has none
                raise Refused(self.name, BAD_CHUNK)
            needed = min(end - table, library.table_room(count))
            data = data if needed <= len(data) else self._source.read(table, needed)
        chunks = library.read_table(self.name, data, raw.chunk, raw.points, table - first)
        self._firsts = Sums(chunks.sizes) if raw.chunk == library.COUNTED else EvenSums(raw.chunk, raw.points)
        self._places = Sums(chunks.counts, first)

    def __enter__(self) -> LasFile:
        return self

    def __exit__(self, kind: type[BaseException] | None, error: BaseException | None,
                 trace: TracebackType | None) -> None:
        self.close()

    def __len__(self) -> int:
        """The number of points."""
        return self._firsts[len(self._firsts)]

    def close(self) -> None:
        """Closes the file. It may be called again."""
        self._source.close()

    @property
    def vlrs(self) -> Vlrs:
        """The variable-length records, without the laszip VLR."""
        return self.head.vlrs

    @property
    def points(self) -> Points:
        """All point records, read by one thread when they are first asked for. What is assigned to them stays."""
        if self._points is None:
            self._points = self.read()
        return self._points

    def __repr__(self) -> str:
        kind = f"packed in {len(self._firsts)} chunks" if self.is_packed else "plain"
        return f"<LasFile {self.name!r}, {len(self):,} points, {kind}\n{self.head!r}>"

    def _chunk_to(self, chunk: int, records: Array) -> None:
        """Reads the chunk of this number to an array of its length."""
        if not self.is_packed:
            place = self._start + self._firsts[chunk] * self.dtype.itemsize
            self._source.read_into(place, memoryview(records.view(np.uint8).data))
            return
        place = self._places[chunk]
        data = self._source.read(place, self._places[chunk + 1] - place)
        if not library.unpack(self.head.format, self.head.extra, data, len(records), records):
            raise Refused(self.name, BAD_CHUNK, chunk)

    def _part_to(self, chunk: int, start: int, records: Array) -> None:
        """Reads what this chunk has of the records from `start` on to their places in an array."""
        first, last = self._firsts[chunk], self._firsts[chunk + 1]
        low, high = max(start, first), min(start + len(records), last)
        if (low, high) == (first, last):
            self._chunk_to(chunk, records[low - start:high - start])
            return
        whole = np.empty(last - first, self.dtype)
        self._chunk_to(chunk, whole)
        records[low - start:high - start] = whole[low - first:high - first]

    def _groups(self, start: int, stop: int) -> Iterator[range]:
        """The chunks that have the records from `start` on and before `stop`, small ones together."""
        if start >= stop:
            return
        last = self._firsts.place(stop - 1)
        chunk = self._firsts.place(start)
        while chunk <= last:
            end = chunk + 1
            while end <= last and self._firsts[end] - self._firsts[chunk] < _JOB:
                end += 1
            yield range(chunk, end)
            chunk = end

    def _jobs(self, start: int, records: Array) -> Iterator[Callable[[], int]]:
        """Calls that read the records from `start` on to an array, each with some chunks; each answers their number."""
        for chunks in self._groups(start, start + len(records)):
            yield partial(self._run, chunks, start, records)

    def _run(self, chunks: range, start: int, records: Array) -> int:
        """Reads some chunks, and answers how many of the records they have."""
        for chunk in chunks:
            self._part_to(chunk, start, records)
        low, high = self._firsts[chunks[0]], self._firsts[chunks[-1] + 1]
        return int(min(high, start + len(records)) - max(low, start))

    @property
    def chunk_size(self) -> int:
        """The number of points of a chunk: 0 if the points are plain, and 2^32 - 1 if each chunk has its own."""
        return self._chunk_size

    def packed_chunks(self) -> Iterator[PackedChunk]:
        """The chunks of a packed file, in order, as they stand in it."""
        for chunk in range(len(self._firsts)):
            yield PackedChunk(self, chunk, self._firsts[chunk + 1] - self._firsts[chunk])

    def tally(self, threads: int = 1) -> Tally:
        """The number of points, the numbers by return, and the box of the raw coordinates, of all points."""
        def of(chunks: range) -> Tally:
            records = np.empty(self._firsts[chunks[-1] + 1] - self._firsts[chunks[0]], self.dtype)
            self._run(chunks, self._firsts[chunks[0]], records)
            return Tally.of(records)

        tally = Tally()
        pool: ThreadPool[Tally] = ThreadPool(checked_threads(threads))
        with pool:
            for part in pool.map(partial(of, chunks) for chunks in self._groups(0, len(self))):
                tally.add([part])
        return tally

    def stamp(self) -> tuple[int, ...]:
        """What changes if another program writes to the file: its size and times; empty for a stream."""
        return self._source.stamp()

    def blocks(self, length: int) -> Iterator[tuple[int, bytes]]:
        """The bytes of the file, as many at a time, each with its place."""
        for at in range(0, self._source.size, length):
            yield at, self._source.read(at, min(length, self._source.size - at))

    def read(self, threads: int = 1, progress: Progress = None) -> Points:
        """All point records. `threads` threads unpack chunks side by side: 1 to 256.

        `progress` is called with the number of records that are read and the number of all; if it is True and the
        package tqdm is installed, that shows a bar.
        """
        return self.records(0, len(self), threads, progress)

    def records(self, start: int, stop: int, threads: int = 1, progress: Progress = None) -> Points:
        """The point records from `start` on and before `stop`, as of a list. Only the chunks that they are in are read.
        """
        checked_threads(threads)
        start, stop, _ = slice(start, stop).indices(len(self))
        records = np.empty(max(stop - start, 0), self.dtype)
        with Told(progress, len(records)) as told:
            if threads == 1:
                for chunks in self._groups(start, stop):
                    told.add(self._run(chunks, start, records))
            else:
                pool: ThreadPool[int] = ThreadPool(threads)
                with pool:
                    for done in pool.map(self._jobs(start, records)):
                        told.add(done)
        return Points._of(records, self.head)

    @overload
    def chunks(self, size: int | None = None, *, columns: None = None, threads: int = 1,
               progress: Progress = None) -> Iterator[Points]: ...

    @overload
    def chunks(self, size: int | None = None, *, columns: Sequence[str], threads: int = 1,
               progress: Progress = None) -> Iterator[RecordArray]: ...

    def chunks(self, size: int | None = None, *, columns: Sequence[str] | None = None, threads: int = 1,
               progress: Progress = None) -> Iterator[Any]:
        """The point records in order, `size` at a time and at last what is left: an iterator.

        Without a size they come chunk by chunk as the file has them, and plain points 50,000 at a time. With `columns`,
        the names of fields, each part is a record array of these alone, as of `Points.columns`. `threads` threads
        unpack chunks side by side, also those of the next part while a part is in use: two parts are in memory then.
        `progress` is as of `read`. If a chunk is bad, `Refused` is raised where its records would come.
        """
        checked_threads(threads)
        if size is not None and size < 1:
            raise ValueError(f"size is {size}, and not 1 or more")
        return self._parts(size, columns, threads, progress)

    def _starts(self, size: int | None) -> Iterator[int]:
        """Where the parts begin, and where the last one ends."""
        if size is None:
            for chunk in range(len(self._firsts)):
                yield self._firsts[chunk]
        else:
            yield from range(0, len(self), size)
        yield len(self)

    def _parts(self, size: int | None, columns: Sequence[str] | None, threads: int,
               progress: Progress) -> Iterator[Any]:
        parts: deque[Array] = deque()

        def jobs() -> Iterator[Callable[[], int]]:
            starts = self._starts(size)
            start = next(starts)
            for stop in starts:
                parts.append(np.empty(stop - start, self.dtype))
                yield from self._jobs(start, parts[-1])
                start = stop

        pool: ThreadPool[int] = ThreadPool(threads)
        with Told(progress, len(self)) as told, pool:
            there = 0
            for done in pool.map(jobs()):
                there += done
                told.add(done)
                while parts and there >= len(parts[0]):
                    there -= len(parts[0])
                    points = Points._of(parts.popleft(), self.head)
                    yield points if columns is None else points.columns(columns)
                    del points


@dataclass(frozen=True)
class PackedChunk:
    """One chunk of a packed file that is open."""

    file: LasFile
    number: int
    """Its number, from 0."""
    points: int
    """The number of its records."""

    def data(self) -> bytes:
        """Its bytes."""
        place = self.file._places[self.number]
        return self.file._source.read(place, self.file._places[self.number + 1] - place)

    def unpacked(self, data: bytes | None = None) -> Array:
        """Its records."""
        records = np.empty(self.points, self.file.dtype)
        head, data = self.file.head, self.data() if data is None else data
        if not library.unpack(head.format, head.extra, data, self.points, records):
            raise Refused(self.file.name, BAD_CHUNK, self.number)
        return records

    def counted(self) -> tuple[bytes, int, Tally]:
        """Its bytes, the number of its records, and their counts."""
        data = self.data()
        return data, self.points, Tally.of(self.unpacked(data))


def open_file(source: Path | BinaryIO) -> LasFile:
    """Opens a LAS or LAZ file, or a binary stream of one. What the file holds decides, and not its name.

    It raises `Refused` if the file is not one that is read here, with the cause's number and name, and `OSError` if it
    can't be read.
    """
    return LasFile(source)


def read(source: Path | BinaryIO, threads: int = 1, progress: Progress = None) -> Points:
    """All point records of a LAS or LAZ file, with its head. `threads` threads unpack chunks side by side: 1 to 256.

    `progress` is as of `LasFile.read`, and the errors are those of `open`.
    """
    with LasFile(source) as file:
        return file.read(threads, progress)
