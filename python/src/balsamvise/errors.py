"""What goes wrong."""
from __future__ import annotations

CAUSES = (
    "Short", "Magic", "Version", "HeaderSize", "Offset", "Vlrs", "Format", "RecordLength", "Count", "Trailing",
    "StrayVlr", "NoVlr", "VlrShape", "Compressor", "Items", "ChunkSize", "TooManyChunks", "TablePointer", "Table",
    "ChunkSum", "BadChunk", "RawRange", "TooManyParts", "PointSum", "Extended", "PointCounts", "NotPacked",
)
"""The names of the causes for which a file is refused; the number of a cause is its place, from 1."""

TABLE_POINTER = 18
BAD_CHUNK = 21


class Refused(ValueError):
    """A file is not one that is read here, or not whole."""

    name: str
    """The name of the file."""
    number: int
    """The number of the cause, from 1."""
    cause: str
    """The name of the cause, as `Trailing`."""
    chunk: int | None
    """The number of the first bad chunk, from 0, if the cause is `BadChunk`; else None, and also if there are more
    chunks than bytes for them."""

    def __init__(self, name: str, number: int, chunk: int | None = None) -> None:
        self.name = name
        self.number = number
        self.cause = CAUSES[number - 1]
        self.chunk = chunk
        place = "" if chunk is None else f" {chunk}"
        super().__init__(f"{name}: {number} {self.cause}{place}")

    def __reduce__(self) -> tuple[type[Refused], tuple[str, int, int | None]]:
        return (type(self), (self.name, self.number, self.chunk))


class LibraryMissing(ImportError):
    """The shared library liblaz.so was not found, or is not one that can be used here."""


class ProcessorTooOld(LibraryMissing):
    """The processor is older than x86-64-v2, which the shared library is built for. Importing the package raises it."""
