"""The rows that jobs print: how each ended, and which files it read and made."""
from __future__ import annotations

import os
import re
from decimal import Decimal, InvalidOperation
from typing import NamedTuple, Optional

from .files import Identity, folder_of
from .state import Job

FIELDS = 13
DRAFT = re.compile(rb"\.(?:.+\.)?las-([0-9A-Za-z]+)-[0-9A-Za-z]+\.(?:part|back|link\.las)")  # with the token


class Row(NamedTuple):
    number: int
    status: int
    host: str
    begun: int
    took: int
    source: Optional[Identity]
    draft: Optional[Identity]
    input_sum: str
    output_sum: str
    plain_sum: str
    said: bytes


def draft_name(token: str, number: int) -> bytes:
    """The name of a job's draft; the token is random, and new in each start of las-batch."""
    return f".las-{token}-{number}.part".encode()


def draft_of(token: str, job: Job) -> bytes:
    return os.path.join(folder_of(job.output), draft_name(token, job.number))


def is_draft(name: bytes, token: str) -> bool:
    """Whether a name is that of a file that a job of this start makes for a while."""
    return f".las-{token}-".encode() in name and not name.endswith((b".old", b".input"))


def nanoseconds(text: bytes) -> int:
    return int(Decimal(text.decode()).scaleb(9))


def read_identity(text: bytes) -> Optional[Identity]:
    """What `stat` printed of a file: device, inode, size, mtime, ctime, mode."""
    if text == b"-":
        return None
    device, inode, size, mtime, ctime, mode = text.split(b" ")
    return Identity(int(device), int(inode), int(size), nanoseconds(mtime), nanoseconds(ctime), int(mode, 16))


def read_row(line: bytes, token: str) -> Optional[Row]:
    """A row, or None for a line that is none: one of another start, or one that a power cut tore."""
    fields = line.split(b"\t", FIELDS - 1)
    if len(fields) != FIELDS or fields[0] != b"las-batch" or fields[1] != token.encode():
        return None
    try:
        number, status, begun, took = (int(fields[at]) for at in (2, 3, 5, 6))
        source, draft = read_identity(fields[7]), read_identity(fields[8])
    except (ValueError, InvalidOperation):
        return None
    sums = ["" if part == b"-" else part.decode() for part in fields[9:12]]
    host = os.fsdecode(fields[4])
    return Row(number, status, host, begun, took, source, draft, sums[0], sums[1], sums[2], fields[12])
