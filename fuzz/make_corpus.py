#!/usr/bin/env python3
"""Makes the first inputs of the fuzzer out of packed files: make_corpus.py FOLDER FILE.laz...: their heads, tables and
first chunks, and records of them, each behind the bytes by which decode.c chooses a call.
"""
import hashlib
import os
import struct
import sys

sys.path.insert(0, os.path.join(os.path.dirname(os.path.dirname(os.path.abspath(__file__))), "python", "src"))
import balsamvise  # noqa: E402

MOST_POINTS = 2000


def pieces(name):
    """The inputs that a file gives."""
    with open(name, "rb") as file:
        data = file.read()
    with balsamvise.open(name) as it:
        offset = struct.unpack_from("<I", data, 96)[0]
        place = struct.unpack_from("<Q", data, offset)[0]
        yield bytes([3]) + data[:offset + 64]
        chunk_size = struct.unpack_from("<I", data, data.index(b"laszip encoded") + 52 + 12)[0]
        fixed = struct.pack("<IIQ", chunk_size, len(it), place - offset - 8)
        yield bytes([2]) + fixed + data[place:]
        layout = bytes([it.head.format, it.head.extra])
        for chunk in range(min(len(it._firsts), 2)):
            count = it._firsts[chunk + 1] - it._firsts[chunk]
            if count <= MOST_POINTS:
                first, end = it._places[chunk], it._places[chunk + 1]
                yield bytes([0]) + layout + struct.pack("<H", count - 1) + data[first:end]
        yield bytes([6]) + layout + it.records(0, 12).tobytes()


def main(folder, *names):
    os.makedirs(folder, exist_ok=True)
    for name in names:
        for piece in pieces(name):
            with open(os.path.join(folder, hashlib.sha1(piece).hexdigest()[:12]), "wb") as file:
                file.write(piece)


if __name__ == "__main__":
    main(*sys.argv[1:])
