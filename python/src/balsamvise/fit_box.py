"""Mends the box of a file's head, after all points are read."""
from __future__ import annotations

import argparse
import os

from .outputs import Output
from .reading import LasFile

_BOX = slice(179, 227)
_BLOCK = 2**22


def fit_box(name: str, threads: int = 1) -> bool:
    """Gives the head of a file the box of its points; answers whether another one stood there.

    A bound that is right to the resolution of its scale stays. All other bytes stay too: the file is copied with the
    new box, and the copy takes its name when it is whole and on the disk. It raises `Refused` for a file that is not
    read here, and `OSError` if the file can't be read or written, or is changed meanwhile.
    """
    path = os.path.realpath(name)
    with LasFile(path) as file:
        before = file.stamp()
        head = file.head.counted(file.tally(threads), file.head.format, file.head.extra, True)
        box = bytes(head)[_BOX]
        if box == bytes(file.head)[_BOX]:
            return False
        with Output(path) as out:
            for at, block in file.blocks(_BLOCK):
                out.write(block[:_BOX.start] + box + block[_BOX.stop:] if at == 0 else block)
            if file.stamp() != before:
                raise OSError(f"{name}: the file was changed meanwhile")
    return True


def main(arguments: list[str]) -> int:
    """Runs the command."""
    words = argparse.ArgumentParser(prog="balsamvise fit-box", description=(
        "Reads all points of each FILE, and gives its head the box of their coordinates. The file is copied, and the "
        "copy takes its name when it is whole and on the disk. A box that is right stays."))
    words.add_argument("files", nargs="+", metavar="FILE", help="a LAS or LAZ file")
    words.add_argument("--threads", type=int, default=os.cpu_count() or 1, metavar="N",
                       help="the number of threads, 1 to 256; that of the processors if it is not given")
    given = words.parse_args(arguments)
    for name in given.files:
        changed = fit_box(name, min(max(given.threads, 1), 256))
        print(f"{name}: {'the box is mended' if changed else 'the box was right'}")
    return 0
