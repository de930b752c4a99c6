"""Writes a random sample of the points of a file, in their order."""
from __future__ import annotations

import argparse
import os

import numpy as np

from .reading import LasFile
from .writing import create

_PART = 1_000_000
_EXACT_BELOW = 10**9


def _of_part(random: np.random.Generator, part: int, wanted: int, left: int) -> int:
    """How many of the next `part` points are taken, if `wanted` of the next `left` are."""
    if left < _EXACT_BELOW:
        return int(random.hypergeometric(wanted, left - wanted, part)) if part < left else wanted
    low, high = max(0, wanted - (left - part)), min(part, wanted)
    return min(max(int(random.binomial(part, wanted / left)), low), high)


def sample(source: str, target: str, points: int, *, seed: int = 0, threads: int = 1) -> int:
    """Writes a number of points of a file, chosen at random by a seed, or all if it has fewer; returns the number.

    Each choice of that number of points is as likely as any other, for files of fewer than 10^9 points. The memory does
    not grow with the file. The errors are those of `balsamvise.open` and `balsamvise.create`.
    """
    random = np.random.default_rng(seed)
    with LasFile(source) as file, create(target, file.head, threads=threads) as out:
        left, wanted = len(file), min(points, len(file))
        for part in file.chunks(_PART, threads=threads):
            count = _of_part(random, len(part), wanted, left)
            places = random.choice(len(part), count, replace=False, shuffle=False)
            places.sort()
            out.write(part[places])
            left, wanted = left - len(part), wanted - count
        return out.points


def main(arguments: list[str]) -> int:
    """Runs the command."""
    words = argparse.ArgumentParser(prog="balsamvise sample", description=(
        "Writes points of FILE that are chosen at random to OUTPUT, in their order; packed, if OUTPUT ends in .laz."))
    words.add_argument("file", metavar="FILE", help="a LAS or LAZ file")
    words.add_argument("output", metavar="OUTPUT", help="the file that is written")
    words.add_argument("--points", type=int, default=100_000, metavar="N", help="how many; 100000 if it is not given")
    words.add_argument("--seed", type=int, default=0, metavar="N", help="0 or more: another number, other points")
    words.add_argument("--threads", type=int, default=os.cpu_count() or 1, metavar="N",
                       help="the number of threads, 1 to 256; that of the processors if it is not given")
    given = words.parse_args(arguments)
    if given.points < 0 or given.seed < 0:
        words.error("--points and --seed are 0 or more")
    count = sample(given.file, given.output, given.points, seed=given.seed, threads=min(max(given.threads, 1), 256))
    print(f"{given.output}: {count} points")
    return 0
