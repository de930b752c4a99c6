"""Sums of the first numbers of a list, in little memory: where the chunks of a file begin."""
from __future__ import annotations

from array import array
from bisect import bisect_right
from itertools import accumulate

import numpy as np

from .arrays import Array

_STEP = 1024
_FEW = 64
"""Of at most so many numbers all sums are kept, which is faster: small files have few chunks."""


class EvenSums:
    """The sums of equal numbers, of which the last may be smaller."""

    def __init__(self, each: int, total: int) -> None:
        self._each = each
        self._total = total

    def __len__(self) -> int:
        """How many numbers there are."""
        return -(-self._total // self._each)

    def __getitem__(self, count: int) -> int:
        """The sum of the first `count` numbers."""
        return min(count * self._each, self._total)

    def place(self, value: int) -> int:
        """The place of the number in which a value below the whole sum falls."""
        return value // self._each


class Sums:
    """The sums of the first numbers of a list of unsigned numbers of 32 bits, from a start on."""

    def __init__(self, numbers: array[int], start: int = 0) -> None:
        self._count = len(numbers)
        self._few: list[int] | None = None
        if self._count <= _FEW:
            self._few = list(accumulate(numbers, initial=start))
            return
        self._numbers: Array = np.frombuffer(numbers, np.uint32)
        whole = self._count // _STEP
        steps = self._numbers[:whole * _STEP].reshape(whole, _STEP).sum(axis=1, dtype=np.int64)
        self._marks = np.concatenate([[start], start + np.cumsum(steps)]).astype(np.int64)

    def __len__(self) -> int:
        """How many numbers there are."""
        return self._count

    def __getitem__(self, count: int) -> int:
        """The sum of the first `count` numbers."""
        if self._few is not None:
            return self._few[count]
        step, rest = divmod(count, _STEP)
        return int(self._marks[step]) + int(self._numbers[count - rest:count].sum(dtype=np.int64))

    def place(self, value: int) -> int:
        """The place of the number in which a value from the start on and below the whole sum falls."""
        if self._few is not None:
            return bisect_right(self._few, value) - 1
        step = int(np.searchsorted(self._marks, value, "right")) - 1
        within = np.cumsum(self._numbers[step * _STEP:(step + 1) * _STEP], dtype=np.int64)
        return step * _STEP + int(np.searchsorted(within, value - int(self._marks[step]), "right"))
