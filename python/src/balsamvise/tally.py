"""What a head says of its points, counted."""
from __future__ import annotations

from typing import Iterable

import numpy as np

from .arrays import Array

_BLOCK = 65536


class Tally:
    """The number of records, the numbers by return, and the box of the raw coordinates, of records seen so far."""

    def __init__(self) -> None:
        self.points = 0
        self._returns = np.zeros(256, np.int64)
        self.mins = [2**31 - 1] * 3
        self.maxs = [-2**31] * 3

    @classmethod
    def of(cls, records: Array) -> Tally:
        """That of an array of records, in one dimension."""
        tally = cls()
        for at in range(0, len(records), _BLOCK):
            tally._see(records[at:at + _BLOCK])
        return tally

    def _see(self, records: Array) -> None:
        self.points += len(records)
        self._returns += np.bincount(records["bit_fields"], minlength=256)
        for axis in range(3):
            raw = np.ascontiguousarray(records["XYZ"[axis]])
            self.mins[axis] = min(self.mins[axis], int(raw.min()))
            self.maxs[axis] = max(self.maxs[axis], int(raw.max()))

    def add(self, others: Iterable[Tally]) -> None:
        """Adds those of other records."""
        for other in others:
            self.points += other.points
            self._returns += other._returns
            self.mins = [min(pair) for pair in zip(self.mins, other.mins)]
            self.maxs = [max(pair) for pair in zip(self.maxs, other.maxs)]

    @property
    def returns(self) -> list[int]:
        """The numbers of records of the returns 1 to 7."""
        numbers = np.arange(256) & 7
        return [int(self._returns[numbers == number].sum()) for number in range(1, 8)]
