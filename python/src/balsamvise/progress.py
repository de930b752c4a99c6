"""How far reading or writing is, told to a callback or to tqdm."""
from __future__ import annotations

from types import TracebackType
from typing import Any, Callable, Optional, Union

Progress = Union[bool, Callable[[int, Optional[int]], None], None]
"""What is told: nothing for None and False; a function of the points done and of all, or None if these are not known;
for True a bar of tqdm, if that package is installed."""


class Told:
    """Tells how many points are done, while it is open."""

    def __init__(self, progress: Progress, total: int | None) -> None:
        self._done = 0
        self._total = total
        self._bar: Any = None
        self._call = progress if callable(progress) else None
        if progress is True:
            try:
                from tqdm import tqdm  # type: ignore[import]
            except ImportError:
                return
            self._bar = tqdm(total=total, unit="points", unit_scale=True)

    def __enter__(self) -> Told:
        return self

    def __exit__(self, kind: type[BaseException] | None, error: BaseException | None,
                 trace: TracebackType | None) -> None:
        if self._bar is not None:
            self._bar.close()

    def add(self, points: int) -> None:
        """So many points more are done."""
        self._done += points
        if self._call is not None:
            self._call(self._done, self._total)
        if self._bar is not None:
            self._bar.update(points)
