"""A pool of threads that returns results in the order of the calls and keeps few of them in memory."""
from __future__ import annotations

from collections import deque
from concurrent.futures import Future, ThreadPoolExecutor, wait
from itertools import islice
from types import TracebackType
from typing import Callable, Generic, Iterable, Iterator, TypeVar

MAX_THREADS = 256

T = TypeVar("T")


def checked_threads(threads: int) -> int:
    """A number of threads, if it is one."""
    if not 1 <= threads <= MAX_THREADS:
        raise ValueError(f"threads is {threads}, and not 1 to {MAX_THREADS}")
    return threads


class ThreadPool(Generic[T]):
    """A `ThreadPoolExecutor` whose results come in the order of the calls. With one thread, the caller's own is used.

    At most twice as many calls as there are threads wait or run at a time, which bounds the memory. An error is that of
    the first call that has one; calls that wait are cancelled then.
    """

    def __init__(self, threads: int) -> None:
        self._limit = 2 * threads
        self._executor = ThreadPoolExecutor(threads) if threads > 1 else None
        self._pending: deque[Future[T]] = deque()
        self.submitted = 0
        """How many calls were submitted."""

    def __enter__(self) -> ThreadPool[T]:
        return self

    def __exit__(self, kind: type[BaseException] | None, error: BaseException | None,
                 trace: TracebackType | None) -> None:
        self.close()

    def close(self) -> None:
        """Cancels the calls that wait, and waits for those that run."""
        if self._executor is not None:
            self._executor.shutdown(wait=True, cancel_futures=True)
        self._pending.clear()

    def submit(self, call: Callable[[], T]) -> Iterator[T]:
        """Submits a call, and yields results until there is room for it."""
        if self._executor is None:
            self.submitted += 1
            yield call()
            return
        while len(self._pending) >= self._limit:
            yield self._pending.popleft().result()
        self._pending.append(self._executor.submit(call))
        self.submitted += 1

    def wait_for(self, calls: int) -> None:
        """Waits until this many calls have ended, the first that were submitted. Their results stay where they are."""
        wait(list(islice(self._pending, max(0, calls - self.submitted + len(self._pending)))))

    def drain(self) -> Iterator[T]:
        """The results of all calls that are pending."""
        while self._pending:
            yield self._pending.popleft().result()

    def map(self, calls: Iterable[Callable[[], T]]) -> Iterator[T]:
        """The results of all calls."""
        for call in calls:
            yield from self.submit(call)
        yield from self.drain()
