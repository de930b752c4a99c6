"""What is said of a run: the log of jobs, the bar, the counts by cause, and the list of what failed."""
from __future__ import annotations

import os
import re
import sys
import time
from collections import Counter
from collections.abc import Iterable
from typing import BinaryIO, Optional

from .files import write_whole
from .state import DONE, Job
from .texts import quoted, say, shown

LOG_HEAD = b"Seq\tHost\tStarttime\tJobRuntime\tSend\tReceive\tExitval\tSignal\tCommand\n"
FAILED_HEAD = b"status\tinput\tline\n"
MOST_SHOWN = 20


def log_line(job: Job) -> bytes:
    """A line in the form of GNU parallel's log of jobs. The command is the name of the input, as bash quotes it."""
    status, killed = job.status, 0
    if status.startswith("signal "):
        status, killed = "0", int(status[7:])
    elif status.isdigit() and 128 < int(status) < 160:
        status, killed = "0", int(status) - 128
    value = status if status.isdigit() else "1"
    begun, took = f"{job.begun // 1000}.{job.begun % 1000:03}", f"{job.took // 1000}.{job.took % 1000:03}"
    line = f"{job.number}\t{job.host}\t{begun}\t{took}\t0\t0\t{value}\t{killed}\t{quoted(job.input)}\n"
    return line.encode(errors="surrogateescape")


class Log:
    """The log of jobs: a line for each that ended. It is written anew when a run begins, and then only added to."""

    def __init__(self, path: bytes, done: Iterable[Job], token: str) -> None:
        write_whole(path, [LOG_HEAD, *map(log_line, done)], token)
        self.file: Optional[BinaryIO] = open(path, "ab")
        self.problem: Optional[OSError] = None

    def add(self, job: Job) -> None:
        try:
            if self.file:
                self.file.write(log_line(job))
                self.file.flush()
        except OSError as problem:
            self.lose(problem)

    def lose(self, problem: OSError) -> None:
        if not self.problem:
            self.problem = problem
            say(f"the log can't be written: {problem}")

    def close(self) -> None:
        try:
            if self.file:
                self.file.flush()
                os.fsync(self.file.fileno())
                self.file.close()
        except OSError as problem:
            self.lose(problem)


class Bar:
    """On a terminal, one line with how many jobs ended and the time that is left."""

    def __init__(self, total: int, shown_at_all: bool) -> None:
        self.total, self.shown = total, shown_at_all and sys.stderr.isatty()
        self.begun, self.last, self.ended = time.monotonic(), 0.0, 0

    def note(self, _: Job) -> None:
        self.ended += 1

    def tick(self) -> None:
        now = time.monotonic()
        if not self.shown or now < self.last + 0.2:
            return
        self.last = now
        left = (now - self.begun) / self.ended * (self.total - self.ended) if self.ended else 0
        filled = 30 * self.ended // max(1, self.total)
        clock = f"{int(left) // 60}:{int(left) % 60:02} left" if self.ended else ""
        self.write(f"\r[{'#' * filled}{' ' * (30 - filled)}] {self.ended} of {self.total} {clock}\x1b[K")

    def write(self, text: str) -> None:
        try:
            sys.stderr.write(text)
            sys.stderr.flush()
        except OSError:
            self.shown = False

    def close(self) -> None:
        if self.shown:
            self.write("\r\x1b[K")


def cause_of(job: Job) -> tuple[str, str]:
    """What failed jobs are counted by: the status, and the line without names."""
    status = job.status or "not run"
    text = shown(job.said)
    for name in (job.input, job.output, re.sub(rb"[\0-\x1f\x7f]", b"?", job.input)):
        text = text.replace(shown(name), "NAME").replace(quoted(name), "NAME")
    text = re.sub(r"(refused|read fault|write fault): NAME:? ?", r"\1: ", text).rstrip(": ")
    return status, re.sub(r"\S*\.las-[0-9a-f]+-\d+\.\w+", "DRAFT", text)


def report(jobs: list[Job], quiet: bool) -> int:
    """Prints counts by cause, then the inputs that are not done; answers how many these are."""
    failed = [job for job in jobs if job.state != DONE]
    lines: list[str] = []
    causes = Counter(cause_of(job) for job in failed)
    if causes:
        lines.append(f"{'status':<12}{'inputs':<8}cause")
        lines += [f"{status:<12}{count:<8}{text}".rstrip() for (status, text), count in causes.most_common()]
    told = [job for job in failed if job.said]
    if told:
        lines.append(f"{'status':<12}input: line")
        lines += [f"{job.status:<12}{quoted(job.input)}: {shown(job.said)}" for job in told[:MOST_SHOWN]]
        if len(told) > MOST_SHOWN:
            lines.append(f"{'..':<12}and {len(told) - MOST_SHOWN} more: -failed FILE lists them")
    if not quiet:
        lines.append(counts(jobs))
    try:
        sys.stderr.write("".join(line + "\n" for line in lines))
        sys.stderr.flush()
    except OSError:
        pass
    return len(failed)


def counts(jobs: list[Job]) -> str:
    done = sum(job.state == DONE for job in jobs)
    return f"las-batch: {done} done, {len(jobs) - done} not"


def write_failed(path: bytes, jobs: list[Job]) -> None:
    """The list of -failed: status, input and line, with tabs between; names as bash quotes them."""
    lines = (f"{job.status or 'not run'}\t{quoted(job.input)}\t{shown(job.said)}\n"
             for job in jobs if job.state != DONE)
    write_whole(path, [FAILED_HEAD, *(line.encode(errors="replace") for line in lines)])
