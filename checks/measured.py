"""How a run ended and what it took, and runs that stand still while a file is changed."""
import signal
import subprocess
import sys
from typing import Any, Optional

from places import Place

MEGABYTE = 1_000_000


# What a run takes is told by a small process that started it: Linux counts what a process held before it became the
# program, and the suite itself may be large.
RUN = """import os, resource, subprocess, sys, time
space = int(sys.argv[1])
def limits():
    if space:
        resource.setrlimit(resource.RLIMIT_AS, (space, space))
started = time.monotonic()
process = subprocess.Popen(sys.argv[2:], preexec_fn=limits, stdin=subprocess.DEVNULL, stdout=subprocess.DEVNULL)
_, status, usage = os.wait4(process.pid, 0)
print(os.waitstatus_to_exitcode(status), time.monotonic() - started, usage.ru_maxrss, usage.ru_utime + usage.ru_stime)
"""
# For a program in Python: the most megabytes that it held since it was started.
MOST = """import re
def most():
    return int(re.search("VmHWM:[^0-9]*([0-9]+)", open("/proc/self/status").read())[1]) // 1024
"""


class Taken:
    """How a run ended, and what it took: seconds, those of processors, and the greatest resident size in bytes."""

    def __init__(self, place: Place, words: list[str], space: Optional[int] = None) -> None:
        run = subprocess.run([sys.executable, "-S", "-c", RUN, str(space or 0), place.program, *words],
                             cwd=place.folder, capture_output=True, check=True)
        status, seconds, kibibytes, processor = run.stdout.split()
        self.line = run.stderr
        self.status = int(status)
        self.seconds, self.processor = float(seconds), float(processor)
        self.bytes = int(kibibytes) * 1024

    def ended(self, status: int, line: bytes = b"", most: Optional[int] = None) -> None:
        """The status, the line, and the most bytes that the run may have taken."""
        assert (self.status, self.line) == (status, line)
        if most is not None:
            assert self.bytes <= most, f"{self.bytes / MEGABYTE:.0f} MB in place of {most / MEGABYTE:.0f}"


def while_changed(place: Place, words: list[str], output: str, name: str, data: bytes) -> Any:
    """A run that stands still when its output is there, until a file has been written over."""
    place.path(output).unlink(missing_ok=True)
    process = subprocess.Popen([place.program, *words], cwd=place.folder, stdin=subprocess.DEVNULL,
                               stdout=subprocess.PIPE, stderr=subprocess.PIPE)
    while process.poll() is None and not place.path(output).exists():
        pass
    process.send_signal(signal.SIGSTOP)
    place.write(name, data)
    process.send_signal(signal.SIGCONT)
    out, errors = process.communicate(timeout=300)
    return subprocess.CompletedProcess(words, process.returncode, out, errors)
