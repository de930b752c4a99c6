"""What starts the runs: GNU parallel on this machine or over ssh, and Slurm."""
from __future__ import annotations

import contextlib
import os
import select
import shlex
import shutil
import signal
import subprocess
import tempfile
import time
from collections.abc import Callable, Iterator
from typing import IO, Any, Optional

from .ahead import Stop, Workers, environment_of
from .files import folder_of, folders_of, is_below, sync_folder, write_whole
from .guard import end_all
from .intake import Intake
from .rows import Row, draft_name, draft_of, read_row
from .state import DONE, FAILED, MADE, Job, Run
from .texts import say

GROUP = 16  # jobs of a group at most


class Lines:
    """Whole lines of what comes in pieces."""

    def __init__(self) -> None:
        self.rest = b""

    def add(self, data: bytes) -> list[bytes]:
        *lines, self.rest = (self.rest + data).split(b"\n")
        return lines


class Engine:
    """A run's list, what is left of it, and how a job is started."""

    def __init__(self, run: Run, intake: Intake, todo: list[Job], runner: bytes, las: bytes, place: bytes) -> None:
        self.run, self.intake, self.todo = run, intake, todo
        self.runner, self.las, self.place = runner, las, place
        self.tries = int(run.settings["retries"])
        self.environment = environment_of(run.token)
        self.mode = str(run.settings["mode"])

    def word(self, job: Job) -> bytes:
        return b"%d%s" % (job.number, b"a" if job.adopt else b"")

    def triple(self, job: Job) -> list[bytes]:
        return [self.word(job), job.input, job.output]

    def write_words(self) -> None:
        words = [str(self.tries).encode(), self.mode.encode(), self.run.token.encode(), self.las,
                 self.run.command.encode(), *self.run.words]
        write_whole(os.path.join(self.place, b"words"), (word + b"\0" for word in words))

    def write_sent(self, lists: list[list[bytes]]) -> bytes:
        path = os.path.join(self.place, b"sent")
        write_whole(path, (word + b"\0" for words in lists for word in words))
        return path

    def go(self, stop: Stop, tick: Callable[[], None]) -> None:
        raise NotImplementedError

    def command(self, *words: bytes) -> str:
        return " ".join(shlex.quote(os.fsdecode(word)) for word in words)


class Parallel(Engine):
    """GNU parallel, whose jobs print their rows."""

    def go(self, stop: Stop, tick: Callable[[], None]) -> None:
        child, errors = self.begin()
        assert child.stdout
        try:
            self.follow(child, stop, tick)
            if stop.number:
                end_all(self.run.token)
                self.rest(child)
            child.wait()
            if not stop.number:
                self.unheard()
                self.show(errors)
        finally:
            if child.poll() is None:
                end_all(self.run.token)
            child.stdout.close()

    def follow(self, child: subprocess.Popen[bytes], stop: Stop, tick: Callable[[], None]) -> None:
        assert child.stdout
        self.lines = Lines()
        while not stop.number:
            ready, _, _ = select.select([child.stdout], [], [], 0.2)
            if ready:
                data = os.read(child.stdout.fileno(), 1 << 20)
                if not data:
                    return
                self.take(data)
            tick()

    def rest(self, child: subprocess.Popen[bytes]) -> None:
        """What was printed before the end: these jobs are done."""
        assert child.stdout
        os.set_blocking(child.stdout.fileno(), False)
        with contextlib.suppress(BlockingIOError):
            while True:
                data = os.read(child.stdout.fileno(), 1 << 20)
                if not data:
                    return
                self.take(data)

    def take(self, data: bytes) -> None:
        rows = (read_row(line, self.run.token) for line in self.lines.add(data))
        self.intake.take([row for row in rows if row])

    def show(self, errors: IO[bytes]) -> None:
        """The last lines of what was said beside the rows, if a job has none."""
        if any(job.state not in (MADE, DONE) and not job.said for job in self.todo):
            errors.seek(0)
            for line in errors.read().splitlines()[-10:]:
                say(line.decode(errors="replace"))

    def begin(self) -> tuple[subprocess.Popen[bytes], IO[bytes]]:
        """Starts GNU parallel; answers where it writes what is said beside the rows, too."""
        raise NotImplementedError

    def unheard(self) -> None:
        """Jobs that printed no row."""


class Here(Parallel):
    """This machine. As many jobs of GNU parallel as there are runs at a time, which take groups of inputs in turn."""

    def __init__(self, *words: Any, workers: Workers) -> None:
        super().__init__(*words)
        self.workers = workers

    def begin(self) -> tuple[subprocess.Popen[bytes], IO[bytes]]:
        if "v" not in self.mode and self.tries == 1:
            self.mode += "l"
            self.intake.later = True
        if all(is_below(folder, self.run.folder) for folder in folders_of(job.output for job in self.todo)):
            self.mode += "o"  # so that no lock of its own is needed for each draft
        self.write_words()
        groups = list(self.groups())
        self.write_sent([[b"%d" % len(group), *(word for job in group for word in self.triple(job))]
                         for group in groups])
        self.workers.begin(self.place, min(self.run.jobs, len(groups)))
        return self.workers.child, self.workers.errors

    def groups(self) -> Iterator[list[Job]]:
        """The list in groups: the last ones are small, so that all jobs end at about the same time."""
        size = sum(job.source.size for job in self.todo if job.source)
        most = max(1, min(GROUP, 40_000_000 * len(self.todo) // (size + 1)))
        at = 0
        while at < len(self.todo):
            few = max(1, min(most, (len(self.todo) - at) // self.run.jobs // 2))
            yield self.todo[at:at + few]
            at += few

    def unheard(self) -> None:
        for job in self.todo:
            if job.state not in (MADE, DONE, FAILED):
                job.status = "not run"


class Hosts(Parallel):
    """Other machines by ssh. Each input is a job, so that one that fails is tried on another host."""

    def __init__(self, *words: Any, hosts: bytes, share: str, ship: bool) -> None:
        super().__init__(*words)
        self.hosts, self.share, self.ship = hosts, share, ship
        self.log = os.path.join(self.place, b"joblog")
        self.intake.elsewhere, self.intake.shipped = not ship, ship

    def begin(self) -> tuple[subprocess.Popen[bytes], IO[bytes]]:
        line, errors = self.line(), tempfile.TemporaryFile()
        return subprocess.Popen(line, stdin=subprocess.DEVNULL, stdout=subprocess.PIPE, stderr=errors,
                                env=self.environment, start_new_session=True), errors

    def line(self) -> list[bytes]:
        with contextlib.suppress(FileNotFoundError):
            os.unlink(self.log)
        line = [b"parallel", b"--will-cite", b"--plain", b"-0", b"-N3", b"--jobs", self.share.encode(),
                b"--sshloginfile", self.hosts, b"--joblog", self.log, b"--retries", b"%d" % self.tries]
        runner, las, mode = self.runner, self.las, self.mode
        if self.ship:
            sent = self.write_sent([[self.word(job), dotted(job.input), dotted(draft_of(self.run.token, job))]
                                    for job in self.todo])
            for path in (runner, las):
                line += [b"--transferfile", dotted(path)]
            runner, las = (b"./" + os.path.basename(path) for path in (runner, las))
            line += [b"--workdir", b"...", b"--transferfile", b"{2}", b"--return", b"{3}", b"--cleanup"]
            mode += "s"
            self.environment.update(RSYNC_OLD_ARGS="1", PARALLEL_RSYNC_OPTS="-rlDR --ignore-missing-args")
        else:
            sent = self.write_sent([self.triple(job) for job in self.todo])
            line += [b"--workdir", os.getcwdb()]
        text = self.command(b"bash", runner, b"run", mode.encode(), self.run.token.encode(), las,
                            self.run.command.encode(), *self.run.words, b"--")
        return line + [b"-a", sent, os.fsencode(text + (" {1} {2/} {3/}" if self.ship else " {1} {2} {3}"))]

    def unheard(self) -> None:
        """Jobs without a row have the status that GNU parallel's log has of them."""
        ended = {}
        with contextlib.suppress(OSError):
            with open(self.log, "rb") as file:
                for fields in (line.split(b"\t") for line in file):
                    if len(fields) > 8 and fields[0].isdigit() and 0 < int(fields[0]) <= len(self.todo):
                        ended[int(fields[0])] = fields
        for at, job in enumerate(self.todo, 1):
            if job.state in (MADE, DONE) or job.said:
                continue
            fields = ended.get(at, [])
            if not fields:
                job.status = "not run"
            elif fields[7] != b"0":
                job.status = f"signal {fields[7].decode()}"
            else:
                job.status = fields[6].decode() if fields[6] != b"0" else "no output"
            job.host = os.fsdecode(fields[1]) if fields else ""


def dotted(path: bytes) -> bytes:
    """A path whose last part alone is kept by rsync."""
    return folder_of(path) + b"/./" + os.path.basename(path)


class Slurm(Engine):
    """A Slurm job array. Each task has a file of rows, which is read while the array runs, or by -resume."""

    def __init__(self, *words: Any, most: Optional[int]) -> None:
        super().__init__(*words)
        self.most = most
        self.intake.elsewhere = True
        self.lines: dict[bytes, Lines] = {}
        self.at: dict[bytes, int] = {}
        self.ended = 0

    def go(self, stop: Stop, tick: Callable[[], None]) -> None:
        tasks = min(len(self.todo), 1000)
        self.write_words()
        self.write_sent([self.triple(job) for job in self.todo])
        script = "exec bash " + self.command(self.runner, b"task", self.place)
        share = f"%{self.most}" if self.most else ""
        output = os.path.join(os.path.dirname(os.fsdecode(self.place)), "slurm.%a")
        found = subprocess.run(["sbatch", "--parsable", "--job-name", name_of(self.run),
                                f"--array=0-{tasks - 1}{share}", "--chdir", os.getcwd(), "--output", output,
                                "--wrap", script], stdin=subprocess.DEVNULL, stdout=subprocess.PIPE, check=False)
        if found.returncode != 0:
            return
        begun = time.monotonic()
        asked, pause = begun, 2.0
        while not stop.number and self.ended < tasks:
            self.read()
            tick()
            time.sleep(0.2 if time.monotonic() < begun + 20 else 1)
            if time.monotonic() > asked + pause:
                if not still_runs(self.run):
                    break
                asked, pause = time.monotonic(), min(pause * 1.5, 30)
        if stop.number in (signal.SIGINT, signal.SIGTERM):
            self.cancel()
        self.read()

    def cancel(self) -> None:
        subprocess.run(["scancel", "--name", name_of(self.run)], stdin=subprocess.DEVNULL, check=False)
        end = time.monotonic() + 20
        while still_runs(self.run) and time.monotonic() < end:
            time.sleep(0.5)

    def read(self) -> None:
        """Takes in the rows that were added to the files of the tasks."""
        rows: list[Row] = []
        for name in sorted(os.listdir(self.place)):
            if name.startswith(b"rows."):
                with open(os.path.join(self.place, name), "rb") as file:
                    file.seek(self.at.get(name, 0))
                    data = file.read()
                self.at[name] = self.at.get(name, 0) + len(data)
                for line in self.lines.setdefault(name, Lines()).add(data):
                    self.ended += line == b"end"
                    row = read_row(line, self.run.token)
                    rows += [row] if row else []
        self.intake.take(rows)


def name_of(run: Run) -> str:
    """The name of a run's array: the state has its token before the array is submitted."""
    return f"las-batch-{run.token}"


def still_runs(run: Run) -> bool:
    if not shutil.which("squeue"):
        return False
    found = subprocess.run(["squeue", "-h", "-n", name_of(run)], stdin=subprocess.DEVNULL, stdout=subprocess.PIPE,
                           stderr=subprocess.DEVNULL, check=False)
    return bool(found.stdout.strip())


def new_place(folder: bytes, token: str) -> bytes:
    """A folder for what the jobs of this start read and write."""
    place = os.path.join(folder, b"run." + token.encode())
    os.mkdir(place)
    sync_folder(folder)
    return place


__all__ = ["Here", "Hosts", "Slurm", "draft_name", "name_of", "new_place", "still_runs"]
