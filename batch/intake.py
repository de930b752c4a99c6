"""Takes rows of jobs in: gives outputs their names, removes inputs if that was asked for, and notes it in the state."""
from __future__ import annotations

import contextlib
import os
import sqlite3
import stat
from collections.abc import Callable, Iterable
from concurrent.futures import ThreadPoolExecutor
from typing import Optional

from .files import Identity, digest, exchange, folder_of, look, make_folders, move_new, sync_file, sync_folder
from .plan import NOT_OURS, key_of
from .rows import Row, draft_of
from .state import DONE, HIDING, KEPT, MADE, REMOVED, TODO, Job, Made, Run, State
from .texts import quoted, say
from .words import made_by

FAULTS = (OSError, sqlite3.Error)
CHANGED = "changed"
OTHER = "no output", b"what the job made is another file now"
SYNCS = 32  # drafts that are brought to the disk at a time: those of one commit of its journal


class Clash(Exception):
    """Another file has the name of an output, or took the place of one."""


def told(problem: BaseException) -> bytes:
    text = problem.strerror if isinstance(problem, OSError) and problem.strerror else str(problem)
    name = f": {quoted(os.fsencode(problem.filename))}" if isinstance(problem, OSError) and problem.filename else ""
    return os.fsencode(text + name)


def drop(path: bytes) -> None:
    with contextlib.suppress(OSError):
        os.unlink(path)


class Intake:
    """The one that writes: the state, the names of outputs, the removal of inputs."""

    def __init__(self, state: State, run: Run, jobs: Iterable[Job], note: Callable[[Job], None]) -> None:
        self.state, self.run, self.note = state, run, note
        self.jobs = {job.number: job for job in jobs}
        self.by = made_by(run.command, run.words)
        self.elsewhere = self.shipped = False
        self.earlier = False  # whether an earlier start saw the files: a disk may have another number now
        self.later = False  # the jobs leave it to this to bring their drafts to the disk
        self.unsaved: list[Job] = []

    def key(self, job: Job) -> bytes:
        return key_of(job.output, self.run.named)

    # rows

    def take(self, rows: Iterable[Row]) -> None:
        """Takes in what jobs said: a row after another of the same job holds in its place."""
        last = {row.number: row for row in rows}
        good, failed = [], []
        for row in last.values():
            job = self.jobs.get(row.number)
            if job is None or job.state in (MADE, DONE):
                continue
            job.host, job.begun, job.took = row.host, row.begun, row.took
            problem = (str(row.status), row.said) if row.status else self.misfit(job, row)
            if problem:
                job.fail(*problem)
                drop(draft_of(self.run.token, job))
                failed.append(job)
            else:
                job.state, job.status, job.said = MADE, "0", b""
                good.append(job)
        if self.later:
            good, lost = self.sync_drafts(good)
            failed += lost
        self.save(failed)
        self.name(good)
        for job in failed + good:
            self.note(job)

    def sync_drafts(self, jobs: list[Job]) -> tuple[list[Job], list[Job]]:
        """Brings drafts to the disk, several at a time: those that are there, and those that can't be brought there."""
        with ThreadPoolExecutor(SYNCS) as pool:
            problems = list(pool.map(self.sync_draft, jobs))
        for job, problem in zip(jobs, problems):
            if problem:
                job.fail(*problem)
                drop(job.draft)
        return ([job for job, problem in zip(jobs, problems) if not problem],
                [job for job, problem in zip(jobs, problems) if problem])

    @staticmethod
    def sync_draft(job: Job) -> Optional[tuple[str, bytes]]:
        if job.adopt:
            return None
        try:
            if sync_file(job.draft).same_file(job.found):
                return None
        except OSError as problem:
            return "4", told(problem)
        return OTHER

    def misfit(self, job: Job, row: Row) -> Optional[tuple[str, bytes]]:
        """What is wrong with a row of status 0; else the job has what it says."""
        if not self.shipped:
            job.source = row.source
        elif job.source is None or not job.source.unchanged(look(job.input, follow=True)):
            return CHANGED, b"the input changed while it was sent"
        job.input_sum, job.output_sum, job.plain_sum = row.input_sum, row.output_sum, row.plain_sum
        if job.adopt:
            job.found = look(job.output)
            same = job.found is not None and job.found.same_file(job.older, self.earlier)
            return None if same else (CHANGED, b"the output changed")
        job.draft = draft_of(self.run.token, job)
        try:
            job.found = look(job.draft)
            if job.found is None or not job.found.regular() or job.source is None or row.draft is None:
                return "no output", b"what the job made is gone"
            if self.shipped:
                if digest(job.draft)[1] != row.output_sum:
                    return "4", b"what came back is not what the host sent"
                sync_file(job.draft)
            elif job.found[1:4] != row.draft[1:4]:
                return OTHER
        except OSError as problem:
            return "4", told(problem)
        return None

    def save(self, jobs: list[Job]) -> bool:
        """Notes jobs in the state. If it can't be written, failed ones stay to do there."""
        if not jobs:
            return True
        try:
            with self.state.writing():
                self.state.put_jobs(jobs)
                self.state.put_made(self.made_of(job) for job in jobs if job.state == DONE)
            return True
        except sqlite3.Error as problem:
            self.unsaved += jobs
            self.trouble = problem
            return False

    def made_of(self, job: Job) -> Made:
        assert job.source and job.found
        return Made(self.key(job), os.path.abspath(job.input), job.source, job.found, self.by,
                    str(self.run.settings["las"]), job.input_sum, job.output_sum, job.plain_sum,
                    job.removal == REMOVED and not self.run.settings.get("trash"))

    # names of outputs

    def name(self, jobs: list[Job]) -> None:
        """Gives whole outputs their names. The state says so before, and again after the folders are synced."""
        if not self.save(jobs):
            for job in jobs:
                job.fail("4", b"the state can't be written: " + told(self.trouble))
                drop(job.draft)
            return
        settled = []
        for job in jobs:
            try:
                self.give_name(job)
            except Clash as problem:
                job.fail(NOT_OURS, os.fsencode(str(problem)))
                drop(job.draft)
            except OSError as problem:
                job.status, job.said = "4", told(problem)
                continue  # perhaps it has its name: it stays `made` in the state, and the next start looks
            settled.append(job)
        self.settle_names(settled)
        if self.run.settings.get("delete") or self.run.settings.get("trash"):
            self.remove_inputs([job for job in jobs if job.state == DONE])

    def settle_names(self, jobs: list[Job]) -> None:
        synced = self.sync_folders(folder_of(job.output) for job in jobs if job.state == MADE)
        named = []
        for job in jobs:
            problem = synced.get(folder_of(job.output))
            if job.state == MADE and problem is None:
                job.state = DONE
            elif job.state == MADE:
                job.status, job.said = "4", problem or b""
                continue  # it stays `made` in the state, so that -resume looks again
            named.append(job)
        if not self.save(named):
            for job in named:
                if job.state == DONE:  # it stays `made` in the state
                    job.state, job.status = MADE, "4"
                    job.said = b"the state can't be written: " + told(self.trouble)

    def sync_folders(self, folders: Iterable[bytes]) -> dict[bytes, Optional[bytes]]:
        """What is wrong with each folder's sync: None if it was synced."""
        found: dict[bytes, Optional[bytes]] = {}
        for folder in folders:
            if folder not in found:
                try:
                    sync_folder(folder)
                    found[folder] = None
                except OSError as problem:
                    found[folder] = told(problem)
        return found

    def give_name(self, job: Job) -> None:
        """Moves a draft to its output: over nothing, or over the very file that the plan saw there."""
        if job.adopt:
            return
        there = look(job.output)
        if there is not None and (job.older is None or not there.same_file(job.older, self.earlier)):
            raise Clash(f"{quoted(job.output)}: another file took this name during the run")
        if there is None or job.older is None:
            self.move_over_nothing(job)
        else:
            self.replace(job)
        job.found = look(job.output)

    @staticmethod
    def move_over_nothing(job: Job) -> None:
        try:
            move_new(job.draft, job.output)
        except FileExistsError:
            raise Clash(f"{quoted(job.output)}: another file took this name during the run") from None

    def replace(self, job: Job) -> None:
        """Both files change places in one step, so that what was there is looked at once more before it goes."""
        older = os.stat(job.output)
        os.chmod(job.draft, stat.S_IMODE(older.st_mode))
        with contextlib.suppress(OSError):
            os.chown(job.draft, older.st_uid, older.st_gid)
        old = old_of(job)
        os.rename(job.draft, old)
        job.draft = old
        if not exchange(old, job.output):
            os.replace(old, job.output)
            return
        swapped = look(old)
        if swapped is None or not swapped.same_file(job.older, self.earlier):
            exchange(old, job.output)
            raise Clash(f"{quoted(job.output)}: another file took this name during the run")
        os.unlink(old)

    # removal of inputs

    def remove_inputs(self, jobs: list[Job]) -> None:
        """Removes inputs whose outputs stand: each under a hidden name first, that the state knows."""
        with ThreadPoolExecutor(4) as pool:
            problems = list(pool.map(self.why_not, jobs))
        ready, kept = [], []
        for job, problem in zip(jobs, problems):
            if problem:
                job.fail(CHANGED, problem)
                kept.append(job)
            else:
                job.removal = HIDING
                job.hidden = os.path.join(folder_of(job.input), f".las-{self.run.token}-{job.number}.input".encode())
                ready.append(job)
        if not self.save(ready):
            for job in ready:
                job.removal = KEPT
                job.fail("4", b"the state can't be written, and the input stays: " + told(self.trouble))
            return
        for job in ready:
            self.remove(job)
        self.sync_folders(folder_of(job.input) for job in ready)
        self.save(ready + kept)

    def why_not(self, job: Job) -> Optional[bytes]:
        """Why an input is not removed: it is not the file that was compared, or its output is not there."""
        try:
            if not job.input_sum:
                return b"the input was not compared, and stays"
            there = look(job.output)
            if there is None or not there.same_file(job.found, self.earlier):
                return b"the output is not there as it was made, and the input stays"
            found, total = digest(job.input)
            if not found.unchanged(job.source, self.elsewhere or self.earlier) or total != job.input_sum:
                return b"the input changed after it was compared, and stays"
        except OSError as problem:
            return b"the input stays: " + told(problem)
        return None

    def remove(self, job: Job) -> None:
        """Hides an input, looks at it once more, and removes it or brings it to the folder of -trash."""
        try:
            move_new(job.input, job.hidden)
        except OSError as problem:
            job.removal = KEPT
            job.fail("4", b"the input stays: " + told(problem))
            return
        try:
            seen = look(job.hidden, follow=True)
            if seen is None or job.source is None or seen[1:4] != job.source[1:4]:
                raise Clash("the input changed after it was compared, and stays")
            self.remove_hidden(job)
        except Clash as problem:
            job.fail(CHANGED, os.fsencode(str(problem)))
            self.put_back(job)
        except OSError as problem:
            job.fail("4", b"the input stays: " + told(problem))
            self.put_back(job)

    def remove_hidden(self, job: Job) -> None:
        trash = self.run.settings.get("trash")
        if trash:
            target = os.path.join(os.fsencode(trash), os.path.dirname(self.key(job)), os.path.basename(job.input))
            make_folders(folder_of(target))
            try:
                move_new(job.hidden, target)
            except FileExistsError:
                raise Clash(f"{quoted(target)} is there already, and the input stays") from None
            try:
                sync_folder(folder_of(target))
            except OSError as problem:
                say(f"{quoted(job.input)} is now {quoted(target)}, whose folder can't be synced: "
                    f"{os.fsdecode(told(problem))}")
        else:
            os.unlink(job.hidden)
        job.removal = REMOVED

    def put_back(self, job: Job) -> bool:
        """Gives a hidden input its name again, or if another file has it, a name beside it, which is said."""
        for name in (job.input, job.input + b".kept-" + self.run.token.encode()):
            try:
                move_new(job.hidden, name)
                job.removal = KEPT
                if name != job.input:
                    say(f"the input {quoted(job.input)} stays as {quoted(name)}, since another file took its name")
                return name == job.input
            except FileExistsError:
                continue
            except OSError as problem:
                say(f"the input {quoted(job.input)} stays as {quoted(job.hidden)}: {os.fsdecode(told(problem))}")
                return False
        say(f"the input {quoted(job.input)} stays as {quoted(job.hidden)}, since other files took its name")
        return False


def old_of(job: Job) -> bytes:
    return job.draft[:-5] + b".old" if job.draft.endswith(b".part") else job.draft


class Settler:
    """Ends what an earlier start of las-batch left half done when it was killed."""

    def __init__(self, intake: Intake, finish: bool) -> None:
        self.intake, self.finish = intake, finish
        intake.earlier = True

    def all(self) -> None:
        jobs = list(self.intake.jobs.values())
        made = [job for job in jobs if job.state == MADE]
        for job in made:
            self.name(job)
        self.intake.settle_names([job for job in made if job.state != TODO])
        hiding = [job for job in jobs if job.removal == HIDING]
        for job in hiding:
            self.removal(job)
        self.intake.sync_folders(folder_of(job.input) for job in hiding)
        with self.intake.state.writing():
            self.intake.state.put_jobs([job for job in made if job.state == TODO])
        if not self.intake.save(hiding):  # else an input that stays would be counted as removed
            raise self.intake.trouble

    def name(self, job: Job) -> None:
        """A job whose draft was to get its name: it has it, gets it now, or is to do again.

        If that can't be told, since a call fails, las-batch ends, and the state stays as it is.
        """
        part, old = job.draft, old_of(job)
        try:
            if self.is_at(job, job.output):
                self.after_exchange(job, old)
                job.found = look(job.output) or job.found
            elif self.is_at(job, old) or self.is_at(job, part):
                if self.is_at(job, old):
                    os.rename(old, part)
                self.intake.give_name(job)
            else:
                job.state = TODO
        except Clash as problem:
            job.fail(NOT_OURS, told(problem))
            drop(job.draft)

    @staticmethod
    def is_at(job: Job, path: bytes) -> bool:
        seen: Optional[Identity] = look(path)
        return seen is not None and seen.same_file(job.found, elsewhere=True)

    def after_exchange(self, job: Job, old: bytes) -> None:
        swapped = look(old)
        if swapped is None:
            return
        if swapped.same_file(job.older, elsewhere=True):
            os.unlink(old)
            return
        exchange(old, job.output)
        drop(old)
        raise Clash(f"{quoted(job.output)}: another file took this name during the run")

    def removal(self, job: Job) -> None:
        """A job whose input had a hidden name: it is removed if it is the file that was compared, or put back."""
        seen = look(job.hidden, follow=True)
        if seen is None:
            there = look(job.input, follow=True)
            job.removal = KEPT if there else REMOVED
            if there and there.same_file(job.source, elsewhere=True):
                job.source = there  # put back, which sets its ctime; its sum is compared before it is removed
        elif self.finish and job.source and seen[1:4] == job.source[1:4] and digest(job.hidden)[1] == job.input_sum \
                and self.is_at(job, job.output):
            try:
                self.intake.remove_hidden(job)
                say(f"the removal of {quoted(job.input)} was cut off, and is finished")
            except Clash as problem:
                say(str(problem))
                self.put_back(job)
        else:
            self.put_back(job)

    def put_back(self, job: Job) -> None:
        if self.intake.put_back(job):
            say(f"the removal of {quoted(job.input)} was cut off; it is there again")
