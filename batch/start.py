"""A run of las-batch from its plan to its report."""
from __future__ import annotations

import contextlib
import errno
import fcntl
import gc
import gzip
import os
import re
import secrets
import shutil
import signal
from typing import Any, Optional

from .ahead import Ahead
from .bag import BAG_FOLDER, seal_bag
from .engines import Engine, Here, Hosts, Slurm, new_place, still_runs
from .files import folder_of, folders_of, is_below, kind_of_disk, lock_folder, make_folders, on_network
from .guard import Guard, sweep
from .intake import Intake, Settler
from .manifest import check_manifest, write_manifests
from .plan import Plan, Planner, check_names, check_text, key_of, look_at_all, pairs_of
from .report import FAILED_HEAD, LOG_HEAD, Bar, Log, counts, report, write_failed
from .state import DONE, FAILED, HIDING, MADE, TODO, Job, Run, State
from .texts import quoted, refuse, say
from .tools import tell_drafts
from .words import Words

TEXTS = {"log": LOG_HEAD, "failed": FAILED_HEAD}


class Batch:
    """One start of las-batch."""

    def __init__(self, top: bytes, words: Words, ahead: Ahead) -> None:
        self.top, self.words, self.ahead, self.stop = top, words, ahead, ahead.stop
        self.runner = os.path.join(top, b"las-batch-job")
        odir = (words.value("odir") or b"").rstrip(b"/") or b"/"
        self.odir = b"./" + odir if odir.startswith(b"-") else odir
        self.folder = os.path.join(self.odir, BAG_FOLDER) if words.has("bag") else self.odir
        self.inside = os.path.join(self.odir, b".las-batch")
        self.base = os.path.join(words.value("state") or self.inside, b"state.db")
        self.texts: dict[str, bytes] = {}
        self.place = b""
        self.lock = -1

    def go(self) -> int:
        gc.disable()  # a plan has no cycles, and its many objects would be searched for them again and again
        return self.resume() if self.words.has("resume") else self.begin()

    # the state

    def open_state(self) -> State:
        """Takes the lock of the folder of outputs, and opens its state."""
        for folder in (self.inside, folder_of(self.base)):
            try:
                make_folders(folder)
            except OSError as problem:
                refuse(f"the folder can't be made: {quoted(folder)}: {problem.strerror}")
        self.lock = os.open(os.path.join(self.inside, b"lock"), os.O_RDWR | os.O_CREAT | os.O_NOFOLLOW, 0o666)
        try:
            fcntl.flock(self.lock, fcntl.LOCK_EX | fcntl.LOCK_NB)
        except OSError as problem:
            if problem.errno not in (errno.EAGAIN, errno.EACCES):
                raise
            refuse(f"another las-batch works in {quoted(self.odir)}")
        kind = kind_of_disk(folder_of(self.base))
        if on_network(kind):
            refuse(f"the state can't lie on a file server ({kind}): -state FOLDER names a folder of this machine")
        return State(self.base, os.path.realpath(self.odir))

    def place_of(self, run: Run) -> bytes:
        return os.path.join(self.inside, b"run." + run.token.encode())

    def settle(self, finish: bool) -> None:
        """Ends what the last start left half done, and removes its drafts."""
        run = self.state.run()
        if run is None:
            return
        place = self.place_of(run)
        cut_off = os.path.isdir(place)
        rows = cut_off and any(name.startswith(b"rows.") for name in os.listdir(place))
        if run.settings.get("slurm") and cut_off and still_runs(run):
            refuse("the job array still runs")
        where = "1" if rows else f"state = {MADE} OR removal = {HIDING}"
        intake = Intake(self.state, run, self.state.jobs(where), lambda job: None)
        Settler(intake, finish).all()
        if rows:
            array = Slurm(run, intake, [], b"", b"", place, most=None)
            array.read()
        if cut_off:
            left = self.state.base.execute("SELECT output FROM job WHERE state <> ?", (DONE,))
            folders = {folder_of(row[0]) for row in left} | {self.odir, folder_of(os.fsencode(run.settings["log"]))}
            sweep(folders, run.token)
            self.remove_place(place)

    @staticmethod
    def remove_place(place: bytes) -> None:
        """Removes a folder of this program, and what it wrote there."""
        with contextlib.suppress(OSError):
            for name in os.listdir(place):
                os.unlink(os.path.join(place, name))
            os.rmdir(place)

    # a new run, and one that goes on

    def begin(self) -> int:
        pairs = pairs_of(self.words, self.folder)
        found = look_at_all(pairs)
        check_names(pairs, found)
        self.check_texts(pairs, found)
        if self.words.has("trash"):
            self.check_trash(found)
        if self.words.has("check"):
            return self.check(pairs, found)
        self.state = self.open_state()
        self.settle(finish=False)
        plan = Planner(self.words, self.folder, self.state.made(), self.words.words).all(pairs, found)
        if plan.stay:
            say(f"{len(plan.stay)} of {plan.inputs} outputs were made from these inputs by these words, and stay")
        if plan.moved:
            with self.state.writing():
                self.state.put_made(plan.moved)
        jobs = plan.jobs + plan.refused
        if not jobs:
            return self.lists([], plan)
        for job in plan.jobs:
            job.source = found[job.input]
        run = self.new_run(len(plan.jobs))
        self.state.new_list(run, jobs)
        return self.execute(run, jobs, plan.jobs, plan)

    def check_texts(self, pairs: list[tuple[bytes, bytes]], found: dict[bytes, Any]) -> None:
        """The paths of the lists that are written, none of which may be anything else."""
        for name, head in TEXTS.items():
            text = self.words.value(name)
            if text is not None:
                self.texts[name] = check_text(text, pairs, found, name, head)
        manifest = self.words.value("manifest")
        if manifest is not None:
            self.texts["manifest"], self.texts["plain"] = check_manifest(manifest, pairs, found)
        if "log" not in self.texts:
            default = os.path.join(self.odir, b"las-batch.log")
            self.texts["log"] = check_text(default, pairs, found, "log", LOG_HEAD)

    def check_trash(self, found: dict[bytes, Any]) -> None:
        trash = self.words.value("trash") or b""
        there = os.path.realpath(trash)
        while not os.path.isdir(there):
            there = folder_of(there)
        device = os.stat(there).st_dev
        for name, source in found.items():
            if source and os.stat(folder_of(name)).st_dev != device:
                refuse(f"-trash names a folder on another disk than that of {quoted(name)}")

    def check(self, pairs: list[tuple[bytes, bytes]], found: dict[bytes, Any]) -> int:
        """Tells what would be done, and does nothing."""
        made = {}
        if os.path.exists(self.base):
            self.state = self.open_state()
            made = self.state.made()
        plan = Planner(self.words, self.folder, made, self.words.words).all(pairs, found)
        for job, reason in zip(plan.jobs, plan.reasons):
            print(f"{reason:<12}{quoted(job.input)} -> {quoted(job.output)}")
        for job in plan.refused:
            print(f"{job.status:<12}{quoted(job.input)}: {os.fsdecode(job.said)}")
        print(f"las-batch: {len(plan.jobs)} to do, {len(plan.stay)} stay, {len(plan.refused)} are refused")
        return 1 if plan.refused else 0

    def new_run(self, count: int) -> Run:
        words, value = list(self.words.words), self.words.value
        jobs = self.how_many(count, words)
        modes = {"verify": "v", "manifest": "m", "bag": "m", "keep-times": "t"}
        mode = "".join(sorted({sign for name, sign in modes.items() if self.words.has(name)}))
        trash = value("trash")
        settings = {"command": self.words.command, "mode": mode,
                    "odir": os.fsdecode(self.folder), "cwd": os.getcwd(), "las": self.ahead.question.answer[1],
                    "delete": self.words.has("delete"), "trash": os.path.realpath(os.fsdecode(trash)) if trash else "",
                    "force": self.words.has("force"), "adopt": self.words.has("adopt"), "bag": self.words.has("bag"),
                    "verify": self.words.has("verify"), "retries": self.words.number("retries", 1),
                    "slurm": self.words.has("slurm"), "log": os.fsdecode(self.texts["log"])}
        return Run(os.path.realpath(self.odir), "", words, jobs, settings)

    def how_many(self, count: int, words: list[bytes]) -> int:
        """The runs at a time; if there are fewer inputs than processors, each run gets more workers."""
        jobs = len(os.sched_getaffinity(0))
        cores = re.search(rb" -cores ([1-8]) ", b" " + b" ".join(words) + b" ")
        if self.words.has("jobs"):
            return self.words.number("jobs", 1)
        if cores:
            return max(1, jobs // int(cores.group(1)))
        if not self.words.has("slurm") and not self.words.has("hosts") and 0 < count < jobs:
            words += [b"-cores", b"%d" % min(8, jobs // count)]
            return count
        return jobs

    def resume(self) -> int:
        if not os.path.exists(self.base):
            refuse(f"no run to go on with in {quoted(self.odir)}")
        self.inside, self.base = os.path.abspath(self.inside), os.path.abspath(self.base)
        self.state = self.open_state()
        run = self.state.run() or refuse(f"no run to go on with in {quoted(self.odir)}")
        pairs = [(job.input, job.output) for job in self.state.jobs()]
        self.check_texts(pairs, {})
        hosts = self.words.value("hosts")
        if hosts:
            self.words.values["hosts"] = os.path.abspath(os.fsdecode(hosts))
        self.texts["log"] = self.texts["log"] if self.words.has("log") else os.fsencode(run.settings["log"])
        os.chdir(run.settings["cwd"])
        self.settle(finish=True)
        retries = self.words.number("retries", run.settings["retries"])
        run.settings.update(retries=retries, slurm=self.words.has("slurm"))
        run.jobs = self.words.number("jobs", run.jobs)
        jobs = self.state.jobs()
        return self.execute(run, jobs, self.left(run, jobs), Plan())

    def left(self, run: Run, jobs: list[Job]) -> list[Job]:
        """What is to do of a run that goes on: each output is looked at again."""
        flags = {name for name in ("force", "adopt", "verify") if run.settings[name]}
        words = Words(run.command, run.words, flags=flags)
        planner = Planner(words, run.named, self.state.made(), run.words)
        for job in jobs:
            if job.state != DONE:
                job.state, job.status, job.said, job.older, job.adopt, job.draft = TODO, "", b"", None, False, b""
                job.source = look_at_all([(job.input, job.output)])[job.input]
                stay = len(planner.plan.stay)
                planner.one(job, job.source)
                if len(planner.plan.stay) > stay:
                    self.already(job, planner.plan.stay[-1])
        return planner.plan.jobs

    @staticmethod
    def already(job: Job, made: Any) -> None:
        job.state, job.status, job.found = DONE, "0", made.found
        job.source, job.input_sum = made.source, made.input_sum
        job.output_sum, job.plain_sum = made.output_sum, made.plain_sum

    # the jobs

    def execute(self, run: Run, jobs: list[Job], todo: list[Job], plan: Plan) -> int:
        gc.freeze()
        gc.enable()
        run.token = self.ahead.token
        with self.state.writing():
            self.state.put_run(run)
        self.place = new_place(self.inside, run.token)  # as long as it is there, this start may have been cut off
        bar = Bar(len(todo), not self.words.has("quiet"))
        log = Log(self.texts["log"], (job for job in jobs if job.state == DONE), run.token)

        def note(job: Job) -> None:
            log.add(job)
            bar.note(job)

        intake = Intake(self.state, run, jobs, note)
        if run.settings.get("delete") or run.settings.get("trash"):
            intake.earlier = True
            intake.remove_inputs([job for job in jobs if job.state == DONE and job.removal == 0 and job.input_sum
                                  and os.path.lexists(job.input)])
            intake.earlier = False
        self.make_outputs_folders(todo)
        todo = [job for job in todo if job.state != FAILED]
        if todo and not self.stop.number:
            self.start(run, intake, todo, bar)
        bar.close()
        log.close()
        if not (run.settings["slurm"] and still_runs(run)):
            self.remove_place(self.place)
        if intake.unsaved and not intake.save(list({job.number: job for job in intake.unsaved}.values())):
            say(f"the state can't be written: {intake.trouble}")
        return self.ended(run, jobs, plan)

    @staticmethod
    def make_outputs_folders(todo: list[Job]) -> None:
        problems: dict[bytes, bytes] = {}
        for folder in folders_of(job.output for job in todo):
            try:
                make_folders(folder)
            except OSError as problem:
                problems[folder] = os.fsencode(f"write fault: {quoted(folder)}: {problem.strerror}")
        for job in todo if problems else []:
            if folder_of(job.output) in problems:
                job.fail("4", problems[folder_of(job.output)])

    def start(self, run: Run, intake: Intake, todo: list[Job], bar: Bar) -> None:
        folders = list(folders_of(job.output for job in todo))
        tell_drafts(folders)
        array = bool(run.settings["slurm"])
        # a draft is not locked from when its job has ended to when it gets its name
        locks = [lock_folder(folder) for folder in folders if not is_below(folder, run.folder)]
        guard = Guard(run.token, [] if array else folders, self.ahead.closed_by_guard())
        goes_on = False
        try:
            self.engine(run, intake, todo, self.place).go(self.stop, bar.tick)
            goes_on = array and still_runs(run)
        finally:
            if not goes_on:
                sweep(folders, run.token)
            guard.farewell()
            for lock in locks:
                if lock is not None:
                    os.close(lock)

    def engine(self, run: Run, intake: Intake, todo: list[Job], place: bytes) -> Engine:
        las = self.ahead.question.answer[0]
        if (self.words.has("hosts") or self.words.has("slurm")) and las.endswith(b"-v3"):
            las = self.for_all_processors(las[:-1] + b"2")
        if self.words.has("slurm"):
            most = self.words.number("jobs", 0)
            return Slurm(run, intake, todo, self.runner, las, os.path.abspath(place), most=most or None)
        if self.words.has("hosts"):
            share, hosts = self.words.values.get("jobs", "100%"), self.words.value("hosts") or b""
            ship = self.words.has("ship")
            return Hosts(run, intake, todo, self.runner, las, place, hosts=hosts, share=share, ship=ship)
        return Here(run, intake, todo, self.runner, las, place, workers=self.ahead.start_workers(run.jobs))

    def for_all_processors(self, las: bytes) -> bytes:
        """The program that runs on the processors of all hosts."""
        if os.access(las, os.X_OK):
            return las
        packed = os.path.join(self.top, b"release", os.path.basename(las) + b".gz")
        target = os.path.join(os.path.abspath(self.inside), b"las")
        draft = target + b"." + secrets.token_hex(8).encode()
        try:
            with gzip.open(packed, "rb") as source, open(draft, "xb") as file:
                shutil.copyfileobj(source, file)
            os.chmod(draft, 0o755)
            os.replace(draft, target)
        except OSError:
            return self.ahead.question.answer[0]
        return target

    # the end

    def ended(self, run: Run, jobs: list[Job], plan: Plan) -> int:
        if self.stop.number:
            self.write_failed(jobs)
            state = f" -state {quoted(self.words.value('state') or b'')}" if self.words.has("state") else ""
            how = f"las-batch -resume -odir {quoted(self.odir)}{state}"
            more = ""
            if run.settings["slurm"] and still_runs(run):
                more = "; the job array goes on, and -resume takes in what it did"
            name = signal.Signals(self.stop.number).name
            say(f"{counts(jobs)[11:]}; ended by {name}{more}; to go on: {how}")
            return 130
        failed = report(jobs, self.words.has("quiet"))
        return self.lists(jobs, plan, run) or (1 if failed else 0)

    def write_failed(self, jobs: list[Job]) -> None:
        if "failed" in self.texts:
            write_failed(self.texts["failed"], jobs)

    def lists(self, jobs: list[Job], plan: Plan, run: Optional[Run] = None) -> int:
        """Writes the list of what failed, the manifests and the tags of a bag."""
        self.write_failed(jobs)
        named = run.named if run else self.folder
        keys = [key_of(job.output, named) for job in jobs if job.state == DONE] + [made.output for made in plan.stay]
        if "manifest" in self.texts:
            write_manifests(self.texts, named, keys, self.state, self.ahead.question.answer[0])
        if self.words.has("bag") or run and run.settings["bag"]:
            return seal_bag(self.odir, self.state, all(job.state == DONE for job in jobs))
        return 0
