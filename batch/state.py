"""What is known of a folder of outputs, in a database of SQLite that one process writes.

`run` has one row: the words and settings of the last run. `job` has its list, one row for each input. `made` has a row
for each output that was made or taken in, of this run and of earlier ones. docs/batch.md describes the tables.
"""
from __future__ import annotations

import contextlib
import json
import os
import sqlite3
from collections.abc import Iterable, Iterator
from dataclasses import dataclass, field
from typing import Any, Optional

from .files import Identity, folder_of, sync_folder
from .texts import quoted, refuse

APPLICATION, VERSION = 0x6C617362, 1
TODO, MADE, DONE, FAILED = range(4)
KEPT, HIDING, REMOVED = range(3)
TABLES = """
CREATE TABLE run (id INTEGER PRIMARY KEY CHECK (id = 1), folder BLOB NOT NULL, token TEXT NOT NULL,
                  settings TEXT NOT NULL, words BLOB NOT NULL, jobs INTEGER NOT NULL);
CREATE TABLE job (number INTEGER PRIMARY KEY, input BLOB NOT NULL, output BLOB NOT NULL, older TEXT,
                  adopt INTEGER NOT NULL, state INTEGER NOT NULL, removal INTEGER NOT NULL,
                  status TEXT NOT NULL, said BLOB NOT NULL,
                  host TEXT NOT NULL, begun INTEGER NOT NULL, took INTEGER NOT NULL, source TEXT, draft BLOB,
                  found TEXT,
                  input_sum TEXT, output_sum TEXT, plain_sum TEXT, hidden BLOB);
CREATE TABLE made (output BLOB PRIMARY KEY, input BLOB NOT NULL, source TEXT NOT NULL, found TEXT NOT NULL,
                   words BLOB NOT NULL, las TEXT NOT NULL, input_sum TEXT, output_sum TEXT, plain_sum TEXT,
                   removed INTEGER NOT NULL) WITHOUT ROWID;
"""
FIELDS = ("number input output older adopt state removal status said host begun took source draft found input_sum "
          "output_sum plain_sum hidden").split()
NEW = ("INSERT INTO job (number, input, output, older, adopt, state, status, said, source, removal, host, begun, took, "
       "draft, input_sum, output_sum, plain_sum, hidden) "
       "VALUES (?, ?, ?, ?, ?, ?, ?, ?, ?, 0, '', 0, 0, x'', '', '', '', x'')")
PUT = f"INSERT OR REPLACE INTO job ({', '.join(FIELDS)}) VALUES ({', '.join('?' * len(FIELDS))})"


@dataclass
class Job:
    """One input of a run, and how far it is."""

    number: int
    input: bytes
    output: bytes
    older: Optional[Identity] = None  # the file that the output takes the place of
    adopt: bool = False
    state: int = TODO
    removal: int = KEPT
    status: str = ""
    said: bytes = b""
    host: str = ""
    begun: int = 0  # milliseconds
    took: int = 0
    source: Optional[Identity] = None  # the input, as it was read
    draft: bytes = b""
    found: Optional[Identity] = None  # the draft, then the output
    input_sum: str = ""
    output_sum: str = ""
    plain_sum: str = ""
    hidden: bytes = b""

    def row(self) -> tuple[Any, ...]:
        older, source, found = (one.text() if one else None for one in (self.older, self.source, self.found))
        return (self.number, self.input, self.output, older, self.adopt, self.state, self.removal, self.status,
                self.said, self.host, self.begun, self.took, source, self.draft, found, self.input_sum,
                self.output_sum, self.plain_sum, self.hidden)

    def new_row(self) -> tuple[Any, ...]:
        """The fields that a job has before it is begun."""
        older, source = (one.text() if one else None for one in (self.older, self.source))
        return (self.number, self.input, self.output, older, self.adopt, self.state, self.status, self.said, source)

    @classmethod
    def of(cls, row: tuple[Any, ...]) -> Job:
        job = cls(*row)
        for name in ("older", "source", "found"):
            text = getattr(job, name)
            setattr(job, name, Identity.read(text) if text else None)
        job.adopt = bool(job.adopt)
        return job

    def fail(self, status: str, said: bytes) -> None:
        self.state, self.status, self.said = FAILED, status, said


@dataclass
class Made:
    """An output that is ours: what it was made from, by which words, and which file it is."""

    output: bytes
    input: bytes
    source: Identity
    found: Identity
    words: bytes
    las: str
    input_sum: str = ""
    output_sum: str = ""
    plain_sum: str = ""
    removed: bool = False  # the input was removed: the output holds its only copy

    def row(self) -> tuple[Any, ...]:
        return (self.output, self.input, self.source.text(), self.found.text(), self.words, self.las, self.input_sum,
                self.output_sum, self.plain_sum, self.removed)

    @classmethod
    def of(cls, row: tuple[Any, ...]) -> Made:
        output, input_, source, found, words, las, input_sum, output_sum, plain_sum, removed = row
        return cls(output, input_, Identity.read(source), Identity.read(found), words, las, input_sum, output_sum,
                   plain_sum, bool(removed))


@dataclass
class Run:
    """The words and settings of a run. `settings` are those that a run that goes on takes from the first."""

    folder: bytes
    token: str
    words: list[bytes]
    jobs: int
    settings: dict[str, Any] = field(default_factory=dict)

    @property
    def command(self) -> str:
        return str(self.settings["command"])

    @property
    def named(self) -> bytes:
        """The folder of the outputs as the command line named it: the outputs' paths begin with it."""
        return os.fsencode(str(self.settings["odir"]))


class State:
    """The database. Whatever is written stands on the disk when `writing` ends."""

    def __init__(self, path: bytes, folder: bytes) -> None:
        self.path, self.folder = path, folder
        new = not os.path.lexists(path) or os.path.getsize(path) == 0
        self.base = sqlite3.connect(os.fsdecode(path), isolation_level=None, timeout=0)
        try:
            self.open(new)
        except sqlite3.DatabaseError as problem:
            self.base.close()
            if "full" in str(problem) or "I/O" in str(problem):
                refuse(f"the state {quoted(path)} can't be written: {problem}")
            refuse(f"the state {quoted(path)} is damaged: {problem}; it was left as it is")
        except BaseException:
            self.base.close()
            raise

    def open(self, new: bool) -> None:
        if not new:
            self.check_kind()
        self.base.execute("PRAGMA locking_mode = EXCLUSIVE")
        self.base.execute("PRAGMA journal_mode = PERSIST" if new else "PRAGMA journal_mode")
        self.base.execute("PRAGMA journal_mode = PERSIST")
        self.base.execute("PRAGMA synchronous = FULL")
        if new:
            self.base.executescript(f"BEGIN IMMEDIATE; {TABLES} PRAGMA application_id = {APPLICATION}; "
                                    f"PRAGMA user_version = {VERSION}; COMMIT")
            sync_folder(folder_of(self.path))
        run = self.run()
        if run and run.folder != self.folder:
            refuse(f"the state {quoted(self.path)} is that of another folder, {quoted(run.folder)}; it was left as it "
                   "is")

    def check_kind(self) -> None:
        """Refuses a file that is no state, a state of another version, and one that is cut."""
        with open(self.path, "rb") as file:
            head = file.read(100)
        if head[:16] != b"SQLite format 3\0" or int.from_bytes(head[68:72], "big") != APPLICATION:
            refuse(f"{quoted(self.path)} is no state of las-batch; it was left as it is")
        version = int.from_bytes(head[60:64], "big")
        if version != VERSION:
            refuse(f"the state {quoted(self.path)} is of version {version}, and not {VERSION}; it was left as it is")
        problem = self.base.execute("PRAGMA quick_check(1)").fetchone()[0]
        if problem != "ok":
            refuse(f"the state {quoted(self.path)} is damaged: {problem}; it was left as it is")

    def close(self) -> None:
        self.base.close()

    @contextlib.contextmanager
    def writing(self) -> Iterator[None]:
        """One transaction: all of it is on the disk when the block ends, or nothing is."""
        self.base.execute("BEGIN IMMEDIATE")
        try:
            yield
            self.base.execute("COMMIT")
        except BaseException:
            with contextlib.suppress(sqlite3.Error):
                self.base.execute("ROLLBACK")
            raise

    def run(self) -> Optional[Run]:
        row = self.base.execute("SELECT folder, token, words, jobs, settings FROM run").fetchone()
        if not row:
            return None
        return Run(row[0], row[1], row[2].split(b"\0")[:-1], row[3], json.loads(row[4]))

    def put_run(self, run: Run) -> None:
        words = b"".join(word + b"\0" for word in run.words)
        self.base.execute("INSERT OR REPLACE INTO run VALUES (1, ?, ?, ?, ?, ?)",
                          (run.folder, run.token, json.dumps(run.settings), words, run.jobs))

    def jobs(self, where: str = "1", *values: Any) -> list[Job]:
        rows = self.base.execute(f"SELECT {', '.join(FIELDS)} FROM job WHERE {where} ORDER BY number", values)
        return [Job.of(row) for row in rows]

    def put_jobs(self, jobs: Iterable[Job]) -> None:
        self.base.executemany(PUT, (job.row() for job in jobs))

    def new_list(self, run: Run, jobs: Iterable[Job]) -> None:
        """Puts a new run and its list in the place of the last, in one transaction."""
        with self.writing():
            self.base.execute("DELETE FROM job")
            self.put_run(run)
            self.base.executemany(NEW, (job.new_row() for job in jobs))

    def made(self) -> dict[bytes, Made]:
        return {row[0]: Made.of(row) for row in self.base.execute("SELECT * FROM made")}

    def put_made(self, made: Iterable[Made]) -> None:
        self.base.executemany("INSERT OR REPLACE INTO made VALUES (?, ?, ?, ?, ?, ?, ?, ?, ?, ?)",
                              (one.row() for one in made))
