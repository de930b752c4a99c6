"""What a run is to do: its inputs, their outputs, and whether each is made, made again, stays, or is not ours."""
from __future__ import annotations

import os
from dataclasses import dataclass, field
from typing import Optional

from .files import Identity, digest, look
from .state import Job, Made
from .texts import quoted, refuse
from .words import Words, made_by

ENDINGS = (b".las", b".laz")
NOT_OURS = "not ours"


@dataclass
class Plan:
    """The jobs to run, the outputs that stay, and the jobs of outputs that are not ours."""

    jobs: list[Job] = field(default_factory=list)
    reasons: list[str] = field(default_factory=list)  # of each job
    stay: list[Made] = field(default_factory=list)
    moved: list[Made] = field(default_factory=list)  # those that stay and whose input or output is another file now
    refused: list[Job] = field(default_factory=list)
    inputs: int = 0


def read_list(name: bytes) -> list[bytes]:
    """The names of a list: one a line, or a NUL after each if it holds a NUL."""
    try:
        with open(0 if name == b"-" else name, "rb", closefd=name != b"-") as file:
            text = file.read()
    except OSError as problem:
        refuse(f"the list can't be read: {quoted(name)}: {problem.strerror}")
    return [part for part in text.split(b"\0" if b"\0" in text else b"\n") if part]


def walked(name: bytes, left_out: Optional[Identity]) -> list[bytes]:
    """The LAS and LAZ files below a folder, but for those in the folder of the outputs."""
    found, folders = [], [name + b"/."]
    while folders:
        folder = folders.pop()
        try:
            entries = list(os.scandir(folder))
        except OSError as problem:
            refuse(f"a folder can't be read: {quoted(folder)}: {problem.strerror}")
        for entry in entries:
            if entry.is_dir(follow_symlinks=False):
                inside = look(entry.path)
                if left_out is None or inside is None or inside[:2] != left_out[:2]:
                    folders.append(entry.path)
            elif entry.is_file(follow_symlinks=False) and entry.name[-4:].lower() in ENDINGS \
                    and not entry.name.startswith(b".las-"):
                found.append(entry.path)
    return sorted(found)


def gather(words: Words, folder: bytes) -> list[bytes]:
    """The inputs, with the files of folders in their place."""
    names = list(words.inputs)
    if words.has("lof"):
        names += read_list(words.value("lof") or b"")
    inputs, left_out = [], look(folder, follow=True)
    for name in filter(None, names):
        if name.startswith(b"-"):
            name = b"./" + name
        if not os.path.isdir(name):
            inputs.append(name)
        elif not words.has("r"):
            refuse(f"{quoted(name)} is a folder: -r walks it")
        else:
            inputs += walked(name, left_out)
    return inputs


def place_of(words: Words, name: bytes) -> bytes:
    """The output of an input below the folder of outputs: its path below the walked folder, or its name."""
    place = name.rpartition(b"/./")[2] if b"/./" in name else name.rpartition(b"/")[2]
    stem, dot, end = place.rpartition(b".")
    stem, end = (stem, b"." + end.lower()) if dot else (place, b"")
    if words.command == "lasinfo":
        end = b".txt"
    elif end not in ENDINGS:
        refuse(f"the name of an input ends in .las or .laz: {quoted(name)}")
    elif words.command == "laszip":
        if end == b".laz" and words.has("verify"):
            refuse(f"-verify is for files to pack: {quoted(name)}")
        end = b".laz" if end == b".las" else b".las"
    elif b"-olaz" in words.words or b"-olas" in words.words:
        end = b".laz" if b"-olaz" in words.words else b".las"
    if b"/../" in b"/" + place + b"/":
        refuse(f"an output would leave the folder: {quoted(name)}")
    return stem + end


class Paths:
    """Paths without links and dots in their folders, each folder resolved once."""

    def __init__(self) -> None:
        self.folders: dict[bytes, bytes] = {}

    def real(self, path: bytes) -> bytes:
        folder, _, name = path.rpartition(b"/")
        if name in (b"", b".", b".."):
            return os.path.realpath(path)
        known = self.folders.get(folder)
        if known is None:
            known = os.path.realpath((folder or b"/") if path.startswith(b"/") else folder or b".").rstrip(b"/") + b"/"
            self.folders[folder] = known
        return known + name


class Listing:
    """What stands in folders, each read once: most outputs are not there, and then need no look of their own."""

    def __init__(self) -> None:
        self.folders: dict[bytes, set[bytes]] = {}

    def look(self, path: bytes, follow: bool = False) -> Optional[Identity]:
        folder, _, name = path.rpartition(b"/")
        names = self.folders.get(folder)
        if names is None:
            try:
                names = set(os.listdir(folder or b"/"))
            except (FileNotFoundError, NotADirectoryError):
                names = set()
            self.folders[folder] = names
        return look(path, follow) if name in names else None


def check_names(pairs: list[tuple[bytes, bytes]], found: dict[bytes, Optional[Identity]]) -> None:
    """Refuses two inputs with one output, and an output that is an input."""
    paths = Paths()
    taken: dict[bytes, bytes] = {}
    for name, output in pairs:
        real = paths.real(output)
        if real in taken:
            refuse(f"two inputs have one output: {quoted(taken[real])} {quoted(name)}")
        taken[real] = name
    files = {}
    listing = Listing()
    for name, output in pairs:
        there = listing.look(output, follow=True)
        if there is not None:
            files[there[:2]] = name
    for name, _ in pairs:
        source = found[name]
        of = files.get(source[:2]) if source else None
        of = of or taken.get(paths.real(name))
        if of:
            refuse(f"the output of {quoted(of)} is the input {quoted(name)}")


def key_of(output: bytes, folder: bytes) -> bytes:
    """An output's path below the folder of outputs."""
    return output[len(folder):].lstrip(b"/")


def pairs_of(words: Words, folder: bytes) -> list[tuple[bytes, bytes]]:
    top = folder.rstrip(b"/") + b"/"
    return [(name, top + place_of(words, name)) for name in gather(words, folder)]


class Planner:
    """Decides of each input what is to be done, by what stands there and what the state knows."""

    def __init__(self, words: Words, folder: bytes, made: dict[bytes, Made], packing: list[bytes]) -> None:
        self.words, self.folder, self.made = words, folder, made
        self.by = made_by(words.command, packing)
        self.plan = Plan()
        self.listing = Listing()

    def all(self, pairs: list[tuple[bytes, bytes]], found: dict[bytes, Optional[Identity]]) -> Plan:
        self.plan.inputs = len(pairs)
        for number, (name, output) in enumerate(pairs, 1):
            self.one(Job(number, name, output), found[name])
        for number, job in enumerate(self.plan.jobs, 1):
            job.number = number
        for number, job in enumerate(self.plan.refused, len(self.plan.jobs) + 1):
            job.number = number
        return self.plan

    def one(self, job: Job, source: Optional[Identity]) -> None:
        if source is not None and not source.regular():
            job.fail("3", b"read fault: " + job.input + b": not a regular file")
            self.plan.refused.append(job)
            return
        there = self.listing.look(job.output)
        if there is None:
            self.do(job, "new")
        elif not there.regular():
            self.refuse(job, "something that is no file has the name of the output")
        elif self.words.has("force"):
            job.older = there
            self.do(job, "forced")
        else:
            self.known(job, source, there, self.made.get(key_of(job.output, self.folder)))

    def do(self, job: Job, reason: str) -> None:
        self.plan.jobs.append(job)
        self.plan.reasons.append(reason)

    def refuse(self, job: Job, why: str) -> None:
        job.fail(NOT_OURS, f"{quoted(job.output)}: {why}".encode())
        self.plan.refused.append(job)

    def known(self, job: Job, source: Optional[Identity], there: Identity, record: Optional[Made]) -> None:
        """Of an output that is there: whether it is ours, and if so whether it was made from this very input."""
        if record is None or not self.ours(job, there, record):
            if self.words.has("adopt") and source is not None:
                job.older, job.adopt = there, True
                self.do(job, "adopt")
            else:
                self.refuse(job, "it was not made by las-batch" if record is None else
                            "it was changed after it was made")
            return
        if source is None:
            if record.removed and record.words == self.by:
                self.plan.stay.append(record)
            else:
                self.do(job, "new")
            return
        same = self.same_input(job, source, record)
        if same and record.words == self.by:
            self.stays(record, source, there)
        elif not same and record.removed:
            self.refuse(job, "it holds the only copy of an input that was removed")
        elif not same and os.path.abspath(record.input) != os.path.abspath(job.input):
            self.refuse(job, f"it was made from another input, {quoted(record.input)}")
        else:
            job.older = there
            self.do(job, "other words" if same else "changed")

    def stays(self, record: Made, source: Identity, there: Identity) -> None:
        self.plan.stay.append(record)
        if record.source != source or record.found != there:
            record.source, record.found = source, there
            self.plan.moved.append(record)

    def ours(self, job: Job, there: Identity, record: Made) -> bool:
        """Whether an output is the file that the state knows; one that was moved or restored has its sum compared."""
        if there.same_file(record.found):
            return True
        if there[2:4] != record.found[2:4]:
            return False
        if record.output_sum:
            return self.sum_is(job.output, record.output_sum)
        return there.unchanged(record.found, elsewhere=True)  # a disk that has another number now

    def same_input(self, job: Job, source: Identity, record: Made) -> bool:
        if source.unchanged(record.source):
            return True
        if source[2:4] != record.source[2:4]:
            return False
        if record.input_sum:
            return self.sum_is(job.input, record.input_sum)
        return source.unchanged(record.source, elsewhere=True)  # a disk that has another number now

    @staticmethod
    def sum_is(path: bytes, total: str) -> bool:
        try:
            return digest(path)[1] == total
        except OSError:
            return False


def look_at_all(pairs: list[tuple[bytes, bytes]]) -> dict[bytes, Optional[Identity]]:
    return {name: look(name, follow=True) for name, _ in pairs}


def check_text(text: bytes, pairs: list[tuple[bytes, bytes]], found: dict[bytes, Optional[Identity]], word: str,
               head: bytes = b"") -> bytes:
    """The path of a list that is written: refused if it is an input or an output, or there and no such list."""
    path = os.path.realpath(text)
    paths, there = Paths(), look(path)
    last = os.path.basename(path)
    if any(name.endswith(last) and paths.real(name) == path for pair in pairs for name in pair):
        refuse(f"-{word} names an input or an output: {quoted(text)}")
    if there is None:
        return path
    if any(source and source[:2] == there[:2] for source in found.values()):
        refuse(f"-{word} names an input: {quoted(text)}")
    if not there.regular():
        refuse(f"-{word} names what is no file: {quoted(text)}")
    with open(path, "rb") as file:
        if there.size and not file.read(len(head)).startswith(head):
            refuse(f"-{word} names a file that is no such list, and it stays as it is: {quoted(text)}")
    return path
