"""Trials of las-batch: a run of `-verify -delete` with a fault at one of its file calls, and what stands afterwards."""
import re
import shutil
import subprocess
from collections.abc import Iterable
from pathlib import Path

import needs
from batch_places import Tiles, wait_until

INPUTS = ["tiles/a.las", "tiles/b.las"]
WORDS = ["laszip", "-odir", "out", "-verify", "-delete", *INPUTS]
PLAIN_WORDS = ["laszip", "-odir", "out", *INPUTS]
TELLING = {"rename", "renameat2", "unlink", "rmdir"}
TAKING = ["write", "pwrite64", "fsync", "fdatasync", "mkdir", "open64", "rename", "renameat2", "unlink"]


def faults_library(folder: Path) -> Path:
    """The library that lets a file call of a process fail, or kills it there, compiled into a folder."""
    compiler = needs.command("gcc", "gcc")
    built = folder / "faults.so"
    source = Path(__file__).with_name("batch_faults.c")
    subprocess.run([compiler, "-O2", "-Wall", "-Wextra", "-Werror", "-shared", "-fPIC", "-o", built, source, "-ldl"],
                   check=True)
    return built


def spread(calls: list[str], names: Iterable[str], count: int = 2, last: bool = False) -> list[int]:
    """The first call of each of these names, the last one, and others between them: `count` of each name. If that is
    one, it is the first, or the last.
    """
    chosen: set[int] = set()
    for name in names:
        places = [at for at, one in enumerate(calls, 1) if one == name]
        assert places, (name, calls)
        if count == 1:
            chosen.add(places[-1 if last else 0])
        else:
            chosen |= {places[round(at * (len(places) - 1) / (count - 1))] for at in range(count)}
    return sorted(chosen)


class Trials(Tiles):
    """A folder with a tile that is new, one that was changed after it was packed, and files of others."""

    words = WORDS

    def __init__(self, folder: Path, program: str, library: Path) -> None:
        super().__init__(folder / "w", program)
        self.library, self.model, self.log = library, folder / "model", folder / "calls"
        self.folder.mkdir()
        self.old = self.make("tiles/b.las", 100, 3)
        assert self.batch("laszip", "-odir", "out", "-verify", "tiles/b.las").returncode == 0
        self.plain = {name: self.make(f"tiles/{name}.las", 100, seed) for seed, name in enumerate("ab")}
        self.new = self.make("new.las", 120, 9)
        self.path("new.las").rename(folder / "new.las")
        self.wanted = {f"{name}.laz": self.packed(data) for name, data in self.plain.items()}
        self.packed_old, self.packed_new = self.packed(self.old), self.packed(self.new)
        names = ["out/c.laz", "out/.las-0123456789abcdef-1.part", "out/.las-0123456789abcdef-1.old", "tiles/c.las",
                 "tiles/.las-0123456789abcdef-1.input", "tiles/a.las.kept-0123456789abcdef"]
        self.others = {name: f"another's {name}".encode() for name in names}
        for name, data in self.others.items():
            self.path(name).write_bytes(data)
        shutil.copytree(self.folder, self.model)

    def again(self) -> None:
        """The folder as it was before the first trial."""
        shutil.rmtree(self.folder)
        subprocess.run(["cp", "-a", self.model, self.folder], check=True)

    def faulty(self, *words: str, **fault: object) -> "subprocess.CompletedProcess[bytes]":
        """A run with a fault, until all that it started has ended."""
        environment = {f"FAULT_{name.upper()}": str(value) for name, value in fault.items()}
        environment.update(LD_PRELOAD=str(self.library), FAULT_FOLDER=str(self.folder))
        run = self.batch(*(words or self.words), environment=environment)
        assert wait_until(lambda: self.free("out"), 20), "the folder stays locked"
        return run

    def calls(self, *words: str) -> list[str]:
        """The names of the calls of a run without a fault."""
        self.log.write_bytes(b"")
        self.faulty(*words, log=self.log)
        return self.log.read_text().split()

    def contents(self) -> list[bytes]:
        return [path.read_bytes() for path in self.folder.rglob("*") if path.is_file()]

    def made(self) -> dict[str, bytes]:
        paths = {name: self.path(f"out/{name}") for name in self.wanted}
        return {name: path.read_bytes() for name, path in paths.items() if path.exists()}

    def nothing_is_lost(self, when: str) -> None:
        found = self.contents()
        for name, data in self.plain.items():
            assert data in found or self.wanted[f"{name}.laz"] in found, f"{name} is lost {when}"
        made = self.made()
        assert made["b.laz"] in (self.packed_old, self.wanted["b.laz"]), f"an output is partial {when}"
        assert made.get("a.laz", self.wanted["a.laz"]) == self.wanted["a.laz"], f"an output is partial {when}"
        self.others_stay(when)

    def others_stay(self, when: str) -> None:
        for name, data in self.others.items():
            assert self.path(name).read_bytes() == data, f"{name} of another {when}"

    def said_is_true(self, run: "subprocess.CompletedProcess[bytes]", when: str) -> None:
        """What is counted as done is done, and an input that is said to stay does."""
        done = sum(data == self.wanted[name] and self.path(f"tiles/{name[0]}.las").exists() != self.removes()
                   for name, data in self.made().items())
        for count, rest in re.findall(rb"(\d+) done, (\d+) not", run.stderr):
            if int(count) + int(rest) == 2:  # it is no earlier run that went on
                assert int(count) <= done, (when, run.stderr)
        for name in re.findall(rb"(tiles/[ab].las)[:]? .*stays$", run.stderr, flags=re.MULTILINE):
            assert self.path(name.decode()).exists(), (when, run.stderr)
        for name in re.findall(rb"stays as ([^ ,:\n]+)", run.stderr):
            assert self.path(name.decode()).exists(), (when, run.stderr)
        assert b"Traceback" not in run.stderr, (when, run.stderr)

    def removes(self) -> bool:
        return "-delete" in self.words

    def all_is_done(self, when: str) -> None:
        assert self.made() == self.wanted, when
        left = [name for name in self.plain if self.path(f"tiles/{name}.las").exists()]
        assert left == ([] if self.removes() else list(self.plain)), when

    def ours_hidden(self) -> list[str]:
        theirs = {str(self.path(name)) for name in self.others}
        return [path for path in self.parts() if path not in theirs]

    def ends_well(self, when: str) -> None:
        """Going on, and the same words again, do the rest."""
        run = self.batch("-resume", "-odir", "out")
        self.nothing_is_lost(f"after -resume, {when}")
        self.said_is_true(run, when)
        run = self.batch(*self.words)
        assert run.returncode == 0, (when, run.stderr)
        self.all_is_done(when)
        self.others_stay(when)
        assert self.ours_hidden() == [], when

    # trials

    def kill(self, at: int, where: str, when: str) -> None:
        self.faulty(at=at, kill=where)
        self.nothing_is_lost(when)
        left = [path for path in self.ours_hidden() if not path.endswith((".input", ".old", ".part"))]
        assert left == [], when

    def error(self, at: int, number: int, when: str, **fault: object) -> None:
        run = self.faulty(at=at, error=number, **fault)
        self.nothing_is_lost(when)
        self.said_is_true(run, when)
        if run.returncode == 0:
            self.all_is_done(when)

    def replaced(self, at: int, when: str) -> None:
        """A new delivery takes the place of an input before a call: it is there afterwards, and after -resume.

        A run that reads two rows at once has fewer calls: then this one is perhaps not reached, and nothing is brought.
        """
        new, target, mark = self.folder.parent / "new.las", self.path("tiles/a.las"), self.folder.parent / "reached"
        mark.unlink(missing_ok=True)
        self.faulty(at=at, run=f"cp {new} {target}.new && mv -f {target}.new {target} && : >{mark}")
        if not mark.exists():
            assert at > 150, when
            return
        for turn in (when, f"after -resume, {when}"):
            found = self.contents()
            assert self.new in found or self.packed_new in found, turn
            self.others_stay(turn)
            self.batch("-resume", "-odir", "out")
