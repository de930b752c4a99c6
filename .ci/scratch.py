"""A folder for temporary files in which crates are checked over the libraries that `rt ci` left in a tree."""
import contextlib
import fcntl
import hashlib
import os
import shutil
import signal
import subprocess
import sys
import tempfile
import threading
from pathlib import Path
from typing import Dict, Iterator, List, Mapping, NamedTuple, Optional, Sequence, Set, Tuple

TOP = Path(__file__).resolve().parent.parent
PARTS = ("src", "specs", "proofs")
PREFIX = "balsamvise-"
# what the lock of a folder of ours holds
MARK = "a folder of .ci/edits or .ci/plant\n"


class Crate(NamedTuple):
    """A line of crates.txt."""

    name: str
    is_static: bool
    direct: Tuple[str, ...]


def crates_in(tree: Path) -> Dict[str, Crate]:
    """The crates that crates.txt names, lowest first."""
    found: Dict[str, Crate] = {}
    for line in (tree / "crates.txt").read_text().splitlines():
        head, colon, direct = line.partition(":")
        if colon and not line.startswith("#"):
            name, *kinds = head.split()
            found[name] = Crate(name, "staticlib" in kinds, tuple(direct.split()))
    ordered: Dict[str, Crate] = {}

    def add(name: str) -> None:
        for below in found[name].direct:
            if below in found and below not in ordered:
                add(below)
        ordered.setdefault(name, found[name])

    for name in found:
        add(name)
    return ordered


def below(crates: Dict[str, Crate], name: str) -> List[str]:
    """All crates below a crate, lowest first."""
    reached: Set[str] = set()
    left = [name]
    while left:
        for direct in crates[left.pop()].direct:
            if direct in crates and direct not in reached:
                reached.add(direct)
                left.append(direct)
    return [it for it in crates if it in reached]


def sources_of(top: Path, crate: str) -> Dict[str, Path]:
    """The sources of a crate, by their places in it."""
    folder = top / "crates" / crate
    return {str(path.relative_to(folder)): path for part in PARTS for path in sorted((folder / part).rglob("*"))
            if path.is_file()}


@contextlib.contextmanager
def scratch(name: str) -> Iterator[Path]:
    """A folder that is removed in the end, and held locked until then. What killed runs left is removed first."""
    for left in Path(tempfile.gettempdir()).glob(f"{PREFIX}*"):
        with contextlib.suppress(OSError):
            if left.is_symlink() or left.stat().st_uid != os.geteuid():
                continue
            with (left / "lock").open(errors="replace") as held:
                fcntl.flock(held, fcntl.LOCK_EX | fcntl.LOCK_NB)
                if held.read(len(MARK) + 1) == MARK:
                    shutil.rmtree(left, ignore_errors=True)
    while True:
        folder = Path(tempfile.mkdtemp(prefix=f"{PREFIX}{name}-"))
        try:
            with (folder / "lock").open("w") as lock:
                fcntl.flock(lock, fcntl.LOCK_EX)
                lock.write(MARK)
                lock.flush()
                # another run may have removed it before it was locked
                if (folder / "lock").exists():
                    yield folder
                    return
        finally:
            shutil.rmtree(folder, ignore_errors=True)


def end_on_signals() -> None:
    """Has an interrupt end the command as an exit does, so that its folder is removed."""
    def end(number: int, _: object) -> None:
        raise SystemExit(128 + number)

    for number in (signal.SIGINT, signal.SIGTERM, signal.SIGHUP):
        signal.signal(number, end)


def kit_folder() -> Path:
    said = subprocess.run(["rt", "doc"], stdout=subprocess.PIPE, text=True, check=True).stdout
    return Path(said.strip()).parent


# Runs a command in a process group of its own, writes its processor seconds to a file, and ends as it did.
TIMED = """
import os, resource, signal, sys
os.setpgid(0, 0)
child = os.fork()
if not child:
    os.execvp(sys.argv[2], sys.argv[2:])
_, status = os.waitpid(child, 0)
used = resource.getrusage(resource.RUSAGE_CHILDREN)
open(sys.argv[1], "w").write(str(used.ru_utime + used.ru_stime))
if os.WIFSIGNALED(status):
    os.kill(os.getpid(), signal.SIGKILL)
os._exit(os.WEXITSTATUS(status))
"""


def link_or_copy(one: str, other: str) -> str:
    try:
        os.link(one, other)
    except OSError:
        shutil.copy2(one, other)
    return other


class Lab:
    """A folder in which crates are checked over libraries, and what to say of how each check ended."""

    def __init__(self, trees: Sequence[Path], folder: Path, kit: Path) -> None:
        self.trees, self.folder, self.kit = [tree.resolve() for tree in trees] or [TOP], folder, kit
        self.crates = crates_in(TOP)
        self.running: Set["subprocess.Popen[str]"] = set()
        self.stopping = False
        self.alone = threading.Lock()
        self.number = 0
        self.sums: Dict[Tuple[str, str], str] = {}

    def sum_of(self, crate: str, judge: str) -> str:
        """A sum of the sources of a crate and of those below it, of the kit, and of how results are judged."""
        if (crate, judge) not in self.sums:
            made = hashlib.sha256((self.kit / "KIT-ID").read_bytes() + judge.encode())
            for name in (*below(self.crates, crate), crate):
                made.update(repr(self.crates[name]).encode())
                for place, path in sorted(sources_of(TOP, name).items(), key=lambda it: it[1]):
                    made.update(repr((place, path.read_bytes())).encode())
            self.sums[crate, judge] = made.hexdigest()
        return self.sums[crate, judge]

    def run(self, words: Sequence[str], cwd: Path, program: Optional[Path] = None) -> "Tuple[int, str, float]":
        """Runs rattle or another program, and returns its status, what it said, and the processor seconds."""
        # no check outlives this command
        guard = ["setpriv", "--pdeathsig", "KILL"] if shutil.which("setpriv") else []
        times = cwd / "seconds"
        line = [*guard, str(program or self.kit / "bin" / "rattle"), *words]
        with self.alone:
            if self.stopping:
                raise KeyboardInterrupt
            run = subprocess.Popen([*guard, sys.executable, "-ISc", TIMED, str(times), *line], cwd=cwd, text=True,
                                   stdin=subprocess.DEVNULL, stdout=subprocess.PIPE, stderr=subprocess.STDOUT,
                                   errors="replace")
            self.running.add(run)
        try:
            said, _ = run.communicate()
        finally:
            with self.alone:
                self.running.discard(run)
        if self.stopping:
            raise KeyboardInterrupt
        try:
            seconds = float(times.read_text())
        except (OSError, ValueError):
            seconds = 0.0
        return run.returncode, said, seconds

    def stop(self) -> None:
        """Ends all checks."""
        with self.alone:
            self.stopping = True
            for run in self.running:
                for kill in (os.killpg, os.kill):
                    try:
                        kill(run.pid, signal.SIGKILL)
                    except OSError:
                        pass

    def rlib(self, name: str) -> Path:
        return self.folder / "crates" / name / "out" / "rlib" / f"{name}.rlib"

    @staticmethod
    def is_program(name: str) -> bool:
        return (TOP / "crates" / name / "src" / "main.rt").is_file()

    def makes_library(self, name: str) -> bool:
        """Whether other crates can stand on a crate."""
        return not self.crates[name].is_static and not self.is_program(name)

    def words(self, name: str, changed: Optional[Mapping[str, Path]] = None) -> List[str]:
        """The words for a check of a crate, as rt gives them. It may stand on changed libraries."""
        crate, rlibs = self.crates[name], self.kit / "rlibs"
        libraries = {it: self.rlib(it) for it in below(self.crates, name)}
        libraries.update(changed or {})
        words = ["--crate-name", name, "src/main.rt" if self.is_program(name) else "src/lib.rt"]
        for it in ("std", *[it for it in crate.direct if it not in self.crates]):
            words += ["--extern", f"{it}={rlibs / it}.rlib"]
        words += ["-L", f"dependency={rlibs}"]
        for it in crate.direct:
            if it in self.crates:
                words += ["--extern", f"{it}={libraries[it]}"]
        words += [word for library in libraries.values() for word in ("-L", f"dependency={library.parent}")]
        words += ["--antt-project", f"{self.kit}/rattle/logic/antt-project.json"]
        words += ["--logic-built", f"{self.kit}/logic_built", "--jobs", "1", "--links", f"{name}="]
        return words + (["--crate-type", "staticlib"] if crate.is_static else [])

    def room(self, name: str) -> Path:
        """A new copy of a crate's sources."""
        with self.alone:
            self.number += 1
            room = self.folder / f"{name}-{self.number}"
        self.copy(name, room)
        return room

    @staticmethod
    def copy(name: str, room: Path) -> None:
        """Copies a crate's sources."""
        room.mkdir(parents=True, exist_ok=True)
        for part in PARTS:
            if (TOP / "crates" / name / part).is_dir():
                shutil.copytree(TOP / "crates" / name / part, room / part)

    def is_in(self, tree: Path, name: str) -> bool:
        """Whether a tree has the library of a crate, of the sources here, and made after their last change."""
        library = tree / "crates" / name / "out" / "rlib" / f"{name}.rlib"
        return (library / "format").is_file() and self.is_of_these(tree, name, library.stat().st_mtime)

    def is_of_these(self, tree: Path, name: str, made: float) -> bool:
        """Whether what was made of a crate in a tree then is of the sources here, and made after their last change."""
        for crate in (*below(self.crates, name), name):
            here, there = sources_of(TOP, crate), sources_of(tree, crate)
            if here.keys() != there.keys() or any(path.stat().st_mtime > made for path in there.values()):
                return False
            if TOP != tree and any(here[it].read_bytes() != there[it].read_bytes() for it in here):
                return False
        return True

    def take(self, tree: Path, name: str) -> None:
        """Takes a library from a tree, by links if they can be made: who makes it anew removes the old one first."""
        library = tree / "crates" / name / "out" / "rlib" / f"{name}.rlib"
        shutil.copytree(library, self.rlib(name), copy_function=link_or_copy)

    def build(self, name: str) -> None:
        """Builds a library that the tree does not have."""
        print(f"{name}: there is no library of these sources, so it is built", file=sys.stderr, flush=True)
        room = self.room(name)
        self.rlib(name).parent.mkdir(parents=True, exist_ok=True)
        status, said, _ = self.run(["build", *self.words(name), "--statements", "-o", str(self.rlib(name))], room)
        shutil.rmtree(room)
        if status:
            sys.exit(f"{name} is not proved as it stands:\n{said[-2000:]}")

    def provide(self, names: Set[str]) -> None:
        """Takes the libraries of these crates from the trees, and builds those that none of them has."""
        for name in self.crates:
            if name in names:
                tree = next((it for it in self.trees if self.is_in(it, name)), None)
                if tree:
                    self.take(tree, name)
                else:
                    self.build(name)
