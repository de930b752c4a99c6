"""Edits that no contract refuses: each is built, and a test has to find it."""
import collections
import concurrent.futures
import functools
import re
import shutil
import sys
from pathlib import Path
from typing import Callable, Counter, Dict, List, Optional, Sequence, Tuple

from edit_results import Edit, Kept, Tried, change, edits_in, fault_of, judged
from scratch import TOP, Lab, below, link_or_copy

FOUND = "found"
# What a change of this module that turns its answers raises.
JUDGE = "tests 1"
TARGET = "x86_64-unknown-linux-gnu"
FAILED = re.compile(r"^test (\S+) \.\.\. FAILED", re.M)
CASE = re.compile(r"^test: (checks/\w+\.py)::(\w+)$", re.M)

# What came of a build: its status, what was said, and the processor seconds.
Built = Tuple[int, str, float]


def edits_of(crate: str) -> List[Edit]:
    """The edits of a crate that tests have to find."""
    return edits_in(crate, TOP / "edits" / "tests" / crate)


def tests_of(lab: Lab, crate: str) -> str:
    """The crate of tests that stands on this crate alone of the repository's, or no name."""
    for name, other in lab.crates.items():
        if name.startswith("tests_") and [it for it in other.direct if it in lab.crates] == [crate]:
            return name
    return ""


def seeded(seed: Path, room: Path) -> List[str]:
    """The words for a check that begins with what was proved, of which it gets a copy."""
    def copy(one: str, other: str) -> str:
        # a check replaces such a file, and writes into no old one
        return link_or_copy(one, other) if one.endswith(".oantt") else shutil.copy2(one, other)

    kept = room / "kept"
    if seed.is_dir():
        shutil.copytree(seed, kept, copy_function=copy)
    else:
        kept.mkdir()
    return ["--incremental", str(kept)]


def link(lab: Lab, made: Path, program: Path) -> Built:
    """Links what a build has made into a program."""
    words = ["--target", TARGET, "--toolchain", str(lab.kit / "toolchain"), "-o", str(program), str(made)]
    words += [str(lab.kit / "c" / name) for name in ("libos_c.a", "liblibc_c.a")]
    return lab.run(words, made.parent, lab.kit / "bin" / "rattle-link")


def built_program(lab: Lab, room: Path, words: Sequence[str], program: Path) -> Built:
    """Proves a program, compiles it by Rattle's own compiler, which takes half the time of LLVM, and links it."""
    made = room / "made.o"
    compiler = ["--toolchain", str(lab.kit / "toolchain"), "--backend", "rattle", "-o", str(made)]
    status, said, seconds = lab.run(["build", *words, *compiler], room)
    if status:
        return status, said, seconds
    status, linked, more = link(lab, made, program)
    return status, said + linked, seconds + more


class Trials:
    """Trials of the edits of one crate: how it is built with an edit, and tried."""

    def __init__(self, lab: Lab, crate: str) -> None:
        self.lab, self.crate = lab, crate

    def is_sound(self, edits: Sequence[Edit]) -> Dict[str, str]:
        """Tries the crate as it stands, and says of each edit that can't be judged for that why."""
        raise NotImplementedError

    def tried(self, edit: Edit) -> Tried:
        """What came of an edit."""
        raise NotImplementedError

    def key(self, edit: Edit) -> Tuple[str, bytes]:
        """The crate on whose sources the result depends, and what else it does."""
        raise NotImplementedError

    def not_built(self, built: Built, edit: Edit) -> Tried:
        """What a build comes to that did not end well."""
        status, said, seconds = built
        lines = said.rstrip("\n").split("\n")
        at = next((number for number, line in enumerate(lines) if line.startswith("logic=not-proved")), None)
        place, why = judged(status, lines if at is None else lines[:at + 1], edit, True)
        if place in ("bad edit", "not tried"):
            return Tried(place, why, seconds)
        return Tried("refused", f"the prover refuses it, so it belongs in edits/{self.crate}: {why}", seconds)


class OfLibrary(Trials):
    """Trials of a library, by the crate of tests that stands on it alone."""

    def __init__(self, lab: Lab, crate: str) -> None:
        super().__init__(lab, crate)
        self.tests = tests_of(lab, crate)
        self.seeds = {name: self.seed_of(name) for name in (crate, self.tests)}

    def seed_of(self, name: str) -> Path:
        """What checks of a crate have left in a tree, if there is one."""
        folders = [tree / "crates" / name / "out" / "incremental" for tree in self.lab.trees]
        return next((folder for folder in folders if folder.is_dir()), self.lab.folder / "no-seed")

    def key(self, edit: Edit) -> Tuple[str, bytes]:
        return self.tests, b""

    def library(self, room: Path) -> Built:
        """Proves what stands in a room, over what is proved of the crate as it stands."""
        words = [*self.lab.words(self.crate), *seeded(self.seeds[self.crate], room)]
        return self.lab.run(["build", *words, "-o", str(room / f"{self.crate}.rlib")], room)

    def run_tests(self, room: Path, library: Path) -> Built:
        """Builds the tests over a library, and runs them in a folder of their own."""
        words = [*self.lab.words(self.tests, {self.crate: library}), "--test", *seeded(self.seeds[self.tests], room)]
        status, said, seconds = built_program(self.lab, room, words, room / "tests")
        if status:
            return 2, said, seconds
        (room / "run").mkdir()
        status, said, more = self.lab.run(["--seconds", "60", str(room / "tests")], room / "run",
                                          self.lab.kit / "bin" / "rattle-test")
        return status, said, seconds + more

    def is_sound(self, edits: Sequence[Edit]) -> Dict[str, str]:
        own, tests = self.lab.room(self.crate), self.lab.room(self.tests)
        status, said, _ = self.library(own)
        if not status:
            self.seeds[self.crate] = own / "kept"
            status, said, _ = self.run_tests(tests, own / f"{self.crate}.rlib")
        if status:
            return dict.fromkeys((it.name for it in edits), f"the tests do not pass as it stands: {said[-1000:]}")
        self.seeds[self.tests] = tests / "kept"
        return {}

    def tried(self, edit: Edit) -> Tried:
        own, tests = self.lab.room(self.crate), self.lab.room(self.tests)
        try:
            change(own, edit)
            built = self.library(own)
            if built[0]:
                return self.not_built(built, edit)
            status, said, seconds = self.run_tests(tests, own / f"{self.crate}.rlib")
            seconds += built[2]
        finally:
            for room in (own, tests):
                shutil.rmtree(room, ignore_errors=True)
        failed = FAILED.findall(said)
        if status and failed:
            return Tried(FOUND, ", ".join(f"{self.tests}: {it}" for it in failed), seconds)
        if status:
            return Tried("not tried", f"its tests ended with status {status}: {said[-1000:]}", seconds)
        return Tried("not found", "it is proved, and each test passes with it", seconds)


class OfProgram(Trials):
    """Trials of a program, by the case of the suite that an edit names."""

    def key(self, edit: Edit) -> Tuple[str, bytes]:
        case = CASE.search(edit.text)
        path = TOP / case[1] if case else TOP
        return self.crate, path.read_bytes() if path.is_file() else b""

    def program(self, room: Path) -> Built:
        """Proves what stands in a room, and makes its program."""
        return built_program(self.lab, room, self.lab.words(self.crate), room / self.crate)

    def standing(self) -> Tuple[Optional[Path], str]:
        """The program of the crate as it stands, from a tree that has it, or why there is none."""
        for tree in self.lab.trees:
            program = tree / "crates" / self.crate / "out" / self.crate
            if program.is_file() and self.lab.is_of_these(tree, self.crate, program.stat().st_mtime):
                return program, ""
        print(f"{self.crate}: there is no program of these sources, so it is built", file=sys.stderr, flush=True)
        room = self.lab.room(self.crate)
        status, said, _ = self.program(room)
        return (None if status else room / self.crate), said[-1000:]

    def run_case(self, edit: Edit, program: Path, room: Path) -> Built:
        """Runs the case that an edit names."""
        case = CASE.search(edit.text)
        name = case[2] if case else ""
        return self.lab.run(["-n", "0", "-q", "-x", "-k", name, "--program", str(program)], room, TOP / "check")

    def is_sound(self, edits: Sequence[Edit]) -> Dict[str, str]:
        program, why = self.standing()
        if not program:
            return dict.fromkeys((it.name for it in edits), f"it is not built as it stands: {why}")
        faults = {}
        for edit in edits:
            case = CASE.search(edit.text)
            if not case or f"def {case[2]}(" not in self.key(edit)[1].decode():
                faults[edit.name] = "it names no case of the suite in a line 'test: checks/FILE.py::NAME'"
                continue
            room = self.lab.room(self.crate)
            status, said, _ = self.run_case(edit, program, room)
            if status:
                faults[edit.name] = f"its case does not pass on the program as it stands: {said[-1000:]}"
        return faults

    def tried(self, edit: Edit) -> Tried:
        room = self.lab.room(self.crate)
        try:
            change(room, edit)
            built = self.program(room)
            if built[0]:
                return self.not_built(built, edit)
            status, said, seconds = self.run_case(edit, room / self.crate, room)
            seconds += built[2]
        finally:
            shutil.rmtree(room, ignore_errors=True)
        case = CASE.search(edit.text)
        if status == 1 and case:
            return Tried(FOUND, f"{case[1]}: {case[2]}", seconds)
        if status:
            return Tried("not tried", f"its case ended with status {status}: {said[-1000:]}", seconds)
        return Tried("not found", "it is proved, and its case passes with it", seconds)


def trials_of(lab: Lab, crate: str) -> Trials:
    """How the edits of a crate are tried."""
    if lab.is_program(crate):
        return OfProgram(lab, crate)
    if not tests_of(lab, crate):
        sys.exit(f"edits: no crate of tests stands on {crate} alone")
    return OfLibrary(lab, crate)


def report(results: Dict[Tuple[str, str], Tried]) -> int:
    """Prints the table, and returns the status."""
    print("| Crate | Edit | Found by | Seconds |\n|---|---|---|---|")
    places: Counter[str] = collections.Counter()
    for (crate, name), tried in sorted(results.items()):
        places[tried.place] += 1
        found = f"`{tried.said}`" if tried.place == FOUND else tried.place
        print(f"| `{crate}` | `{name}` | {found} | {tried.seconds:.0f} |")
    seconds = sum(tried.seconds for tried in results.values())
    print("\n" + ", ".join(f"{number} {place}" for place, number in places.most_common())
          + f"; {seconds / 60:.0f} minutes of a processor")
    bad = {key: tried for key, tried in results.items() if tried.place != FOUND}
    for (crate, name), tried in sorted(bad.items()):
        print(f"edits: {crate}/{name}: {tried.place}: {tried.said}", file=sys.stderr)
    return 1 if bad else 0


def each(lab: Lab, jobs: int, trials: Dict[Tuple[str, str], Callable[[], Tried]]) -> Dict[Tuple[str, str], Tried]:
    """What came of each trial. They are made side by side."""
    results: Dict[Tuple[str, str], Tried] = {}
    with concurrent.futures.ThreadPoolExecutor(jobs) as pool:
        runs = {pool.submit(trial): key for key, trial in trials.items()}
        try:
            for run in concurrent.futures.as_completed(runs):
                results[runs[run]] = run.result()
        except BaseException:
            lab.stop()
            for run in runs:
                run.cancel()
            raise
    return results


def begin(lab: Lab, kept: Kept, chosen: Dict[str, List[Edit]], results: Dict[Tuple[str, str], Tried]) \
        -> Dict[str, Tuple[Trials, List[Edit]]]:
    """What is to be tried of each crate, which was tried as it stands. All other edits have a result."""
    left: Dict[str, Tuple[Trials, List[Edit]]] = {}
    for crate, edits in chosen.items():
        trials = trials_of(lab, crate)
        for edit in edits:
            fault = fault_of(edit, TOP / "crates" / crate)
            told = kept.told(edit, *trials.key(edit))
            if fault:
                place, _, said = fault.partition(": ")
                results[crate, edit.name] = Tried(place, said, 0)
            elif told:
                results[crate, edit.name] = told
            else:
                left.setdefault(crate, (trials, []))[1].append(edit)
    lab.provide({it for crate in left for it in below(lab.crates, crate)})
    for crate, (trials, edits) in left.items():
        faults = trials.is_sound(edits)
        results.update({(crate, name): Tried("not tried", why, 0) for name, why in faults.items()})
        edits[:] = [it for it in edits if it.name not in faults]
    return left


def work(lab: Lab, anew: bool, chosen: Dict[str, List[Edit]], jobs: int) -> int:
    """Tries edits, and returns the status."""
    results: Dict[Tuple[str, str], Tried] = {}
    kept = Kept(lab, anew, JUDGE, (FOUND,))

    def tried_and_kept(trials: Trials, edit: Edit) -> Tried:
        tried = trials.tried(edit)
        kept.keep(edit, tried, *trials.key(edit))
        print(f"edits: {edit.crate}/{edit.name}: {tried.place} ({tried.seconds:.0f} s)", file=sys.stderr, flush=True)
        return tried

    left = begin(lab, kept, chosen, results)
    results.update(each(lab, jobs, {(crate, edit.name): functools.partial(tried_and_kept, trials, edit)
                                    for crate, (trials, edits) in left.items() for edit in edits}))
    return report(results)
