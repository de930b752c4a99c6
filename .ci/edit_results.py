"""Edits: what they change, how a check with one is judged, and what is kept of earlier runs."""
import hashlib
import json
import os
import re
import sys
from pathlib import Path
from typing import Dict, List, NamedTuple, Optional, Sequence, Set, Tuple

from scratch import PARTS, Lab

PLACES = ("clause", "invariant", "requires", "proof", "limit")

# What `rt must-fail` counts as a limit of the prover's own, and as a text that could not be read.
LIMITS = re.compile(r"antt ran out of (stack|the (steps|memory) that the check of one declaration may (take|use))|"
                    r"(outgrew the memory limit|stopped at the step limit) \(")
UNREAD = re.compile(r"is not in scope|has no field|is no name|operand is missing|expected the end|cannot continue")
STALE = re.compile(r"module .Rattle-(\w+)-.*Run the lower steps again")


class Edit(NamedTuple):
    """An edit: its crate, its name, its text, and its changes: a file, an old text and a new one."""

    crate: str
    name: str
    text: str
    changes: Tuple[Tuple[str, str, str], ...]


class Tried(NamedTuple):
    """What came of an edit: where it was refused or that it was found, or a fault; what was said; and the seconds."""

    place: str
    said: str
    seconds: float


def changes_of(text: str) -> Tuple[Tuple[str, str, str], ...]:
    """The changes that the text of an edit names."""
    found, path, old = [], "", ""
    for line in text.splitlines():
        if line.startswith("file: "):
            path = line[len("file: "):].strip()
        elif line.startswith("old: "):
            old = line[len("old: "):]
        elif line.startswith("new:"):
            new = line[len("new:"):]
            found.append((path, old, new[1:] if new.startswith(" ") else new))
    return tuple(found)


def bare(text: str) -> str:
    """A text without blanks and comments."""
    return "".join(text.split("//")[0].split())


def fault_of(edit: Edit, folder: Path) -> Optional[str]:
    """Why an edit can't be applied to the crate in the folder, or changes nothing."""
    if not edit.changes:
        return "bad edit: it has no 'old:' and 'new:' pair"
    for path, old, _ in edit.changes:
        if not path.startswith(tuple(f"{part}/" for part in PARTS)) or not (folder / path).is_file():
            return f"bad edit: there is no file {path}"
        number = (folder / path).read_text().count(old) if old else 0
        if number != 1:
            return f"bad edit: an 'old:' text is in {path} {number} times, and not once"
    if all(bare(old) == bare(new) for _, old, new in edit.changes):
        return "changes nothing: the new text is the old one but for spaces and comments"
    return None


def edits_in(crate: str, *folders: Path) -> List[Edit]:
    """The edits of a crate that stand in these folders."""
    found: Dict[str, Edit] = {}
    for path in sorted(path for folder in folders for path in folder.glob("*.edit")):
        if path.stem in found:
            sys.exit(f"edits: two edits of {crate} are named {path.stem}")
        text = path.read_text()
        found[path.stem] = Edit(crate, path.stem, text, changes_of(text))
    return list(found.values())


GOAL = re.compile(r"(?:note: )?(?:\./)?(\S+?):(\d+):\d+: (?:error: )?(.*)")


def is_unread(line: str, changed: Set[str]) -> bool:
    """Whether the prover could not read a text of src/, specs/ or a changed file. (as in `rt must-fail`)"""
    at = re.match(r"(?:\./)?(\S+?):\d+:\d+: error: (?:(`[^`]*`): )?(.*)", line)
    if not at or at[1] not in changed and not at[1].startswith(("src/", "specs/")):
        return False
    return not at[2] or bool(UNREAD.search(re.sub(r"`[^`]*`", "", at[3])))


def place_of(lines: Sequence[str]) -> Optional[Tuple[str, str]]:
    """The first place that the lines on an edit name, and the line that does."""
    found: Dict[str, str] = {}
    for line in lines:
        at = GOAL.match(line)
        if not at:
            continue
        where, _, said = at.groups()
        if where.startswith("proofs/"):
            if ": error" in line:
                found.setdefault("proof", line)
        elif "it is not proved that" in said:
            goal = said.partition("it is not proved that ")[2]
            if goal.startswith("what the function ensures"):
                found.setdefault("clause", line)
            elif "invariant" in goal or "the loop ends" in goal or "ghost fields" in goal:
                found.setdefault("invariant", line)
            else:
                found.setdefault("requires", line)
        elif ": error" in line and LIMITS.search(said):
            found.setdefault("limit", line)
    return next(((it, found[it]) for it in PLACES if it in found), None)


def change(room: Path, edit: Edit) -> None:
    """Applies an edit to a copy of its crate."""
    for path, old, new in edit.changes:
        text = (room / path).read_text()
        (room / path).write_text(text.replace(old, new))


def judged(status: int, lines: List[str], edit: Edit, is_whole: bool) -> Tuple[str, str]:
    """What a check with one edit comes to, as `rt must-fail` judges."""
    changed = {path for path, _, _ in edit.changes}
    unread = next((line for line in lines if is_unread(line, changed)), "")
    if unread and status == 1:
        return "bad edit", f"the prover cannot read the edited text: {unread}"
    if any(STALE.search(line) for line in lines):
        return "not tried", next(line for line in lines if STALE.search(line))
    counted = re.match(r"only=(\d+) proved=(\d+)", lines[-1])
    not_proved = lines[-1].startswith("logic=not-proved") if is_whole else counted and int(counted[2]) < int(counted[1])
    if status == 1 and not_proved:
        return place_of(lines) or ("proof", next((line for line in lines if ": error" in line), ""))
    if status == 0:
        return "proved", "the crate is still proved with this edit"
    limit = next((line for line in lines if LIMITS.search(line)), "")
    if status == 3 and limit:
        return "limit", next((line for line in lines if re.match(r"\S+:\d+:\d+: error", line)), limit)
    if status == 1 and any(re.search(r"\berror\[[\w-]+\]", line) for line in lines):
        return "bad edit", "it did not reach the prover: " + " ".join(lines[:6])
    return "not tried", f"its check ended with status {status}: " + " ".join(lines[-4:])


class Kept:
    """What earlier runs came to, each by a sum of all that it depends on."""

    def __init__(self, lab: Lab, anew: bool, judge: str, good: Sequence[str]) -> None:
        cache = Path(os.environ.get("XDG_CACHE_HOME") or Path.home() / ".cache")
        self.folder, self.lab, self.anew = cache / "balsamvise" / "edits", lab, anew
        self.judge, self.good = judge, good

    def path(self, edit: Edit, crate: str, more: bytes) -> Path:
        said = repr((self.lab.sum_of(crate, self.judge), edit)).encode() + more
        return self.folder / hashlib.sha256(said).hexdigest()

    def told(self, edit: Edit, crate: str, more: bytes = b"") -> Optional[Tried]:
        """What came of an edit that was tried on the sources of this crate and those below it, and on more."""
        if self.anew:
            return None
        try:
            found = Tried(*json.loads(self.path(edit, crate, more).read_text()))
        except (OSError, ValueError, TypeError):
            return None
        return found if found.place in self.good else None

    def keep(self, edit: Edit, tried: Tried, crate: str, more: bytes = b"") -> None:
        if tried.place not in self.good:
            return
        path = self.path(edit, crate, more)
        new = path.with_suffix(f".{os.getpid()}")
        try:
            self.folder.mkdir(parents=True, exist_ok=True)
            new.write_text(json.dumps(tried))
            new.replace(path)
        except OSError:
            # no room, say: it is tried again
            pass
