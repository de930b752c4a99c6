"""What the documents say: their commands, links, quotations, tables, and the contracts that the sources have.

A fenced block with the word `sh` is run in a folder with the sample and the launcher, in the order of its page, and so
is each `./las` of a table. The next block with the word `text` is what it has to print; without one it prints nothing.
A block after a comment `not run: REASON` is left out. A block with the word `rust` is a quotation of the file that the
comment before it names.
"""
import os
import re
from dataclasses import dataclass
from typing import Optional

from programs import TOP

NOT_RUN = re.compile(r"<!-- not run: (.*) -->")
QUOTED = re.compile(r"(?:<!-- from (\S+) -->\n)?```rust\n(.*?)```", re.DOTALL)
FENCE = re.compile(r"```(\w*)")
SPAN = re.compile(r"`([^`]+)`")
LINK = re.compile(r"\[[^\]]*\]\(([^)\s]+)\)")


def pages() -> list[str]:
    docs = sorted(f"docs/{name}" for name in os.listdir(TOP / "docs") if name.endswith(".md"))
    return ["README.md", "CONTRIBUTING.md", "CHANGELOG.md", "checks/README.md", *docs]


def text_of(page: str) -> str:
    return (TOP / page).read_text(encoding="utf-8")


@dataclass
class Step:
    """Commands of a page, where they stand, what they are said to print (None: not said), and why they are not run."""

    page: str
    line: int
    commands: str
    printed: Optional[str]
    reason: Optional[str]

    @property
    def name(self) -> str:
        return f"{self.page}, line {self.line}: {self.commands.splitlines()[0]}"


def steps_of(page: str) -> list[Step]:
    steps: list[Step] = []
    block: Optional[list[str]] = None
    kind, reason, start = "", None, 0
    for number, line in enumerate(text_of(page).split("\n"), 1):
        fence = FENCE.match(line)
        comment = NOT_RUN.match(line)
        if fence and block is None:
            block, kind, start = [], fence.group(1), number
        elif fence and block is not None:
            written = "".join(part + "\n" for part in block)
            if kind == "sh":
                steps.append(Step(page, start, written, "", reason))
            elif kind == "text" and steps:
                steps[-1].printed = written
            block, reason = None, None
        elif block is not None:
            block.append(line)
        elif comment:
            reason = comment.group(1)
        elif " | " in line:
            steps += [Step(page, number, span, None, None) for span in SPAN.findall(line) if span.startswith("./las ")]
    return steps


def without_code(text: str) -> str:
    return re.sub(r"`[^`\n]*`", "``", re.sub(r"^```.*?^```$", "", text, flags=re.DOTALL | re.MULTILINE))


def anchors_of(page: str) -> set[str]:
    """The anchors of the headings: lower case, blanks as hyphens, other signs left out."""
    text = re.sub(r"^```.*?^```$", "", text_of(page), flags=re.DOTALL | re.MULTILINE)
    headings = re.findall(r"^#+ (.*)$", text, flags=re.MULTILINE)
    return {re.sub(r"[^\w\- ]", "", heading.lower()).replace(" ", "-") for heading in headings}


def link_problem(page: str, link: str) -> Optional[str]:
    path, _, anchor = link.partition("#")
    target = os.path.normpath(os.path.join(os.path.dirname(page), path)) if path else page
    if re.match(r"\w+:", link) or target.startswith(".."):
        return "no link within the repository"
    if not (TOP / target).exists():
        return f"{target} is not there"
    if anchor and anchor not in anchors_of(target):
        return f"{target} has no heading {anchor}"
    return None


def owner_of(line: str) -> Optional[str]:
    """The type or the trait whose calls follow a line at the left edge."""
    bare = line
    while re.search(r"<[^<>]*>", bare):
        bare = re.sub(r"<[^<>]*>", "", bare)
    found = re.match(r"(?:pub )?(?:impl|trait)\s+(?:[\w:]+ for )?(\w+)", bare)
    return found.group(1) if found else None


def records_of(crate: str) -> dict[str, set[str]]:
    """Each record that the definitions of a crate declare, with the names of its fields."""
    found: dict[str, set[str]] = {}
    folder = TOP / "crates" / crate / "specs"
    for path in sorted(folder.iterdir()) if folder.is_dir() else []:
        fields: set[str] = set()
        for line in path.read_text().split("\n"):
            record = re.match(r"pub record (\w+)", line)
            field = re.match(r"  pub (\w+) :", line)
            if record:
                fields = found.setdefault(record.group(1), set())
            elif field:
                fields.add(field.group(1))
            elif re.match(r"\S", line):
                fields = set()
    return found


def contracts(crate: str) -> dict[str, set[str]]:
    """Each call of a crate with the names of its clauses, '' for one without a name; a call of a type is TYPE::CALL.

    A clause that is a record of the crate's definitions has the record's fields as its clauses, too.
    """
    found: dict[str, set[str]] = {}
    records = records_of(crate)
    for path in sorted((TOP / "crates" / crate / "src").iterdir()):
        owner, clauses = None, set()
        for line in path.read_text().split("\n"):
            if re.match(r"[a-z]", line):
                owner = owner_of(line)
            call = re.match(r'\s*(?:pub )?(?:extern "C" )?fn (\w+)', line)
            if call:
                clauses = found.setdefault(f"{owner}::{call.group(1)}" if owner else call.group(1), set())
            clause = re.match(r"\s*ensures\*? (\w*) ?\{ *(\w*)", line)
            if clause:
                clauses.add(clause.group(1))
                clauses |= records.get(clause.group(2), set())
            elif line.strip() == "{":
                clauses = set()
    return found


def rows_of(text: str) -> list[list[str]]:
    """The cells of each row of the tables in a text."""
    lines = [line.strip().strip("|") for line in text.split("\n") if "|" in line and not re.match(r"[|\- ]+$", line)]
    return [[cell.strip() for cell in line.split("|")] for line in lines]


def listed_crates() -> list[str]:
    lines = text_of("crates.txt").split("\n")
    return [line.partition(":")[0].split()[0] for line in lines if line and not line.startswith("#")]


def missing_clauses(crate: str, calls: list[str], clauses: list[str]) -> list[str]:
    known = contracts(crate)
    missing = [f"no call {call}" for call in calls if call not in known]
    held: set[str] = set().union(*(known.get(call, set()) for call in calls))
    return missing + [f"no clause {clause or 'without a name'} of {calls}" for clause in clauses if clause not in held]
