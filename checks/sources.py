"""The sources of the repository, by kind: found, not listed."""
import os
from pathlib import Path

from programs import TOP

LEFT_OUT = {".git", "out", "build", "lib", "venv", "__pycache__", ".mypy_cache"}


def files() -> list[Path]:
    """Every file of the repository but those that are built."""
    found = []
    for at, folders, names in os.walk(TOP):
        folders[:] = sorted(name for name in folders if name not in LEFT_OUT and not name.endswith(".egg-info"))
        found += [Path(at, name).relative_to(TOP) for name in sorted(names)]
    return found


def first_line(path: Path) -> str:
    with open(TOP / path, "rb") as file:
        return file.readline().decode(errors="replace")


def scripts(*interpreters: str) -> list[Path]:
    """Files whose first line names one of these interpreters, and those that end as such a script."""
    ends = {"sh": ".sh", "bash": ".bash", "python3": ".py"}
    return [path for path in files() if path.suffix in [ends[name] for name in interpreters] or (
        not path.suffix and first_line(path).startswith("#!") and
        first_line(path).split("/")[-1].split()[-1] in interpreters)]
