"""The program `las`: where it is, whether it is one that fits, and where its texts of help are."""
from __future__ import annotations

import glob
import os
import re
import shutil
import subprocess
from typing import Optional

from . import options

VARIABLE = "BALSAMVISE_PROGRAM"
"""The setting, and the environment variable, that name the program."""
OLDEST, MAJOR = (1, 2, 0), 1
"""The versions that fit: from the first on that names an output when it is whole, up to the next major one."""
_USUAL = ("~/.local/bin/las", "/usr/local/bin/las", "/usr/bin/las")
_BUNDLE = ("LD_LIBRARY_PATH", "LD_PRELOAD", "PYTHONHOME", "PYTHONPATH", "LAS_PROGRAM", "LAS")
_HERE = os.path.dirname(os.path.abspath(__file__))


class NoProgram(Exception):
    """The program was not found, or what was found does not fit; the text says what was found and what to do."""


def environment() -> dict[str, str]:
    """The environment of a run: without what a bundle of QGIS sets for its own libraries, and with drafts and hints."""
    kept = {name: value for name, value in os.environ.items() if name not in _BUNDLE}
    return {**kept, "LAS_SAFE": "1", "LAS_HINTS": "1"}


class Program:
    """A program of a version that fits."""

    def __init__(self, path: str, version: str) -> None:
        self.path, self.version = path, version

    @property
    def batch(self) -> str:
        """The path of `las-batch` beside it."""
        return os.path.join(os.path.dirname(self.path), "las-batch")

    @property
    def help(self) -> str:
        """The folder of its texts of help, else that of the copy in the zip."""
        return help_of(self.path)

    @property
    def libraries(self) -> list[str]:
        """Folders in which its library may be."""
        top = os.path.dirname(os.path.realpath(self.path))
        return [os.path.normpath(os.path.join(top, name)) for name in ("../lib", "lib")]


def help_of(path: str) -> str:
    """The folder of the texts of help of a program, else that of the copy in the zip."""
    top = os.path.dirname(os.path.realpath(path))
    for folder in ("help", "../share/las/help"):
        if os.path.isfile(os.path.join(top, folder, "options")):
            return os.path.normpath(os.path.join(top, folder))
    return options.OWN_HELP


def candidates(setting: str = "") -> tuple[bool, list[str]]:
    """Where the program may be, the first first; and whether it was named, so that no other is taken."""
    named = setting or os.environ.get(VARIABLE, "")
    if named:
        named = os.path.abspath(os.path.expanduser(named))
        return True, [os.path.join(named, "las") if os.path.isdir(named) else named]
    on_path = [os.path.join(os.path.abspath(folder), "las") for folder in os.get_exec_path() if folder]
    beside = [os.path.join(_HERE, "bin", "las")]
    beside += sorted(glob.glob(os.path.join(glob.escape(os.path.dirname(_HERE)), "balsamvise-*", "bin", "las")))[::-1]
    usual = [os.path.expanduser(path) for path in _USUAL]
    return False, [path for path in dict.fromkeys([*on_path, *usual, *beside]) if os.path.isfile(path)]


def version_of(path: str) -> tuple[Optional[str], str]:
    """The version that a program tells of itself, or None; and else what was found in its place."""
    if not os.path.isfile(path):
        return None, "there is no such file"
    if not os.access(path, os.X_OK):
        return None, "it can't be run"
    try:
        run = subprocess.run([path, "--version"], stdin=subprocess.DEVNULL, stdout=subprocess.PIPE, timeout=60,
                             stderr=subprocess.STDOUT, env=environment(), check=False)
    except (OSError, subprocess.TimeoutExpired) as error:
        return None, f"it does not tell its version: {error}"
    told = run.stdout.decode(errors="replace")
    found = re.match(r"las (\d+\.\d+\.\d+\S*)\n", told)
    if run.returncode == 0 and found:
        return found[1], ""
    first = told.strip().split("\n")[0][:80]
    return None, f"it is another program: --version prints {first!r} with status {run.returncode}"


def fits(version: str) -> bool:
    """Whether a version is one that this plugin knows."""
    numbers = tuple(int(part) for part in re.findall(r"\d+", version)[:3])
    return numbers >= OLDEST and numbers[0] == MAJOR


def find(setting: str = "") -> Program:
    """The program of the setting, of the environment, of the path, or beside the plugin: the first that fits."""
    named, paths = candidates(setting)
    found = []
    for path in paths:
        version, other = version_of(path)
        if version and fits(version):
            return Program(path, version)
        if version:
            oldest = ".".join(map(str, OLDEST))
            other = f"it is las {version}, and {oldest} or a later one before {MAJOR + 1} is needed"
        found.append(f"{path}: {other}")
    head = "The program las that was named does not fit." if named else "No program las that fits was found."
    what = "Name it in Settings > Options > Processing > Providers > Balsamvise, or install it on the path."
    raise NoProgram("\n".join([head, *found, what]))


def help_folder(setting: str = "") -> str:
    """The texts of help of the first program that is there, else the copy in the zip. No program is started."""
    _, paths = candidates(setting)
    return next((help_of(path) for path in paths if os.path.isfile(path)), options.OWN_HELP)


def keeper() -> list[str]:
    """The words before a command that have the system end it if QGIS is killed; none where that is not known."""
    path = shutil.which("setpriv")
    return [path, "--pdeathsig", "TERM", "--"] if path else []
