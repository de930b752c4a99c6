"""What a check needs of the machine. What is missing skips the check, with the name of its package; it is a failure if
all checks are asked for.
"""
import importlib
import os
import shutil
import subprocess
from types import ModuleType

import pytest

required = False  # set by `--all`


def missing(what: str, package: str) -> None:
    """Ends the check: skipped, or failed if all checks are asked for."""
    line = f"apt-get install {package}" if " " not in package else f"it needs {package}"
    if required:
        pytest.fail(f"{what}: {line}", pytrace=False)
    pytest.skip(f"{what}: {line}")


def root() -> None:
    if os.getuid() != 0:
        missing("not root", "to be run as root")


def command(name: str, package: str) -> str:
    """The path of a command, of a package of Debian's."""
    path = shutil.which(name)
    if path is None:
        missing(f"{name} is missing", package)
    return path or name


def module(name: str, package: str) -> ModuleType:
    """A module of Python's, of a package of Debian's."""
    try:
        return importlib.import_module(name)
    except ImportError:
        missing(f"Python has no {name}", package)
        raise


def runs(*line: str) -> bool:
    """Whether a command ends with status 0."""
    return subprocess.run(line, stdin=subprocess.DEVNULL, stdout=subprocess.DEVNULL, stderr=subprocess.DEVNULL,
                          check=False).returncode == 0
