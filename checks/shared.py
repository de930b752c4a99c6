"""What is made once for all processes of a run of the suite: the first that needs it makes it, the others wait."""
import fcntl
import os
from collections.abc import Callable
from pathlib import Path

import pytest


def folder(tmp_path_factory: pytest.TempPathFactory) -> Path:
    """A folder that all processes of this run of the suite have."""
    base = tmp_path_factory.getbasetemp()
    return base.parent if "PYTEST_XDIST_WORKER" in os.environ else base


def once(tmp_path_factory: pytest.TempPathFactory, name: str, make: Callable[[Path], None]) -> Path:
    """A folder that `make` fills once. If it failed, the next process tries it again."""
    place = folder(tmp_path_factory) / name
    with open(place.with_name(name + ".lock"), "w", encoding="ascii") as lock:
        fcntl.flock(lock, fcntl.LOCK_EX)
        if not (place / "made").exists():
            place.mkdir(exist_ok=True)
            make(place)
            (place / "made").touch()
    return place
