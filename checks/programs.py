"""The program that is checked, its launcher, and the folder of the repository."""
import functools
import os
import subprocess
from pathlib import Path

TOP = Path(__file__).resolve().parent.parent
LAUNCHER = TOP / "las"
BATCH = TOP / "las-batch"
named = ""  # the path of the program that `--program` or LAS_PROGRAM names


@functools.lru_cache(maxsize=None)
def found() -> str:
    """The program that is checked: the one that is named, else the one that the launcher runs."""
    if named:
        return named
    said = subprocess.run([LAUNCHER, "--version"], stdin=subprocess.DEVNULL, stdout=subprocess.PIPE, check=False).stdout
    words = os.fsdecode(said).rstrip("\n").split("\n")[-1].split(" ", 2)
    return str(TOP / words[2]) if words[0] == "program" else str(TOP / "crates" / "las" / "out" / "las")


@functools.lru_cache(maxsize=None)
def runs_v3() -> bool:
    """Whether the processor runs x86-64-v3, as the launcher tells."""
    return subprocess.run(["sh", "-c", ". release/processor.sh; runs_v3"], cwd=TOP, check=False).returncode == 0
