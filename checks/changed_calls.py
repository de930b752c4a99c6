"""Runs of the program in which its calls on files are noted, counted, or changed at one of them."""
import os
import subprocess
import time
from collections.abc import Callable, Sequence
from pathlib import Path
from typing import Any, Optional

import needs
from places import Place

SOURCE = Path(__file__).resolve().parent / "changed_calls.c"
END = 60  # seconds within which a run does what it is waited for


def built(folder: Path) -> Path:
    """Builds the library that is loaded before the C library."""
    compiler = needs.command("cc", "gcc")
    library = folder / "changed_calls.so"
    subprocess.run([compiler, "-O2", "-shared", "-fPIC", "-o", library, SOURCE, "-ldl"], check=True)
    return library


class Calls:
    """A way to run the program of a place under the library; `safe` is the value of LAS_SAFE, if it has one."""

    def __init__(self, library: Path, place: Place) -> None:
        self.library = library
        self.place = place
        self.aside = place.folder.parent / (place.folder.name + ".calls")
        self.aside.mkdir(exist_ok=True)

    def settings(self, safe: Optional[str], **settings: Any) -> dict[str, str]:
        """The environment of a run; `at=3` becomes CALLS_AT=3."""
        kept = {name: value for name, value in os.environ.items() if name != "LAS_SAFE"}
        kept["LD_PRELOAD"] = str(self.library)
        kept.update({"CALLS_" + name.upper(): str(value) for name, value in settings.items()})
        if safe is not None:
            kept["LAS_SAFE"] = safe
        return kept

    def run(self, words: Sequence[str], safe: Optional[str] = "1",
            **settings: Any) -> "subprocess.CompletedProcess[bytes]":
        return self.place.las(*words, env=self.settings(safe, **settings))

    def count(self, words: Sequence[str], safe: Optional[str] = "1", **settings: Any) -> int:
        """How many calls a run makes that succeeds."""
        file = self.aside / "count"
        file.unlink(missing_ok=True)
        ended = self.run(words, safe, count=file, **settings)
        assert (ended.returncode, ended.stderr) == (0, b"")
        return file.stat().st_size if file.exists() else 0

    def log(self, words: Sequence[str], safe: Optional[str] = "1") -> list[list[str]]:
        """What a run changed, call by call."""
        file = self.aside / "log"
        file.unlink(missing_ok=True)
        ended = self.run(words, safe, log=file)
        assert (ended.returncode, ended.stderr) == (0, b"")
        return [line.split("\t") for line in file.read_text().splitlines()]

    def during(self, words: Sequence[str], change: Callable[[], Any], kind: str, at: int = 1,
               safe: Optional[str] = "1") -> "subprocess.CompletedProcess[bytes]":
        """A run in which something is changed before its call of a kind. The run waits meanwhile."""
        done = self.aside / "waits"
        done.unlink(missing_ok=True)
        environment = self.settings(safe, kind=kind, at=at, do="wait", done=done)
        with subprocess.Popen([self.place.program, *words], cwd=self.place.folder, env=environment,
                              stdin=subprocess.DEVNULL, stdout=subprocess.PIPE, stderr=subprocess.PIPE) as child:
            try:
                wait_until(done.exists, child)
                change()
                done.unlink()
                out, err = child.communicate(timeout=END)
            finally:
                if child.poll() is None:
                    child.kill()
        return subprocess.CompletedProcess(child.args, child.returncode, out, err)


def wait_until(holds: Callable[[], bool], child: "subprocess.Popen[bytes]") -> None:
    end = time.monotonic() + END
    while not holds():
        assert child.poll() is None, "the run ended before the call that it was to wait at"
        assert time.monotonic() < end, "the run did not come to the call that it was to wait at"
        time.sleep(0.002)
