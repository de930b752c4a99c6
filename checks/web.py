"""The modules of web/ in Node: what checks/web_cases.mjs answers, and the program web/las.mjs."""
import functools
import json
import os
import shutil
import subprocess
import tempfile
import weakref
from pathlib import Path
from typing import Any, Optional

import needs
from programs import TOP

PROGRAM = TOP / "web" / "las.mjs"


def node() -> str:
    """Node: the one that LAS_NODE names, else the one on the path."""
    return os.environ.get("LAS_NODE") or needs.command("node", "nodejs")


class Copy:
    """A folder with web/ and the cases, in which the module that a file has stands beside laz.mjs, and so is taken."""

    def __init__(self, module: str) -> None:
        self.folder = Path(tempfile.mkdtemp())
        weakref.finalize(self, shutil.rmtree, self.folder)
        shutil.copytree(TOP / "web", self.folder / "web")
        shutil.copy(module, self.folder / "web" / "laz.wasm")
        (self.folder / "checks").mkdir()
        shutil.copy(TOP / "checks" / "web_cases.mjs", self.folder / "checks")


@functools.cache
def copy() -> Optional[Copy]:
    """A copy for the module that LAZ_MODULE names; none if it is to be the module of the release."""
    module = os.environ.get("LAZ_MODULE")
    return Copy(module) if module else None


def answer(command: str, words: Any, options: Optional[dict[str, Any]] = None, timeout: int = 600) -> Any:
    """What a command of checks/web_cases.mjs prints."""
    said, made = json.dumps([command, words, options]).encode(), copy()
    place = (made.folder if made else TOP) / "checks" / "web_cases.mjs"
    run = subprocess.run([node(), place], input=said, stdout=subprocess.PIPE,
                         stderr=subprocess.PIPE, timeout=timeout, check=False)
    assert run.returncode == 0, run.stderr.decode()
    return json.loads(run.stdout)
