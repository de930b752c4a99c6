"""The command line of las-batch: what takes long to start is begun first, and the rest is loaded meanwhile."""
from __future__ import annotations

import contextlib
import os
import sys

from .ahead import Ahead, Question
from .texts import Refused, say
from .words import TOOLS, read_words


def usage(top: bytes) -> str:
    for name in (b"help/batch", b"../share/las/help/batch"):
        with contextlib.suppress(OSError):
            with open(os.path.join(top, name), encoding="utf-8") as file:
                return file.read()
    return "las-batch: its help is missing\n"


def run(top: bytes, words: list[str]) -> int:
    if words[0] in TOOLS:
        from .tools import run_tool
        return run_tool(lambda: Question(top).answer[0], words)
    found = read_words(list(words))
    ahead = Ahead(top, found)
    try:
        from .start import Batch
        return Batch(top, found, ahead).go()
    finally:
        ahead.end()


def main(top: bytes, words: list[str]) -> int:
    if words[:1] in (["-h"], ["--help"], ["help"]):
        print(usage(top), end="")
        return 0
    if not words:
        print(usage(top), end="", file=sys.stderr)
        return 2
    try:
        return run(top, words)
    except Refused as problem:
        say(str(problem))
        return 2
    except Exception as problem:
        from .intake import FAULTS, told
        if not isinstance(problem, FAULTS):
            raise
        say(os.fsdecode(told(problem)))
        return 1
