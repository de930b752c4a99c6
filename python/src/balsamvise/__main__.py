"""Commands over point clouds: `python -m balsamvise COMMAND ...`, or `balsamvise COMMAND ...` where it is installed.

A command is a module with `main(arguments: list[str]) -> int`, whose answer is the status of the run. The first line of
the module's docstring is its line in the list of commands. A module is imported only if its command is named.
"""
from __future__ import annotations

import ast
import importlib
import importlib.util
import os
import sys
from typing import Sequence

COMMANDS: dict[str, str] = {
    "describe": "balsamvise.describe",
    "fit-box": "balsamvise.fit_box",
    "plot": "balsamvise.plot",
    "sample": "balsamvise.sample",
}
"""The module of each command."""

NO_MEMORY, USAGE, FAULT, REFUSED, INTERRUPTED = 1, 2, 3, 5, 130
"""The statuses of a run that is not done, as far as a command gives none of its own."""


def _first_line(module: str) -> str:
    """The first line of a module's docstring, which is read without importing it."""
    found = importlib.util.find_spec(module)
    source = getattr(found.loader, "get_source", lambda name: None)(module) if found else None
    return (ast.get_docstring(ast.parse(source or "")) or "").partition("\n")[0]


def usage() -> str:
    """The list of commands."""
    width = max(map(len, COMMANDS))
    lines = [f"  {word:<{width}}  {_first_line(module)}".rstrip() for word, module in sorted(COMMANDS.items())]
    return "\n".join(["usage: balsamvise COMMAND ...", "", *lines, "", "balsamvise COMMAND --help explains a command."])


def _run(word: str, arguments: list[str]) -> int:
    """Runs a command. What it raises is told in one line, and gives the status."""
    from .errors import LibraryMissing, Refused

    try:
        command = importlib.import_module(COMMANDS[word])
        status: int = command.main(arguments)
        sys.stdout.flush()
        return status
    except Refused as error:
        said, status = str(error), REFUSED
    except BrokenPipeError:  # the reader of standard output has enough, and the interpreter is not to write to it again
        os.dup2(os.open(os.devnull, os.O_WRONLY), sys.stdout.fileno())
        return FAULT
    except ValueError as error:  # what the words ask for can't be done with this file
        said, status = str(error), REFUSED
    except (OSError, LibraryMissing) as error:
        said, status = str(error), FAULT
    except MemoryError:
        said, status = "no memory", NO_MEMORY
    except KeyboardInterrupt:
        return INTERRUPTED
    print(f"balsamvise {word}: {said}", file=sys.stderr)
    return status


def main(words: Sequence[str] | None = None) -> int:
    """Runs the command that the first word names, with the words after it. Without `words`, those of the command line.

    It returns the status: what the command answers, else 1 out of memory, 2 for wrong words, 3 if a file could not be
    read or written, and 5 if a file was refused.
    """
    word, *arguments = (sys.argv[1:] if words is None else list(words)) or [""]
    if word in ("help", "--help", "-h") and not arguments:
        print(usage())
        return 0
    if word == "--version" and not arguments:
        from . import __version__

        print(f"balsamvise {__version__}")
        return 0
    if word not in COMMANDS:
        print(usage(), file=sys.stderr)
        return USAGE
    return _run(word, arguments)


if __name__ == "__main__":
    sys.exit(main())
