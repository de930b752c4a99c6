"""From values of parameters to words of a command line, and from a wrong word back to its parameter."""
from __future__ import annotations

import os
import re
import shlex
from collections.abc import Mapping, Sequence
from typing import Any, Optional

from . import options
from .options import Option
from .running import Ended


_MEANT = {"refused: ": "Input: ", "read fault: ": "Input: ", "unequal: ": "Inputs: ", "too many ": "Inputs: ",
          "write fault": "Output: "}
"""The parameter that is meant by a line of standard error, by how the line begins."""


class WrongValue(Exception):
    """A value of a parameter is wrong; the text says which and why."""


def is_set(value: Any) -> bool:
    """Whether a parameter has a value. QGIS reads a list that is not set as `[0]`: so the value itself is looked at."""
    return value not in (None, "", [], ())


def values_of(option: Option, value: Any) -> list[str]:
    """The words after an option for the value of its parameter: a list, a number, or a text of words."""
    if isinstance(value, str):
        return value.replace(",", " ").split()
    parts = value if isinstance(value, (list, tuple)) else [value]
    return [str(int(part)) if isinstance(part, float) and part.is_integer() else str(part) for part in parts]


def of_option(option: Option, value: Any) -> list[str]:
    """An option with its values as words; none if it is not set or as the program has it without the option."""
    if not option.values:
        return [option.name] if value is True else []
    if not is_set(value):
        return []
    values = values_of(option, value)
    wrong = option.wrong(values)
    if wrong:
        raise WrongValue(wrong + ".")
    if option.repeated:
        return [word for each in values for word in (option.name, each)]
    if option.default is not None and values == [str(option.default)]:
        return []
    return [option.name, *values]


def of_options(known: Sequence[Option], values: Mapping[str, Any], order: Sequence[str] = ()) -> list[str]:
    """The options that are set, as words. `values` has the values by the keys of the options.

    Changes that `order` names, by their names without the dash, come in that order, and before the others.
    """
    ranks = {f"-{name.lstrip('-')}": rank for rank, name in enumerate(order)}
    ordered = sorted(known, key=lambda option: (option.is_change, ranks.get(option.name, len(ranks))))
    return [word for option in ordered for word in of_option(option, values.get(option.key))]


def of_extra(text: Optional[str]) -> list[str]:
    """The words of a text, as a shell cuts them."""
    try:
        return shlex.split(text or "")
    except ValueError:
        raise WrongValue("More words: a quotation mark is open.") from None


def same_file(output: str, inputs: Sequence[str]) -> Optional[str]:
    """The input that an output is, under whatever name; None if it is none."""
    for name in inputs:
        try:
            if os.path.realpath(name) == os.path.realpath(output) or os.path.samefile(name, output):
                return name
        except OSError:  # one of them is not there
            pass
    return None


def shown(words: Sequence[str]) -> str:
    """A command line as a shell takes it."""
    return " ".join(map(shlex.quote, words))


def _meant(words: Sequence[str], index: int, known: Sequence[Option]) -> Optional[Option]:
    """The option that a wrong word is, or is a value of."""
    by_name = {option.name: option for option in known}
    for at in range(min(index, len(words) - 1), 0, -1):
        if words[at] in by_name:
            return by_name[words[at]]
    return None


def explained(ended: Ended, words: Sequence[str], known: Sequence[Option], folder: str) -> str:
    """Why a run has failed, in the words of `las help`, with the parameter that is meant.

    `words` is the command line from the command on, `known` its options, `folder` that of the texts of help.
    """
    line = ended.line
    if ended.status < 0:
        return f"The program was ended by signal {-ended.status}. No output was written."
    found = re.fullmatch(r"usage: word (\d+)", line)
    if found:
        return _usage(int(found[1]), line, ended.hints, words, known)
    meant = next((title for start, title in _MEANT.items() if line.startswith(start)), "")
    found = re.match(r"refused: (.*): (\d+) \w+(?: \d+)?$", line, re.DOTALL)
    if found:
        return f"{meant}{line}\n{options.cause(int(found[2]), folder) or ended.hints}".strip()
    return "\n".join(filter(None, [meant + (line or f"The program ended with status {ended.status}."), ended.hints]))


def _usage(index: int, line: str, hints: str, words: Sequence[str], known: Sequence[Option]) -> str:
    """A wrong word: the parameter that is meant, the hints of the program, and the line with the word marked."""
    told = []
    option = _meant(words, index, known)
    if option:
        told.append(f"The parameter '{option.title}' ({option.name}) is wrong or does not go with the others: "
                    f"{option.text}")
    else:
        told.append("A word is wrong or missing.")
    reasons = [text for text in hints.split("\n") if text and not text.startswith((" ", "`las help"))]
    marked = [f">>>{word}<<<" if at == index else shlex.quote(word) for at, word in enumerate(words)]
    return "\n".join([*told, *reasons, f"{line}: las {' '.join(marked + ['>>>here<<<'] * (index >= len(words)))}"])
