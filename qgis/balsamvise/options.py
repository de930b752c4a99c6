"""The options of the program, as its own texts of help have them.

`help/options` has a paragraph for each: `-name VALUES`, then which commands it is of (`needed by`, `allowed by` or `one
of`), then what it does. A range of numbers stands first in that text: `0 to 31`. `help/values` has names of values.
"""
from __future__ import annotations

import os
import re
from typing import Optional

OWN_HELP = os.path.join(os.path.dirname(os.path.abspath(__file__)), "help")
"""The copy of the texts in the zip."""

_HIDDEN = ("-i", "-o", "-olas", "-olaz")
"""Options that the names of the input and the output decide."""


class Option:
    """An option of a command."""

    def __init__(self, words: list[str], use: str, repeated: bool, text: str, named: dict[str, str]) -> None:
        self.name, self.values = words[0], words[1:]
        self.use, self.repeated, self.text, self.named = use, repeated, text, named
        found = re.match(r"(-?\d+) to (-?\d+)", text)
        self.least, self.most = (int(found[1]), int(found[2])) if found else (None, None)
        found = re.search(r"\belse (\d+)\b", text)
        self.default = int(found[1]) if found else None

    @property
    def key(self) -> str:
        """The name of the parameter: KEEP_CLASS for -keep_class."""
        return self.name[1:].upper()

    @property
    def title(self) -> str:
        """The label of the parameter: Keep class for -keep_class."""
        return self.name[1:].replace("_", " ").capitalize()

    @property
    def is_change(self) -> bool:
        """Whether it changes records, so that its place among the others matters."""
        return self.name.startswith(("-set_", "-translate_"))

    def wrong(self, words: list[str]) -> Optional[str]:
        """What is wrong with its values, or None."""
        if not all(name in ("N", "N...") or name in ("LOW", "HIGH", "X", "Y", "Z") for name in self.values):
            return None
        if self.values != ["N..."] and len(words) != len(self.values):
            return f"{self.title} takes {' '.join(self.values)}: {len(self.values)} whole numbers with blanks between"
        for word in words:
            if not re.fullmatch(r"-?[0-9]{1,20}", word):
                return f"{self.title}: {word} is no whole number"
            if self.least is not None and self.most is not None and not self.least <= int(word) <= self.most:
                return f"{self.title}: {word} is not {self.least} to {self.most}"
        return None


def _paragraphs(folder: str, name: str) -> list[str]:
    with open(os.path.join(folder, name), encoding="utf-8") as file:
        return [paragraph for paragraph in file.read().strip().split("\n\n") if paragraph]


def _named_values(folder: str) -> dict[str, dict[str, str]]:
    """Of each option the values that have a name: {"-keep_class": {"2": "ground"}}."""
    named: dict[str, dict[str, str]] = {}
    try:
        paragraphs = _paragraphs(folder, "values")
    except OSError:  # older installations are without them
        paragraphs = _paragraphs(OWN_HELP, "values")
    for paragraph in paragraphs:
        head, *lines = paragraph.split("\n")
        values = dict((line.split(" ", 1) + [""])[:2] for line in lines)
        named.update(dict.fromkeys(head.split(), values))
    return named


def of_command(command: str, folder: str) -> list[Option]:
    """The options of a command by the texts in a folder, in their order, without those of names."""
    named = _named_values(folder)
    found = []
    for paragraph in _paragraphs(folder, "options"):
        head, of, *text = paragraph.split("\n")
        words = head.split()
        match = re.fullmatch(r"(needed by|allowed by|one of) (.*?)(, repeated)?", of)
        if match and command in match[2].split() and words[0] not in _HIDDEN:
            found.append(Option(words, match[1], bool(match[3]), " ".join(text), named.get(words[0], {})))
    return found


def most_inputs(command: str, folder: str) -> int:
    """How many inputs a command takes: 1, or what the text of its `-i` says."""
    for paragraph in _paragraphs(folder, "options"):
        head, of, *text = paragraph.split("\n")
        if head.startswith("-i ") and command in of.split(","):
            return 1
        match = re.search(r"given \d+ to (\d+) times", " ".join(text))
        if head.startswith("-i ") and match and command in of.replace(",", "").split():
            return int(match[1])
    return 1


def about(command: str, folder: str) -> tuple[str, str]:
    """What a command does: in a line, and in sentences."""
    paragraphs = _paragraphs(folder, os.path.join("commands", command))
    return paragraphs[0], paragraphs[2].replace("\n", " ")


def cause(number: int, folder: str) -> str:
    """What a cause of a refusal means, and what to do, in the words of `las help NUMBER`."""
    for paragraph in _paragraphs(folder, "causes"):
        head, *text = paragraph.split("\n")
        if head.split()[0] == str(number):
            return " ".join(text)
    return ""


def version_of_copy() -> str:
    """The version of the program whose texts the zip has."""
    return "".join(_paragraphs(OWN_HELP, "version"))
