"""The command line of las-batch."""
from __future__ import annotations

import os
import re
from typing import Optional

from .texts import quoted, refuse

TOOLS = ("verify", "manifest", "clean")
COMMANDS = ("laszip", "las2las", "lasinfo")
VALUES = ("odir", "lof", "jobs", "hosts", "retries", "log", "state", "trash", "manifest", "failed")
FLAGS = ("r", "force", "verify", "delete", "ship", "slurm", "resume", "quiet", "adopt", "check", "keep-times", "bag")


class Words:
    """What was asked for: a command of `las` with its words, inputs, and options of las-batch."""

    def __init__(self, command: str = "", words: Optional[list[bytes]] = None,
                 flags: Optional[set[str]] = None) -> None:
        # (no dataclass: its module would be a fifth of what is loaded before GNU parallel is started)
        self.command, self.words, self.flags = command, words or [], flags or set()
        self.inputs: list[bytes] = []
        self.values: dict[str, str] = {}

    def value(self, name: str) -> Optional[bytes]:
        return os.fsencode(self.values[name]) if name in self.values else None

    def has(self, name: str) -> bool:
        return name in self.flags or name in self.values

    def number(self, name: str, otherwise: int) -> int:
        return int(self.values.get(name, otherwise))


def read_words(words: list[str]) -> Words:
    found = Words()
    if words and words[0] in COMMANDS:
        found.command = words.pop(0)
    elif words and not words[0].startswith("-"):
        refuse(f"laszip, las2las or lasinfo comes first, not {quoted(os.fsencode(words[0]))}")
    dashes = "--" in words
    while words:
        word = words.pop(0)
        name = word[1:]
        if word == "--":
            found.inputs += map(os.fsencode, words)
            break
        if word.startswith("-") and name in VALUES:
            if not words or not words[0]:
                refuse(f"{word} needs a value")
            found.values[name] = words.pop(0)
        elif word.startswith("-") and name in FLAGS:
            found.flags.add(name)
        elif word in ("-i", "-o"):
            refuse(f"{word}: inputs stand at the end, and -odir names the folder of the outputs")
        elif dashes:
            found.words.append(os.fsencode(word))
        elif word.startswith("-"):
            refuse(f"{word}: options of las stand before --, and inputs after it")
        else:
            found.inputs.append(os.fsencode(word))
    check_words(found)
    return found


def check_words(found: Words) -> None:
    """Refuses what does not go together."""
    if not found.has("odir"):
        refuse("the folder of the outputs is missing: -odir FOLDER")
    for name in ("jobs", "retries"):
        if not re.fullmatch("[1-9][0-9]{0,3}", found.values.get(name, "1")):
            refuse(f"-{name} needs a number from 1 to 9999")
    if found.has("hosts") and not os.access(found.values["hosts"], os.R_OK):
        refuse(f"the list of hosts can't be read: {found.values['hosts']}")
    for name, other in (("ship", "hosts"), ("delete", "verify"), ("trash", "verify")):
        if found.has(name) and not found.has(other):
            refuse(f"-{name} goes with -{other}{' FILE' if other == 'hosts' else ''}")
    for name, other in (("slurm", "hosts"), ("delete", "trash"), ("adopt", "hosts"), ("adopt", "slurm"),
                        ("adopt", "force"), ("check", "resume")):
        if found.has(name) and found.has(other):
            refuse(f"-{name} and -{other} exclude each other")
    if found.has("resume"):
        check_resume(found)
    else:
        check_run(found)


def check_resume(found: Words) -> None:
    if found.command or found.inputs or found.has("lof"):
        refuse("-resume takes the words and inputs of the first run")
    for name in ("verify", "delete", "trash", "keep-times", "force", "adopt", "bag"):
        if found.has(name):
            refuse(f"-resume takes the words and inputs of the first run, and -{name} is one of them")


def check_run(found: Words) -> None:
    if not found.command:
        refuse("laszip, las2las or lasinfo comes first")
    if found.has("verify") and found.command != "laszip":
        refuse("-verify goes with laszip")
    if found.command == "las2las" and b"-tally" in found.words:
        refuse("las2las -tally: its lines have no file; take lasinfo")
    if not found.has("lof") and not found.inputs:
        refuse("no inputs")


def made_by(command: str, words: list[bytes]) -> bytes:
    """The words that decide what an output holds: the number of workers is none of them."""
    kept, at = [command.encode()], 0
    while at < len(words):
        if words[at] == b"-cores":
            at += 2
        else:
            kept.append(words[at])
            at += 1
    return b"\0".join(kept)
