"""How names and causes are shown: names as bash quotes them, and as `sha256sum` escapes them."""
from __future__ import annotations

import os
import re
import sys
from typing import NoReturn

PLAIN = re.compile(rb"[A-Za-z0-9_@%+=:,./-]+")
NOTHING_LEFT = 2


class Refused(Exception):
    """Wrong words, or a plan that would lose something: nothing was run."""


def refuse(text: str) -> NoReturn:
    raise Refused(text)


def say(text: str) -> None:
    """A line on standard error, which may be closed."""
    try:
        sys.stderr.write(f"las-batch: {text}\n")
        sys.stderr.flush()
    except OSError:
        pass


def quoted(name: bytes) -> str:
    """A name as a word of bash; control signs and bytes that are no UTF-8 as `$'\\ooo'`."""
    if PLAIN.fullmatch(name):
        return name.decode()
    try:
        text = name.decode()
    except UnicodeDecodeError:
        text = "\0"
    if text.isprintable() and "'" not in text:
        return f"'{text}'"
    signs = {0x0a: "\\n", 0x09: "\\t", 0x0d: "\\r", 0x27: "\\'", 0x5c: "\\\\"}
    if text.replace("\n", "").replace("\t", "").isprintable():
        return "$'" + "".join(signs.get(ord(sign), sign) for sign in text) + "'"
    return "$'" + "".join(signs.get(byte, chr(byte) if 32 <= byte < 127 else f"\\{byte:03o}") for byte in name) + "'"


def sum_line(total: str, name: bytes) -> bytes:
    """A line of a manifest, as `sha256sum` writes it."""
    escaped = name.replace(b"\\", b"\\\\").replace(b"\n", b"\\n").replace(b"\r", b"\\r")
    return (b"\\" if escaped != name else b"") + total.encode() + b"  " + escaped + b"\n"


def read_sum_line(line: bytes) -> tuple[str, bytes]:
    """The sum and the name of a line of a manifest, or ValueError."""
    found = re.fullmatch(rb"(\\?)([0-9a-f]{64}) [ *](.+)", line)
    if not found:
        raise ValueError(line)
    name = found.group(3)
    if found.group(1):
        name = re.sub(rb"\\([\\nr])", lambda sign: {b"n": b"\n", b"r": b"\r", b"\\": b"\\"}[sign.group(1)], name)
    return found.group(2).decode(), name


def shown(path: bytes) -> str:
    return os.fsdecode(path).encode(errors="replace").decode()
