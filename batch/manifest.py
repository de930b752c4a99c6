"""Manifests: the SHA-256 of outputs, as `sha256sum -c` reads them, and of the plain bytes of packed ones."""
from __future__ import annotations

import os
import secrets
import subprocess
from typing import NamedTuple, Optional

from .files import Identity, digest, folder_of, look, write_whole
from .plan import check_text
from .state import Made, State
from .texts import read_sum_line, refuse, sum_line


def check_manifest(manifest: bytes, pairs: list[tuple[bytes, bytes]],
                   found: dict[bytes, Optional[Identity]]) -> list[bytes]:
    """The paths of both manifests: what is there already has to be a manifest."""
    paths = [check_text(name, pairs, found, "manifest") for name in (manifest, manifest + b".plain")]
    for path in paths:
        if os.path.exists(path) and os.path.getsize(path):
            read_manifest(path)
    return paths


class Sums(NamedTuple):
    """A file, its SHA-256, and that of its plain bytes if it is packed."""

    name: bytes
    total: str
    plain: Optional[str]


def plain_name(name: bytes) -> bytes:
    """The name of what a packed file unpacks to."""
    return name[:-1] + (b"s" if name.endswith(b"z") else b"S")


def is_packed(name: bytes) -> bool:
    return name[-4:].lower() == b".laz"


def unpacked_sum(las: bytes, name: bytes, place: bytes) -> str:
    """The SHA-256 of what a packed file unpacks to, by a draft in a folder that can be written."""
    draft = os.path.join(place, b".las-%s-0.back" % secrets.token_hex(8).encode())
    os.close(os.open(draft, os.O_WRONLY | os.O_CREAT | os.O_EXCL, 0o600))
    link = draft[:-5] + b".link.las"
    source = name
    try:
        if not name.isascii():
            os.symlink(os.path.abspath(name), link)
            source = link
        run = subprocess.run([las, b"laszip", b"-i", source, b"-o", draft], stdin=subprocess.DEVNULL,
                             stdout=subprocess.DEVNULL, stderr=subprocess.PIPE, check=False)
        if run.returncode != 0:
            raise OSError(run.stderr.decode(errors="replace").strip() or f"status {run.returncode}")
        return digest(draft)[1]
    finally:
        for path in (draft, link):
            if os.path.lexists(path):
                os.unlink(path)


def sums_of(folder: bytes, key: bytes, made: Optional[Made], las: bytes, place: bytes) -> Sums:
    """The sums of an output: those of the state if it is the file that the state knows, else what is read of it."""
    path = os.path.join(folder, key)
    there = look(path)
    known = made is not None and there is not None and there.same_file(made.found)
    total = made.output_sum if made and known and made.output_sum else digest(path)[1]
    plain = made.plain_sum if made and known else ""
    if is_packed(path) and not plain:
        plain = unpacked_sum(las, path, place)
    return Sums(path, total, plain or None)


def write_sums(manifest: bytes, plain: bytes, sums: list[Sums]) -> None:
    sums = sorted(sums)
    write_whole(plain, [sum_line(one.plain, plain_name(one.name)) for one in sums if one.plain])
    write_whole(manifest, [sum_line(one.total, one.name) for one in sums])


def write_manifests(texts: dict[str, bytes], folder: bytes, keys: list[bytes], state: State, las: bytes) -> None:
    made = state.made()
    place = folder_of(texts["manifest"])
    write_sums(texts["manifest"], texts["plain"], [sums_of(folder, key, made.get(key), las, place) for key in keys])


def read_manifest(path: bytes) -> dict[bytes, str]:
    """The names of a manifest with their sums."""
    found = {}
    try:
        with open(path, "rb") as file:
            lines = file.read().split(b"\n")
    except OSError as problem:
        refuse(f"the manifest can't be read: {os.fsdecode(path)}: {problem.strerror}")
    for number, line in enumerate(lines, 1):
        if line:
            try:
                total, name = read_sum_line(line)
            except ValueError:
                refuse(f"line {number} of {os.fsdecode(path)} is none of a manifest")
            found[name] = total
    if not found:
        refuse(f"{os.fsdecode(path)} has no line of a manifest")
    return found
