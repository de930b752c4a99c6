"""The check of an archive by its manifest: each file is read back from the disk, and it is told what became of it."""
from __future__ import annotations

import contextlib
import os
import tempfile
from collections import Counter
from collections.abc import Callable
from concurrent.futures import ThreadPoolExecutor
from typing import NamedTuple, Optional

from .files import digest, folder_of, look
from .manifest import is_packed, plain_name, read_manifest, unpacked_sum
from .plan import ENDINGS
from .rows import DRAFT
from .texts import quoted, refuse

SAME, AGAIN, LOST, CHANGED, UNREAD, NEW = "as they were", "packed anew", "lost", "changed", "not read", "new"


class Found(NamedTuple):
    """What became of a file, and the line that tells it."""

    what: str
    line: str


class Verifier:
    """Compares files with a manifest, and if `FILE.plain` has sums of plain bytes, with those.

    A packed file whose bytes are as they were is not unpacked unless that is asked for. One that has other bytes is: if
    it unpacks to the same plain bytes, it was packed anew, and nothing is lost.
    """

    def __init__(self, manifest: bytes, unpack: bool, find: Callable[[], bytes]) -> None:
        self.manifest, self.plain_manifest = manifest, manifest + b".plain"
        self.wanted = read_manifest(manifest)
        self.plain: dict[bytes, str] = {}
        there = look(self.plain_manifest, follow=True)
        if there is not None and there.size:
            self.plain = read_manifest(self.plain_manifest)
        elif unpack:
            refuse(f"-unpack compares with the sums of {quoted(self.plain_manifest)}, which has none")
        self.unpack = unpack
        self.las = find() if self.plain else b""
        self.place = folder_of(manifest)
        if not os.access(self.place, os.W_OK):
            self.place = os.fsencode(tempfile.gettempdir())

    def one(self, name: bytes) -> Found:
        plain = self.plain.get(plain_name(name)) if is_packed(name) else None
        try:
            same = digest(name, from_disk=True)[1] == self.wanted[name]
        except OSError as problem:
            if look_safely(name):
                return Found(CHANGED, f"{quoted(name)}: {problem.strerror or problem}")
            return self.lost(name, plain)
        if plain is None or same and not self.unpack:
            return Found(SAME if same else CHANGED, quoted(name))
        return self.unpacked(name, same, plain)

    def unpacked(self, name: bytes, same: bool, plain: str) -> Found:
        try:
            total = unpacked_sum(self.las, name, self.place)
        except OSError as problem:
            refused = str(problem).startswith("refused")  # it is no packed file any more
            return Found(UNREAD if same else CHANGED, quoted(name) + ("" if refused else f": {problem}"))
        if total == plain:
            return Found(SAME, quoted(name)) if same else Found(AGAIN, f"{quoted(name)}: the same plain bytes")
        more = f": it unpacks to other bytes than those of {quoted(self.plain_manifest)}" if same else ""
        return Found(CHANGED, quoted(name) + more)

    def lost(self, name: bytes, plain: Optional[str]) -> Found:
        """A file that is not there. Perhaps it was unpacked: then its plain bytes are beside it."""
        with contextlib.suppress(OSError):
            if plain and digest(plain_name(name), from_disk=True)[1] == plain:
                return Found(LOST, f"{quoted(name)}: {quoted(plain_name(name))} has its plain bytes")
        return Found(LOST, quoted(name))


def look_safely(name: bytes) -> bool:
    with contextlib.suppress(OSError):
        return look(name) is not None
    return True


def new_beside(names: list[bytes]) -> list[bytes]:
    """Files of LAS and LAZ in the folders of a manifest that it does not name."""
    known, found = {os.path.normpath(name) for name in names}, []
    for folder in sorted({folder_of(name) for name in names}):
        with contextlib.suppress(OSError):
            for name in sorted(os.listdir(folder)):
                path = os.path.normpath(os.path.join(folder, name))
                if name[-4:].lower() in ENDINGS and not DRAFT.fullmatch(name) and path not in known:
                    found.append(path)
    return found


def verify(manifest: bytes, jobs: int, unpack: bool, find: Callable[[], bytes]) -> int:
    """Reads all files of a manifest back from the disk: what is lost or changed, packed anew, or new beside them."""
    verifier = Verifier(manifest, unpack, find)
    names = list(verifier.wanted)
    with ThreadPoolExecutor(max(1, jobs)) as pool:
        found = list(pool.map(verifier.one, names))
    found += [Found(NEW, quoted(name)) for name in new_beside(names)]
    counted = Counter(one.what for one in found)
    for what in (LOST, CHANGED, UNREAD, AGAIN, NEW):
        for one in found:
            if one.what == what:
                print(f"{what:<12}{one.line}")
    shown = [what for what in (SAME, AGAIN, LOST, CHANGED, UNREAD, NEW) if counted[what] or what not in (AGAIN, UNREAD)]
    print("las-batch: " + ", ".join(f"{counted[what]} {what}" for what in shown))
    return 1 if counted[LOST] or counted[CHANGED] or counted[UNREAD] else 0
