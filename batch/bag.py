"""A folder of outputs as a BagIt bag (RFC 8493)."""
from __future__ import annotations

import datetime
import hashlib
import os

from .files import digest, look, write_whole
from .rows import DRAFT
from .state import State
from .texts import quoted, say

BAG_FOLDER = b"data"


def escaped(name: bytes) -> bytes:
    """A name in a manifest of a bag: line ends and the percent sign as bytes in hexadecimal."""
    return name.replace(b"%", b"%25").replace(b"\n", b"%0A").replace(b"\r", b"%0D")


def payload(folder: bytes, state: State) -> tuple[list[tuple[bytes, str]], int]:
    """Each file of the payload with its SHA-256, and the bytes of all."""
    made, found, size = state.made(), [], 0
    top = os.path.join(folder, BAG_FOLDER)
    for place, _, names in os.walk(top):
        for name in names:
            path = os.path.join(place, name)
            key = os.path.relpath(path, top)
            there, known = look(path), made.get(key)
            total = known.output_sum if known and there and there.same_file(known.found) else ""
            found.append((os.path.join(BAG_FOLDER, key), total or digest(path)[1]))
            size += os.path.getsize(path)
    return sorted(found), size


def seal_bag(folder: bytes, state: State, whole: bool) -> int:
    """Writes the tags of a bag if all of it is there; the status of that."""
    if not whole:
        say(f"{quoted(folder)} is no bag yet: not all outputs are done")
        return 1
    files, size = payload(folder, state)
    if any(DRAFT.fullmatch(os.path.basename(name)) for name, _ in files):
        say(f"{quoted(folder)} is no bag yet: it has drafts of other runs; to remove them: las-batch clean "
            f"{quoted(folder)}")
        return 1
    for name, _ in files:
        try:
            name.decode()
        except UnicodeDecodeError:
            say(f"a bag has names in UTF-8 alone: {quoted(name)}")
            return 1
    tags = {
        b"bagit.txt": b"BagIt-Version: 1.0\nTag-File-Character-Encoding: UTF-8\n",
        b"bag-info.txt": f"Bag-Software-Agent: las-batch\nBagging-Date: {datetime.date.today().isoformat()}\n"
                         f"Payload-Oxum: {size}.{len(files)}\n".encode(),
        b"manifest-sha256.txt": b"".join(total.encode() + b"  " + escaped(name) + b"\n" for name, total in files),
    }
    for name, text in tags.items():
        write_whole(os.path.join(folder, name), [text])
    sums = [(hashlib.sha256(text).hexdigest().encode(), name) for name, text in sorted(tags.items())]
    write_whole(os.path.join(folder, b"tagmanifest-sha256.txt"), [total + b"  " + name + b"\n" for total, name in sums])
    return 0
