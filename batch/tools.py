"""Commands of las-batch itself: `verify` and `manifest` of an archive, and `clean`."""
from __future__ import annotations

import contextlib
import fcntl
import os
import time
from collections.abc import Callable, Iterable
from concurrent.futures import ThreadPoolExecutor
from typing import Optional, Union

from .files import digest, folder_of, look
from .manifest import Sums, check_manifest, is_packed, plain_name, unpacked_sum, write_sums
from .plan import ENDINGS
from .rows import DRAFT
from .state import MADE, State
from .texts import quoted, refuse, say
from .verify import verify


def read_words(words: list[str]) -> tuple[dict[str, bytes], list[bytes]]:
    """Options with values, and the other words; -r is a word that `manifest` takes, -unpack one of `verify`."""
    values: dict[str, bytes] = {}
    rest = []
    while words:
        word = words.pop(0)
        if word in ("-manifest", "-jobs") and words:
            values[word[1:]] = os.fsencode(words.pop(0))
        elif word in ("-r", "-unpack"):
            values[word[1:]] = b"yes"
        elif word.startswith("-"):
            refuse(f"{word}: no such option here")
        else:
            rest.append(os.fsencode(word))
    return values, rest


def run_tool(find: Callable[[], bytes], words: list[str]) -> int:
    """`find` answers the program `las`, which not all of this needs."""
    name, (values, rest) = words[0], read_words(words[1:])
    jobs = int(values.get("jobs", b"%d" % len(os.sched_getaffinity(0))))
    if name == "clean":
        if len(rest) != 1 or not os.path.isdir(rest[0]):
            refuse("clean takes one folder")
        return clean(rest[0])
    if "manifest" not in values:
        refuse(f"{name} needs -manifest FILE")
    if name == "verify":
        if rest or "r" in values:
            refuse("verify takes -manifest FILE and -unpack alone")
        return verify(values["manifest"], jobs, "unpack" in values, find)
    if len(rest) != 1 or not os.path.isdir(rest[0]) or "r" not in values or "unpack" in values:
        refuse("manifest takes -r FOLDER -manifest FILE")
    return make_manifest(find(), rest[0].rstrip(b"/") or b"/", values["manifest"], jobs)


def files_below(folder: bytes) -> list[bytes]:
    """The LAS and LAZ files below a folder."""
    found = []
    for place, _, names in os.walk(folder):
        found += [os.path.join(place, name) for name in names
                  if name[-4:].lower() in ENDINGS and not DRAFT.fullmatch(name)]
    return sorted(found)


def tried(call: Callable[[bytes], Sums], names: list[bytes], jobs: int) -> list[Union[Sums, OSError]]:
    def one(name: bytes) -> Union[Sums, OSError]:
        try:
            return call(name)
        except OSError as problem:
            return problem
    with ThreadPoolExecutor(max(1, jobs)) as pool:
        return list(pool.map(one, names))


def make_manifest(las: bytes, folder: bytes, manifest: bytes, jobs: int) -> int:
    """Both manifests of an archive that is there; each packed file is unpacked."""
    names = files_below(folder)
    if not names:
        refuse(f"no LAS or LAZ files below {quoted(folder)}")
    pairs = [(name, plain_name(name)) for name in names]
    seen = {name: look(name) for name in names}
    path, plain = check_manifest(manifest, pairs, seen)

    def sums_of(name: bytes) -> Sums:
        return Sums(name, digest(name)[1], unpacked_sum(las, name, folder_of(path)) if is_packed(name) else None)

    found = tried(sums_of, names, jobs)
    failed = 0
    for name, sums in zip(names, found):
        if not isinstance(sums, Sums):
            failed += 1
            say(f"{quoted(name)}: {sums.strerror or sums}")
    write_sums(path, plain, [sums for sums in found if isinstance(sums, Sums)])
    say(f"{len(names) - failed} in the manifest, {failed} not")
    return 1 if failed else 0


def waiting(folder: bytes) -> Optional[set[bytes]]:
    """The drafts that a state in a folder still needs, or None if a las-batch works there."""
    inside = os.path.join(folder, b".las-batch")
    kept: set[bytes] = set()
    if not os.path.isdir(inside):
        return kept
    lock = os.open(os.path.join(inside, b"lock"), os.O_RDWR | os.O_CREAT | os.O_NOFOLLOW, 0o666)
    try:
        fcntl.flock(lock, fcntl.LOCK_EX | fcntl.LOCK_NB)
    except OSError:
        os.close(lock)
        return None
    for name in os.listdir(inside):
        if name.startswith(b"run.") and any(row.startswith(b"rows.") for row in os.listdir(os.path.join(inside, name))):
            say(f"an array of {quoted(folder)} was not taken in; its drafts stay: -resume takes it in")
            kept.add(b".las-" + name[4:] + b"-")
    base = os.path.join(inside, b"state.db")
    if os.path.exists(base):
        state = State(base, os.path.realpath(folder))
        kept |= {os.path.basename(job.draft) for job in state.jobs("state = ?", MADE)}
        state.close()
    return kept


def clean(top: bytes) -> int:
    """Removes the drafts below a folder that no process holds locked, and that no las-batch makes."""
    removed, held, kept = 0, 0, set()
    above = folder_of(os.path.realpath(top))
    for place, below, names in os.walk(top):
        if b".las-batch" in below:
            below.remove(b".las-batch")
            needed = waiting(place)
            if needed is None:
                refuse(f"a las-batch works in {quoted(place)}")
            kept |= needed
        drafts = [name for name in names if DRAFT.fullmatch(name) and not any(name.startswith(start) for start in kept)]
        used = bool(drafts) and is_used(place)
        for name in drafts:
            if not used and not is_made_above(name, above) and remove_draft(os.path.join(place, name)):
                removed += 1
            else:
                held += 1
    say(f"{removed} drafts removed, {held} are in use")
    return 0


def tell_drafts(folders: Iterable[bytes]) -> None:
    """Tells of drafts that no run holds locked: those of runs that were killed.

    A run locks its draft right after it has made it, and must not find it locked by this, so a draft counts when it is
    a minute old.
    """
    newest = time.time_ns() - 60_000_000_000
    for folder in sorted(folders):
        count = 0
        with contextlib.suppress(OSError):
            for name in filter(DRAFT.fullmatch, os.listdir(folder)):
                path = os.path.join(folder, name)
                there = look(path)
                count += there is not None and there.regular() and there.mtime < newest and is_free(path) \
                    and not is_made_above(path, os.path.realpath(folder))
        if count:
            say(f"{quoted(folder)} has {count} drafts of runs that have ended; to remove them: las-batch clean "
                f"{quoted(folder)}")


def is_made_above(draft: bytes, folder: bytes) -> bool:
    """Whether a las-batch makes a draft: it works in a folder, which has no links in its path, or in one above it."""
    found = DRAFT.fullmatch(os.path.basename(draft))
    while found:
        inside = os.path.join(folder, b".las-batch")
        if os.path.isdir(os.path.join(inside, b"run." + found.group(1))):
            return not is_free(os.path.join(inside, b"lock"))
        if folder == b"/":
            return False
        folder = folder_of(folder)
    return False


def is_used(folder: bytes) -> bool:
    """Whether a las-batch makes drafts in a folder to which a link in its own folder leads."""
    try:
        return not is_free(os.path.realpath(folder))
    except OSError:  # a file system that locks no folders
        return False


def is_free(path: bytes) -> bool:
    """Whether no process holds a file locked."""
    file = os.open(path, os.O_RDONLY | os.O_NOFOLLOW | os.O_NONBLOCK)
    try:
        fcntl.flock(file, fcntl.LOCK_EX | fcntl.LOCK_NB)
    except BlockingIOError:
        return False
    finally:
        os.close(file)
    return True


def remove_draft(path: bytes) -> bool:
    """Removes a draft, if it is a link, or a file that can be locked."""
    there = look(path)
    if there is None or not there.regular():
        if os.path.islink(path):
            os.unlink(path)
            return True
        return False
    file = os.open(path, os.O_RDONLY | os.O_NOFOLLOW)
    try:
        fcntl.flock(file, fcntl.LOCK_EX | fcntl.LOCK_NB)
        os.unlink(path)
        return True
    except BlockingIOError:
        return False
    finally:
        os.close(file)
