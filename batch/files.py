"""What is asked of the file system: which file it is, its SHA-256, moves that write nothing over, and syncs."""
from __future__ import annotations

import contextlib
import ctypes
import errno
import fcntl
import hashlib
import os
import secrets
import stat
import time
from collections.abc import Iterable
from typing import NamedTuple, Optional

NO_REPLACE, EXCHANGE = 1, 2
AT_FDCWD = -100
UNSUPPORTED = (errno.EINVAL, errno.ENOSYS, errno.ENOTSUP)
NETWORKS = ("nfs", "nfs4", "cifs", "smb3", "smbfs", "afs", "9p", "lustre", "gpfs", "beegfs", "ceph",
            "orangefs", "fuse.ceph", "fuse.sshfs", "fuse.glusterfs", "fuse.rclone", "fuse.s3fs")


class Identity(NamedTuple):
    """Which file it is, and of what state: times are in nanoseconds."""

    device: int
    inode: int
    size: int
    mtime: int
    ctime: int
    mode: int

    @classmethod
    def of(cls, found: os.stat_result) -> Identity:
        return cls(found.st_dev, found.st_ino, found.st_size, found.st_mtime_ns, found.st_ctime_ns, found.st_mode)

    @classmethod
    def read(cls, text: str) -> Identity:
        return cls(*(int(part) for part in text.split(":")))

    def text(self) -> str:
        return "%d:%d:%d:%d:%d:%d" % self

    def regular(self) -> bool:
        return stat.S_ISREG(self.mode)

    def same_file(self, other: Optional[Identity], elsewhere: bool = False) -> bool:
        """The same file with the same content, as far as its times tell. A rename changes ctime, and is left out.

        So is the device of a file that another machine has seen, or an earlier start: a disk may have another number
        when it is mounted anew.
        """
        return other is not None and self[1 if elsewhere else 0:4] == other[1 if elsewhere else 0:4]

    def unchanged(self, other: Optional[Identity], elsewhere: bool = False) -> bool:
        """The same file, and ctime is as it was too."""
        return other is not None and self.same_file(other, elsewhere) and self.ctime == other.ctime


def look(path: bytes, follow: bool = False) -> Optional[Identity]:
    """The identity of a file, or None if there is none."""
    try:
        return Identity.of(os.stat(path) if follow else os.lstat(path))
    except (FileNotFoundError, NotADirectoryError):
        return None


def digest(path: bytes, from_disk: bool = False) -> tuple[Identity, str]:
    """A file's identity and SHA-256. A FIFO or a device is refused before it is opened."""
    found = look(path, follow=True)
    if found is None:
        raise FileNotFoundError(errno.ENOENT, os.strerror(errno.ENOENT), os.fsdecode(path))
    if not found.regular():
        raise OSError(errno.EINVAL, "not a regular file", os.fsdecode(path))
    with open(path, "rb", buffering=0) as file:
        if from_disk:
            os.posix_fadvise(file.fileno(), 0, 0, os.POSIX_FADV_DONTNEED)
        total, block = hashlib.sha256(), bytearray(1 << 20)
        view = memoryview(block)
        while True:
            count = file.readinto(block)
            if not count:
                break
            total.update(view[:count])
        return Identity.of(os.fstat(file.fileno())), total.hexdigest()


def renameat2(old: bytes, new: bytes, flags: int) -> None:
    call = getattr(ctypes.CDLL(None, use_errno=True), "renameat2", None)
    if call is None:
        raise OSError(errno.ENOSYS, os.strerror(errno.ENOSYS))
    if call(AT_FDCWD, ctypes.c_char_p(old), AT_FDCWD, ctypes.c_char_p(new), ctypes.c_uint(flags)) != 0:
        number = ctypes.get_errno()
        raise OSError(number, os.strerror(number), os.fsdecode(old), None, os.fsdecode(new))


def move_new(old: bytes, new: bytes) -> None:
    """Renames a file, and writes nothing over: FileExistsError if something has the new name."""
    try:
        renameat2(old, new, NO_REPLACE)
        return
    except OSError as problem:
        if problem.errno not in UNSUPPORTED:
            raise
    try:
        os.link(old, new, follow_symlinks=False)
    except FileExistsError:
        raise
    except OSError as problem:
        if problem.errno not in (errno.EPERM, *UNSUPPORTED):
            raise
        if os.path.lexists(new):
            raise FileExistsError(errno.EEXIST, os.strerror(errno.EEXIST), os.fsdecode(new)) from None
        os.rename(old, new)
        return
    os.unlink(old)


def exchange(one: bytes, other: bytes) -> bool:
    """Gives two files each other's name in one step, or answers that this file system can't."""
    try:
        renameat2(one, other, EXCHANGE)
        return True
    except OSError as problem:
        if problem.errno in UNSUPPORTED:
            return False
        raise


def sync_file(path: bytes) -> Identity:
    """Brings a file to the disk, and answers which one it was."""
    file = os.open(path, os.O_RDONLY | os.O_NOFOLLOW | os.O_NONBLOCK)
    try:
        os.fsync(file)
        return Identity.of(os.fstat(file))
    finally:
        os.close(file)


def sync_folder(path: bytes) -> None:
    folder = os.open(path or b".", os.O_RDONLY | os.O_DIRECTORY)
    try:
        os.fsync(folder)
    except OSError as problem:
        if problem.errno != errno.EINVAL:  # a file system that syncs no folders
            raise
    finally:
        os.close(folder)


def lock_folder(path: bytes) -> Optional[int]:
    """Locks a folder for itself and others that do so; the lock is held until the file is closed. None: it can't be."""
    file = None
    with contextlib.suppress(OSError):
        file = os.open(path, os.O_RDONLY | os.O_DIRECTORY)
        for _ in range(20):  # `clean` holds it for a moment
            with contextlib.suppress(BlockingIOError):
                fcntl.flock(file, fcntl.LOCK_SH | fcntl.LOCK_NB)
                return file
            time.sleep(0.05)
    if file is not None:
        os.close(file)
    return None


def folder_of(path: bytes) -> bytes:
    return os.path.dirname(path) or b"."


def folders_of(paths: Iterable[bytes]) -> set[bytes]:
    """The folders of many paths, most of which share one."""
    return {folder_of(head) for head in {path[:path.rfind(b"/") + 1] for path in paths}}


def is_below(path: bytes, folder: bytes) -> bool:
    """Whether a path, its links resolved, is that of a folder, which has no links in its path, or is below it."""
    return (os.path.realpath(path) + b"/").startswith(folder.rstrip(b"/") + b"/")


def make_folders(path: bytes) -> None:
    """Makes a folder and those above it, and syncs each that has a new one in it."""
    if os.path.isdir(path):
        return
    above = folder_of(path.rstrip(b"/"))
    if above != path:
        make_folders(above)
    try:
        os.mkdir(path)
    except FileExistsError:
        if not os.path.isdir(path):
            raise
    sync_folder(above)


def write_whole(path: bytes, parts: Iterable[bytes], token: str = "") -> None:
    """Writes a file under another name, syncs it and moves it to its own: a link stays, its target is replaced."""
    path = os.path.realpath(path)
    draft = os.path.join(folder_of(path), b".las-%s-0.part" % (token or secrets.token_hex(8)).encode())
    try:
        with open(draft, "xb") as file:
            for part in parts:
                file.write(part)
            file.flush()
            os.fsync(file.fileno())
        os.replace(draft, path)
    except BaseException:
        if os.path.lexists(draft):
            os.unlink(draft)
        raise
    sync_folder(folder_of(path))


def kind_of_disk(path: bytes, mounts: Optional[bytes] = None) -> str:
    """The kind of file system that a folder lies on, as the system lists it."""
    if mounts is None:
        with open("/proc/self/mountinfo", "rb") as file:
            mounts = file.read()
    best, kind = b"", b""
    path = os.path.realpath(path)
    for line in mounts.splitlines():
        fields, _, rest = line.partition(b" - ")
        point = fields.split(b" ")[4]
        for sign in (b" ", b"\t", b"\n", b"\\"):
            point = point.replace(b"\\%03o" % ord(sign), sign)
        if len(point) >= len(best) and (path + b"/").startswith(point.rstrip(b"/") + b"/"):
            best, kind = point, rest.split(b" ")[0]
    return kind.decode(errors="replace")


def on_network(kind: str) -> bool:
    """Whether it is a kind on which SQLite's locks can't be relied on."""
    return kind in NETWORKS
