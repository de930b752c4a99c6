"""A file that takes its name when it is whole and on the disk."""
from __future__ import annotations

import os
import secrets
import stat
from types import TracebackType
from typing import BinaryIO

from .sources import not_regular

_LONGEST_NAME = 255


def _draft_name(name: str) -> str:
    """A hidden name that can't be foreseen, of at most 255 bytes."""
    end = f".{secrets.token_hex(8)}.part"
    kept = os.fsencode(name)[:_LONGEST_NAME - 1 - len(end)]
    return f".{os.fsdecode(kept)}{end}"


class Output:
    """A file that is written as a draft beside its name, and moved to it by the end of a `with` block without an error.

    The draft is made exclusively. It is on the disk before it is moved, and the folder after that, so that the name is
    that of the older file or of the whole new one at any time, also after a power cut. A symbolic link stays, and what
    it names is replaced; the mode stays, and owner and group where the system allows.
    """

    def __init__(self, name: str) -> None:
        path = os.path.realpath(name)
        self._older: os.stat_result | None = None
        try:
            self._older = os.stat(path)
        except FileNotFoundError:
            pass
        if self._older is not None and not stat.S_ISREG(self._older.st_mode):
            raise not_regular(name, self._older.st_mode)
        self._folder_name, self._name = os.path.split(path)
        self._draft = _draft_name(self._name)

    def __enter__(self) -> BinaryIO:
        flags = os.O_DIRECTORY | os.O_CLOEXEC
        self._can_sync_folder = True
        try:
            self._folder = os.open(self._folder_name, os.O_RDONLY | flags)
        except PermissionError:  # it may be written, and not be read
            self._folder = os.open(self._folder_name, os.O_PATH | flags)
            self._can_sync_folder = False
        try:
            self._file: BinaryIO = open(self._draft, "xb", opener=self._open)
        except BaseException:
            os.close(self._folder)
            raise
        return self._file

    def _open(self, name: str, flags: int) -> int:
        return os.open(name, flags | os.O_NOFOLLOW, 0o666, dir_fd=self._folder)

    def __exit__(self, kind: type[BaseException] | None, error: BaseException | None,
                 trace: TracebackType | None) -> None:
        moved = False
        try:
            with self._file:
                if kind is None:
                    self._keep_owner_and_mode()
                    self._file.flush()
                    os.fsync(self._file.fileno())
            if kind is None:
                os.replace(self._draft, self._name, src_dir_fd=self._folder, dst_dir_fd=self._folder)
                moved = True
                if self._can_sync_folder:
                    os.fsync(self._folder)
                else:
                    os.sync()
        finally:
            try:
                if not moved:
                    os.unlink(self._draft, dir_fd=self._folder)
            finally:
                os.close(self._folder)

    def _keep_owner_and_mode(self) -> None:
        if self._older is None:
            return
        made = os.fstat(self._file.fileno())
        if (made.st_uid, made.st_gid) != (self._older.st_uid, self._older.st_gid):
            try:
                os.fchown(self._file.fileno(), self._older.st_uid, self._older.st_gid)
            except PermissionError:
                pass
        os.fchmod(self._file.fileno(), stat.S_IMODE(self._older.st_mode))
