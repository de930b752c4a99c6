"""What may stand below a prefix after the power was cut during an install, by the calls that it made.

The disk is at its worst: the names in a folder are there as they were when it was synced, and any first part of what
came after, or that of some folders alone; of a file there are the bytes and the mode that were synced, or those that
were written, or zeros.
"""
import os
import re
from collections.abc import Iterable, Iterator
from pathlib import Path
from typing import Any, Optional

from file_calls import Call

Tree = dict[str, object]
COPY = re.compile(r"(.*/)?\.[^/]*\.las-[^/]*\.part")
Node = tuple[str, Any]  # a folder, a file by its inode, or a link by its target
FOLDER: Node = ("folder", None)
NOTHING = (b"", 0o600)


class TreeDisk:
    """Folders with their names, and files."""

    def __init__(self, top: Path) -> None:
        self.top = str(top)
        self.names: dict[str, dict[str, Node]] = {}
        self.folders: dict[int, str] = {}
        self.files: dict[int, tuple[bytes, int]] = {}
        for at, folders, files in os.walk(top):
            self.folders[os.stat(at).st_ino] = at
            self.names[at] = {name: FOLDER for name in folders}
            for name in files:
                self.names[at][name] = self._there(Path(at) / name)
        self.synced = dict(self.files)
        self.waiting: "list[tuple[str, str, Optional[Node], str]]" = []

    def _there(self, path: Path) -> Node:
        if path.is_symlink():
            return ("link", os.readlink(path))
        found = path.stat()
        self.files[found.st_ino] = (path.read_bytes(), found.st_mode & 0o777)
        return ("file", found.st_ino)

    def take(self, call: Call) -> None:
        """Does a call."""
        number, more = call.number, call.more
        held, mode = self.files.get(number, NOTHING)
        if call.kind == "create":
            self.files[number] = self.synced[number] = (b"", int(more[1], 8))
            self._change(more[0], ("file", number))
        elif call.kind == "folder":
            self.folders[number] = more[0]
            self.names[more[0]] = {}
            self._change(more[0], FOLDER)
        elif call.kind == "link":
            self._change(more[0], ("link", more[1]))
        elif call.kind == "remove":
            self._change(more[0], None)
        elif call.kind == "move":
            assert os.path.dirname(more[0]) == os.path.dirname(more[1]), call
            self._change(more[0], None, more[1])
        elif call.kind == "write":
            at, data = int(more[0]), bytes.fromhex(more[1])
            held = held.ljust(at, b"\0")
            self.files[number] = (held[:at] + data + held[at + len(data):], mode)
        elif call.kind == "length":
            self.files[number] = (held[:int(more[0])].ljust(int(more[0]), b"\0"), mode)
        elif call.kind == "mode" and number in self.files:
            self.files[number] = (held, int(more[-1], 8) & 0o777)
        elif call.kind == "sync" and number in self.folders:
            folder = self.folders[number]
            self._put(self.names, [one for one in self.waiting if one[0] == folder])
            self.waiting = [one for one in self.waiting if one[0] != folder]
        elif call.kind == "sync":
            self.synced[number] = self.files[number]

    def _change(self, path: str, node: Optional[Node], new: str = "") -> None:
        folder, name = os.path.split(path)
        self.waiting.append((folder, name, node, os.path.basename(new)))

    @staticmethod
    def _put(names: "dict[str, dict[str, Node]]", changes: "list[tuple[str, str, Optional[Node], str]]") -> None:
        for folder, name, node, new in changes:
            if node is not None:
                names[folder][name] = node
            else:
                there = names[folder].pop(name, None)
                if new and there is not None:
                    names[folder][new] = there

    def trees(self) -> Iterator[Tree]:
        """Each tree that may be found after a cut now."""
        late = sorted({one[0] for one in self.waiting})
        parts = [self.waiting[:count] for count in range(len(self.waiting) + 1)]
        parts += [[one for one in self.waiting if one[0] == folder] for folder in late]
        parts += [[one for one in self.waiting if one[0] != folder] for folder in late]
        for changes in parts:
            names = {folder: dict(inside) for folder, inside in self.names.items()}
            self._put(names, changes)
            for how in range(3):
                tree: Tree = {}
                self._fill(tree, names, self.top, "", how)
                yield tree

    def _fill(self, tree: Tree, names: "dict[str, dict[str, Node]]", folder: str, key: str, how: int) -> None:
        for name, (kind, what) in names[folder].items():
            at = key + name
            if kind == "folder":
                tree[at] = None
                self._fill(tree, names, f"{folder}/{name}", at + "/", how)
            elif kind == "link":
                tree[at] = f"-> {what}"
            else:
                synced, written = self.synced[what], self.files[what]
                held = (synced, written, (bytes(len(written[0])), written[1]))[how if synced != written else 0]
                tree[at] = (held[1], held[0])


def trees_after_cuts(disk: TreeDisk, calls: "list[Call]") -> "Iterator[tuple[int, Tree]]":
    """Each tree that may be found after a cut, once, with the number of calls that were done."""
    seen = set()
    for done in range(len(calls) + 1):
        for tree in disk.trees():
            mark = hash(frozenset(tree.items()))
            if mark not in seen:
                seen.add(mark)
                yield done, tree
        if done < len(calls):
            disk.take(calls[done])


def states(trees: "Iterable[tuple[int, Tree]]") -> "Iterator[tuple[int, Tree]]":
    """Of the trees those that another install can tell apart: of a copy under another name it sees the name alone, as
    `Store.was_read` tells.
    """
    seen = set()
    for at, tree in trees:
        mark = hash(frozenset((name, "a copy" if is_copy(name, kept) else kept) for name, kept in tree.items()))
        if mark not in seen:
            seen.add(mark)
            yield at, tree


def is_copy(name: str, kept: object) -> bool:
    return isinstance(kept, tuple) and COPY.fullmatch(name) is not None


class Store:
    """Files that hold what files of trees hold, of which trees are put together by hard links. So nothing is written
    for a tree, and it is known whether a file was written in place, and whether a copy under another name was read.
    """

    def __init__(self, folder: Path) -> None:
        self.folder = folder
        folder.mkdir()
        self.paths: "dict[tuple[bool, object], Path]" = {}

    def add(self, tree: Tree) -> None:
        """Puts the files of a tree there."""
        for name, kept in tree.items():
            key = is_copy(name, kept), kept
            if isinstance(kept, tuple) and key not in self.paths:
                path = self.paths[key] = self.folder / str(len(self.paths))
                path.write_bytes(kept[1])
                path.chmod(kept[0])
                os.utime(path, (1, 2))  # (the time of reading is set if it is older than that of writing)

    def write(self, top: Path, tree: Tree) -> None:
        """Puts a tree in the place of what is below a folder."""
        self.clear(top)
        for name in sorted(tree):
            kept, path = tree[name], top / name
            if kept is None:
                path.mkdir()
            elif isinstance(kept, str):
                path.symlink_to(kept[3:])
            else:
                os.link(self.paths[is_copy(name, kept), kept], path)

    def clear(self, top: Path) -> None:
        """Takes away all that is below a folder."""
        for path in top.iterdir():
            if path.is_dir() and not path.is_symlink():
                self.clear(path)
                path.rmdir()
            else:
                path.unlink()

    def was_written(self) -> "list[Path]":
        """The files that were written in place, or have another mode."""
        return [path for (_, kept), path in self.paths.items()
                if isinstance(kept, tuple) and (path.stat().st_mode & 0o777, path.read_bytes()) != kept]

    def was_read(self, copies: bool) -> "list[Path]":
        """Of the copies under another name, or of the other files, those that were read."""
        return [path for (one, _), path in self.paths.items() if one == copies and path.stat().st_atime != 1]
