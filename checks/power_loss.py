"""What a disk may hold after a power loss, by a log of the calls that a run made.

The disk is simulated, small and at its worst: names are on it in the order in which they were made and moved, up to any
of them, and bytes of a file only if it was synced after they were written. So after each call two disks are possible at
least: the one that has the names and none of the bytes that were not synced, and the one that has all of both. A folder
that was synced keeps the names that it had.
"""
from collections.abc import Iterator
from dataclasses import dataclass, field

Names = dict[str, bytes]


@dataclass
class Disk:
    """Names and the files that they lead to; of each file its bytes, and those that were synced."""
    names: dict[str, int] = field(default_factory=dict)
    held: dict[int, bytearray] = field(default_factory=dict)
    synced: dict[int, bytearray] = field(default_factory=dict)
    # names as they were when the folder was synced last, or when the run began
    kept: dict[str, int] = field(default_factory=dict)

    def do(self, call: list[str]) -> None:
        what, words = call[0], call[1:]
        if what == "create":
            number = int(words[0])
            self.names[words[1]] = number
            self.held[number], self.synced[number] = bytearray(), bytearray()
        elif what == "write":
            self.write(int(words[0]), int(words[1]), bytes.fromhex(words[2]))
        elif what == "truncate":
            held = self.held.setdefault(int(words[0]), bytearray())
            held[int(words[1]):] = b""
        elif what == "sync":
            self.synced[int(words[0])] = bytearray(self.held.get(int(words[0]), b""))
        elif what == "syncfolder":
            self.kept = dict(self.names)
        elif what == "rename":
            self.names[words[1]] = self.names.pop(words[0])
        elif what == "link":
            self.names[words[1]] = self.names[words[0]]
        elif what == "unlink":
            del self.names[words[0]]

    def write(self, number: int, at: int, data: bytes) -> None:
        held = self.held.setdefault(number, bytearray())
        held.extend(bytes(max(0, at - len(held))))
        held[at:at + len(data)] = data

    def after_loss(self) -> Iterator[Names]:
        """The disks that are possible now: names as synced or as they are, and bytes as synced or as they are."""
        for names in (self.kept, self.names):
            for held in (self.synced, self.held):
                yield {name: bytes(held.get(number, b"")) for name, number in names.items()}


def losses(before: dict[str, tuple[int, bytes]], log: list[list[str]]) -> Iterator[tuple[int, Names]]:
    """Each disk that a power loss may leave, with the number of the call before it. `before` has the inode and the
    bytes of each file that the run found.
    """
    disk = Disk()
    for name, (number, data) in before.items():
        disk.names[name] = number
        disk.held[number], disk.synced[number] = bytearray(data), bytearray(data)
    disk.kept = dict(disk.names)
    for at, call in enumerate([["begin"], *log]):
        disk.do(call)
        for found in disk.after_loss():
            yield at, found
