"""A folder in which a check writes files, runs the program, and looks at what stands there."""
import os
import subprocess
from pathlib import Path
from typing import Any, Optional, Union

Word = Union[str, bytes, Path]


class Place:
    """A folder, and the program that is run in it."""

    def __init__(self, folder: Path, program: str) -> None:
        self.folder = folder
        self.program = program
        self.environment: Optional[dict[str, str]] = None
        self.user: dict[str, Any] = {}

    def path(self, name: str) -> Path:
        return self.folder / name

    def write(self, name: str, data: bytes) -> Path:
        """Writes a file, and answers its path."""
        self.path(name).write_bytes(data)
        return self.path(name)

    def read(self, name: str) -> bytes:
        return self.path(name).read_bytes()

    def names(self) -> list[str]:
        """The names in the folder, hidden ones too."""
        return sorted(os.listdir(self.folder))

    def files(self) -> dict[str, bytes]:
        """What the regular files of the folder hold, by name."""
        return {name: self.read(name) for name in self.names() if self.path(name).is_file()}

    def las(self, *words: Word, **options: Any) -> "subprocess.CompletedProcess[bytes]":
        """A run of the program in the folder, with both streams kept."""
        options.setdefault("stdin", subprocess.DEVNULL)
        options.setdefault("stdout", subprocess.PIPE)
        options.setdefault("stderr", subprocess.PIPE)
        options.setdefault("timeout", 600)
        return subprocess.run([options.pop("program", self.program), *words], cwd=self.folder, check=False, **options)
