"""Two hundred small tiles, some with odd names, and what each is packed to by a run of `las` alone."""
import shutil
import subprocess
from pathlib import Path
from typing import Optional

import pytest

import needs
import shared
from batch_places import Tiles

ODD = ["a b.las", "a'b\"c.las", "line\nfeed.las", "ümläut.las", "$HOME;`date`{}&.las", "-dash.las", "back\\slash.las"]
NAMES = [*ODD, *(f"{number:03}.las" for number in range(len(ODD), 200))]


class Stock:
    """Tiles that are made once for all processes of the suite, and copied to the folder of each check."""

    def __init__(self, tmp_path_factory: pytest.TempPathFactory, las: str) -> None:
        needs.command("parallel", "parallel")
        self.las = las
        self.folder = shared.once(tmp_path_factory, "stock of tiles", self.make)
        self.plain = {name: (self.folder / "tiles" / name).read_bytes() for name in NAMES}
        self.packed = {packed(name): (self.folder / "packed" / packed(name)).read_bytes() for name in NAMES}

    def make(self, folder: Path) -> None:
        for kind in ("tiles", "packed"):
            (folder / kind).mkdir(exist_ok=True)
        for number, name in enumerate(NAMES):
            subprocess.run([self.las, "make", "-o", folder / "tiles" / name, "-z", folder / "packed" / packed(name),
                            "-points", str(100 + number), "-seed", str(number)], stdout=subprocess.DEVNULL, check=True)

    def some(self, count: int) -> dict[str, bytes]:
        """What the first `count` tiles are packed to."""
        return {packed(name): self.packed[packed(name)] for name in list(self.plain)[:count]}


class StockTiles(Tiles):
    """The folder of a check, with the tiles of the stock in `tiles`."""

    def __init__(self, folder: Path, stock: Stock) -> None:
        super().__init__(folder, stock.las)
        self.stock, self.plain, self.all_packed = stock, stock.plain, stock.packed
        shutil.copytree(stock.folder / "tiles", folder / "tiles")

    def names(self, first: int = 0, end: Optional[int] = None) -> list[str]:
        return [f"tiles/{name}" for name in list(self.plain)[first:end]]


def packed(name: str) -> str:
    return name[:-1] + "z"


def ended(run: "subprocess.CompletedProcess[bytes]", status: int, text: bytes = b"") -> None:
    """The status of a run, and a part of what it says."""
    assert run.returncode == status, run.stderr
    assert text in run.stderr, run.stderr
