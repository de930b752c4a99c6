"""What a run has to be. Each fact is an assertion, so that pytest shows what was found in its place."""
from typing import Any, Optional

from places import Place


def ended(run: Any, status: int, line: bytes = b"", out: Optional[bytes] = b"") -> None:
    """The status of a run, its line on standard error, and standard output (None: whatever it is)."""
    assert (run.returncode, run.stderr) == (status, line)
    if out is not None:
        assert run.stdout == out


def holds(place: Place, wanted: dict[str, Optional[bytes]]) -> None:
    """What files of a place hold; None for one that may not be there."""
    for name, data in wanted.items():
        if data is None:
            assert not place.path(name).exists(), f"{name} is there"
        else:
            assert place.path(name).is_file(), f"{name} is not there"
            assert place.read(name) == data, f"{name} holds other bytes"


def done(place: Place, *words: Any, **options: Any) -> None:
    """A run that has to end with status 0, and to put nothing on a stream."""
    ended(place.las(*words, **options), 0)


def unpacks(place: Place, name: str, data: bytes, *words: Any) -> None:
    """A packed file of a place has to be unpacked to these bytes."""
    done(place, "laszip", "-i", name, "-o", "unpacked.las", *words)
    holds(place, {"unpacked.las": data})
