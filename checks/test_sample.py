"""The sample is what its script makes, and the pictures are what theirs draw."""
import importlib.util
import struct
import zlib

import pytest

import runs
from pages import rows_of, text_of
from programs import TOP

PACKED = TOP / "examples" / "tile.laz"


def script(path):
    """A script of the repository, as a module."""
    spec = importlib.util.spec_from_file_location(path.rpartition("/")[2][:-3], TOP / path)
    module = importlib.util.module_from_spec(spec)
    spec.loader.exec_module(module)
    return module


def pixels(picture):
    """A picture's size and rows: how they are compressed is left to each system."""
    at, head, data = 8, b"", b""
    while at < len(picture):
        length, = struct.unpack_from(">I", picture, at)
        part = picture[at + 8:at + 8 + length]
        head += part if picture[at + 4:at + 8] == b"IHDR" else b""
        data += part if picture[at + 4:at + 8] == b"IDAT" else b""
        at += 12 + length
    return head, zlib.decompress(data)


def test_sample_is_unpacked_to_what_its_script_makes(place):
    runs.ended(place.las("laszip", "-i", PACKED, "-o", "tile.las"), 0)
    assert place.read("tile.las") == script("examples/make_tile.py").tile()


def test_sample_is_packed_again(place):
    place.write("tile.las", script("examples/make_tile.py").tile())
    runs.ended(place.las("laszip", "-i", "tile.las", "-o", "again.laz", "-cores", "4"), 0)
    assert place.read("again.laz") == PACKED.read_bytes()


@pytest.mark.slow(seconds=5)
def test_picture_of_the_sample():
    """If it fails: run examples/draw_tile.py on the unpacked sample."""
    drawn = script("examples/draw_tile.py").drawn(script("examples/make_tile.py").tile())
    assert pixels(drawn) == pixels((TOP / "examples" / "tile.png").read_bytes())


def test_plot_of_times():
    """If it fails: run docs/plot_performance.py."""
    plot = script("docs/plot_performance.py")
    assert plot.drawn(plot.rows_of(str(TOP / "docs" / "performance.csv"))) == text_of("docs/performance.svg")


def test_table_of_times():
    rows = script("docs/plot_performance.py").rows_of(str(TOP / "docs" / "performance.csv"))
    table = [[name, *(f"{number:g}" for number in numbers)] for name, numbers in rows]
    assert [row for row in table if row not in rows_of(text_of("docs/performance.md"))] == []
