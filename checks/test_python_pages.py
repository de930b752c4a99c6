"""The recipes, and the idioms beside those of laspy: each is run as it stands on its page."""
import io
import re
import shutil
import subprocess
import sys

import pytest

import library_files
from programs import TOP

TILE = TOP / "examples" / "tile.laz"
PAGE = (TOP / "docs" / "recipes.md").read_text()
RECIPES = re.findall(r"^## (.+?)\n(.*?)(?=^## |\Z)", PAGE, re.MULTILINE | re.DOTALL)
TABLE = (TOP / "docs" / "coming-from.md").read_text().split("| In laspy | Here |\n|---|---|\n")[1].split("\n\n")[0]
IDIOMS = [tuple(cell.strip() for cell in re.split(r"(?<!\|) \| (?!\|)", row.strip("| "))) for row in TABLE.splitlines()]


@pytest.fixture(scope="module")
def it(tmp_path_factory):
    """The package."""
    patch = pytest.MonkeyPatch()
    patch.syspath_prepend(str(TOP / "python" / "src"))
    yield library_files.package(tmp_path_factory, patch)
    patch.undo()


@pytest.fixture
def place(it, tmp_path, monkeypatch):
    """A folder with the sample, and its two halves."""
    shutil.copy(TILE, tmp_path)
    points = it.read(TILE)
    middle = points.x.min() + 50
    points[points.x < middle].write(tmp_path / "west.laz")
    points[points.x >= middle].write(tmp_path / "east.laz")
    monkeypatch.chdir(tmp_path)
    monkeypatch.setenv("PYTHONPATH", str(TOP / "python" / "src"))
    return tmp_path


def blocks(text, language):
    return re.findall(rf"^```{language}\n(.*?)^```$", text, re.MULTILINE | re.DOTALL)


def run(title):
    """Runs a recipe, and compares what it prints."""
    text = dict(RECIPES)[title]
    program, = blocks(text, "python")
    done = subprocess.run([sys.executable, "-W", "error", "-c", program], stdout=subprocess.PIPE, check=True)
    assert done.stdout.decode() == "".join(blocks(text, "text"))
    assert len(program.splitlines()) <= 20


def test_recipes_are_five():
    assert [title for title, _ in RECIPES] == ["Thin a huge file", "Join neighbours", "Select by a polygon",
                                               "Statistics by class", "Convert to a grid"]


def test_thin(it, place):
    run("Thin a huge file")
    whole, thin = it.read("tile.laz"), it.read("thin.laz")

    left, low = whole.x.min(), whole.y.min()

    def cells(points):
        return [(int((x - left) // 0.5), int((y - low) // 0.5)) for x, y in zip(points.x, points.y)]

    assert len(set(cells(thin))) == len(thin) == len(set(cells(whole)))


def test_join(it, place):
    run("Join neighbours")
    west, east, both = it.read("west.laz"), it.read("east.laz"), it.read("both.laz")
    assert both.tobytes() == west.tobytes() + east.tobytes()
    assert (both.head.mins[0], both.head.maxs[0]) == (west.head.mins[0], east.head.maxs[0])
    assert both.head.points == 20493


def test_polygon(it, place):
    run("Select by a polygon")
    whole, part = it.read("tile.laz"), it.read("part.laz")
    corners = [(512310, 5403410), (512390, 5403420), (512350, 5403480)]

    def is_inside(x, y):
        sides = zip(corners, corners[1:] + corners)
        return all((x2 - x1) * (y - y1) > (y2 - y1) * (x - x1) for (x1, y1), (x2, y2) in sides)

    wanted = [is_inside(x, y) for x, y in zip(whole.x, whole.y)]
    assert 100 < len(part) == sum(wanted)
    assert part.tobytes() == whole[wanted].tobytes()


def test_statistics(place):
    run("Statistics by class")


def test_grid(it, place):
    import numpy as np
    run("Convert to a grid")
    lines = (place / "grid.asc").read_text().splitlines()
    assert [line.split()[0] for line in lines[:6]] == ["ncols", "nrows", "xllcorner", "yllcorner", "cellsize",
                                                       "NODATA_value"]
    grid = np.array([[float(it) for it in line.split()] for line in lines[6:]])
    assert grid.shape == (int(lines[1].split()[1]), int(lines[0].split()[1]))
    assert abs(grid.max() - it.read("tile.laz").z.max()) < 0.01


def test_each_idiom_works(it, place):
    import numpy
    names = {"io": io, "numpy": numpy, "balsamvise": it}
    ran = 0
    for theirs, ours in IDIOMS:
        code = re.findall(r"`(.+?)`", ours)
        if not code or code == ["threads"]:
            assert ours in ("Not here.", "There is one coder, and `threads` is how many threads it has.")
            continue
        exec(compile(code[0], theirs, "exec"), names)
        ran += 1
    assert ran >= 25
    points, high, made = names["points"], names["high"], names["made"]
    assert (points.head.crs.epsg, points.head.software, len(points.head.vlrs)) == (25833, b"mine", 2)
    assert (high.head.extra, list(high.head.extra_bytes)) == (4, ["height"])
    assert len(it.read("out.laz")) == 20493 + len(names["ground"])
    assert (names["ground"].classification == 6).all()
    assert made.head.format == 3 and (made.X == points.X).all()
    assert (points.classification[points.z < 216] == 9).all()
    assert len(names["both"]) == 20493 + len(names["ground"]) and names["both"].head == points.head
    assert len(names["part"]) == 500 and names["count"] == 20493
