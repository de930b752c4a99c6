"""`python -m balsamvise`: its table of commands, and fit-box, plot and sample."""
import ast
import os
import re
import shutil
import struct
import subprocess
import sys
import zipfile

import pytest

import commands
import library_files
import needs
import shared
from programs import TOP
from test_packages import made_by

SOURCE = TOP / "python" / "src"
TILE = TOP / "examples" / "tile.laz"
HEAD_BOX = slice(179, 227)


@pytest.fixture(scope="module")
def it(tmp_path_factory):
    """The package."""
    patch = pytest.MonkeyPatch()
    patch.syspath_prepend(str(SOURCE))
    yield library_files.package(tmp_path_factory, patch)
    patch.undo()


def started(folder, *words, **more):
    """A run of a command in a folder: status, standard output, standard error."""
    environment = dict(os.environ, PYTHONPATH=str(SOURCE), PYTHONDONTWRITEBYTECODE="1", MPLCONFIGDIR=str(folder))
    done = subprocess.run([sys.executable, "-m", "balsamvise", *map(str, words)], cwd=folder, check=False,
                          stdin=subprocess.DEVNULL, stdout=subprocess.PIPE, stderr=subprocess.PIPE,
                          env={**environment, **more})
    return done.returncode, done.stdout.decode(), done.stderr.decode()


@pytest.fixture
def run(it, tmp_path):
    return lambda *words, **more: started(tmp_path, *words, **more)


@pytest.fixture(scope="module")
def listed(it, tmp_path_factory):
    """What `help` prints."""
    status, said, _ = started(tmp_path_factory.mktemp("help"), "help")
    assert status == 0
    return said


@pytest.fixture
def fonts(tmp_path_factory, tmp_path):
    """The list of fonts, which Matplotlib makes at its first start, and says so if that takes some seconds."""
    needs.module("matplotlib", "python3-matplotlib")

    def make(folder):
        commands.good([sys.executable, "-c", "import matplotlib.font_manager"],
                      env=dict(os.environ, MPLCONFIGDIR=str(folder)))

    for path in shared.once(tmp_path_factory, "fonts", make).glob("fontlist*"):
        shutil.copy(path, tmp_path)


def table():
    tree = ast.parse((SOURCE / "balsamvise" / "__main__.py").read_text())
    return next(ast.literal_eval(node.value) for node in tree.body if isinstance(node, ast.AnnAssign) and
                node.target.id == "COMMANDS")


@pytest.mark.parametrize("word", table())
def test_each_command_has_a_module_with_a_line_of_help(run, listed, word):
    path = SOURCE / (table()[word].replace(".", "/") + ".py")
    line = ast.get_docstring(ast.parse(path.read_text())).splitlines()[0]
    assert re.search(rf"^  {word} +{re.escape(line)}$", listed, re.MULTILINE)
    status, said, _ = run(word, "--help")
    assert status == 0
    assert f"usage: balsamvise {word}" in said


@pytest.mark.parametrize("words, status, out, error", [
    ([], 2, "", "usage: balsamvise COMMAND"), (["none"], 2, "", "usage: balsamvise COMMAND"),
    (["--version"], 0, "balsamvise ", ""), (["sample", "none.laz", "a.laz"], 3, "", "balsamvise sample: "),
    (["fit-box", __file__], 5, "", "2 Magic"), (["sample", TILE, "a.laz", "--points", "-1"], 2, "", "usage: "),
    (["plot", TILE, "a.png", "--profile", "1", "1", "1", "1"], 2, "", "two different ends")], ids=str)
def test_status_and_streams(run, tmp_path, words, status, out, error):
    found = run(*words)
    assert found[0] == status
    assert found[1].startswith(out) and bool(found[1]) == bool(out)
    assert error in found[2] and bool(found[2]) == bool(error)
    assert not list(tmp_path.glob("a.*"))


def test_a_module_is_imported_only_if_it_is_named(run):
    script = ("import sys; from balsamvise.__main__ import main, COMMANDS; main(['help'])\n"
              "print([name for name in COMMANDS.values() if name in sys.modules])")
    done = subprocess.run([sys.executable, "-c", script], env=dict(os.environ, PYTHONPATH=str(SOURCE)),
                          stdout=subprocess.PIPE, check=True)
    assert done.stdout.decode().splitlines()[-1] == "[]"


@pytest.fixture
def tile(tmp_path):
    shutil.copy(TILE, tmp_path / "tile.laz")
    return tmp_path / "tile.laz"


@pytest.mark.parametrize("plain", [False, pytest.param(True, marks=pytest.mark.slow)])
@pytest.mark.parametrize("bound", range(6))
def test_box_is_mended_and_no_other_byte(it, run, tile, plain, bound):
    path = tile.with_suffix(".las") if plain else tile
    if plain:
        it.read(tile).write(path)
    right = path.read_bytes()
    data = bytearray(right)
    struct.pack_into("<d", data, 179 + 8 * bound, [1e9, float("nan"), -7][bound % 3])
    path.write_bytes(data)
    path.chmod(0o600)
    assert run("fit-box", path) == (0, f"{path}: the box is mended\n", "")
    assert path.read_bytes() == right
    assert path.stat().st_mode & 0o777 == 0o600
    assert run("fit-box", path, "--threads", "1") == (0, f"{path}: the box was right\n", "")


def test_file_with_a_bad_chunk_keeps_its_box(it, run, tile):
    data = bytearray(tile.read_bytes())
    data[-len(data) // 2:-len(data) // 2 + 100] = bytes(100)
    data[HEAD_BOX] = bytes(48)
    tile.write_bytes(data)
    status, _, said = run("fit-box", tile)
    assert (status, "21 BadChunk" in said) == (5, True)
    assert tile.read_bytes() == data
    assert [path.name for path in tile.parent.glob("*.l*")] == ["tile.laz"]


def test_box_of_no_points_stays(it, run, tmp_path):
    it.Points.zeros(0, it.Head.new(0)).write(tmp_path / "a.laz")
    assert run("fit-box", tmp_path / "a.laz")[1].endswith("the box was right\n")


@pytest.mark.parametrize("count", [0, 1000, 20493, *(pytest.param(it, marks=pytest.mark.slow) for it in (1, 30000))])
def test_sample_is_of_the_points_in_their_order(it, run, tile, tmp_path, count):
    for seed in (1, 2):
        assert run("sample", tile, f"{seed}.laz", "--points", count, "--seed", seed, "--threads", "2")[0] == 0
    whole, one, two = it.read(tile), it.read(tmp_path / "1.laz"), it.read(tmp_path / "2.laz")
    assert len(one) == min(count, 20493)
    left = iter(whole.tolist())
    assert all(record in left for record in one.tolist())  # in order
    assert (one.tobytes() == two.tobytes()) == (count in (0, 20493, 30000))
    run("sample", tile, "again.laz", "--points", count, "--seed", 1)
    assert (tmp_path / "again.laz").read_bytes() == (tmp_path / "1.laz").read_bytes()


@pytest.mark.slow(seconds=3)
def test_sample_over_many_parts_takes_each_point_alike(it, tmp_path, monkeypatch):
    import numpy as np
    from balsamvise import sample
    monkeypatch.setattr(sample, "_PART", 10)
    points = it.Points.of_columns(it.Head.new(0), X=np.arange(100))
    points.write(tmp_path / "a.las")
    seen = np.zeros(100, int)
    for seed in range(400):
        assert sample.sample(str(tmp_path / "a.las"), str(tmp_path / "b.las"), 30, seed=seed) == 30
        seen[it.read(tmp_path / "b.las").X] += 1
    assert (np.abs(seen - 120) < 50).all()  # five standard deviations
    random = np.random.default_rng(0)
    left, wanted = 3 * 10**9, 5000
    while left:  # of more than 10^9 points, exactly as many as asked for
        part = min(left, 10**8)
        count = sample._of_part(random, part, wanted, left)
        assert 0 <= count <= min(part, wanted)
        left, wanted = left - part, wanted - count
    assert wanted == 0


PLOTS = {"height": [], "class": ["--by", "class"], "intensity": ["--by", "intensity"],
         "profile": ["--profile", "512300", "5403400", "512400", "5403490", "--by", "class", "--width", "4"]}


@pytest.mark.parametrize("kind", [
    "height", *(pytest.param(it, marks=pytest.mark.slow(seconds=3)) for it in PLOTS if it != "height")])
def test_plot(it, run, fonts, tile, tmp_path, kind):
    status, _, said = run("plot", tile, "a.svg", *PLOTS[kind])
    assert (status, said) == (0, "")
    text = (tmp_path / "a.svg").read_text()
    labels = re.findall(r"<!-- (.*?) -->", text)
    wanted = ["metres along the line", "height in metres", "6 building"] if kind == "profile" else \
        ["x in metres", "y in metres", {"class": "2 ground", "height": "height in metres"}.get(kind, kind)]
    assert set(wanted) <= set(labels)
    assert "512320" in labels or kind == "profile"
    assert run("plot", tile, "a.png", *PLOTS[kind])[0] == 0
    assert (tmp_path / "a.png").read_bytes()[:8] == b"\x89PNG\r\n\x1a\n"


def test_plot_shows_the_highest_point_of_a_pixel(it):
    import numpy as np
    from balsamvise import plot
    points = it.Points.of_columns(it.Head.new(0), x=[0, 0, 0, 9], y=[0, 0, 0, 9], z=[1, 3, 2, 5],
                                  classification=[1, 2, 3, 4])
    above = plot.Above(np.zeros(3), np.array([9., 9, 5]), "class", 4)
    above.see(points[:2])
    above.see(points[2:])
    assert above.values[0, 0] == 2
    assert above.values[-1, -1] == 4
    feet = struct.pack("<8H", 1, 1, 0, 1, 3076, 0, 1, 9003)
    assert plot.metres_of(it.Head.new(0, vlrs=[it.Vlr(b"LASF_Projection", 34735, feet)])) == 1200 / 3937
    assert plot.metres_of(it.Head.new(0)) == 1


@pytest.mark.parametrize("data", [pytest.param(b"\xff" * 7, marks=pytest.mark.slow(seconds=3)),
                                  *(pytest.param(it, marks=pytest.mark.huge) for it in (b"", bytes(8)))])
def test_plot_of_no_points_and_of_strange_heads(it, run, fonts, tmp_path, data):
    head = it.Head.new(0, vlrs=[it.Vlr(b"LASF_Projection", 34735, data)])
    it.Points.zeros(0, head).write(tmp_path / "b.laz")
    assert run("plot", tmp_path / "b.laz", "a.png")[0] == 0
    it.Points.zeros(5, head).write(tmp_path / "b.las")
    bad = bytearray((tmp_path / "b.las").read_bytes())
    struct.pack_into("<d", bad, 131, float("nan"))
    (tmp_path / "b.las").write_bytes(bad)
    status, _, said = run("plot", tmp_path / "b.las", "c.png")
    assert (status, said.count("\n")) == (5, 1)


def test_wheel_names_the_command(tmp_path_factory):
    wheel, = (path for name, path in made_by("wheel", tmp_path_factory).items() if name.endswith("x86_64.whl"))
    with zipfile.ZipFile(wheel) as archive:
        entry, = [it for it in archive.namelist() if it.endswith("entry_points.txt")]
        assert archive.read(entry).decode() == "[console_scripts]\nbalsamvise = balsamvise.__main__:main\n"


@pytest.mark.slow(seconds=3)
def test_archive_has_the_command(tmp_path_factory, tmp_path):
    needs.module("numpy", "python3-numpy")
    archive, = (path for name, path in made_by("tar", tmp_path_factory).items() if name.endswith("x86_64.tar.gz"))
    shutil.unpack_archive(archive, tmp_path / "a folder")
    command, = (tmp_path / "a folder").glob("*/bin/balsamvise")
    clean = {key: value for key, value in os.environ.items() if not key.startswith("PYTHON")}
    clean.pop("BALSAMVISE_LIBRARY", None)
    done = subprocess.run([sys.executable, command, "sample", TILE, "s.laz", "--points", "7"], cwd=tmp_path, check=True,
                          stdout=subprocess.PIPE, env=clean)
    assert done.stdout == b"s.laz: 7 points\n"
