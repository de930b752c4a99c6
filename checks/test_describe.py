"""`describe`: what is in a file, by its head and its chunk table, and which file is refused for what."""
import importlib
import json
import os
import resource
import struct
import subprocess
import sys

import pytest

import commands
import describe_files as made
import library_files
import needs
import pages
import runs
from las_files import FILE, ONE, chunk_place
from programs import TOP

SAMPLE = TOP / "examples" / "tile.laz"
EVERY = [*made.CAUSES, "accepted"]


@pytest.fixture(scope="module")
def library(tmp_path_factory):
    needs.module("numpy", "python3-numpy")
    return str(library_files.library(tmp_path_factory) / "liblaz.so")


@pytest.fixture
def package(library, monkeypatch):
    monkeypatch.setenv("BALSAMVISE_LIBRARY", library)
    monkeypatch.syspath_prepend(str(TOP / "python" / "src"))
    return importlib.import_module("balsamvise")


@pytest.fixture
def facts(package):
    return importlib.import_module("balsamvise.facts").read_facts


def described(library, folder, *words, **options):
    """A run of the command in a folder, with both streams kept."""
    environment = {**os.environ, "BALSAMVISE_LIBRARY": library, "PYTHONPATH": str(TOP / "python" / "src"),
                   "PYTHONDONTWRITEBYTECODE": "1", **options.pop("more", {})}
    return commands.quiet([sys.executable, "-m", "balsamvise", "describe", *words],
                          env=environment, cwd=options.pop("cwd", folder), **options)


@pytest.fixture
def describe(library, tmp_path):
    return lambda *words, **options: described(library, tmp_path, *words, **options)


@pytest.fixture(scope="module")
def valid():
    """Compares what was printed with the schema."""
    jsonschema = needs.module("jsonschema", "python3-jsonschema")
    schema = json.loads((TOP / "python" / "src" / "balsamvise" / "describe.schema.json").read_text())
    jsonschema.Draft7Validator.check_schema(schema)
    validator = jsonschema.Draft7Validator(schema)
    return lambda found: [error.message[:300] for error in validator.iter_errors(found)]


def whole(*files):
    return {"balsamvise_describe": 1, "files": list(files)}


def refused(name, cause):
    number, word = cause.split()
    return {"name": name, "refused": {"number": int(number), "cause": word}}


@pytest.fixture(scope="module")
def refusals(library, tmp_path_factory):
    """What one run says of a file for each cause, and its line on standard error, by the cause."""
    folder = tmp_path_factory.mktemp("causes")
    for at, data in enumerate(made.CAUSES.values()):
        (folder / f"{at}.laz").write_bytes(data)
    run = described(library, folder, *(f"{at}.laz" for at in range(len(made.CAUSES))), "--json")
    assert run.returncode == 1
    found, lines = json.loads(run.stdout), run.stderr.decode().splitlines()
    assert found == whole(*found["files"])
    assert len(found["files"]) == len(lines) == len(made.CAUSES)
    return dict(zip(made.CAUSES, zip(found["files"], lines)))


@pytest.mark.parametrize("cause", made.CAUSES)
def test_cause(refusals, valid, place, tmp_path, cause):
    said, line = refusals[cause]
    name = f"{list(made.CAUSES).index(cause)}.laz"
    assert said == refused(name, cause)
    assert line == f"refused: {name}: {cause}"
    assert valid(whole(said)) == []
    (tmp_path / "a.laz").write_bytes(made.CAUSES[cause])
    runs.ended(place.las("lasinfo", "-i", tmp_path / "a.laz"), 5, f"refused: {tmp_path}/a.laz: {cause}\n".encode())


@pytest.mark.parametrize("cause", ["1 Short", "19 Table"])
def test_one_file_that_is_refused(describe, tmp_path, cause):
    (tmp_path / "a.laz").write_bytes(made.CAUSES[cause])
    run = describe("a.laz", "--json")
    assert (run.returncode, run.stderr) == (1, f"refused: a.laz: {cause}\n".encode())
    assert json.loads(run.stdout) == whole(refused("a.laz", cause))


def test_all_that_a_head_says(facts, tmp_path, valid):
    (tmp_path / "a.las").write_bytes(made.full())
    found = facts(tmp_path / "a.las")
    assert valid(whole(found)) == []
    name = found["crs"].pop("name")
    assert name in ("a grid of our own", "ETRS89 / UTM zone 32N")
    vlrs = [(vlr["user_id"], vlr["record_id"], vlr["name"], vlr["length"]) for vlr in found.pop("vlrs")]
    assert vlrs == [
        ("LASF_Projection", 34735, "GeoTIFF keys", 72), ("LASF_Projection", 34736, "GeoTIFF doubles", 8),
        ("LASF_Projection", 34737, "GeoTIFF text", 20), ("LASF_Spec", 4, "extra bytes", 768),
        ("LASF_Spec", 107, "waveform packet descriptor", 4), ("somebody", 9, None, 3)]
    dimensions = [tuple(one.values()) for one in found.pop("extra_dimensions")]
    assert dimensions == [("height", "uint16", 2, "told", [0.01], [100.0]), ("pair", "uint8[2]", 2, "told", None, None),
                          ("rest", "undocumented", 3, "told", None, None),
                          ("wide", "float64[3]", 24, "told", None, None)]
    assert found == {
        "name": str(tmp_path / "a.las"), "size": 375 + 6 * 54 + 72 + 8 + 20 + 768 + 4 + 3 + 5 * 63, "las": "1.4",
        "created": {"date": "2024-02-29", "year": 2024, "day": 60}, "system_identifier": "a scanner",
        "generating_software": "tool \xe9\x1b[31m", "file_source_id": 77, "global_encoding": 0,
        "project_id": "03020100-0504-0706-0809-0a0b0c0d0e0f", "header_size": 375, "offset_to_point_data": 1574,
        "point_data_format": 1, "record_length": 63, "points": 5,
        "points_by_return": [3, 1, 1] + [0] * 12, "scale": [0.01, 0.01, 0.001], "offset": [500000.0, 5000000.0, 0.0],
        "box": {"min": [500000.25, 5000100.0, -2.5], "max": [500100.5, 5000200.0, 31.5], "raw_min": [25, 10000, -2500],
                "raw_max": [10050, 20000, 31500], "within_32_bits": True, "min_below_max": True},
        "crs": {"source": "GeoTIFF keys", "epsg": 25832, "vertical_epsg": 7837, "unit": "metre", "wkt": None},
        "extra_bytes": 35, "packed": False, "chunks": None, "plain_size": 1574 + 5 * 63, "ratio": 1.0, "refused_by": []}


def test_wkt_decides_if_the_head_says_so(facts, tmp_path):
    for encoding, source, code in ((0, "GeoTIFF keys", 25832), (16, "WKT", 25833)):
        (tmp_path / "a.las").write_bytes(made.full(4, encoding, made.WKT.encode()))
        crs = facts(tmp_path / "a.las")["crs"]
        assert (crs["source"], crs["epsg"], crs["vertical_epsg"], crs["unit"]) == (source, code, 7837, "metre")
    assert crs["name"] == 'UTM 33 "north" + DHHN2016'
    assert crs["wkt"] == made.WKT


@pytest.mark.parametrize("text, found", [
    ("", None), ('PROJCS["a"', (None, None)), ("]", (None, None)), ('A["x",' * 60 + "B" + "]" * 60, (None, None)),
    ('A["x",' * 40 + "B" + "]" * 40, ("x", None)),
    ('GEOGCRS["WGS 84",ID["EPSG",4326]]', ("WGS 84", 4326)), ('PROJCS["x",AUTHORITY["EPSG","1e9"]]', ("x", None)),
    ('PROJCRS["y",BASEGEOGCRS["z",ID["EPSG",4326]],LENGTHUNIT["foot",0.3048]]', ("y", None)),
], ids=["empty", "open", "closed", "too deep", "deep", "version 2", "no code", "code of a part"])
def test_wkt(package, text, found):
    crs = importlib.import_module("balsamvise.crs_vlrs").read_crs({2112: text.encode()}, 16)
    assert (crs and (crs.name, crs.epsg)) == found


@pytest.mark.parametrize("code, epsg, name", [(0, None, "a grid of our own"), (32767, None, "a grid of our own"),
                                              (65000, 65000, "a grid of our own")])
def test_code_of_the_geotiff_keys(facts, tmp_path, code, epsg, name):
    data = bytearray(made.full())
    struct.pack_into("<H", data, data.index(struct.pack("<4H", 3072, 0, 1, 25832)) + 6, code)
    (tmp_path / "a.las").write_bytes(data)
    crs = facts(tmp_path / "a.las")["crs"]
    assert (crs["epsg"], crs["name"]) == (epsg, name)


@pytest.mark.parametrize("day, year, date", [(1, 2019, "2019-01-01"), (365, 2019, "2019-12-31"), (366, 2019, None),
                                             (366, 2020, "2020-12-31"), (0, 2020, None), (366, 9999, None),
                                             (1, 0, None), (65535, 65535, None)])
def test_day_of_creation(facts, tmp_path, day, year, date):
    data = bytearray(ONE)
    struct.pack_into("<2H", data, 90, day, year)
    (tmp_path / "a.las").write_bytes(data)
    assert facts(tmp_path / "a.las")["created"] == {"date": date, "year": year, "day": day}


@pytest.mark.parametrize("axis, scale, offset, most, fits", [
    (0, 0.01, 0.0, 21474836.47, True), (0, 0.01, 0.0, 21474836.48, False), (1, 0.01, -5.0, 21474831.47, True),
    (2, 0.0, 0.0, 1.0, False), (2, float("nan"), 0.0, 1.0, False), (1, 0.01, float("inf"), 1.0, False),
    (0, 1e-300, 0.0, 1e300, False), (2, 0.01, 0.0, float("nan"), False), (0, -0.01, 0.0, 21474836.48, True)])
def test_box_within_32_bits(facts, valid, tmp_path, axis, scale, offset, most, fits):
    data = bytearray(ONE)
    struct.pack_into("<12d", data, 131, *[0.01] * 3, *[0.0] * 3, *[1.0, 0.0] * 3)
    struct.pack_into("<d", data, 131 + 8 * axis, scale)
    struct.pack_into("<d", data, 155 + 8 * axis, offset)
    struct.pack_into("<d", data, 179 + 16 * axis, most)
    (tmp_path / "a.las").write_bytes(data)
    found = facts(tmp_path / "a.las")
    assert found["box"]["within_32_bits"] is fits
    assert valid(whole(found)) == []


PACKED_FACTS = {
    "air_12_3_small_chunks": (False, 256, 20, [136, 256], []),
    "counted_12_1": (True, None, None, None, ["the chunks have a number of points each"]),
    "pointer_at_the_end_12_1": (False, 1000, 6, [1000, 1000],
                                ["the place of the chunk table is at the end of the file"]),
}


@pytest.mark.parametrize("name", PACKED_FACTS)
def test_chunks(facts, valid, name):
    found = facts(made.EXCHANGE / f"{name}.laz")
    counted, size, number, points, reasons = PACKED_FACTS[name]
    chunks = found["chunks"]
    assert (chunks["counted"], chunks["size"]) == (counted, size)
    assert number is None or (chunks["number"], chunks["points"]) == (number, points)
    assert [one["reason"] for one in found["refused_by"]] == reasons
    data = (made.EXCHANGE / f"{name}.laz").read_bytes()
    table = data[-8:] if reasons and not counted else data[found["offset_to_point_data"]:][:8]
    total = struct.unpack("<Q", table)[0] - found["offset_to_point_data"] - 8
    least, greatest = chunks["bytes"]
    assert least * chunks["number"] <= total <= greatest * chunks["number"]
    assert valid(whole(found)) == []


def test_numbers_are_those_of_lasinfo(facts, place):
    for path in sorted(made.EXCHANGE.glob("*.laz")):
        found = facts(path)
        said = place.las("lasinfo", "-i", path).stdout.decode().splitlines()
        lines = dict(line.split(" ", 1) for line in reversed(said))
        chunk = found["chunks"]
        assert {key: lines[key] for key in ("version", "header", "offset", "vlrs", "format", "length", "points")} == {
            "version": found["las"], "header": str(found["header_size"]), "offset": str(found["offset_to_point_data"]),
            "vlrs": str(len(found["vlrs"])), "format": str(found["point_data_format"]),
            "length": str(found["record_length"]), "points": str(found["points"])}
        assert lines["packed"] == f"{2**32 - 1 if chunk['counted'] else chunk['size']} {chunk['number']}"
        place.las("laszip", "-i", path, "-o", "plain.las")
        assert place.path("plain.las").stat().st_size == found["plain_size"]


def test_no_point_is_read(facts, tmp_path, monkeypatch):
    sources = importlib.import_module("balsamvise.sources").PathSource
    reads, read = [], sources.read

    def noted(self, at, length):
        reads.append((at, at + length))
        return read(self, at, length)

    monkeypatch.setattr(sources, "read", noted)
    data = SAMPLE.read_bytes()
    start, end = chunk_place(data)
    wanted = facts(SAMPLE)
    assert reads
    assert [one for one in reads if one[1] > start and one[0] < end] == []
    (tmp_path / "tile.laz").write_bytes(data[:start] + bytes(end - start) + data[end:])
    assert facts(tmp_path / "tile.laz") == {**wanted, "name": str(tmp_path / "tile.laz")}
    (tmp_path / "a.las").write_bytes(FILE)
    reads.clear()
    facts(tmp_path / "a.las")
    assert max(end for _, end in reads) == 227


def cause_by_opening(package, path):
    """Why the package, which reads points too, refuses to open a file."""
    try:
        package.open(path).close()
    except package.Refused as error:
        return error.cause
    return None


@pytest.mark.slow(seconds=4)
def test_spoilt_heads(package, describe, valid, tmp_path):
    paths = made.spoilt(tmp_path, 2000)
    run = describe(".", "--json")
    assert (run.returncode, b"Traceback" in run.stderr) == (1, False)
    found = json.loads(run.stdout)
    assert valid(found) == []
    assert [one["name"] for one in found["files"]] == [f"./{path.name}" for path in paths]
    causes = {one["refused"]["cause"] for one in found["files"] if "refused" in one}
    assert len(causes) > 15
    assert sum("refused" not in one for one in found["files"]) > 200
    lines = run.stderr.decode().splitlines()
    assert lines == [f"refused: {one['name']}: {one['refused']['number']} {one['refused']['cause']}"
                     for one in found["files"] if "refused" in one]
    assert [one["refused"]["cause"] if "refused" in one else None for one in found["files"]] == [
        cause_by_opening(package, path) for path in paths]
    tables, footprints = (importlib.import_module(f"balsamvise.{name}") for name in ("tables", "footprints"))
    assert len(list(tables.table_of(found["files"]))) == 2002
    for one in found["files"]:
        if "refused" not in one:
            assert "\x1b" not in tables.text_of_facts(one)
            json.dumps(footprints.feature(one, True), allow_nan=False)
            json.dumps(footprints.feature(one, False), allow_nan=False)


def test_text_of_one_file(describe):
    run = describe("tile.laz", cwd=TOP / "examples")
    assert (run.returncode, run.stderr) == (0, b"")
    lines = run.stdout.decode().splitlines()
    assert lines[0] == "tile.laz"
    for line in ["  LAS         1.2, a head of 227 bytes, point data from 421 on",
                 "  points      20493 of format 1, 28 bytes each", "  by return   16776 1928 1330 459 0",
                 "  z           214.94 to 234.45, raw 21494 to 23445",
                 "  chunks      1 of 50000 points: 20493 to 20493 points, 79717 to 79717 bytes"]:
        assert line in lines
    assert [line for line in lines if line.startswith("  CRS         EPSG 25832") and "metre, by GeoTIFF keys" in line]


def test_table_of_many(describe, tmp_path):
    (tmp_path / "tiles" / "b").mkdir(parents=True)
    (tmp_path / "tiles" / "b" / "C.LAZ").write_bytes(SAMPLE.read_bytes())
    (tmp_path / "tiles" / "a.las").write_bytes(made.CAUSES["10 Trailing"])
    (tmp_path / "tiles" / "notes.txt").write_bytes(b"no tile")
    os.mkfifo(tmp_path / "tiles" / "fifo.las")
    (tmp_path / "list").write_bytes(b"none.las\ntiles\n")
    run = describe("--list", "list", "tiles/a.las")
    assert run.returncode == 1
    assert run.stderr.decode().splitlines() == [
        "refused: tiles/a.las: 10 Trailing", "read fault: none.las: No such file or directory",
        "refused: tiles/a.las: 10 Trailing", "read fault: tiles/fifo.las: not a regular file"]
    heads, *rows, last = run.stdout.decode().splitlines()
    assert heads.split() == ["file", "LAS", "format", "points", "ratio", "created", "CRS", "x", "y", "z"]
    assert [row.split()[0] for row in rows] == [
        "tiles/a.las", "none.las", "tiles/a.las", "tiles/fifo.las", "tiles/b/C.LAZ"]
    assert rows[0].split(None, 1)[1] == "refused: 10 Trailing"
    assert rows[4].split()[1:] == ["1.2", "1", "20493", "7.162", "2026-07-17", "25832", "512300.29..512409.99",
                                   "5403400.00..5403490.00", "214.94..234.45"]
    assert last == "1 described, 4 not"


def test_names_that_are_no_text(describe, tmp_path, valid):
    name = os.fsencode(tmp_path) + b"/\xff \x1b[31m.las"
    with open(name, "wb") as file:
        file.write(FILE[:280])
    run = describe("--list", "-", "--json", input=name + b"\0", stdin=None)
    assert run.returncode == 1
    assert run.stderr == b"refused: " + name.replace(b"\xff", "�".encode()).replace(b"\x1b", b"?") + b": 9 Count\n"
    found = json.loads(run.stdout)
    assert os.fsencode(found["files"][0]["name"]) == name
    assert valid(found) == []


@pytest.mark.parametrize("words", [[], ["--json"], ["a.las", "--native-crs"], ["a.las", "--json", "--geojson"],
                                   ["a.las", "--gejson"]])
def test_wrong_words(describe, words):
    run = describe(*words)
    assert (run.returncode, run.stdout, run.stderr.startswith(b"usage: balsamvise describe")) == (2, b"", True)


def test_missing_library_and_closed_output(describe, tmp_path):
    run = describe(SAMPLE, more={"BALSAMVISE_LIBRARY": str(tmp_path / "none.so")})
    assert (run.returncode, run.stdout, b"liblaz.so of balsamvise was not found" in run.stderr) == (3, b"", True)
    with open("/dev/full", "wb") as full:
        run = describe(SAMPLE, stdout=full)
    assert (run.returncode, run.stderr) == (4, b"write fault: No space left on device\n")


class TestFootprints:
    """The boxes as GeoJSON."""

    @pytest.fixture(autouse=True)
    def pyproj(self):
        return needs.module("pyproj", "python3-pyproj")

    def collection(self, run, status=0):
        assert run.returncode == status, run.stderr
        found = json.loads(run.stdout)
        assert found["type"] == "FeatureCollection"
        return found

    def test_sample_lies_where_it_says(self, describe):
        found = self.collection(describe(SAMPLE, "--geojson"))
        assert "crs" not in found
        feature, = found["features"]
        assert (feature["properties"]["epsg"], feature["properties"]["points"]) == (25832, 20493)
        ring, = feature["geometry"]["coordinates"]
        assert ring[0] == ring[-1]
        assert all(9.16 < x < 9.18 and 48.78 < y < 48.79 for x, y in ring)
        assert sum(a * d - c * b for (a, b), (c, d) in zip(ring, ring[1:])) > 0

    def test_box_on_both_sides_of_the_antimeridian(self, describe, tmp_path):
        data = bytearray(made.full(2))
        struct.pack_into("<6d", data, 179, 900000, 700000, 7900000, 7800000, 1, 0)
        key = data.index(struct.pack("<4H", 3072, 0, 1, 25832))
        struct.pack_into("<H", data, key + 6, 32701)
        (tmp_path / "a.las").write_bytes(data)
        geometry = self.collection(describe("a.las", "--geojson"))["features"][0]["geometry"]
        assert geometry["type"] == "Polygon"  # of zone 1, east of it
        struct.pack_into("<H", data, key + 6, 32760)
        (tmp_path / "a.las").write_bytes(data)
        geometry = self.collection(describe("a.las", "--geojson"))["features"][0]["geometry"]
        assert geometry["type"] == "MultiPolygon"
        (west,), (east,) = geometry["coordinates"]
        assert {x for x, _ in west if x >= 180} == {180.0} and min(x for x, _ in west) > 178
        assert {x for x, _ in east if x <= -180} == {-180.0} and max(x for x, _ in east) < -178
        assert [ring[0] == ring[-1] for ring in (west, east)] == [True, True]

    def test_files_without_a_footprint_are_named(self, describe, tmp_path):
        (tmp_path / "a.las").write_bytes(FILE)
        (tmp_path / "b.las").write_bytes(made.CAUSES["9 Count"])
        run = describe("a.las", "b.las", SAMPLE, "--geojson")
        found = self.collection(run, 1)
        assert [feature["geometry"] is None for feature in found["features"]] == [True, True, False]
        assert run.stderr.decode().splitlines() == [
            "refused: b.las: 9 Count", "no footprint: a.las: the head names no coordinate reference system"]

    def test_native_system(self, describe, tmp_path):
        found = self.collection(describe(SAMPLE, "--geojson", "--native-crs"))
        assert found["crs"] == {"type": "name", "properties": {"name": "urn:ogc:def:crs:EPSG::25832"}}
        assert found["features"][0]["geometry"]["coordinates"] == [
            [[512300.29, 5403400.0], [512409.99, 5403400.0], [512409.99, 5403490.0], [512300.29, 5403490.0],
             [512300.29, 5403400.0]]]
        (tmp_path / "a.las").write_bytes(made.full(4, 16, made.WKT.encode()))
        run = describe(SAMPLE, "a.las", "--geojson", "--native-crs")
        assert (run.returncode, run.stdout, b"EPSG 25832, 25833" in run.stderr) == (2, b"", True)

    def test_without_pyproj(self, describe, tmp_path):
        (tmp_path / "hidden").mkdir()
        (tmp_path / "hidden" / "pyproj.py").write_text("raise ImportError\n")
        more = {"PYTHONPATH": f"{tmp_path}/hidden:{TOP}/python/src"}
        run = describe(SAMPLE, "--geojson", more=more)
        assert (run.returncode, run.stdout, b"needs pyproj" in run.stderr) == (3, b"", True)
        assert b"  CRS         EPSG 25832, in units of metre" in describe(SAMPLE, more=more).stdout
        assert self.collection(describe(SAMPLE, "--geojson", "--native-crs", more=more))["crs"]


@pytest.mark.parametrize("step", [step for step in pages.steps_of("docs/describe.md") if step.printed],
                         ids=lambda step: step.name)
def test_page(library, step):
    needs.module("pyproj", "python3-pyproj")
    environment = dict(os.environ, PATH=f"/usr/bin:{os.environ['PATH']}", BALSAMVISE_LIBRARY=library,
                       PYTHONPATH=str(TOP / "python" / "src"), PYTHONDONTWRITEBYTECODE="1")
    run = commands.quiet(["bash", "-ec", step.commands], cwd=TOP, env=environment, stderr=subprocess.STDOUT)
    assert (run.returncode, run.stdout.decode()) == (0, step.printed)


def test_thousand_tiles_at_200_a_second(describe, tmp_path):
    """In seconds of one processor, so that it does not matter what else the machine does."""
    for number in range(1000):
        (tmp_path / f"{number}.laz").write_bytes(SAMPLE.read_bytes())
    before = resource.getrusage(resource.RUSAGE_CHILDREN)
    run = describe(".")
    after = resource.getrusage(resource.RUSAGE_CHILDREN)
    assert (run.returncode, run.stdout.splitlines()[-1]) == (0, b"1000 described, 0 not")
    took = after.ru_utime - before.ru_utime + after.ru_stime - before.ru_stime
    assert 0 < took < 5, f"{1000 / took:.0f} files a second"
