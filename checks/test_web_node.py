"""The WebAssembly module and web/laz.mjs in Node: the answers and the bytes of liblaz.so and of `las`."""
import hashlib
import random
import re
import shutil
import struct
from pathlib import Path

import pytest

import commands
import library_files
import runs_of_coder
import web
from las_files import FILE, head, packed_one
from library_files import LAYOUTS, damaged
from programs import TOP

SAMPLE = TOP / "examples" / "tile.laz"


def digest(data: bytes) -> str:
    return hashlib.sha256(data).hexdigest()


@pytest.fixture(scope="module")
def files(tmp_path_factory, program):
    return library_files.plain_files(tmp_path_factory, program)


@pytest.fixture(scope="module")
def check(tmp_path_factory):
    return library_files.c_program(tmp_path_factory)


def answers_of(check: Path, names: list[Path]) -> list[str]:
    """What the library for C answers for each file, as Node is to: a digest, or a cause."""
    said = commands.good([check, "all"], stdin=None, input="".join(f"{name}\n" for name in names).encode(), timeout=600)
    answers = []
    for name, line in zip(names, said.splitlines()):
        number, *chunk = line.split()
        if number == "plain":
            answers.append(digest(name.read_bytes()))
        elif number == "0":
            answers.append(digest(name.with_name(name.name + ".out").read_bytes()))
        else:
            answers.append(" ".join([number, runs_of_coder.CAUSES[int(number) - 1], *chunk]))
    assert len(answers) == len(names)
    return answers


def test_whole_files_of_each_layout(files, check):
    names = [files / f"{format_}_{extra}{kind}.laz" for format_, extra in LAYOUTS for kind in ("", ".counted")]
    plain = [digest((files / f"{format_}_{extra}.las").read_bytes()) for format_, extra in LAYOUTS for _ in range(2)]
    assert web.answer("unpackAll", [str(name) for name in names]) == plain
    assert answers_of(check, names) == plain


@pytest.mark.slow(seconds=10)
def test_chunks_of_1_256_and_50000_points_are_packed_as_by_the_library(files, check, tmp_path):
    rows, wanted = [], []
    for format_, extra in LAYOUTS[::5]:
        for size in (1, 256, 50_000):
            plain = files / f"{format_}_{extra}.las"
            commands.good([check, "pack", plain, tmp_path / "p.laz", str(size)])
            rows.append([str(plain), size])
            wanted.append(digest((tmp_path / "p.laz").read_bytes()))
    assert len(set(wanted)) == len(wanted)
    assert web.answer("packAll", rows) == wanted
    assert web.answer("packAll", rows, {"workers": 3}) == wanted


def test_files_of_other_spellings():
    folder = TOP / "examples" / "exchange"
    lines = [line.split("  ") for line in (folder / "plain.sha256").read_text().splitlines()]
    names = [str(folder / name.replace(".las", ".laz")) for _, name in lines]
    assert len(names) > 20
    assert web.answer("unpackAll", names) == [sum_ for sum_, _ in lines]


@pytest.mark.slow(seconds=8)
def test_damaged_files_are_refused_for_the_cause_of_the_library(files, check, tmp_path):
    choose, names = random.Random(11), []
    for number in range(250):
        format_, extra = choose.choice(LAYOUTS)
        data = (files / f"{format_}_{extra}{choose.choice(['', '.counted'])}.laz").read_bytes()
        names.append(tmp_path / f"{number}.laz")
        names[-1].write_bytes(damaged(data, choose))
    wanted = answers_of(check, names)
    assert web.answer("unpackAll", [str(name) for name in names]) == wanted
    causes = {answer.split()[1] for answer in wanted if " " in answer}
    assert {"BadChunk", "Table", "TablePointer"} <= causes, causes


@pytest.mark.slow(seconds=3)
def test_3400_chunks_are_answered_as_by_the_shared_library(tmp_path_factory):
    library = runs_of_coder.shared_library(library_files.library(tmp_path_factory) / "liblaz.so")
    cases, wanted = runs_of_coder.cases(library, 3400)
    assert sum(answer == [2, ""] for answer in wanted) >= 2000  # spoilt ones that are refused
    assert sum(answer[0] == 0 for answer in wanted) >= 500
    assert web.answer("replay", cases) == wanted


def test_each_growth_of_memory_refused_in_turn_is_named(files):
    name = files / "3_4.laz"
    rows = web.answer("limits", [str(name)])
    assert len(rows) > 3
    plain = digest((files / "3_4.las").read_bytes())
    for _, unpacking, packing in rows:
        assert unpacking in (plain, "OutOfMemory: out of memory")
        assert packing in (digest(name.read_bytes()), "OutOfMemory: out of memory")
    assert rows[0][1:] == ["OutOfMemory: out of memory"] * 2
    assert rows[-1][1:] == [plain, digest(name.read_bytes())]


def test_instance_after_too_little_memory_and_after_a_trap(files):
    offset = struct.unpack_from("<I", (files / "0_0.laz").read_bytes(), 96)[0]
    assert web.answer("afterwards", [str(files / "0_0.laz")]) == {
        "refused": "OutOfMemory", "then": offset, "full": ["OutOfMemory"] * 7, "trapped": "Stopped",
        "closed": "Stopped"}


def test_only_the_chunks_of_a_range_are_read(files):
    name = files / "1_0.laz"
    said = web.answer("slices", [str(name), 250, 520])
    offset, = struct.unpack_from("<I", name.read_bytes(), 96)
    first, table = offset + 8, struct.unpack_from("<Q", name.read_bytes(), offset)[0]
    assert said["opening"][:3] == [[0, 227], [0, offset], [offset, offset + 8]]
    assert [part[0] for part in said["opening"][3:]] == [table, table]
    assert max(to for _, to in said["opening"]) <= table + 12 + 24 * 4
    assert said["chunks"] == 4
    assert [row[:2] for row in said["found"]] == [[0, 6], [1, 256], [2, 8]]
    assert [place["from"] for place in said["places"]] == [0, 256, 512]
    assert said["reading"][0][0] == first
    assert [to - from_ for from_, to in said["reading"]] == [place["bytes"] for place in said["places"]]


@pytest.mark.parametrize("workers", [0, 4])
def test_fields_are_those_of_python(tmp_path_factory, monkeypatch, workers):
    balsamvise = library_files.package(tmp_path_factory, monkeypatch)
    for name in ("counted_12_3.laz", "air_14_1.laz"):
        path = TOP / "examples" / "exchange" / name
        said, points = web.answer("fields", [str(path), workers]), balsamvise.read(str(path))
        assert said["points"] == len(points) > 0
        assert said["numbers"] == list(range(len(said["numbers"])))
        own = {"X": points["X"], "Y": points["Y"], "Z": points["Z"], "x": points.x, "y": points.y, "z": points.z,
               "intensity": points["intensity"], "returnNumber": points.return_number,
               "numberOfReturns": points.number_of_returns, "scanDirectionFlag": points.scan_direction_flag,
               "edgeOfFlightLine": points.edge_of_flight_line, "classification": points.classification,
               "classFlags": points["raw_classification"] >> 5, "scanAngleRank": points["scan_angle_rank"],
               "userData": points["user_data"], "pointSourceId": points["point_source_id"],
               "gpsTime": points["gps_time"]}
        if points.head.format == 3:
            own.update((field, points[field]) for field in ("red", "green", "blue"))
        assert said["lists"].keys() == own.keys()
        for field, values in own.items():
            assert said["lists"][field] == values.tolist(), field
        assert said["scale"] == list(points.head.scales)
        assert said["offset"] == list(points.head.offsets)
        assert said["box"] == {"min": list(points.head.mins), "max": list(points.head.maxs)}
        assert said["vlrs"] == [[vlr.user_id.decode(), vlr.record_id, vlr.description.decode(), vlr.payload.hex()]
                                for vlr in points.head.vlrs]


def test_texts_of_the_coordinate_reference_system(tmp_path):
    assert web.answer("fields", [str(SAMPLE), 0])["crs"] == ["EPSG:25832 (projected)"]
    wkt = b'PROJCS["a plane"]\0'
    vlr = struct.pack("<H16sHH32s", 0, b"LASF_Projection", 2112, len(wkt), b"") + wkt
    data = bytearray(head(0, (0, 0, 0, 0, 0)))
    struct.pack_into("<II", data, 96, 227 + len(vlr), 1)
    (tmp_path / "w.las").write_bytes(bytes(data) + vlr)
    assert web.answer("fields", [str(tmp_path / "w.las"), 0])["crs"] == ['PROJCS["a plane"]']


def test_names_and_what_is_no_use(files):
    said = web.answer("misuse", [str(files / "0_0.laz"), str(files / "0_0.las")])
    assert said["names"] == {
        "pack a packed file": "TypeError", "chunk size 0": "RangeError", "chunk size 250001": "RangeError",
        "a text": "TypeError", "nothing": "TypeError", "65 workers": "RangeError",
        "a record before the first": "RangeError", "a file that was cut": "ReadFault",
        "a file that is gone": "ReadFault", "a module that is none": "CompileError", "a Blob": "done",
        "records after the last": "done",
        "a closed file": "Stopped"}
    assert said["faults"] == list(runs_of_coder.CAUSES)
    assert said["data"] == {"name": "Refused", "message": "21 BadChunk 3", "number": 21, "chunk": 3}
    types = (TOP / "web" / "laz.d.mts").read_text()
    declared = re.findall(r"^export (?:const|class|function) (\w+)", types, re.MULTILINE)
    assert sorted(declared) == said["exports"]


def test_causes_are_those_of_c():
    causes = (TOP / "c" / "las.h").read_text().partition("enum laz_refusal {")[2].partition("\n};")[0]
    named = dict(re.findall(r"LAZ_([A-Z_]+) = (\d+),?\s*/\*", causes))
    spelled = {number: name.title().replace("_", "") for name, number in named.items()}
    for number, name in spelled.items():
        if name not in ("Done", "Bad"):
            assert runs_of_coder.CAUSES[int(number) - 1].lower() == name.lower(), name
    assert len(spelled) > 20


def patched(data: bytes, *patches: tuple[str, int, int]) -> bytes:
    copy = bytearray(data)
    for form, at, value in patches:
        struct.pack_into(form, copy, at, value)
    return bytes(copy)


ONE = packed_one()
LAS_14 = patched(FILE[:227], ("<B", 25, 4), ("<H", 94, 375), ("<I", 96, 375)) + bytes(148) + FILE[227:]
WRONG = {
    "an empty file": (b"", "1 Short"),
    "a text": (b"a text, and no LAZ file\n" * 20, "2 Magic"),
    "a PNG": ((TOP / "examples" / "tile.png").read_bytes(), "2 Magic"),
    "format 6": (patched(ONE, ("<B", 104, 0x86)), "7 Format"),
    "LAS 1.4 with extended VLRs": (patched(LAS_14, ("<I", 243, 1)), "25 Extended"),
    "2^32 - 1 points claimed": (patched(ONE, ("<I", 107, 2**32 - 1)), "19 Table"),
    "2^32 - 1 points claimed in chunks of 1": (
        patched(ONE, ("<I", 107, 2**32 - 1), ("<I", 227 + 54 + 12, 1)), "17 TooManyChunks"),
    "2^24 chunks claimed": (patched(ONE, ("<I", 107, 2**24), ("<I", 227 + 54 + 12, 1)), "19 Table"),
    "a table that claims 2^24 chunks": (patched(ONE, ("<I", 107, 2**24), ("<I", 227 + 54 + 12, 1),
                                                ("<I", 357, 2**24)), "19 Table"),
    "a file that was cut": (ONE[:-9], "19 Table"),
    "a place of the table past the end": (patched(ONE, ("<Q", 321, 2**63)), "18 TablePointer"),
    "a spoilt chunk": (patched(ONE, ("<I", 349, 0xFFFFFFFF)), "21 BadChunk 0"),
}


@pytest.mark.parametrize("name", WRONG)
def test_bad_input_is_refused_for_its_cause_in_little_memory(name, tmp_path, check):
    data, cause = WRONG[name]
    (tmp_path / "w.laz").write_bytes(data)
    assert web.answer("unpackAll", [str(tmp_path / "w.laz")], timeout=60) == [cause]
    if data:
        assert answers_of(check, [tmp_path / "w.laz"]) == [cause]


def test_page_is_what_its_script_makes():
    commands.good([TOP / "web" / "make", "--check"])


def test_page_that_was_changed_is_found(tmp_path):
    for name in ("web", "help", "release", "examples"):
        shutil.copytree(TOP / name, tmp_path / name, ignore=shutil.ignore_patterns("out", "exchange"))
    for name in ("web/viewer.html", "web/page/style.css", "release/laz.wasm.gz", "help/causes"):
        data = (tmp_path / name).read_bytes()
        (tmp_path / name).write_bytes(data + b"\n\nmore")
        assert commands.quiet([tmp_path / "web" / "make", "--check"]).returncode == 1, name
        (tmp_path / name).write_bytes(data)
    commands.good([tmp_path / "web" / "make", "--check"])


def test_no_points(tmp_path, place):
    place.write("a.las", head(0, (0, 0, 0, 0, 0)))
    commands.good([place.program, "laszip", "-i", place.path("a.las"), "-o", place.path("a.laz")])
    assert web.answer("packAll", [[str(place.path("a.las")), 50_000]]) == [digest(place.read("a.laz"))]
    assert web.answer("unpackAll", [str(place.path("a.laz"))]) == [digest(place.read("a.las"))]
