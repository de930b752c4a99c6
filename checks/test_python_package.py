"""The Python package against files that `las` wrote, over each build of the library."""
import importlib
import io
import os
import pickle
import resource
import shutil
import struct
import subprocess
import sys

import pytest

import commands
import library_files
import needs
from library_files import LAYOUTS, V3
from programs import TOP, runs_v3

KINDS = [".las", ".laz", ".counted.laz"]
layouts = pytest.mark.parametrize("format_, extra", LAYOUTS, ids=lambda number: str(number))
kinds = pytest.mark.parametrize("kind", KINDS, ids=["plain", "fixed chunks", "counted chunks"])


@pytest.fixture(scope="module", autouse=True, params=["liblaz.so", V3], ids=["v2", "v3"])
def build(request, tmp_path_factory):
    """Loads one build of the library: the package's own variable names it."""
    needs.module("numpy", "python3-numpy")
    if request.param == V3 and not runs_v3():
        pytest.skip("this processor does not run programs for x86-64-v3")
    path = str(library_files.library(tmp_path_factory) / request.param)
    patch = pytest.MonkeyPatch()
    patch.setenv("BALSAMVISE_LIBRARY", path)
    patch.syspath_prepend(str(TOP / "python" / "src"))
    library = importlib.import_module("balsamvise.library")
    patch.setattr(library, "_library", None)
    yield path
    patch.undo()


@pytest.fixture
def balsamvise(build):
    return importlib.import_module("balsamvise")


@pytest.fixture
def np():
    return importlib.import_module("numpy")


@pytest.fixture
def files(tmp_path_factory, program):
    """The files of each layout: the path of one by its name."""
    folder = library_files.plain_files(tmp_path_factory, program)
    return lambda name: str(folder / name)


@pytest.fixture
def unpacked(program, tmp_path):
    """What `las` unpacks a file to, which it has to accept."""
    def of(path):
        commands.good([program, "laszip", "-i", path, "-o", tmp_path / "unpacked"])
        return (tmp_path / "unpacked").read_bytes()
    return of


def content(path):
    with open(path, "rb") as file:
        return file.read()


def changed(path, at, value):
    data = bytearray(content(path))
    data[at] = value
    return bytes(data)


def test_build_that_is_loaded(balsamvise, files, build):
    balsamvise.read(files("0_0.laz"))
    assert balsamvise.library._library._name == build


@layouts
@kinds
@pytest.mark.parametrize("threads", [1, 3])
def test_read(balsamvise, np, files, format_, extra, kind, threads):
    data = content(files(f"{format_}_{extra}.las"))
    wanted = np.frombuffer(data[struct.unpack_from("<I", data, 96)[0]:], balsamvise.dtype_of(format_, extra))
    points = balsamvise.read(files(f"{format_}_{extra}{kind}"), threads)
    assert len(points) == 1000
    assert points.tobytes() == wanted.tobytes()
    assert bytes(points.head) == data[:points.head.offset]


@kinds
def test_parts(balsamvise, files, kind):
    with balsamvise.open(files("3_4" + kind)) as file:
        points = file.points
        assert len(file) == 1000
        for start, stop in ((0, 0), (0, 1), (255, 257), (256, 512), (999, 1000), (5, 5000), (-3, 1000), (7, 3)):
            assert file.records(start, stop).tobytes() == points[start:stop].tobytes()


@pytest.mark.parametrize("kind, sizes", [(".las", [1000]), (".laz", [256, 256, 256, 232]),
                                         (".counted.laz", [*range(1, 45), 10])], ids=["plain", "fixed", "counted"])
def test_chunks(balsamvise, files, kind, sizes):
    with balsamvise.open(files("3_4" + kind)) as file:
        chunks = list(file.chunks())
        assert [len(chunk) for chunk in chunks] == sizes
        assert b"".join(chunk.tobytes() for chunk in chunks) == file.points.tobytes()


@pytest.fixture
def bad_chunk(balsamvise, files, tmp_path):
    """A packed file of which the second chunk holds no records."""
    data = content(files("0_0.laz"))
    with balsamvise.open(files("0_0.laz")) as file:
        at = int(file._places[1])
    assert at > struct.unpack_from("<I", data, 96)[0]
    (tmp_path / "bad.laz").write_bytes(data[:at] + bytes(60) + data[at + 60:])
    return str(tmp_path / "bad.laz")


def test_only_chunks_that_are_met_are_read(balsamvise, files, bad_chunk):
    whole = balsamvise.read(files("0_0.laz"))
    with balsamvise.open(bad_chunk) as file:
        assert file.records(0, 256).tobytes() == whole[:256].tobytes()
        assert file.records(512, 1000).tobytes() == whole[512:].tobytes()


@pytest.mark.parametrize("threads", [1, 4])
def test_bad_chunk_is_refused_with_its_number(balsamvise, bad_chunk, threads):
    with balsamvise.open(bad_chunk) as file:
        with pytest.raises(balsamvise.Refused) as caught:
            file.read(threads)
    assert (caught.value.number, caught.value.cause, caught.value.chunk) == (21, "BadChunk", 1)


def test_scaled_coordinates(balsamvise, np, files):
    data = content(files("3_4.las"))
    points = balsamvise.read(files("3_4.laz"))
    scale, offset = struct.unpack_from("<3d", data, 131), struct.unpack_from("<3d", data, 155)
    for axis, scaled in enumerate((points.x, points.y, points.z)):
        raw = [struct.unpack_from("<i", data, at + 4 * axis)[0] for at in range(points.head.offset, len(data), 38)]
        assert (scaled == np.array(raw) * scale[axis] + offset[axis]).all()


FLAGS = {
    "return_number": lambda flags, class_: flags % 8,
    "number_of_returns": lambda flags, class_: flags // 8 % 8,
    "scan_direction_flag": lambda flags, class_: flags & 64 > 0,
    "edge_of_flight_line": lambda flags, class_: flags & 128 > 0,
    "classification": lambda flags, class_: class_ % 32,
    "synthetic": lambda flags, class_: class_ & 32 > 0,
    "key_point": lambda flags, class_: class_ & 64 > 0,
    "withheld": lambda flags, class_: class_ & 128 > 0,
}


@pytest.mark.parametrize("name", FLAGS)
def test_parts_of_flags(balsamvise, np, files, name):
    data = content(files("3_4.las"))
    points = balsamvise.read(files("3_4.laz"))
    places = range(points.head.offset, len(data), 38)
    wanted = FLAGS[name](np.array([data[at + 14] for at in places]), np.array([data[at + 15] for at in places]))
    assert (getattr(points, name) == wanted).all()


def test_fields_past_the_common_ones(balsamvise, files):
    data = content(files("3_4.las"))
    points = balsamvise.read(files("3_4.laz"))
    at = points.head.offset + 7 * 38
    assert points["extra_bytes"].shape == (1000, 4)
    assert struct.pack("<d", points["gps_time"][7]) == data[at + 20:at + 28]
    assert struct.pack("<3H", *points[7].tolist()[10:13]) == data[at + 28:at + 34]


COPIES = {
    "a slice": lambda points: points[3:9],
    "a mask": lambda points: points[points["X"] > 5],
    "a copy": lambda points: points.copy(),
    "a pickle": lambda points: pickle.loads(pickle.dumps(points)),
}


@pytest.mark.parametrize("copy", COPIES)
def test_head_is_kept_by(balsamvise, files, copy):
    points = balsamvise.read(files("1_0.laz"))
    part = COPIES[copy](points)
    assert part.head == points.head
    assert len(part.x) == len(part)


def test_fields_are_plain_arrays(balsamvise, np, files):
    points = balsamvise.read(files("1_0.laz"))
    assert isinstance(points["intensity"], np.ndarray)
    assert np.shares_memory(points["intensity"], points)
    assert pickle.loads(pickle.dumps(points)).tobytes() == points.tobytes()


def test_stream_is_read_and_stays_open(balsamvise, files):
    stream = io.BytesIO(content(files("2_1.laz")))
    assert balsamvise.read(stream, 4).tobytes() == balsamvise.read(files("2_1.las")).tobytes()
    assert not stream.closed


@pytest.fixture
def answers(balsamvise, program, tmp_path):
    """The lines of the package and of `las` for a file; where both accept it, that the records are the same."""
    def of(data):
        path, output = tmp_path / "changed", tmp_path / "out"
        path.write_bytes(data)
        output.unlink(missing_ok=True)
        run = commands.quiet([program, "laszip", "-i", path, "-o", output])
        try:
            points = balsamvise.read(str(path))
        except balsamvise.Refused as refused:
            return f"refused: {refused}\n".encode(), run.stderr, refused.cause
        if run.returncode == 0 and not content(output)[104] & 128:
            assert points.tobytes() == content(output)[points.head.offset:]
        return b"", run.stderr, None
    return of


def test_answers_are_those_of_las_with_a_byte_changed_at_each_place(files, answers):
    path = files("1_4.laz")
    data = content(path)
    first = struct.unpack_from("<I", data, 96)[0]
    table = struct.unpack_from("<Q", data, first)[0]
    places = [*range(0, first + 9, 7), 24, 25, 94, 96, 104, 105, first + 3, *range(first + 9, table, 997)]
    causes = set()
    for at in [*places, table, table + 4, table + 9]:
        mine, wanted, cause = answers(changed(path, at, data[at] ^ 65))
        assert mine == wanted, f"byte {at}"
        causes.add(cause)
    assert {"Magic", "Version", "Offset", "BadChunk", "Table"} <= causes


ERRORS = {"a missing file": ("none.laz", FileNotFoundError), "a folder": (".", IsADirectoryError),
          "a device": ("/dev/zero", OSError)}


@pytest.mark.parametrize("kind", ERRORS)
def test_error_of_the_system_for(balsamvise, tmp_path, kind):
    name, error = ERRORS[kind]
    with pytest.raises(error):
        balsamvise.read(str(tmp_path / name))


def test_refusal_has_its_cause_and_can_be_pickled(balsamvise, tmp_path):
    path = tmp_path / "empty.laz"
    path.write_bytes(b"")
    with pytest.raises(balsamvise.Refused) as caught:
        balsamvise.read(str(path))
    assert caught.value.cause == "Short"
    assert str(caught.value) == f"{path}: 1 Short"
    assert str(pickle.loads(pickle.dumps(caught.value))) == str(caught.value)


@pytest.mark.parametrize("threads", [0, -1, 257])
def test_number_of_threads_that_is_refused(balsamvise, files, threads):
    with pytest.raises(ValueError):
        balsamvise.read(files("0_0.laz"), threads)


@pytest.mark.parametrize("end", ["las", "laz"])
def test_file_that_is_cut_while_it_is_open(balsamvise, files, tmp_path, end):
    path = str(tmp_path / f"cut.{end}")
    shutil.copy(files(f"0_0.{end}"), path)
    with balsamvise.open(path) as file:
        os.truncate(path, 2000)
        with pytest.raises(OSError):
            file.read()


MISSING = {"no file": ("none.so", "none.so"), "a file that is no library": ("0_0.las", "0_0.las"),
           "a folder without one": ("", "liblaz.so")}


@pytest.mark.parametrize("kind", MISSING)
def test_library_that_is_missing(files, kind):
    value, line = MISSING[kind]
    program = "import sys, balsamvise; balsamvise.read(sys.argv[1])"
    run = commands.quiet([sys.executable, "-c", program, files("0_0.laz")], env=dict(
        os.environ, BALSAMVISE_LIBRARY=files(value), PYTHONPATH=str(TOP / "python" / "src")))
    assert run.returncode == 1
    assert "LibraryMissing" in run.stderr.decode()
    assert line in run.stderr.decode()


@layouts
@pytest.mark.parametrize("end", [".las", ".laz"])
@pytest.mark.parametrize("threads", [1, 3])
def test_write(balsamvise, files, tmp_path, format_, extra, end, threads):
    name = files(f"{format_}_{extra}")
    points = balsamvise.read(name + ".laz")
    path = str(tmp_path / ("out" + end))
    balsamvise.write(path, points.head, points, chunk=256, threads=threads, bounds=False)
    assert content(path) == content(name + end)


def test_counts_and_bounds_of_what_is_written(balsamvise, files, tmp_path, unpacked):
    points = balsamvise.read(files("3_0.laz"))
    kept, path = points[::3], str(tmp_path / "kept.laz")
    balsamvise.write(path, points.head, kept, chunk=1)
    again = balsamvise.read(path)
    assert again.tobytes() == kept.tobytes()
    assert again.head.points == len(kept)
    assert again.head.returns == tuple(int((kept.return_number == n).sum()) for n in range(1, 6))
    assert again.head.mins == (kept.x.min(), kept.y.min(), kept.z.min())
    assert again.head.maxs == (kept.x.max(), kept.y.max(), kept.z.max())
    balsamvise.write(str(tmp_path / "again.laz"), again.head, again, chunk=1)
    assert content(tmp_path / "again.laz") == content(path)
    balsamvise.write(str(tmp_path / "mine.las"), points.head, kept)
    assert content(tmp_path / "mine.las") == unpacked(path)


@pytest.mark.parametrize("count", [300, 0])
@pytest.mark.parametrize("format_, extra", [(0, 0), (3, 7)])
@pytest.mark.parametrize("minor", range(5))
def test_new_head(balsamvise, np, tmp_path, unpacked, minor, format_, extra, count):
    vlr = balsamvise.Vlr(b"LASF_Projection", 34735, bytes(range(40)), b"keys")
    records = np.zeros(300, balsamvise.dtype_of(format_, extra))
    records["X"] = np.arange(300)
    records["bit_fields"] = np.arange(300) % 256
    records = records[:count]
    head = balsamvise.Head.new(format_, extra=extra, minor=minor, vlrs=[vlr], scales=(0.001, 0.01, 1),
                               offsets=(5, 6, 7))
    balsamvise.write(str(tmp_path / "new.laz"), head, records)
    (tmp_path / "new.las").write_bytes(unpacked(tmp_path / "new.laz"))
    points = balsamvise.read(str(tmp_path / "new.las"))
    assert points.tobytes() == records.tobytes()
    assert (points.head.vlrs, points.head.minor, points.head.points) == ([vlr], minor, count)
    assert sum(points.head.returns[:5]) == int(np.isin(records["bit_fields"] % 8, range(1, 6)).sum())


OTHERS = {
    "records without fields": lambda np, dtype: np.zeros(3),
    "a field too few": lambda np, dtype: np.zeros(3, [("X", "<i4")]),
    "a field too many": lambda np, dtype: np.zeros(3, np.dtype(dtype.descr + [("more", "u1")])),
}


@pytest.mark.parametrize("kind", OTHERS)
def test_array_that_is_refused(balsamvise, np, tmp_path, kind):
    with pytest.raises(ValueError):
        balsamvise.write(str(tmp_path / "a.laz"), balsamvise.Head.new(0), OTHERS[kind](np, balsamvise.dtype_of(0)))
    assert os.listdir(tmp_path) == []


@pytest.mark.parametrize("words", [{"chunk": 0}, {"chunk": 250_001}, {"threads": 0}], ids=str)
def test_write_that_is_refused(balsamvise, np, tmp_path, words):
    with pytest.raises(ValueError):
        balsamvise.write(str(tmp_path / "a.laz"), balsamvise.Head.new(0), np.zeros(3, balsamvise.dtype_of(0)), **words)
    assert os.listdir(tmp_path) == []


def test_format_that_is_refused(balsamvise):
    with pytest.raises(ValueError):
        balsamvise.Head.new(6)


@pytest.fixture
def old(tmp_path):
    """A file that stands where one is written."""
    path = tmp_path / "kept.laz"
    path.write_bytes(b"old")
    path.chmod(0o640)
    return path


def test_write_that_fails_leaves_what_was_there(balsamvise, files, old):
    points = balsamvise.read(files("0_0.laz"))
    limits = resource.getrlimit(resource.RLIMIT_FSIZE)
    resource.setrlimit(resource.RLIMIT_FSIZE, (1000, limits[1]))
    try:
        with pytest.raises(OSError):
            balsamvise.write(str(old), points.head, points)
    finally:
        resource.setrlimit(resource.RLIMIT_FSIZE, limits)
    assert (os.listdir(old.parent), old.read_bytes()) == (["kept.laz"], b"old")


@pytest.mark.parametrize("name, error", [("/dev/full", OSError), ("none/a.laz", FileNotFoundError)])
def test_write_where_nothing_can_be_written(balsamvise, files, tmp_path, name, error):
    points = balsamvise.read(files("0_0.laz"))
    with pytest.raises(error):
        balsamvise.write(os.path.join(tmp_path, name), points.head, points)


def test_write_goes_through_a_symbolic_link(balsamvise, files, old):
    points = balsamvise.read(files("0_0.laz"))
    link = old.with_name("link.laz")
    os.symlink("kept.laz", link)
    balsamvise.write(str(link), points.head, points)
    assert link.is_symlink()
    assert old.stat().st_mode & 0o777 == 0o640
    assert balsamvise.read(str(old)).tobytes() == points.tobytes()


CALLS = {
    "unpacking format 4": lambda it, np, data, records: it.unpack(4, 0, data, 3, records),
    "unpacking into an array of another length": lambda it, np, data, records: it.unpack(2, 0, data, 2, records),
    "packing records of another size": lambda it, np, data, records: it.pack(2, 1, records),
    "193 extra bytes": lambda it, np, data, records: it.payload_of(0, 193, 5),
    "chunks of no points": lambda it, np, data, records: it.payload_of(0, 0, 0),
    "records with gaps": lambda it, np, data, records: it.pack(2, 0, np.zeros(6, records.dtype)[::2]),
}


@pytest.fixture
def chunk(balsamvise, np):
    records = np.zeros(3, balsamvise.dtype_of(2))
    return balsamvise.library.pack(2, 0, records), records


def test_library_unpacks_what_it_packed(balsamvise, chunk):
    data, records = chunk
    assert balsamvise.library.unpack(2, 0, data, 3, records)
    assert not balsamvise.library.unpack(2, 0, data[:-1], 3, records)


@pytest.mark.parametrize("call", CALLS)
def test_library_refuses(balsamvise, np, chunk, call):
    with pytest.raises(ValueError):
        CALLS[call](balsamvise.library, np, *chunk)


def test_package_needs_no_compiler(build):
    """It is loaded and used by an interpreter that finds no command."""
    run = subprocess.run([sys.executable, "-c", "import balsamvise.library as it; it._calls()"], check=False,
                         stderr=subprocess.PIPE, env={"PATH": "/nowhere", "PYTHONPATH": str(TOP / "python" / "src"),
                                                      "BALSAMVISE_LIBRARY": build})
    assert run.returncode == 0, run.stderr.decode()
