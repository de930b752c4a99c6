"""Files that are read and written in streams by the Python package: the same as whole, in little memory."""
import errno
import io
import os
import subprocess
import sys

import pytest

import commands
import library_files
from measured import MOST
from programs import TOP

KINDS = [".las", ".laz", ".counted.laz"]
kinds = pytest.mark.parametrize("kind", KINDS, ids=["plain", "fixed chunks", "counted chunks"])
threads_ = pytest.mark.parametrize("threads", [1, 3])


@pytest.fixture(scope="module")
def it(tmp_path_factory):
    """The package."""
    patch = pytest.MonkeyPatch()
    patch.syspath_prepend(str(TOP / "python" / "src"))
    yield library_files.package(tmp_path_factory, patch)
    patch.undo()


@pytest.fixture(scope="module")
def np(it):
    import numpy
    return numpy


@pytest.fixture(scope="module")
def files(tmp_path_factory, program):
    return library_files.plain_files(tmp_path_factory, program)


@kinds
@threads_
@pytest.mark.parametrize("size", [1, 7, 256, 300, 999, 1000, 5000, None])
def test_parts_are_the_whole(it, files, kind, threads, size):
    name = files / f"3_4{kind}"
    whole = it.read(name)
    with it.open(name) as file:
        parts = list(file.chunks(size, threads=threads))
    assert b"".join(part.tobytes() for part in parts) == whole.tobytes()
    assert all(part.head == whole.head for part in parts)
    if size is not None:
        assert [len(part) for part in parts] == [size] * (1000 // size) + [1000 % size] * (1000 % size > 0)


@kinds
@threads_
def test_columns_of_parts(it, np, files, kind, threads):
    name = files / f"3_4{kind}"
    whole = it.read(name)
    with it.open(name) as file:
        parts = list(file.chunks(300, columns=("z", "classification", "withheld"), threads=threads))
    assert [part.dtype.names for part in parts] == [("z", "classification", "withheld")] * 4
    for name in parts[0].dtype.names:
        assert (np.concatenate([part[name] for part in parts]) == np.asarray(whole[name])).all()


@threads_
def test_records_of_a_range_by_threads(it, files, threads):
    whole = it.read(files / "3_4.laz")
    with it.open(files / "3_4.laz") as file:
        for start, stop in ((0, 1000), (100, 900), (256, 512), (255, 257), (999, 1000), (5, 5), (-10, 1000)):
            assert file.records(start, stop, threads).tobytes() == whole[start:stop].tobytes()


@threads_
def test_a_bad_chunk_comes_after_the_parts_before_it(it, files, tmp_path, threads):
    data = bytearray((files / "0_0.laz").read_bytes())
    with it.open(files / "0_0.laz") as file:
        at = int(file._places[2])
    data[at:at + 60] = bytes(60)
    (tmp_path / "bad.laz").write_bytes(data)
    seen = []
    with it.open(tmp_path / "bad.laz") as file:
        with pytest.raises(it.Refused) as caught:
            for part in file.chunks(100, threads=threads):
                seen.append(len(part))
    assert (caught.value.cause, caught.value.chunk) == ("BadChunk", 2)
    assert seen == [100] * 5


def test_iteration_that_is_left_leaves_no_thread(it, files):
    import threading
    before = threading.active_count()
    with it.open(files / "3_4.counted.laz") as file:
        for _ in file.chunks(10, threads=4):
            break
    assert threading.active_count() == before
    with pytest.raises(ValueError):
        file.chunks(0)
    with pytest.raises(ValueError):
        file.chunks(5, threads=0)


@pytest.mark.parametrize("end", [".las", ".laz"])
@threads_
@pytest.mark.parametrize("sizes", [[1000], [256, 256, 488], [1] * 1000, [0, 999, 1], [255, 1, 256, 0, 488]],
                         ids=["whole", "chunks", "single", "with none", "unequal"])
def test_a_stream_gives_the_bytes_of_las(it, files, tmp_path, end, threads, sizes):
    points = it.read(files / "3_4.las")
    seen = []
    with it.create(tmp_path / f"out{end}", points.head, chunk=256, threads=threads, bounds=False,
                   progress=lambda done, total: seen.append(done)) as out:
        at = 0
        for size in sizes:
            mine = points[at:at + size].copy()
            out.write(mine)
            mine.X = 0  # it may be changed at once
            at += size
        assert not (tmp_path / f"out{end}").exists()
    assert (tmp_path / f"out{end}").read_bytes() == (files / f"3_4{end}").read_bytes()
    assert (seen[-1], out.points, out.head.points) == (1000, 1000, 1000)
    assert os.listdir(tmp_path) == [f"out{end}"]


@pytest.mark.parametrize("threads", [1, 2, 4])
@pytest.mark.parametrize("size", [1, 2, 5, 6, 20, 40], ids=lambda size: f"{size} chunks at a time")
def test_records_are_written_as_they_were_at_the_call(it, np, tmp_path, threads, size):
    """Whether threads pack them out of the array or out of a copy: it is changed as soon as `write` returns."""
    points = it.Points.zeros(40 * 5000, it.Head.new(1))
    points.X = np.random.default_rng(3).integers(-2**31, 2**31, len(points))
    points.gps_time = np.random.default_rng(4).random(len(points))
    kept = points.copy()
    with it.create(tmp_path / "a.laz", points.head, chunk=5000, threads=threads) as out:
        for at in range(0, len(points), size * 5000):
            out.write(points[at:at + size * 5000])
            points[at:at + size * 5000] = points[:1]
    assert it.read(tmp_path / "a.laz", 4).tobytes() == kept.tobytes()
    kept.write(tmp_path / "b.laz", chunk=5000)
    assert (tmp_path / "a.laz").read_bytes() == (tmp_path / "b.laz").read_bytes()


@pytest.mark.parametrize("end", [".las", ".laz"])
@threads_
def test_no_file_if_a_write_failed(it, files, tmp_path, end, threads):
    """Also if the caller goes on: points are missing, so nothing takes the name, and closing tells."""
    points = it.read(files / "0_0.las")
    (tmp_path / f"a{end}").write_bytes(b"old")
    told = []

    def refuse(done, total):
        told.append(done)
        if len(told) == 2:
            raise OSError(errno.ENOSPC, "full")

    with pytest.raises(ValueError, match="earlier call of write failed"):
        with it.create(tmp_path / f"a{end}", points.head, chunk=100, threads=threads, progress=refuse) as out:
            with pytest.raises(OSError):
                out.write(points)
                out.write(points)
            with pytest.raises(ValueError, match="earlier call of write failed"):
                out.write(points)
    with pytest.raises(ValueError, match="earlier call of write failed"):
        out.close()
    assert os.listdir(tmp_path) == [f"a{end}"]
    assert (tmp_path / f"a{end}").read_bytes() == b"old"


@pytest.mark.parametrize("packed", [False, True])
def test_binary_streams(it, files, packed):
    points = it.read(files / "1_1.laz")
    stream = io.BytesIO()
    it.write(stream, points.head, points, packed=packed, chunk=256, bounds=False)
    assert stream.getvalue() == (files / f"1_1.la{'z' if packed else 's'}").read_bytes()
    stream.seek(0)
    assert it.read(stream, 2).tobytes() == points.tobytes()
    stream.seek(1)
    for bad in (stream, _NoSeek()):
        with pytest.raises(ValueError):
            it.write(bad, points.head, points)


class _NoSeek(io.BytesIO):
    def seekable(self):
        return False


def test_a_stream_that_ends_by_an_error_leaves_the_older_file(it, files, tmp_path):
    points = it.read(files / "0_0.las")
    (tmp_path / "a.laz").write_bytes(b"old")
    with pytest.raises(ZeroDivisionError):
        with it.create(tmp_path / "a.laz", points.head, threads=2) as out:
            out.write(points)
            out.write(points[:1 // 0])
    out = it.create(tmp_path / "a.laz", points.head)
    out.write(points)
    del out
    assert os.listdir(tmp_path) == ["a.laz"]
    assert (tmp_path / "a.laz").read_bytes() == b"old"
    with it.create(tmp_path / "a.laz", points.head) as out:
        out.write(points)
    with pytest.raises(ValueError, match="closed"):
        out.write(points)
    out.close()
    assert it.read(tmp_path / "a.laz").tobytes() == points.tobytes()


def test_points_of_other_scales_or_fields_are_refused(it, files, tmp_path):
    points = it.read(files / "1_1.las")
    with it.create(tmp_path / "a.laz", points.head) as out:
        for bad in (points.rescaled((1, 1, 1), (0, 0, 0)), it.read(files / "1_0.las"), it.read(files / "3_1.las")):
            with pytest.raises(ValueError):
                out.write(bad)
        out.write(points)
    assert it.read(tmp_path / "a.laz").tobytes() == points.tobytes()


@kinds
@threads_
@pytest.mark.parametrize("more", [0, 1, 24, 25, 300, 1000])
def test_append(it, np, files, program, tmp_path, kind, threads, more):
    path = tmp_path / f"a{kind}"
    path.write_bytes((files / f"3_4{kind}").read_bytes())
    path.chmod(0o640)
    old = it.read(path)
    with it.append(path, threads=threads) as out:
        assert out.points == 1000
        out.write(old[:more])
        assert it.read(path) is not None and len(it.read(path)) == 1000
    again = it.read(path)
    assert again.tobytes() == old.tobytes() + old[:more].tobytes()
    assert again.head.points == 1000 + more
    assert again.head.returns[:2] == tuple(int((again.return_number == number).sum()) for number in (1, 2))
    for axis, scale, low, high in zip("xyz", again.head.scales, again.head.mins, again.head.maxs):
        assert abs(low - again[axis].min()) < scale / 2 and abs(high - again[axis].max()) < scale / 2
    assert path.stat().st_mode & 0o777 == 0o640
    commands.good([program, "laszip", "-i", path, "-o", tmp_path / "b"])
    if kind == ".laz":
        with it.open(path) as file:
            assert {chunk.points for chunk in list(file.packed_chunks())[:-1]} == {256}
        with it.open(files / "3_4.laz") as file:
            first = file._places[0]
            wanted = (files / "3_4.laz").read_bytes()[first:file._places[3]]
        assert wanted in path.read_bytes()  # full chunks as they stood
    assert sorted(os.listdir(tmp_path)) == sorted([f"a{kind}", "b"])


def test_append_to_a_file_with_a_bad_chunk_leaves_it(it, files, tmp_path):
    data = bytearray((files / "0_0.laz").read_bytes())
    with it.open(files / "0_0.laz") as file:
        at = int(file._places[1])
    data[at:at + 60] = bytes(60)
    (tmp_path / "a.laz").write_bytes(data)
    with pytest.raises(it.Refused, match="BadChunk 1"):
        it.append(tmp_path / "a.laz")
    assert os.listdir(tmp_path) == ["a.laz"]
    assert (tmp_path / "a.laz").read_bytes() == data


@threads_
def test_progress(it, files, tmp_path, threads):
    for call in (lambda told: it.read(files / "3_4.laz", threads, told),
                 lambda told: list(it.open(files / "3_4.laz").chunks(300, threads=threads, progress=told)),
                 lambda told: it.read(files / "3_4.laz").write(tmp_path / "a.laz", chunk=256, progress=told)):
        seen = []
        call(lambda done, total, seen=seen: seen.append((done, total)))
        assert seen == sorted(seen)
        assert seen[-1] == (1000, 1000)
    it.read(files / "3_4.laz", progress=True)


MEMORY = MOST + """import sys, tracemalloc
sys.path.insert(0, sys.argv[1])
import balsamvise, numpy
source, target, threads = sys.argv[2], sys.argv[3], int(sys.argv[4])
head = balsamvise.Head.new(3)
if sys.argv[5] == "traced":
    tracemalloc.start()
block = balsamvise.Points.zeros(1_000_000, head)
block.X = numpy.arange(1_000_000) * 7
block.gps_time = numpy.arange(1_000_000)
with balsamvise.create(source, head, threads=threads) as out:
    for _ in range(int(sys.argv[6])):
        out.write(block)
del block
made = most()
with balsamvise.open(source) as file, balsamvise.create(target, file.head, threads=threads) as out:
    for points in file.chunks(1_000_000, threads=threads):
        points.classification[points.x > 5] = 6
        out.write(points)
print(made, most(), tracemalloc.get_traced_memory()[1] // 2**20 if tracemalloc.is_tracing() else 0)
"""


def memory(it, tmp_path, threads, traced, millions):
    """The megabytes that writing and filtering take, and those of them that tracemalloc sees."""
    line = [sys.executable, "-c", MEMORY, str(TOP / "python" / "src"), str(tmp_path / "a.laz"), str(tmp_path / "b.laz"),
            str(threads), traced, str(millions)]
    run = subprocess.run(line, stdout=subprocess.PIPE, check=True, timeout=600)
    (tmp_path / "a.laz").unlink()
    (tmp_path / "b.laz").unlink()
    return [int(number) for number in run.stdout.split()]


FAULTS = """import resource, sys
sys.path.insert(0, sys.argv[1])
import balsamvise
head = balsamvise.Head.new(3)
block = balsamvise.Points.zeros(1_000_000, head)
with balsamvise.create(sys.argv[2], head, threads=int(sys.argv[3])) as out:
    out.write(block)
    before = resource.getrusage(resource.RUSAGE_SELF).ru_minflt
    out.write(block)
    print(resource.getrusage(resource.RUSAGE_SELF).ru_minflt - before)
"""


@threads_
def test_chunks_are_packed_in_the_same_memory_again(it, tmp_path, threads):
    """Fresh memory for each chunk would take 1,700 page faults each, which is half of the time of packing."""
    line = [sys.executable, "-c", FAULTS, str(TOP / "python" / "src"), str(tmp_path / "a.laz"), str(threads)]
    run = subprocess.run(line, stdout=subprocess.PIPE, check=True)
    assert int(run.stdout) < 20 * 600


@pytest.mark.slow
def test_memory_does_not_grow_with_the_file(it, tmp_path):
    """Parts of 1,000,000 records of 34 bytes, by 4 threads: below 300 MB, for 6 parts and for 12."""
    made, filtered, traced = memory(it, tmp_path, 4, "traced", 6)
    assert traced < 200
    few, many = memory(it, tmp_path, 4, "plain", 6), memory(it, tmp_path, 4, "plain", 12)
    assert max(made, filtered, *few, *many) < 300
    assert many[1] - few[1] < 40


@pytest.mark.huge
@pytest.mark.alone
def test_a_file_of_2_gb_takes_less_than_300_mb(it, tmp_path):
    made, filtered, _ = memory(it, tmp_path, 4, "plain", 63)
    assert max(made, filtered) < 300


@pytest.mark.parametrize("end", [".las", ".laz"])
def test_head_and_count_of_a_writer_are_not_set(it, files, tmp_path, end):
    """The bytes before the points are in the file already: another head would not fit them."""
    points = it.read(files / "1_1.las")
    with it.create(tmp_path / f"a{end}", points.head) as out:
        out.write(points)
        for name, value in (("head", points.head.changed(crs=32633)), ("points", 5), ("heads", 1)):
            with pytest.raises(AttributeError, match=name):
                setattr(out, name, value)
    assert (out.points, out.head.points) == (1000, 1000)
    assert it.read(tmp_path / f"a{end}").tobytes() == points.tobytes()


def test_assignments_to_the_points_of_an_open_file_stay(it, files):
    with it.open(files / "1_1.laz") as file:
        file.points.classification[:] = 6
        assert (file.points.classification == 6).all()
        assert not (file.read().classification == 6).all()
