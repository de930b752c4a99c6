"""Properties of the Python package over random records, by hypothesis: fields both ways, and streams as whole files.

Each run tries the same examples. `HYPOTHESIS_EXAMPLES=5000` tries more of them.
"""
import io
import os
import struct

import pytest

import library_files
import needs
from programs import TOP

EXAMPLES = int(os.environ.get("HYPOTHESIS_EXAMPLES", "100"))
# each field of the first 20 bytes: its place, its code for struct, the lowest bit and the number of bits
FIELDS = {
    "X": (0, "<i", 0, 32), "Y": (4, "<i", 0, 32), "Z": (8, "<i", 0, 32), "intensity": (12, "<H", 0, 16),
    "return_number": (14, "B", 0, 3), "number_of_returns": (14, "B", 3, 3), "scan_direction_flag": (14, "B", 6, 1),
    "edge_of_flight_line": (14, "B", 7, 1), "bit_fields": (14, "B", 0, 8), "raw_classification": (15, "B", 0, 8),
    "classification": (15, "B", 0, 5), "synthetic": (15, "B", 5, 1), "key_point": (15, "B", 6, 1),
    "withheld": (15, "B", 7, 1), "scan_angle_rank": (16, "b", 0, 8), "user_data": (17, "B", 0, 8),
    "point_source_id": (18, "<H", 0, 16)}
SIZES = (20, 28, 26, 34)


def fields_of(format_):
    """The fields of a point data format."""
    time = {"gps_time": (20, "<d", 0, 64)} if format_ % 2 else {}
    colour = {name: (28 - 8 * (format_ == 2) + 2 * at, "<H", 0, 16) for at, name in enumerate(("red", "green", "blue"))}
    return {**FIELDS, **time, **(colour if format_ >= 2 else {})}


@pytest.fixture(scope="module")
def it(tmp_path_factory):
    """The package."""
    patch = pytest.MonkeyPatch()
    patch.syspath_prepend(str(TOP / "python" / "src"))
    yield library_files.package(tmp_path_factory, patch)
    patch.undo()


@pytest.fixture(scope="module")
def np(it):
    import numpy
    return numpy


@pytest.fixture(scope="module")
def holds():
    """Tries a property on examples: the same in each run, and as well on a machine that is slow to make them."""
    hypothesis = needs.module("hypothesis", "python3-hypothesis")

    def over(**strategies):
        settings = hypothesis.settings(derandomize=True, deadline=None, max_examples=EXAMPLES, database=None,
                                       suppress_health_check=[hypothesis.HealthCheck.too_slow])
        return lambda check: settings(hypothesis.given(**strategies)(check))()
    return over


@pytest.fixture(scope="module")
def any_of():
    """The strategies of hypothesis."""
    needs.module("hypothesis", "python3-hypothesis")
    from hypothesis import strategies
    return strategies


@pytest.fixture(scope="module")
def records(any_of):
    """Point records: their format, the number of extra bytes, and their bytes."""
    def of(case):
        (format_, extra), count = case
        size = count * (SIZES[format_] + extra)
        return any_of.tuples(any_of.just(format_), any_of.just(extra), any_of.binary(min_size=size, max_size=size))
    layouts = any_of.tuples(any_of.integers(0, 3), any_of.integers(0, 5))
    return any_of.tuples(layouts, any_of.integers(0, 25)).flatmap(of)


def points_of(it, np, case):
    format_, extra, data = case
    head = it.Head.new(format_, extra=extra, scales=(.01, .25, .001), offsets=(5e5, -1e6, 0))
    return it.Points(np.frombuffer(bytearray(data), it.dtype_of(format_, extra)), head)


def number_in(data, place, field):
    """The number of a field of the record at a place, by struct alone."""
    at, code, shift, bits = field
    (number,) = struct.unpack_from(code, data, place + at)
    return number if bits >= 8 else number >> shift & 2**bits - 1


def limits(field):
    _, code, _, bits = field
    return (-2**(bits - 1), 2**(bits - 1) - 1) if code[-1] in "ib" else (0, 2**bits - 1)


def same_number(one, other):
    return struct.pack("<d", one) == struct.pack("<d", other)


def test_each_field_is_read_as_its_bytes_say(it, np, holds, records):
    @holds(case=records)
    def check(case):
        format_, extra, data = case
        points, size = points_of(it, np, case), SIZES[format_] + extra
        for name, field in fields_of(format_).items():
            wanted = [number_in(data, place, field) for place in range(0, len(data), size)]
            for found in (getattr(points, name), points[name]):
                assert len(found) == len(wanted)
                assert all(map(same_number, np.asarray(found), wanted)), name
        if extra:
            assert np.asarray(points.extra_bytes).tobytes() == b"".join(
                data[place + SIZES[format_]:place + size] for place in range(0, len(data), size))


def test_values_that_are_assigned_stand_in_the_bytes_and_no_other_byte_changes(it, np, holds, records, any_of):
    @holds(case=records, more=any_of.data())
    def check(case, more):
        format_, extra, data = case
        points, size = points_of(it, np, case), SIZES[format_] + extra
        fields = fields_of(format_)
        name = more.draw(any_of.sampled_from(sorted(fields)))
        field = fields[name]
        low, high = limits(field)
        value = any_of.floats(width=64) if name == "gps_time" else any_of.integers(low, high)
        start = more.draw(any_of.integers(0, len(points)))
        stop = more.draw(any_of.integers(start, len(points)))
        values = more.draw(any_of.lists(value, min_size=stop - start, max_size=stop - start))
        if more.draw(any_of.booleans()):
            getattr(points, name)[start:stop] = values
        else:
            mask = np.zeros(len(points), bool)
            mask[start:stop] = True
            points[name][mask] = values
        wanted = bytearray(data)
        for place, number in zip(range(start * size, stop * size, size), values):
            at, code, shift, bits = field
            if bits < 8:
                number = wanted[place + at] & ~((2**bits - 1) << shift) | number << shift
            struct.pack_into(code, wanted, place + at, number)
        assert points.tobytes() == bytes(wanted)


def test_a_value_out_of_range_raises_with_its_index_and_changes_nothing(it, np, holds, records, any_of):
    @holds(case=records, more=any_of.data())
    def check(case, more):
        points = points_of(it, np, case)
        if len(points) == 0:
            return
        fields = {name: field for name, field in fields_of(case[0]).items() if name != "gps_time"}
        name = more.draw(any_of.sampled_from(sorted(fields)))
        low, high = limits(fields[name])
        values = np.full(len(points), low, np.int64)
        at = more.draw(any_of.integers(0, len(points) - 1))
        values[at] = more.draw(any_of.one_of(any_of.integers(-2**62, low - 1), any_of.integers(high + 1, 2**62)))
        with pytest.raises(OverflowError, match=f" at index {at} "):
            points[name] = values
        assert points.tobytes() == case[2]


def test_coordinates_are_rounded_to_the_nearest_number(it, np, holds, any_of):
    number = any_of.integers(-2**31, 2**31 - 1)

    @holds(raw=any_of.lists(number, min_size=1, max_size=8), part=any_of.floats(-.4, .4),
           scale=any_of.sampled_from([1e-4, .001, .01, .25, 1, 3]), offset=any_of.floats(-1e6, 1e6))
    def check(raw, part, scale, offset):
        points = it.Points.zeros(len(raw), it.Head.new(1, scales=(scale, 1, 1), offsets=(offset, 0, 0)))
        points.x = (np.array(raw) + part * (np.abs(raw) < 2**31 - 1)) * scale + offset
        assert points.X.tolist() == raw
        before = points.tobytes()
        with pytest.raises(OverflowError, match=" at index 0 "):
            points.x = np.array([2**31 + .6] + [0] * (len(raw) - 1)) * scale + offset
        assert points.tobytes() == before


@pytest.mark.parametrize("packed", [False, True], ids=["plain", "packed"])
def test_written_in_parts_is_written_whole_and_read_in_parts_is_read_whole(it, np, holds, records, any_of, packed):
    @holds(case=records, chunk=any_of.integers(1, 9), threads=any_of.sampled_from([1, 3]), more=any_of.data())
    def check(case, chunk, threads, more):
        points = points_of(it, np, case)
        whole, parts = io.BytesIO(), io.BytesIO()
        it.write(whole, points.head, points, packed=packed, chunk=chunk)
        cuts = sorted(more.draw(any_of.lists(any_of.integers(0, len(points)), max_size=5)))
        with it.create(parts, points.head, packed=packed, chunk=chunk, threads=threads) as out:
            for start, stop in zip([0, *cuts], [*cuts, len(points)]):
                out.write(points[start:stop])
        assert parts.getvalue() == whole.getvalue()
        size = more.draw(any_of.integers(1, 30))
        start = more.draw(any_of.integers(0, len(points)))
        stop = more.draw(any_of.integers(start, len(points)))
        with it.open(io.BytesIO(whole.getvalue())) as file:
            assert file.read(threads).tobytes() == case[2]
            assert [part.tobytes() for part in file.chunks(size, threads=threads)] == [
                points[at:at + size].tobytes() for at in range(0, len(points), size)]
            assert file.records(start, stop, threads).tobytes() == points[start:stop].tobytes()
