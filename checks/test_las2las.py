"""`las2las` with filters and changes, from packed and plain to packed and plain, with any workers."""
import struct

import pytest

import runs
from las_files import counted, head, lidar, long_head, record

pytestmark = pytest.mark.files
POINTS = lidar(1, 0, 1_000)


def intensity(point):
    return struct.unpack_from("<H", point, 12)[0]


def moved(point, x, y, z):
    place = struct.unpack_from("<iii", point, 0)
    return struct.pack("<iii", place[0] + x, place[1] + y, place[2] + z) + point[12:]


def every(point):
    return True


def same(point):
    return point


# the words, the records that they keep, and how these are changed
ROWS = {
    "-keep_class 2 5": (lambda p: p[15] % 32 in (2, 5), same),
    "-drop_class 1": (lambda p: p[15] % 32 != 1, same),
    "-keep_return 1 2": (lambda p: p[14] % 8 in (1, 2), same),
    "-drop_return 2": (lambda p: p[14] % 8 != 2, same),
    "-keep_first": (lambda p: p[14] % 8 <= 1, same),
    "-keep_last": (lambda p: p[14] % 8 >= p[14] // 8 % 8, same),
    "-keep_intensity 100 2000": (lambda p: 100 <= intensity(p) <= 2000, same),
    "-drop_intensity_below 100": (lambda p: intensity(p) >= 100, same),
    "-drop_intensity_above 100": (lambda p: intensity(p) <= 100, same),
    "-set_classification 31": (every, lambda p: p[:15] + bytes([p[15] // 32 * 32 + 31]) + p[16:]),
    "-set_user_data 200": (every, lambda p: p[:17] + bytes([200]) + p[18:]),
    "-set_point_source 513": (every, lambda p: p[:18] + b"\x01\x02" + p[20:]),
    "-translate_raw_xyz -5 6 -7": (every, lambda p: moved(p, -5, 6, -7)),
    "-translate_raw_x 3 -keep_class 2 -translate_raw_z -1": (lambda p: p[15] % 32 == 2, lambda p: moved(p, 3, 0, -1)),
}


@pytest.mark.parametrize("cores", ["1", "2"])
@pytest.mark.parametrize("source", ["a.las", "a.laz"])
@pytest.mark.parametrize("words", ROWS)
def test_filter_or_change(place, words, source, cores):
    keeps, change = ROWS[words]
    kept = [change(point) for point in POINTS if keeps(point)]
    header = long_head(2, 1, 0, POINTS)
    wanted = counted(header, kept) + b"".join(kept)
    place.write("a.las", header + b"".join(POINTS))
    runs.done(place, "laszip", "-i", "a.las", "-o", "a.laz", "-chunk_size", "256")
    before = place.read(source)
    runs.done(place, "las2las", "-i", source, "-o", "b.las", "-cores", cores, *words.split())
    runs.holds(place, {"b.las": wanted, source: before})
    runs.done(place, "las2las", "-i", source, "-o", "b", "-olaz", "-chunk_size", "300", "-cores", cores, *words.split())
    runs.unpacks(place, "b", wanted)


@pytest.fixture
def far(place):
    """A file whose records end at the last raw coordinate, and the words that move them by one."""
    points = [record(2**31 - 1, 1), record(2**31 - 1, 2)]
    place.write("d.las", head(2, (2, 0, 0, 0, 0)) + b"".join(points))
    return ["las2las", "-i", "d.las", "-o", "e.las", "-translate_raw_xyz", "1", "0", "0", "-keep_class"]


def test_coordinate_out_of_range(place, far):
    runs.ended(place.las(*far, "2"), 5, b"refused: d.las: 22 RawRange 0\n")
    runs.holds(place, {"e.las": head(0)})


def test_no_coordinate_out_of_range_among_those_that_are_kept(place, far):
    runs.done(place, *far, "3")
    runs.holds(place, {"e.las": head(0)})
