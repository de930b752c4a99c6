"""Points of the Python package: what is assigned to a field stands in the records, or it raises and nothing changes."""
import copy
import pickle
import warnings

import pytest

import library_files
import needs
from programs import TOP

FORMATS = [0, 1, 2, 3]
formats = pytest.mark.parametrize("format_", FORMATS)
# the least and the greatest value of each field
WHOLE = {"X": (-2**31, 2**31 - 1), "Y": (-2**31, 2**31 - 1), "Z": (-2**31, 2**31 - 1), "intensity": (0, 65535),
         "bit_fields": (0, 255), "raw_classification": (0, 255), "scan_angle_rank": (-128, 127), "user_data": (0, 255),
         "point_source_id": (0, 65535), "red": (0, 65535), "green": (0, 65535), "blue": (0, 65535)}
PARTS = {"return_number": ("bit_fields", 0, 7), "number_of_returns": ("bit_fields", 3, 7),
         "scan_direction_flag": ("bit_fields", 6, 1), "edge_of_flight_line": ("bit_fields", 7, 1),
         "classification": ("raw_classification", 0, 31), "synthetic": ("raw_classification", 5, 1),
         "key_point": ("raw_classification", 6, 1), "withheld": ("raw_classification", 7, 1)}
LIMITS = {**WHOLE, **{name: (0, most) for name, (_, _, most) in PARTS.items()}}


@pytest.fixture(scope="module")
def it(tmp_path_factory):
    """The package."""
    patch = pytest.MonkeyPatch()
    patch.syspath_prepend(str(TOP / "python" / "src"))
    yield library_files.package(tmp_path_factory, patch)
    patch.undo()


@pytest.fixture(scope="module")
def np(it):
    import numpy
    return numpy


@pytest.fixture
def points_of(it, np):
    """Random points of a format, with 3 extra bytes, the same each time."""
    def of(format_, count=1000, extra=3):
        dtype = it.dtype_of(format_, extra)
        data = np.random.default_rng(7).integers(0, 256, count * dtype.itemsize, np.uint8)
        records = data.view(dtype)
        if "gps_time" in dtype.names:
            records["gps_time"] = np.arange(count) * 0.5
        for name in "XYZ":
            records[name] //= 4
        return it.Points(records, it.Head.new(format_, extra=extra, scales=(.01, .01, .001), offsets=(5e5, 1e6, 0)))
    return of


def has(format_, name):
    return not (name == "gps_time" and format_ % 2 == 0 or name in ("red", "green", "blue") and format_ < 2)


def others(points, name):
    """The bytes of the records without those of a field, and the bits of its byte that are not the field's."""
    import numpy
    records = numpy.array(points.view(numpy.ndarray))
    field, shift, most = PARTS.get(name, (name, 0, None))
    if most is None:
        records[field] = 0
    else:
        records[field] &= 255 ^ most << shift
    return records.tobytes()


@formats
@pytest.mark.parametrize("name", LIMITS)
@pytest.mark.parametrize("by", ["attribute", "item", "view"])
def test_each_field_both_ways_at_its_bounds(it, np, points_of, format_, name, by):
    points = points_of(format_)
    if not has(format_, name):
        with pytest.raises(AttributeError):
            getattr(points, name)
        with pytest.raises(AttributeError):
            setattr(points, name, 0)
        with pytest.raises(KeyError):
            points[name] = 0
        return
    kept, (low, high) = others(points, name), LIMITS[name]
    values = np.resize([low, high, (low + high) // 2], len(points))
    for value in (values, low, high, values.astype(float)):
        if by == "attribute":
            setattr(points, name, value)
        elif by == "item":
            points[name] = value
        else:
            getattr(points, name)[:] = value
        for read in (getattr(points, name), points[name]):
            assert (np.asarray(read) == value).all()
        assert others(points, name) == kept


@formats
@pytest.mark.parametrize("name", LIMITS)
def test_value_out_of_range_raises_with_its_index_and_changes_nothing(it, np, points_of, format_, name):
    points = points_of(format_)
    if not has(format_, name):
        return
    before, (low, high) = points.tobytes(), LIMITS[name]
    for bad in (low - 1, high + 1, 2**70, -2**70, float("inf")):
        values = np.full(len(points), high, object if abs(bad) > 2**63 and bad != float("inf") else np.float64)
        values[17] = bad
        with pytest.raises(OverflowError):
            points[name] = bad
        with pytest.raises(OverflowError, match="|".join([" at index 17 ", "no number of 64 bits"])):
            getattr(points, name)[...] = values
    for bad, error in ((0.5, ValueError), (float("nan"), OverflowError), ("6", TypeError), (1j, TypeError)):
        with pytest.raises(error):
            points[name] = bad
    assert points.tobytes() == before


def test_what_was_lost_before_is_not(it, np, points_of):
    points = points_of(3)
    points.classification[:] = 6
    assert (points["raw_classification"] & 31 == 6).all()
    points.classification[points.z > 0] = 2
    points.classification[3:7][1] = 9
    points.withheld[points.classification == 2] = True
    assert points.classification[4] == 9
    assert (points.withheld[np.asarray(points.classification) == 2]).all()
    points.intensity[2:4] += 0
    points.intensity = 60000
    with pytest.raises(OverflowError):
        points.intensity += 6000
    assert (points["intensity"] == 60000).all()
    points["classification"][5] = 3
    assert points.raw_classification[5] & 31 == 3
    with pytest.raises(AttributeError, match="clasification"):
        points.clasification = 6


@pytest.mark.parametrize("change", [
    lambda points: points.z.sort(), lambda points: points.classification.fill(99),
    lambda points: points.classification.flat.__setitem__(0, 3), lambda points: points.x.T.__setitem__(0, 3),
    lambda points: points.xyz.reshape(-1).__setitem__(0, 3), lambda points: points.intensity.fill(70000),
    lambda points: points.intensity.put([0], [70000]), lambda points: setattr(points, "xyz", [[0, 0]]),
    lambda points: points.xyz.__setitem__((slice(None), 0, 0), 3), lambda points: setattr(points.x, "shape", (2, 500)),
    lambda points: setattr(points.head, "software", b"x"), lambda points: points.head.vlrs.append(1),
    lambda points: points.head.extra_bytes["x"], lambda points: setattr(points, "fields", ("x",)),
    lambda points: setattr(points[4], "clas", 3), lambda points: points[4].__setitem__("intensity", 70000),
    lambda points: points.__setitem__(3, 7), lambda points: points.__setitem__(slice(0, 2), (1,) * 14),
], ids=range(18))
def test_what_can_not_be_written_says_so(points_of, change):
    points = points_of(3)
    before = points.tobytes()
    with pytest.raises((ValueError, OverflowError, TypeError, AttributeError, IndexError, KeyError)):
        change(points)
    assert points.tobytes() == before


def test_functions_of_numpy_write_through_or_raise(np, points_of):
    points = points_of(3)
    np.copyto(points.classification, 4)
    assert (points["raw_classification"] & 31 == 4).all()
    np.add.at(points.intensity, [0, 0], 0)
    for function, words in ((np.put, ([0], 70000)), (np.place, (np.ones(1000, bool), [70000])),
                            (np.putmask, (np.ones(1000, bool), 70000)), (np.copyto, (70000,))):
        before = points.tobytes()
        with pytest.raises((OverflowError, ValueError)):
            function(points.intensity, *words)
        with pytest.raises((OverflowError, ValueError, TypeError)):
            function(points.classification, *words)
        assert points.tobytes() == before
    np.putmask(points.intensity, np.asarray(points.z) > 0, 5)
    assert (points["intensity"][np.asarray(points.z) > 0] == 5).all()


@pytest.mark.parametrize("field", ["classification", "withheld", "x"])
@pytest.mark.parametrize("function", ["put", "place", "putmask"])
def test_functions_that_do_not_write_to_a_computed_field_raise(np, points_of, function, field):
    """The putmask of numpy 1.19 would say nothing."""
    points = points_of(3)
    before, mask = points.tobytes(), [0] if function == "put" else np.ones(1000, bool)
    for words, named in (((getattr(points, field), mask, [1]), {}), ((), {
            "arr" if function == "place" else "a": getattr(points, field),
            "ind" if function == "put" else "mask": mask,
            {"put": "v", "place": "vals", "putmask": "values"}[function]: [1]})):
        with pytest.raises(ValueError, match=f"{field}: np.{function} does not write to it"):
            getattr(np, function)(*words, **named)
    assert points.tobytes() == before


@pytest.mark.parametrize("axis", range(3))
def test_coordinates_are_rounded_by_scale_and_offset(np, points_of, axis):
    points = points_of(1)
    name, scale, offset = "xyz"[axis], points.head.scales[axis], points.head.offsets[axis]
    raw = np.asarray(points["XYZ"[axis]]).copy()
    points[name] = np.array(points[name])
    assert (points["XYZ"[axis]] == raw).all()
    points[name] = offset + scale * (raw + 0.4)
    assert (points["XYZ"[axis]] == raw).all()
    points[name] = offset + scale * np.float64(2**31 - 1)
    assert (points["XYZ"[axis]] == 2**31 - 1).all()
    points[name] += -scale
    assert (points["XYZ"[axis]] == 2**31 - 2).all()


@pytest.mark.parametrize("value", [2.0**31, -2.0**31 - 1, float("nan"), float("inf")])
def test_coordinates_past_32_bits_are_refused_with_the_index(np, points_of, value):
    points = points_of(0)
    before = points.tobytes()
    values = np.array(points.z)
    values[41] = 0.001 * value
    for assign in (lambda: setattr(points, "z", values), lambda: points.z.__setitem__(slice(None), values),
                   lambda: points.z.__setitem__(np.arange(1000), values)):
        with pytest.raises(OverflowError, match="z: .* at index 41 leaves 32 bits"):
            assign()
    rows = np.array(points.xyz)
    rows[41, 2] = 0.001 * value
    with pytest.raises(OverflowError, match="at index 41"):
        points.xyz = rows
    assert points.tobytes() == before


def test_xyz_is_set_whole_by_rows_and_by_axis(np, points_of):
    points = points_of(2)
    points.xyz = np.array(points.xyz) + [1, 2, 3]
    rows = np.array(points.xyz)
    points.xyz[5] = (500001, 1000002, 3)
    points.xyz[:, 2] = 7
    points.xyz[points.x > 0] += 0
    assert points.xyz[5].tolist() == [500001, 1000002, 7]
    assert np.allclose(points.xyz[6], [*rows[6][:2], 7])
    assert points.xyz.shape == (1000, 3)


def test_a_property_for_random_records(it, np):
    """What is assigned is read again, for any values that fit, and nothing else of the records changes."""
    hypothesis = needs.module("hypothesis", "python3-hypothesis")
    strategies = hypothesis.strategies

    @hypothesis.settings(max_examples=150, deadline=None, derandomize=True,
                         suppress_health_check=[hypothesis.HealthCheck.too_slow])
    @hypothesis.given(strategies.data())
    def holds(data):
        format_ = data.draw(strategies.sampled_from(FORMATS))
        name = data.draw(strategies.sampled_from([name for name in LIMITS if has(format_, name)]))
        count = data.draw(strategies.integers(1, 40))
        records = np.frombuffer(data.draw(strategies.binary(min_size=count * it.dtype_of(format_).itemsize,
                                                            max_size=count * it.dtype_of(format_).itemsize)),
                                it.dtype_of(format_)).copy()
        points = it.Points(records, it.Head.new(format_))
        low, high = LIMITS[name]
        values = data.draw(strategies.lists(strategies.integers(low - 1, high + 1), min_size=count, max_size=count))
        places = data.draw(strategies.lists(strategies.booleans(), min_size=count, max_size=count))
        key = data.draw(strategies.sampled_from([slice(None), slice(None, None, -1), np.array(places)]))
        wanted = np.asarray(points[name]).astype(np.int64)
        chosen = np.array(values)[:len(wanted[key])]
        before, kept = points.tobytes(), others(points, name)
        if ((chosen < low) | (chosen > high)).any():
            with pytest.raises(OverflowError):
                points[name][key] = chosen
            assert points.tobytes() == before
            return
        points[name][key] = chosen
        wanted[key] = chosen
        assert np.asarray(points[name]).astype(np.int64).tolist() == wanted.tolist()
        assert others(points, name) == kept

    holds()


COPIES = {"slice": lambda points: points[3:9], "mask": lambda points: points[points.x > 0],
          "list of places": lambda points: points[[5, 2]], "copy": lambda points: points.copy(),
          "copy.copy": copy.copy, "copy.deepcopy": copy.deepcopy,
          "pickle": lambda points: pickle.loads(pickle.dumps(points))}


@pytest.mark.parametrize("kind", COPIES)
def test_parts_and_copies_are_points_of_the_same_head(it, points_of, kind):
    points = points_of(3)
    part = COPIES[kind](points)
    assert type(part) is it.Points
    assert part.head == points.head
    before = points.tobytes()
    part.classification = part.classification ^ 1
    assert (points.tobytes() == before) == (kind != "slice")


def test_concatenation_keeps_the_head_and_refuses_other_scales(it, np, points_of):
    points = points_of(3)
    for both in (np.concatenate([points, points[:5]]), it.concatenate([points, points[:5]]),
                 np.hstack([points, points[:5]]), np.append(points, points[:5])):
        assert type(both) is it.Points
        assert both.head == points.head
        assert both.tobytes() == points.tobytes() + points[:5].tobytes()
    other = points.rescaled((0.1, 0.1, 0.1), (0, 0, 0))
    assert np.allclose(other.x, points.x, atol=0.06)
    for join in (np.concatenate, it.concatenate):
        with pytest.raises(ValueError, match="rescaled"):
            join([points, other])
    with pytest.raises(TypeError):
        it.concatenate([points, points_of(2)])
    with pytest.raises(ValueError):
        points[:5] = other[:5]


def test_equality_and_length(np, points_of):
    points = points_of(1)
    other = points.copy()
    assert (points == other).all()
    assert not (points != other).any()
    other.user_data[3] ^= 1
    assert np.flatnonzero(points != other).tolist() == [3]
    assert len(points) == 1000
    assert points[3] != other[3]
    assert points[4] == other[4]
    assert not points == points_of(0)


def test_one_record(np, points_of):
    points = points_of(3)
    point = points[7]
    assert point.x == points.x[7]
    point.classification = 5
    point["z"] = 3.25
    assert (points.classification[7], points.z[7], points[-993].z) == (5, 3.25, 3.25)
    assert point.tolist()[3] == points["intensity"][7]
    points[8] = points[7]
    assert points[8] == points[7]
    for at in (1000, -1001):
        with pytest.raises(IndexError):
            points[at]


def test_arithmetic_gives_plain_arrays(np, points_of):
    points = points_of(3)
    for made in (points.x - points.x.min(), points.classification * 2, points.intensity / 2, -points.z,
                 np.sqrt(points.red), points.return_number == 1, points.x[points.x > 0],
                 points.classification[[1, 2]], 1 + points.z):
        assert type(made) is np.ndarray
    assert np.asarray(points).__array_interface__["data"] == points.__array_interface__["data"]
    assert np.median(points.z) == np.median(np.asarray(points.z))
    assert np.histogram(points.classification, 32)[0].sum() == 1000
    assert np.bincount(points.classification).sum() == 1000
    own = np.array(points.z)
    own -= own.min()
    assert own.min() == 0


def test_repr_tells_what_a_person_asks(it, points_of):
    said = repr(points_of(3))
    for part in ("1,000 records", "point data format 3", "3 extra bytes", "x from", "classification"):
        assert part in said
    head = it.Head.new(1, crs=25832)
    for part in ("LAS 1.2", "scale 0.01", "CRS 25832", "GeoKeyDirectoryTag"):
        assert part in repr(head)
    with warnings.catch_warnings():
        warnings.simplefilter("error")
        assert "classification" in repr(points_of(3)[7])


TYPES = ["u1", "i1", "u2", "i2", "u4", "i4", "u8", "i8", "f4", "f8"]


@pytest.mark.parametrize("type_", TYPES)
@pytest.mark.parametrize("scale", [None, 0.25])
def test_extra_bytes_of_each_type_are_written_and_read(it, np, points_of, tmp_path, type_, scale):
    points = points_of(1)
    low, high = (np.iinfo(type_).min, np.iinfo(type_).max) if type_[0] in "ui" else (-2**20, 2**20)
    raw = np.array([low, high, 0, 1] * 250, type_) if abs(high) < 2**53 or not scale else np.arange(1000).astype(type_)
    values = raw * scale + 10 if scale else raw
    made = points.with_extra("first", "u1", 3).with_extra("one more", type_, values, scale=scale,
                                                          offset=10 if scale else None, description="tried")
    for end in ("las", "laz"):
        made.write(tmp_path / f"a.{end}")
        again = it.read(tmp_path / f"a.{end}")
        assert (np.asarray(again["one more"]) == values).all()
        assert (again["first"] == 3).all()
        assert again.head.extra_bytes["one more"].description == "tried"
        assert again[["X", "extra_bytes"]].tobytes() == made[["X", "extra_bytes"]].tobytes()
        assert (np.asarray(again["extra_bytes"])[:, :3] == points["extra_bytes"]).all()
    if type_[0] in "ui":
        before = again.tobytes()
        with pytest.raises(OverflowError):
            again["one more"] = float(high) * 8 + 100
        assert again.tobytes() == before
    again["one more"][:] = 20
    assert (np.asarray(again["one more"]) == 20).all()
    less = again.without_extra("one more")
    assert (less.head.extra, list(less.head.extra_bytes)) == (4, ["first"])
    assert (less["extra_bytes"] == np.asarray(again["extra_bytes"])[:, :4]).all()


def test_extra_bytes_that_a_stranger_describes(it, np, points_of):
    """Types that are not known, names that are not unique or not text, and more bytes than there are."""
    one = it.ExtraBytes.new("a", "u1").data
    strange = {"a type past 30": b"\0\0\x1f" + one[3:], "a name of fields": one[:4] + b"x\0" + one[6:],
               "no text": one[:4] + b"\xff\xfe\0" + one[7:], "past the end": it.ExtraBytes.new("b", "u8").data}
    for kind, data in strange.items():
        vlrs = [it.Vlr(b"LASF_Spec", 4, one + one + data + bytes(10))]
        points = it.Points(np.asarray(points_of(0)), it.Head.new(0, extra=3, vlrs=vlrs))
        names = [name for name in points.fields if name not in LIMITS and name not in ("x", "y", "z", "xyz")]
        assert names == ["extra_bytes", "a", *(["\xff\xfe"] if kind == "no text" else [])], kind
        assert (np.asarray(points["a"]) == points["extra_bytes"][:, 0]).all()
        assert repr(points)


def test_other_formats_and_columns(it, np, points_of):
    points = points_of(3)
    with pytest.raises(ValueError, match="gps_time"):
        points.in_format(2)
    points.gps_time = 0
    less = points.in_format(2)
    assert (less.red == points.red).all()
    assert less.in_format(3).tobytes() == points.tobytes()
    columns = points.columns(("x", "classification", "withheld"))
    assert (columns.x == np.asarray(points.x)).all()
    assert columns.dtype.names == ("x", "classification", "withheld")
    made = it.Points.of_columns(points.head, x=points.x, classification=6, intensity=points.intensity)
    assert (made.X == points.X).all()
    assert (made.classification == 6).all()


def test_data_frame(np, points_of):
    needs.module("pandas", "python3-pandas")
    frame = points_of(3).to_pandas()
    assert len(frame) == 1000
    assert frame["classification"].max() <= 31
