"""Heads of the Python package: made from nothing, from points and from other heads, with each other byte as it was."""
import datetime
import pickle
import struct
import sys
import uuid

import pytest

import commands
import library_files
from programs import TOP

MINORS = range(5)
DAY = datetime.date(2024, 12, 31)
WKT = 'PROJCS["ETRS89 / UTM zone 32N",GEOGCS["ETRS89",AUTHORITY["EPSG","4258"]],AUTHORITY["EPSG","25832"]]'


@pytest.fixture(scope="module")
def it(tmp_path_factory):
    """The package."""
    patch = pytest.MonkeyPatch()
    patch.syspath_prepend(str(TOP / "python" / "src"))
    yield library_files.package(tmp_path_factory, patch)
    patch.undo()


@pytest.fixture
def strange(it):
    """A head with bytes in all places where nobody looks: after the block, between the VLRs and the points."""
    def of(minor):
        head = it.Head.new(3, minor=minor, extra=2, vlrs=[it.Vlr(b"me", 5, b"abc", b"about", 0xAABB)])
        data = bytearray(bytes(head))
        size = head.header_size
        data[size:size] = b"after the block"
        data += b"before the points"
        struct.pack_into("<HI", data, 94, size + len(b"after the block"), len(data))
        data[8:24] = bytes(range(16))
        return it.Head(bytes(data))
    return of


CHANGES = {
    "scales": ((1, 2, 0.5), (1, 2, 0.5), [(131, 155)]), "offsets": ((1, -2, 0.5), (1, -2, 0.5), [(155, 179)]),
    "software": ("new", b"new", [(58, 90)]), "system_identifier": (b"x" * 32, b"x" * 32, [(26, 58)]),
    "created": (DAY, DAY, [(90, 94)]), "file_source_id": (65535, 65535, [(4, 6)]),
    "global_encoding": (1, 1, [(6, 8)]), "project_id": (uuid.UUID(int=5), uuid.UUID(int=5), [(8, 24)]),
    "format": (1, 1, [(104, 107)]), "extra": (192, 192, [(105, 107)]),
}


@pytest.mark.parametrize("minor", MINORS)
@pytest.mark.parametrize("name", CHANGES)
def test_one_field_is_changed_and_no_other_byte(strange, minor, name):
    value, read, places = CHANGES[name]
    head = strange(minor)
    made = head.changed(**{name: value})
    assert getattr(made, name) == read
    before, after = bytearray(bytes(head)), bytearray(bytes(made))
    assert before != after
    for start, stop in places:
        before[start:stop] = after[start:stop] = bytes(stop - start)
    assert before == after
    assert head == strange(minor)


@pytest.mark.parametrize("changes", [
    {"scales": (0, 1, 1)}, {"scales": (1, 1)}, {"offsets": (1, 1, float("nan"))}, {"software": "x" * 33},
    {"file_source_id": 65536}, {"global_encoding": -1}, {"format": 4}, {"extra": 193}, {"minor": 5},
    {"crs": "nonsense"}, {"crs": 4326}, {"crs": WKT.replace("25832", "999999")}, {"crs": 7}], ids=str)
def test_what_a_head_can_not_hold_is_refused(it, strange, changes, monkeypatch):
    monkeypatch.setitem(sys.modules, "pyproj", None)
    with pytest.raises((ValueError, OverflowError, struct.error)):
        strange(2).changed(**changes)


@pytest.mark.parametrize("old", MINORS)
@pytest.mark.parametrize("new", MINORS)
def test_version_is_changed_with_counts_and_strange_bytes(it, strange, program, tmp_path, old, new):
    import numpy as np
    points = it.Points.zeros(7, strange(old))
    points.return_number = [1, 1, 2, 3, 4, 5, 5]
    points.head = it.Head.of(points)
    made = points.head.changed(minor=new)
    assert (made.minor, made.points, made.returns[:5]) == (new, 7, (2, 1, 1, 1, 2))
    assert made.vlrs == points.head.vlrs
    assert b"after the block" in bytes(made) and bytes(made).endswith(b"before the points")
    points.head = made
    points.write(tmp_path / "a.laz")
    assert it.read(tmp_path / "a.laz").head == made
    commands.good([program, "laszip", "-i", tmp_path / "a.laz", "-o", tmp_path / "a.las"])
    assert np.all(it.read(tmp_path / "a.las") == points)
    if new >= old:
        assert made.changed(minor=old) == it.Head.of(it.Points.zeros(0, strange(old)), minor=old).counted(
            it.head.Tally.of(points), 3, 2, False)


def test_a_head_from_nothing_from_points_and_from_a_head(it, tmp_path):
    head = it.Head.new(1, minor=4, scales=(.001,) * 3, offsets=(500000, 5e6, 0), software="mine", created=DAY,
                       crs=25832, file_source_id=41)
    points = it.Points.of_columns(head, x=[500001.5, 500002], y=5000003, z=[1, -1], return_number=[1, 2],
                                  gps_time=[5, 6])
    head = it.Head.of(points, software="yours")
    assert (head.points, head.returns[:2], head.software) == (2, (1, 1), b"yours")
    assert (head.mins, head.maxs) == ((500001.5, 5000003, -1), (500002, 5000003, 1))
    points.write(tmp_path / "a.laz")
    again = it.read(tmp_path / "a.laz")
    assert (again.head.crs.epsg, again.head.created, again.head.file_source_id) == (25832, DAY, 41)
    assert (again.head.mins, again.head.maxs, again.head.points) == (head.mins, head.maxs, 2)
    plain = it.Head.of(__import__("numpy").asarray(points))
    assert (plain.format, plain.points, plain.scales) == (1, 2, (.01, .01, .01))


def test_vlrs_are_a_list_with_names(it, strange):
    head = strange(2)
    more = it.Vlr(b"LASF_Spec", 3, b"some text")
    made = head.changed(vlrs=[more, *head.vlrs, more])
    assert made.vlrs == [more, *head.vlrs, more]
    assert made.vlrs.names == ["Text area description", "", "Text area description"]
    assert made.vlrs["me", 5].payload == b"abc"
    assert made.vlrs.get("me", 6) is None
    assert made.vlrs[1].reserved == 0xAABB
    with pytest.raises(KeyError):
        made.vlrs["me", 6]
    with pytest.raises(TypeError, match="changed"):
        made.vlrs.append(more)
    with pytest.raises(AttributeError, match="changed"):
        made.vlrs = []
    assert made.changed(vlrs=head.vlrs) == head
    assert bytes(made).endswith(b"before the points")
    assert pickle.loads(pickle.dumps(made)) == made
    assert pickle.loads(pickle.dumps(made.vlrs)) == made.vlrs


@pytest.mark.parametrize("minor", MINORS)
def test_crs_by_number_and_text(it, strange, minor):
    head = strange(minor)
    assert head.crs is None
    made = head.changed(crs=25832)
    assert (made.crs.epsg, str(made.crs), made.crs.is_geographic) == (25832, "EPSG:25832", False)
    assert made.changed(crs="EPSG:25832+7837").crs.vertical == 7837
    assert made.changed(crs=it.Crs(4326, is_geographic=True)).crs == it.Crs(4326, is_geographic=True)
    assert len(made.changed(crs=25833).vlrs) == len(made.vlrs)
    if minor == 4:
        text = made.changed(crs=WKT)
        assert (str(text.crs), text.crs.epsg, text.global_encoding & 16) == (WKT, 25832, 16)
        assert text.changed(crs=25832) == made
    else:
        assert made.changed(crs=WKT).crs == made.crs


@pytest.mark.parametrize("payload", [b"", b"\1", bytes(8), b"\1\0\1\0\0\0\xff\xff" + b"\x00\x0c\0\0\1\0\xff\x7f",
                                     b"\xff" * 65535], ids=["empty", "a byte", "no keys", "user-defined", "all ones"])
def test_crs_of_a_stranger(it, payload):
    for number in (34735, 2112):
        head = it.Head.new(0, minor=4, vlrs=[it.Vlr(b"LASF_Projection", number, payload)])
        assert head.crs is None or isinstance(head.crs, it.Crs)
        assert repr(head)


def keys(*pairs):
    """The payload of a VLR of GeoTIFF keys."""
    return struct.pack("<4H", 1, 1, 0, len(pairs)) + b"".join(struct.pack("<4H", key, 0, 1, it) for key, it in pairs)


COMPOUND = 'COMPD_CS["a",PROJCS["b",GEOGCS["c",AUTHORITY["EPSG","4258"]],AUTHORITY["EPSG","25832"]],' \
           'VERT_CS["d",AUTHORITY["EPSG","7837"]],AUTHORITY["EPSG","5555"]]'


@pytest.mark.parametrize("payload, encoding, found", [
    (keys((1024, 1), (3072, 25832)), 0, (25832, None, False)),
    (keys((1024, 2), (2048, 4326)), 0, (4326, None, True)),
    (keys((2048, 4258), (4096, 7837)), 0, (4258, 7837, True)),
    (keys((1024, 3), (2048, 4978)), 0, (4978, None, False)),
    (keys((1024, 1), (2048, 4258), (3072, 32767), (4096, 7837)), 0, (None, 7837, None)),
    (keys((1024, 1), (2048, 4258), (3072, 32767)), 0, None), (keys((1024, 1), (2048, 4258)), 0, None),
    (COMPOUND.encode(), 16, (25832, 7837, False)),
    (COMPOUND.replace("PROJCS", "GEOGCS").encode(), 0, (25832, 7837, True)),
], ids=["projected", "geographic", "with heights", "geocentric", "user-defined with heights", "user-defined",
        "without its code", "compound", "compound geographic"])
def test_crs_is_read_by_one_rule(it, tmp_path, payload, encoding, found):
    """The geographic CRS below a projected one that the file defines itself is not that of the coordinates. `describe`
    says the same."""
    number = 2112 if payload.startswith(b"COMPD") else 34735
    head = it.Head.new(0, minor=4, vlrs=[it.Vlr(b"LASF_Projection", number, payload)]).changed(global_encoding=encoding)
    assert (head.crs and (head.crs.epsg, head.crs.vertical, head.crs.is_geographic)) == found
    it.write(tmp_path / "a.las", head, it.Points.zeros(1, head))
    facts = __import__("balsamvise.facts").facts.read_facts(tmp_path / "a.las")["crs"]
    assert (facts["epsg"], facts["vertical_epsg"]) == (found or (None, None))[:2]


def test_day_that_is_none(it):
    for day, year in ((0, 0), (367, 2020), (1, 0), (366, 9999), (65535, 65535)):
        data = bytearray(bytes(it.Head.new(0)))
        struct.pack_into("<HH", data, 90, day, year)
        assert it.Head(bytes(data)).created is None


def test_writing_under_another_scale_is_refused(it, tmp_path):
    points = it.Points.zeros(3, it.Head.new(0))
    with pytest.raises(ValueError, match="rescaled"):
        it.write(tmp_path / "a.las", points.head.changed(offsets=(1, 0, 0)), points)
    assert list(tmp_path.iterdir()) == []


def test_named_extra_bytes_of_a_head_are_not_assigned(it):
    head = it.Head.new(0).with_extra_bytes(it.ExtraBytes.new("height", "f4"))
    with pytest.raises(TypeError):
        head.extra_bytes["width"] = head.extra_bytes["height"]
    assert list(head.extra_bytes) == ["height"]
