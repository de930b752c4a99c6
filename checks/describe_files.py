"""Files for the cases of `describe`: heads with everything in them, one file for each cause, and spoilt ones."""
import random
import struct
from pathlib import Path

from las_files import FILE, ONE, changed, lidar, long_head, packed_one, record, vlr
from programs import TOP

EXCHANGE = TOP / "examples" / "exchange"
POINT = record(5, 2)
LONG = long_head(4, 0, 0, [POINT]) + POINT
STRAY = long_head(2, 0, 0, [POINT], vlr(b"laszip encoded", 22204, b"\0" * 40), 1) + POINT
PACKED = packed_one()
PAYLOAD = 227 + 54  # of the laszip VLR
POINTER = 321  # the place of the chunk table
TABLE = 353


def counted(points: int) -> bytes:
    """A file whose chunks have a number of points each, under a head that counts others."""
    data = (EXCHANGE / "counted_12_1.laz").read_bytes()
    return changed(data, 107, "<I", struct.unpack_from("<I", data, 107)[0] + points)


def gap() -> bytes:
    """A packed file with a byte between its chunk and its table."""
    return changed(PACKED[:TABLE] + b"\0" + PACKED[TABLE:], POINTER, "<Q", TABLE + 1)


CAUSES = {
    "1 Short": FILE[:226],
    "2 Magic": changed(LONG, 0, "<B", 0),
    "3 Version": changed(LONG, 25, "<B", 5),
    "4 HeaderSize": changed(LONG, 94, "<H", 374),
    "5 Offset": changed(LONG, 96, "<I", 374),
    "6 Vlrs": changed(LONG, 100, "<I", 1),
    "7 Format": changed(LONG, 104, "<B", 6),
    "8 RecordLength": changed(LONG, 105, "<H", 213),
    "9 Count": FILE[:-1],
    "10 Trailing": FILE + b"\0",
    "11 StrayVlr": STRAY,
    "12 NoVlr": changed(FILE, 104, "<B", 128),
    "13 VlrShape": changed(PACKED, PAYLOAD + 32, "<H", 2),
    "14 Compressor": changed(PACKED, PAYLOAD, "<H", 3),
    "15 Items": changed(PACKED, PAYLOAD + 38, "<H", 3),
    "16 ChunkSize": changed(PACKED, PAYLOAD + 12, "<I", 0),
    "17 TooManyChunks": changed(changed(PACKED, PAYLOAD + 12, "<I", 1), 107, "<I", 2**24 + 1),
    "18 TablePointer": changed(PACKED, POINTER, "<Q", 5),
    "19 Table": changed(PACKED, TABLE, "<I", 1),
    "20 ChunkSum": gap(),
    "24 PointSum": counted(1),
    "25 Extended": changed(LONG, 243, "<I", 1),
    "26 PointCounts": changed(LONG, 247, "<Q", 2),
}

KEYS = [(1024, 0, 1, 1), (1026, 34737, 20, 0), (3072, 0, 1, 25832), (3076, 0, 1, 9001), (4096, 0, 1, 7837),
        (2057, 34736, 1, 0), (3082, 34736, 1, 9), (3073, 34737, 90, 0)]
WKT = ('COMPD_CS["UTM 33 ""north"" + DHHN2016",PROJCS["ETRS89 / UTM zone 33N",GEOGCS["ETRS89",DATUM["ETRS",SPHEROID["G'
       'RS 1980",6378137,298.257,AUTHORITY["EPSG","7019"]],AUTHORITY["EPSG","6258"]],PRIMEM["Greenwich",0],UNIT["degree'
       '",0.0174],AUTHORITY["EPSG","4258"]],PROJECTION["Transverse_Mercator"],UNIT["metre",1,AUTHORITY["EPSG","9001"]],'
       'AUTHORITY["EPSG","25833"]],VERT_CS["DHHN2016",VERT_DATUM["D",2005],UNIT["metre",1],AUTHORITY["EPSG","7837"]]]')


def keys(entries: list[tuple[int, int, int, int]]) -> bytes:
    """The payload of the GeoTIFF keys."""
    return struct.pack("<4H", 1, 1, 0, len(entries)) + b"".join(struct.pack("<4H", *entry) for entry in entries)


def dimension(name: bytes, kind: int, options: int, scale: float = 0.0, offset: float = 0.0) -> bytes:
    """An entry of the Extra Bytes VLR."""
    return struct.pack("<2xBB32s4x24x24x24x3d3d32s", kind, options, name, scale, 0, 0, offset, 0, 0, b"told")


GEOTIFF = [vlr(b"LASF_Projection", 34735, keys(KEYS)),
           vlr(b"LASF_Projection", 34736, struct.pack("<d", 6378137.0)),
           vlr(b"LASF_Projection", 34737, b"a grid of our own|\0\0")]
EXTRA = vlr(b"LASF_Spec", 4, dimension(b"height", 3, 24, 0.01, 100.0) + dimension(b"pair", 11, 0)
            + dimension(b"rest", 0, 3) + dimension(b"wide", 30, 0))


def full(minor: int = 4, encoding: int = 0, wkt: bytes = b"") -> bytes:
    """A plain file of format 1 with 35 extra bytes, in a head in which every field says something."""
    points = lidar(1, 35, 5)
    vlrs = [*GEOTIFF, EXTRA, vlr(b"LASF_Spec", 107, b"wave"), vlr(b"somebody", 9, b"abc")]
    if wkt:
        vlrs.append(vlr(b"LASF_Projection", 2112, wkt))
    head = bytearray(long_head(minor, 1, 35, points, b"".join(vlrs), len(vlrs)))
    struct.pack_into("<HH16s", head, 4, 77, encoding, bytes(range(16)))
    struct.pack_into("<32s32sHH", head, 26, b"a scanner\0left over", b"tool \xe9\x1b[31m", 60, 2024)
    struct.pack_into("<12d", head, 131, 0.01, 0.01, 0.001, 5e5, 5e6, 0, 500100.5, 500000.25, 5000200, 5000100,
                     31.5, -2.5)
    return bytes(head) + b"".join(points)


def bases() -> list[bytes]:
    """What is spoilt: a file of each kind."""
    packed = [EXCHANGE / f"{name}.laz" for name in ("air_14_3", "counted_12_3", "pointer_at_the_end_12_1",
                                                    "extra_12_3_of_5", "one_point_12_1")]
    return [full(), full(2), full(4, 16, WKT.encode()), ONE, PACKED, (TOP / "examples" / "tile.laz").read_bytes(),
            *(path.read_bytes() for path in packed)]


def spoilt(folder: Path, number: int) -> list[Path]:
    """A number of files, most with a head that is changed somewhere, else cut, or with a table that is changed."""
    choose = random.Random("spoilt heads")
    originals, paths = bases(), []
    for at in range(number):
        data = bytearray(choose.choice(originals))
        offset = struct.unpack_from("<I", data, 96)[0]
        for _ in range(choose.choice([1, 1, 2, 5, 40])):
            place = choose.choice([choose.randrange(min(offset + 8, len(data))), choose.randrange(90, 260),
                                   len(data) - 1 - choose.randrange(20)]) % len(data)
            size = choose.choice([1, 1, 2, 8])
            data[place:place + size] = choose.choice([bytes(size), b"\xff" * size, choose.randbytes(size)])
        if choose.randrange(8) == 0:
            del data[choose.randrange(len(data)):]
        paths.append(folder / f"{at:04}.laz")
        paths[-1].write_bytes(data)
    return paths
