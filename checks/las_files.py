"""LAS files for checks: heads, records and packed files, made byte by byte and without the program."""
import struct
from collections.abc import Sequence

HEADER_SIZES = [227, 227, 227, 235, 375]
RECORD_SIZES = [20, 28, 26, 34]


def head(points: int, returns: Sequence[int] = (0, 0, 0, 0, 0), format_byte: int = 0) -> bytes:
    """A plain LAS 1.2 head of 227 bytes; the bytes that nothing reads are not zero."""
    fields = bytearray((7 * i + 3) % 256 for i in range(227))
    fields[0:4] = b"LASF"
    fields[24:26] = bytes([1, 2])
    struct.pack_into("<HII", fields, 94, 227, 227, 0)
    struct.pack_into("<BH", fields, 104, format_byte, 20)
    struct.pack_into("<6I", fields, 107, points, *returns)
    return bytes(fields)


def record(x: int, class_: int, flags: int = 0x09) -> bytes:
    """A record of format 0."""
    return struct.pack("<iiiHBBbBH", x, 6, 7, 0, flags, class_, 0, 0, 1)


THREE = [record(5, 2), record(6, 1), record(7, 2)]
FILE = head(3, (3, 0, 0, 0, 0)) + b"".join(THREE)


def vlr(user: bytes, number: int, payload: bytes) -> bytes:
    """A variable length record."""
    return struct.pack("<H16sHH32s", 0, user, number, len(payload), b"made for a check") + payload


def long_head(minor: int, format_: int, extra: int, points: Sequence[bytes], vlrs: bytes = b"", count: int = 0,
              gap: bytes = b"", more: bytes = b"") -> bytes:
    """A plain head of any version: the header, bytes past its fields, VLRs and a gap; other bytes are not zero."""
    size = HEADER_SIZES[minor] + len(more)
    header = bytearray((5 * i + 1) % 256 for i in range(HEADER_SIZES[minor])) + more
    header[0:4] = b"LASF"
    header[24:26] = bytes([1, minor])
    struct.pack_into("<HII", header, 94, size, size + len(vlrs) + len(gap), count)
    struct.pack_into("<BH", header, 104, format_, RECORD_SIZES[format_] + extra)
    if minor == 4:
        struct.pack_into("<QI", header, 235, 0, 0)
    set_counts(header, minor, points)
    return bytes(header) + vlrs + gap


def set_counts(header: bytearray, minor: int, points: Sequence[bytes]) -> None:
    """The number of records and the numbers by return, in each set that the version has."""
    returns = [sum(point[14] % 8 == r for point in points) for r in range(16)]
    struct.pack_into("<6I", header, 107, len(points), *returns[1:6])
    if minor == 4:
        struct.pack_into("<16Q", header, 247, len(points), *returns[1:8], *[0] * 8)


def counted(header: bytes, points: Sequence[bytes]) -> bytes:
    """A plain head with the counts of these records."""
    changed = bytearray(header)
    set_counts(changed, changed[25], points)
    return bytes(changed)


def changed(data: bytes, at: int, form: str, value: int) -> bytes:
    """A file with another value at one place."""
    copy = bytearray(data)
    struct.pack_into(form, copy, at, value)
    return bytes(copy)


def lidar(format_: int, extra: int, count: int) -> list[bytes]:
    """Records of a flight line: places that drift, returns that alternate, times, colours and extra bytes."""
    points = []
    for i in range(count):
        returns = 1 + i % 3
        number = 1 + i % returns
        point = struct.pack("<iiiHBBbBH", 1000 + 7 * i + i * i % 13, -500_000 + 3 * i, 5_000 + i * 31 % 97,
                            i * 37 % 4096, number + 8 * returns + 64 * (i // 40 % 2), 1 + i // 11 % 6, i % 21 - 10,
                            i // 200, 1 + i // 300)
        if format_ in (1, 3):
            point += struct.pack("<d", 400_000.0 + i * 0.0001 + (1000.0 if i % 97 == 0 else 0.0))
        if format_ in (2, 3):
            point += struct.pack("<HHH", 256 * (i % 256), 256 * (i * 7 % 256) + i % 3, 256 * (i % 256))
        points.append(point + bytes((i * (k + 1)) % 256 for k in range(extra)))
    return points


def many(count: int) -> list[bytes]:
    """Records that differ in class, source and return."""
    points = []
    for i in range(count):
        point = bytearray(record(i, (7 * i) % 5, flags=1 + i % 3 + 8 * (1 + i % 3)))
        struct.pack_into("<H", point, 18, 300 - i % 4)
        points.append(bytes(point))
    return points


def chunk_place(data: bytes) -> tuple[int, int]:
    """Where the chunks of a packed file begin, and where they end."""
    offset = struct.unpack_from("<I", data, 96)[0]
    return offset + 8, struct.unpack_from("<Q", data, offset)[0]


# A file of one record, and its packed form byte by byte: a head with a laszip VLR, the pointer, the chunk, its table.
ONE = head(1, (1, 0, 0, 0, 0)) + record(5, 0)
ONE_VLR = struct.pack("<H16sHH32s", 0, b"laszip encoded", 22204, 40, b"laszip version 2 items") + struct.pack(
    "<HHBBHIIqqHHHH", 2, 0, 2, 2, 0, 0, 50_000, -1, -1, 1, 6, 20, 2)


def packed_one() -> bytes:
    front = bytearray(ONE[:227])
    struct.pack_into("<II", front, 96, 321, 1)
    front[104] = 0x80
    chunk = ONE[227:] + bytes([1, 0, 0, 0])
    table = bytes([0, 0, 0, 0, 1, 0, 0, 0, 0x2C, 0x5C, 0, 0, 0])
    return bytes(front) + ONE_VLR + struct.pack("<Q", 353) + chunk + table
