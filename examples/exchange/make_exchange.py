#!/usr/bin/env python3
"""Writes the packed files of this folder, by which other readers of LAZ are tried: make_exchange.py LAS [FOLDER].

LAS is the program. Each file is packed by it from a plain one that this script makes; `plain.sha256` has the sums of
the plain files. All numbers are fixed, so every run writes the same bytes.
"""
import hashlib
import importlib.util
import os
import random
import struct
import subprocess
import sys
import tempfile

HERE = os.path.dirname(os.path.abspath(__file__))
HEADER_SIZES = (227, 227, 227, 235, 375)
RECORD_SIZES = (20, 28, 26, 34)
SCALE, OFFSETS = 0.01, (512_000.0, 5_403_000.0, 0.0)

# name: minor version, point data format, extra bytes, records, how many points, chunk size, and what else
FILES = {
    "air_10_0": (0, 0, 0, "air", 8_000, 50_000, ""),
    "air_11_1": (1, 1, 0, "air", 8_000, 50_000, ""),
    "air_12_0": (2, 0, 0, "air", 8_000, 256, ""),
    "air_12_1": (2, 1, 0, "air", 8_000, 256, ""),
    "air_12_2": (2, 2, 0, "air", 6_000, 50_000, ""),
    "air_12_3": (2, 3, 0, "air", 6_000, 50_000, ""),
    "air_12_3_small_chunks": (2, 3, 0, "air", 5_000, 256, ""),
    "air_13_1": (3, 1, 0, "air", 8_000, 50_000, ""),
    "air_13_3": (3, 3, 0, "air", 6_000, 1_000, ""),
    "air_14_0": (4, 0, 0, "air", 8_000, 50_000, ""),
    "air_14_1": (4, 1, 0, "air", 8_000, 2_000, ""),
    "air_14_3": (4, 3, 0, "air", 6_000, 50_000, ""),
    "extra_12_1_of_1": (2, 1, 1, "air", 6_000, 50_000, ""),
    "extra_12_3_of_5": (2, 3, 5, "air", 4_000, 1_000, ""),
    "extra_14_0_of_192": (4, 0, 192, "air", 400, 50_000, ""),
    "random_12_0": (2, 0, 0, "random", 1_600, 50_000, ""),
    "random_12_1": (2, 1, 0, "random", 1_200, 256, ""),
    "random_12_2": (2, 2, 0, "random", 1_200, 50_000, ""),
    "random_12_3": (2, 3, 0, "random", 1_000, 50_000, ""),
    "random_14_3_of_4": (4, 3, 4, "random", 1_000, 300, ""),
    "one_point_12_1": (2, 1, 0, "air", 1, 50_000, ""),
    "pointer_at_the_end_12_1": (2, 1, 0, "air", 6_000, 1_000, "pointer"),
    "counted_12_1": (2, 1, 0, "air", 6_000, 50_000, "counted"),
    "counted_12_3": (2, 3, 0, "air", 5_000, 50_000, "counted"),
}


def tile_records():
    """The records of the sample, of format 1."""
    spec = importlib.util.spec_from_file_location("make_tile", os.path.join(HERE, os.pardir, "make_tile.py"))
    module = importlib.util.module_from_spec(spec)
    spec.loader.exec_module(module)
    tile = module.tile()
    offset, = struct.unpack_from("<I", tile, 96)
    return [tile[at:at + 28] for at in range(offset, len(tile), 28)]


def air(tile, format_, extra, count):
    """Records like those of an airborne scan: the sample's, with colours and extra bytes that follow from them."""
    points = []
    for number, record in enumerate(tile[:count]):
        intensity, = struct.unpack_from("<H", record, 12)
        class_ = record[15] % 32
        point = record[:20]
        if format_ in (1, 3):
            point += record[20:28]
        if format_ in (2, 3):
            point += struct.pack("<3H", 256 * (intensity // 8 % 256), 256 * (20 * class_ % 256), 256 * (number % 3))
        points.append(point + bytes((class_ * (k + 1) + intensity // 64) % 256 for k in range(extra)))
    return points


def random_records(name, format_, extra, count):
    """Records whose bytes are all random."""
    numbers = random.Random(name)
    return [numbers.getrandbits(8 * (RECORD_SIZES[format_] + extra)).to_bytes(RECORD_SIZES[format_] + extra, "little")
            for _ in range(count)]


def head(minor, format_, extra, points):
    """A public header block with the counts and the box of the records, and one VLR."""
    size = HEADER_SIZES[minor]
    note = b"a file of the examples"
    vlr = struct.pack("<H16sHH32s", 0, b"balsamvise", 1, len(note), b"exchange") + note
    header = bytearray(size)
    header[0:4] = b"LASF"
    header[24:26] = bytes([1, minor])
    header[26:36] = b"balsamvise"
    header[58:73] = b"make_exchange.py"[:15]
    struct.pack_into("<2HHII", header, 90, 335, 2026, size, size + len(vlr), 1)
    struct.pack_into("<BH", header, 104, format_, RECORD_SIZES[format_] + extra)
    returns = [sum(point[14] % 8 == number for point in points) for number in range(8)]
    struct.pack_into("<6I", header, 107, len(points), *returns[1:6])
    struct.pack_into("<6d", header, 131, SCALE, SCALE, SCALE, *OFFSETS)
    places = [struct.unpack_from("<3i", point) for point in points]
    for axis in range(3):
        values = [place[axis] * SCALE + OFFSETS[axis] for place in places]
        struct.pack_into("<2d", header, 179 + 16 * axis, max(values), min(values))
    if minor == 4:
        struct.pack_into("<16Q", header, 247, len(points), *returns[1:8], *[0] * 8)
    return bytes(header) + vlr


def with_pointer_at_the_end(packed):
    """A packed file as a writer leaves it that can't go back: the place of the chunk table in its last eight bytes."""
    offset, = struct.unpack_from("<I", packed, 96)
    return packed[:offset] + b"\xff" * 8 + packed[offset + 8:] + packed[offset:offset + 8]


def run(las, folder, *words):
    subprocess.run([las, *words], cwd=folder, check=True)


def packed(las, folder, plain, chunk, what):
    """The packed form of a plain file."""
    with open(os.path.join(folder, "a.las"), "wb") as file:
        file.write(plain)
    words = ["-chunk_size", str(chunk)]
    if what == "counted":
        offset, = struct.unpack_from("<I", plain, 96)
        length, = struct.unpack_from("<H", plain, 105)
        count = (len(plain) - offset) // length
        parts = []
        for number, (start, stop) in enumerate([(0, 700), (700, 3_000), (3_000, count)]):
            parts += ["-i", f"{number}.laz"]
            run(las, folder, "las2las", "-i", "a.las", "-o", f"{number}.laz", "-olaz", *words,
                "-start_at_point", str(start), "-stop_at_point", str(stop))
        run(las, folder, "lasmerge", *parts, "-o", "a.laz", "-copy_chunks")
    else:
        run(las, folder, "laszip", "-i", "a.las", "-o", "a.laz", *words)
    with open(os.path.join(folder, "a.laz"), "rb") as file:
        data = file.read()
    return with_pointer_at_the_end(data) if what == "pointer" else data


def made(las):
    """Each file with its name: the plain bytes, and the packed ones."""
    tile = tile_records()
    for name, (minor, format_, extra, kind, count, chunk, what) in FILES.items():
        points = air(tile, format_, extra, count) if kind == "air" else random_records(name, format_, extra, count)
        plain = head(minor, format_, extra, points) + b"".join(points)
        with tempfile.TemporaryDirectory() as folder:
            yield name, plain, packed(las, folder, plain, chunk, what)


def main():
    if len(sys.argv) not in (2, 3):
        sys.exit("usage: make_exchange.py LAS [FOLDER]")
    folder = sys.argv[2] if len(sys.argv) == 3 else HERE
    sums = []
    for name, plain, data in made(os.path.abspath(sys.argv[1])):
        with open(os.path.join(folder, f"{name}.laz"), "wb") as file:
            file.write(data)
        sums.append(f"{hashlib.sha256(plain).hexdigest()}  {name}.las\n")
    with open(os.path.join(folder, "plain.sha256"), "w", encoding="ascii") as file:
        file.writelines(sums)


if __name__ == "__main__":
    main()
