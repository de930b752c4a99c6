#!/usr/bin/env python3
"""Draws a plain LAS file as a picture, by height and by class, seen from above the south: draw_tile.py LAS PNG.

Needs the standard library alone. The file is read whole, with point data formats 0 to 3.
"""
import struct
import sys
import zlib

# pixels of one view; each is drawn with four times as many
WIDTH, HEIGHT, FINE = 560, 330, 2
# the view is turned about the vertical, and looks down: sine and cosine of both angles
TURN, DOWN = (0.42, 0.9075), (0.62, 0.7846)
RISE = 1.25
PAPER = (255, 255, 255)
HEIGHTS = [(38, 70, 120), (52, 128, 140), (94, 170, 120), (196, 205, 110), (240, 190, 90), (226, 120, 70),
           (170, 50, 60)]
CLASSES = {2: (176, 145, 104), 3: (170, 200, 80), 5: (52, 128, 62), 6: (205, 78, 62)}
OTHER = (120, 120, 120)
SHADES = [1.0 - 0.04 * step for step in range(16)]


def points_of(data):
    """The raw coordinates times their scales, and the class, of each record."""
    start, = struct.unpack_from("<I", data, 96)
    length, count = struct.unpack_from("<HI", data, 105)
    scales = struct.unpack_from("<3d", data, 131)
    for at in range(start, start + length * count, length):
        x, y, z = (n * scale for n, scale in zip(struct.unpack_from("<iii", data, at), scales))
        yield x, y, z, data[at + 15] % 32


def placed(points):
    """Each point's place across and down the fine picture, and its depth; the size of a metre in fine pixels."""
    middle = [(max(axis) + min(axis)) / 2 for axis in list(zip(*points))[:3]]
    views = []
    for point in points:
        x, y, z = (point[axis] - middle[axis] for axis in range(3))
        across, back = x * TURN[1] - y * TURN[0], x * TURN[0] + y * TURN[1]
        views.append((across, -back * DOWN[0] - RISE * z * DOWN[1], back * DOWN[1] - RISE * z * DOWN[0]))
    across, down = ([view[axis] for view in views] for axis in range(2))
    metre = min((WIDTH - 12) * FINE / (max(across) - min(across)), (HEIGHT - 12) * FINE / (max(down) - min(down)))
    left = WIDTH * FINE / 2 - metre * (max(across) + min(across)) / 2
    top = HEIGHT * FINE / 2 - metre * (max(down) + min(down)) / 2
    return [(int(left + metre * a), int(top + metre * d), metre * depth) for a, d, depth in views], metre


def nearest(views, radius):
    """For each fine pixel the number of the point that is seen there, or none, and how deep it lies."""
    wide, high = WIDTH * FINE, HEIGHT * FINE
    seen, depths = [None] * (wide * high), [1e9] * (wide * high)
    spans = [(row, int((radius * radius - row * row) ** 0.5)) for row in range(-radius, radius + 1)]
    for number, (across, down, depth) in enumerate(views):
        for row, half in spans:
            if 0 <= down + row < high:
                first = (down + row) * wide
                for at in range(first + max(across - half, 0), first + min(across + half + 1, wide)):
                    if depth < depths[at]:
                        seen[at], depths[at] = number, depth
    return seen, depths


def shaded(seen, depths, metre):
    """How much darker each fine pixel is: the deeper it lies below its neighbours, the darker."""
    wide = WIDTH * FINE
    shades = [0] * len(seen)
    offsets = [3, -3, 3 * wide, -3 * wide, 2 + 2 * wide, 2 - 2 * wide, -2 + 2 * wide, -2 - 2 * wide]
    for at in range(3 * wide, len(seen) - 3 * wide):
        if seen[at] is not None:
            depth = depths[at]
            deeper = (depth - depths[at + offset] for offset in offsets)
            below = sum(min(more, 4.0 * metre) for more in deeper if more > 0.0)
            shades[at] = min(int(1.1 * below / metre), len(SHADES) - 1)
    return shades


def coloured(seen, shades, colours):
    """The rows of one view, each pixel the mean of its fine ones."""
    wide = WIDTH * FINE
    rows = []
    for row in range(HEIGHT):
        line = bytearray()
        for column in range(WIDTH):
            total = [0.0, 0.0, 0.0]
            for down in range(FINE):
                first = (row * FINE + down) * wide + column * FINE
                for at in range(first, first + FINE):
                    number = seen[at]
                    colour, shade = (PAPER, 1.0) if number is None else (colours[number], SHADES[shades[at]])
                    for part in range(3):
                        total[part] += colour[part] * shade
            # steps of eight, so that the picture is a small file
            line += bytes(min(int(part / (FINE * FINE)) // 8 * 8 + 7, 255) for part in total)
        rows.append(bytes(line))
    return rows


def by_height(points):
    heights = sorted(point[2] for point in points)
    low, high = heights[0], heights[-1]
    colours = []
    for point in points:
        place = (point[2] - low) / max(high - low, 0.01) * (len(HEIGHTS) - 1)
        step = min(int(place), len(HEIGHTS) - 2)
        colours.append([a + (b - a) * (place - step) for a, b in zip(HEIGHTS[step], HEIGHTS[step + 1])])
    return colours


def by_class(points):
    return [CLASSES.get(point[3], OTHER) for point in points]


def png(rows):
    def chunk(name, data):
        return struct.pack(">I", len(data)) + name + data + struct.pack(">I", zlib.crc32(name + data))

    head = struct.pack(">IIBBBBB", len(rows[0]) // 3, len(rows), 8, 2, 0, 0, 0)
    # a byte before each row says that it stands as it is
    lines = b"".join(b"\x00" + row for row in rows)
    return (b"\x89PNG\r\n\x1a\n" + chunk(b"IHDR", head) + chunk(b"IDAT", zlib.compress(lines, 9))
            + chunk(b"IEND", b""))


def drawn(data):
    points = list(points_of(data))
    views, metre = placed(points)
    seen, depths = nearest(views, max(2, int(0.85 * metre)))
    shades = shaded(seen, depths, metre)
    left, right = (coloured(seen, shades, colours) for colours in (by_height(points), by_class(points)))
    return png([first + second for first, second in zip(left, right)])


if __name__ == "__main__":
    if len(sys.argv) != 3:
        sys.exit("usage: draw_tile.py LAS PNG")
    with open(sys.argv[1], "rb") as file:
        picture = drawn(file.read())
    with open(sys.argv[2], "wb") as image:
        image.write(picture)
