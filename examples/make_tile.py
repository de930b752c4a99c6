#!/usr/bin/env python3
"""Writes the sample, a plain LAS file like a tile of an airborne laser scan: make_tile.py NAME.

A made-up place of 110 m by 90 m, with a valley, a road, houses, trees and bushes, seen from two flight lines. All
numbers are fixed, so every run writes the same bytes. Only sums, products, quotients and square roots are computed,
whose results are the same on every machine.
"""
import math
import random
import struct
import sys

SCALE = 0.01
OFFSETS = (512_000.0, 5_403_000.0, 0.0)
CORNER = (512_300.0, 5_403_400.0)
WIDTH, LENGTH = 110.0, 90.0
GROUND, LOW_VEGETATION, HIGH_VEGETATION, BUILDING = 2, 3, 5, 6
# reflected light of each class, and of the road
INTENSITIES = {GROUND: 900, LOW_VEGETATION: 620, HIGH_VEGETATION: 480, BUILDING: 1_250}
ROAD_INTENSITY = 260
# centre x and y, half width along x and y, height of the walls and rise of the roof, direction of the ridge
BUILDINGS = [
    (20.0, 16.0, 7.0, 4.5, 5.5, 3.2, "x"), (41.0, 15.0, 5.0, 6.5, 5.0, 3.0, "y"), (63.0, 17.0, 8.0, 5.0, 6.0, 3.6, "x"),
    (88.0, 15.0, 10.0, 7.0, 9.0, 0.0, "x"), (17.0, 55.0, 5.0, 7.0, 5.5, 3.4, "y"),
    (38.0, 58.0, 6.5, 4.5, 5.0, 2.8, "x"), (37.0, 70.0, 3.0, 3.0, 2.8, 0.0, "x"),
]
FLIGHT_LINES = [
    # point source ID, place of the plane beside the tile's west edge, its height, adjusted GPS time of the first pulse
    # (on 17 July 2026), direction
    (41, -45.0, 620.0, 468_317_600.0, 1),
    (42, 165.0, 640.0, 468_318_080.0, -1),
]
PULSES_OF_A_SCAN, SCANS = 94, 92


def square(t):
    return t * t


def smooth(t):
    t = min(max(t, 0.0), 1.0)
    return t * t * (3.0 - 2.0 * t)


class Noise:
    """Smooth noise: random values at the corners of a grid, with smooth steps between them."""

    def __init__(self, draws, cell):
        self.cell = cell
        self.values = [[draws.random() for _ in range(64)] for _ in range(64)]

    def at(self, x, y):
        x, y = x / self.cell + 8.0, y / self.cell + 8.0
        column, row = int(x), int(y)
        u, v = smooth(x - column), smooth(y - row)
        low, high = self.values[row], self.values[row + 1]
        return ((low[column] * (1 - u) + low[column + 1] * u) * (1 - v)
                + (high[column] * (1 - u) + high[column + 1] * u) * v)


class Place:
    """What stands on the ground: how high its surface is, what it is made of, and how far light enters it."""

    def __init__(self):
        draws = random.Random(20_260_717)
        self.hills = Noise(draws, 34.0)
        self.bumps = Noise(draws, 9.0)
        self.bushes = Noise(draws, 7.0)
        self.trees = []
        while len(self.trees) < 58:
            x, y = draws.random() * WIDTH, draws.random() * LENGTH
            radius = 1.7 + 2.3 * draws.random()
            height = radius * (2.4 + 1.2 * draws.random())
            wood = x > 58.0 and y > 46.0
            if (wood or len(self.trees) % 4 == 0) and self.is_free(x, y, radius):
                self.trees.append((x, y, radius, height))

    def is_free(self, x, y, radius):
        beside_houses = all(abs(x - bx) > wx + radius or abs(y - by) > wy + radius
                            for bx, by, wx, wy, *_ in BUILDINGS)
        beside_trees = all(square(x - tx) + square(y - ty) > square(0.62 * (radius + tr))
                           for tx, ty, tr, _ in self.trees)
        return beside_houses and beside_trees and abs(y - self.road(x)) > 3.5 + radius

    @staticmethod
    def road(x):
        """How far north the middle of the road is."""
        return 33.0 + 6.0 * smooth(x / WIDTH) + 0.05 * x

    def ground(self, x, y):
        slope = 8.0 * smooth((y - 30.0) / 75.0) + 2.5 * smooth((40.0 - y) / 60.0)
        valley = 2.4 * max(0.0, 1.0 - abs(x - 50.0 - 0.2 * y) / 16.0) * smooth((y - 44.0) / 20.0)
        height = 214.0 + slope - valley + 3.2 * self.hills.at(x, y) + 0.35 * self.bumps.at(x, y)
        beside = smooth((abs(y - self.road(x)) - 2.6) / 6.0)
        return height * beside + (216.2 + 0.025 * x) * (1.0 - beside)

    def house(self, x, y, share):
        """The height above the sea of a roof, if one is here, or of a share of a wall that light meets beside it."""
        for bx, by, wx, wy, walls, rise, ridge in BUILDINGS:
            across, half = (abs(y - by), wy) if ridge == "x" else (abs(x - bx), wx)
            if abs(x - bx) <= wx and abs(y - by) <= wy:
                return self.ground(bx, by) + walls + rise * (1.0 - across / half)
            if abs(x - bx) <= wx + 0.6 and abs(y - by) <= wy + 0.5:
                return self.ground(bx, by) + walls * share
        return None

    def crown(self, x, y):
        """The top and the bottom of the tallest crown here, above the ground."""
        best = None
        for tx, ty, radius, height in self.trees:
            far = (square(x - tx) + square(y - ty)) / square(radius)
            if far < 1.0:
                half = 0.36 * height * math.sqrt(1.0 - far)
                if best is None or 0.64 * height + half > best[0]:
                    best = (0.64 * height + half, 0.64 * height - half)
        return best

    def bush(self, x, y):
        if abs(y - self.road(x)) < 4.0:
            return 0.0
        return 3.4 * max(0.0, self.bushes.at(x, y) - 0.66) * (1.6 if y > 44.0 else 1.0)


def echoes(place, draws, x, y):
    """What sends light back, from above: height above the sea, class and intensity."""
    ground = place.ground(x, y)
    house = place.house(x, y, draws.random())
    if house is not None:
        return [(house, BUILDING, INTENSITIES[BUILDING])]
    found = []
    crown = place.crown(x, y)
    light = 1.0
    if crown is not None:
        top, bottom = crown
        depth = top - 0.25 * draws.random()
        while depth > bottom and len(found) < 3 and light > 0.2:
            found.append((ground + depth, HIGH_VEGETATION, INTENSITIES[HIGH_VEGETATION] * light))
            light *= 0.45 + 0.35 * draws.random()
            depth -= 1.2 + 2.6 * draws.random()
        if draws.random() < 0.42:
            return found
    bush = place.bush(x, y)
    if bush > 0.25 and draws.random() < 0.8:
        height = ground + bush * (0.55 + 0.45 * draws.random())
        found.append((height, LOW_VEGETATION, INTENSITIES[LOW_VEGETATION] * light))
        return found
    on_road = abs(y - place.road(x)) < 2.6
    found.append((ground, GROUND, (ROAD_INTENSITY if on_road else INTENSITIES[GROUND]) * light))
    return found


def raw(value, offset):
    return int((value - offset) / SCALE + 0.5)


def flown(place, source, beside, height, time, direction):
    """The records of one flight line, in the order of their times."""
    draws = random.Random(source)
    records = []
    for scan in range(SCANS):
        for pulse in range(PULSES_OF_A_SCAN):
            time += 0.00002
            along = pulse if scan % 2 == 0 else PULSES_OF_A_SCAN - 1 - pulse
            x = WIDTH * (along + 0.5 + 0.5 * (draws.random() - 0.5)) / PULSES_OF_A_SCAN
            y = LENGTH * (scan + (pulse + draws.random()) / PULSES_OF_A_SCAN) / SCANS
            y = y if direction > 0 else LENGTH - y
            if draws.random() < 0.03:
                continue
            found = echoes(place, draws, x, y)
            # degrees of an angle that is small enough to be taken for its tangent
            angle = int(57.3 * (x - beside) / height + (0.5 if x > beside else -0.5)) * direction
            edge = pulse == PULSES_OF_A_SCAN - 1
            for number, (z, class_, intensity) in enumerate(found, 1):
                leant = (found[0][0] - z) * (x - beside) / height
                east = raw(CORNER[0] + min(x + leant, WIDTH - 0.01), OFFSETS[0])
                north = raw(CORNER[1] + y, OFFSETS[1])
                up = raw(z + 0.05 * (draws.random() - 0.5), OFFSETS[2])
                light = int(intensity * (0.85 + 0.3 * draws.random()))
                flags = number + 8 * len(found) + 64 * (scan % 2) + 128 * edge
                fields = (east, north, up, light, flags, class_, angle, 0, source, time)
                records.append(struct.pack("<iiiHBBbBHd", *fields))
        # the mirror turns back
        time += 0.00034
    return records


def projection():
    """A VLR that says ETRS89 / UTM zone 32N (EPSG 25832), in metres."""
    keys = [1, 1, 0, 4, 1024, 0, 1, 1, 3072, 0, 1, 25832, 3076, 0, 1, 9001, 4099, 0, 1, 9001]
    payload = struct.pack(f"<{len(keys)}H", *keys)
    return struct.pack("<H16sHH32s", 0, b"LASF_Projection", 34735, len(payload), b"GeoKeyDirectory") + payload


def head(records, vlr):
    header = bytearray(227)
    header[0:4] = b"LASF"
    # the times are adjusted standard GPS time
    header[6] = 1
    header[24:26] = bytes([1, 2])
    struct.pack_into("<32s32sHH", header, 26, b"a made-up place", b"make_tile.py", 198, 2026)
    struct.pack_into("<HIIBHI", header, 94, 227, 227 + len(vlr), 1, 1, 28, len(records))
    returns = [sum(record[14] % 8 == number for record in records) for number in range(1, 6)]
    struct.pack_into("<5I", header, 111, *returns)
    struct.pack_into("<6d", header, 131, SCALE, SCALE, SCALE, *OFFSETS)
    for axis in range(3):
        numbers = [struct.unpack_from("<i", record, 4 * axis)[0] for record in records]
        box = [number * SCALE + OFFSETS[axis] for number in (max(numbers), min(numbers))]
        struct.pack_into("<2d", header, 179 + 16 * axis, *box)
    return bytes(header) + vlr


def tile():
    place = Place()
    records = [record for line in FLIGHT_LINES for record in flown(place, *line)]
    return head(records, projection()) + b"".join(records)


if __name__ == "__main__":
    if len(sys.argv) != 2:
        sys.exit("usage: make_tile.py NAME")
    with open(sys.argv[1], "wb") as file:
        file.write(tile())
