"""Inputs for runs of every command, and their words."""
from las_files import long_head, record
from places import Place

PACK = ["-chunk_size", "256"]
# Each command with its words, and the names of its outputs.
COMMANDS = {
    "laszip": (["-i", "in.las", "-o", "o.laz", *PACK], ["o.laz"]),
    "las2las": (["-i", "in.laz", "-o", "o.las", "-keep_class", "2", "5"], ["o.las"]),
    "lasinfo": (["-i", "in.laz", "-tally", "class"], []),
    "lassplit": (["-i", "in.laz", "-o", "p.las", "-by_return"], [f"p_000000{i}.las" for i in (1, 2, 3)]),
    "lasmerge": (["-i", "in.las", "-i", "in.laz", "-o", "o.laz", *PACK], ["o.laz"]),
    "make": (["-o", "m.las", "-z", "m.laz", "-points", "700", "-seed", "1", *PACK], ["m.las", "m.laz"]),
}
WITH_OUTPUTS = [command for command in COMMANDS if COMMANDS[command][1]]


def flight_lines(count: int, lines: int = 3) -> list[bytes]:
    """Records of flight lines that take turns, with returns and classes."""
    points = []
    for i in range(count):
        point = bytearray(record(7 * i, 1 + i % 6, flags=1 + i % 3 + 8 * (1 + i % 3)))
        point[18:20] = (1 + i % lines).to_bytes(2, "little")
        points.append(bytes(point))
    return points


def with_inputs(place: Place, count: int = 700) -> None:
    """Writes `in.las` and its packed form `in.laz`."""
    points = flight_lines(count)
    place.write("in.las", long_head(2, 0, 0, points) + b"".join(points))
    run = place.las("laszip", "-i", "in.las", "-o", "in.laz", *PACK)
    assert run.returncode == 0
