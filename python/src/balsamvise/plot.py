"""Draws a file from above or along a line, by height, class or intensity."""
from __future__ import annotations

import argparse
import os
import sys
from typing import Any

import numpy as np

from .arrays import Array
from .head import Head
from .outputs import Output
from .reading import LasFile

_PART = 1_000_000
_PIXELS = 900
"""The number of pixels of the longer side of what is drawn from above."""
_MOST_OF_LINE = 400_000
"""The number of points that are drawn along a line, at most."""
_FEET = {9002: 0.3048, 9003: 1200 / 3937}
"""The lengths in metres of units that GeoKeys name."""
CLASSES = ("never classified", "unclassified", "ground", "low vegetation", "medium vegetation", "high vegetation",
           "building", "low point", "key point", "water", "rail", "road", "overlap", "wire, guard", "wire, conductor",
           "tower", "wire connector", "bridge deck", "high noise")
"""The names of the classes by the LAS specification."""
_COLOURS = ("#bbbbbb", "#999999", "#a9743a", "#b5d99c", "#7cb462", "#3f7f3b", "#d1423f", "#000000", "#f28e2b",
            "#4e79a7", "#76549a", "#555555", "#e15fb9", "#edc948", "#59a1cf", "#9c755f", "#86bcb6", "#8cd17d",
            "#ff9da7")


def metres_of(head: Head) -> float:
    """The length of a unit of x and y in metres, as the GeoKeys say; 1 if they do not."""
    vlr = head.vlrs.get("LASF_Projection", 34735)
    keys = np.frombuffer(vlr.payload[:len(vlr.payload) // 8 * 8], "<u2").reshape(-1, 4) if vlr else np.zeros((0, 4))
    found = [int(value) for key, place, _, value in keys[1:] if key == 3076 and place == 0]
    return _FEET.get(found[0], 1.0) if found else 1.0


class Above:
    """The highest point of each pixel, from above."""

    def __init__(self, low: Array, high: Array, by: str, points: int) -> None:
        if not np.isfinite(high - low).all():
            raise ValueError("the head has scales or offsets that are no finite numbers")
        self._low = low
        pixels = min(max(np.sqrt(points), 50), _PIXELS)  # about one for each point, if there are few
        self.step = max(float((high - low)[:2].max()) / pixels, 1e-9)
        columns, rows = (int(it) for it in (high - low)[:2] / self.step + 1)
        self._by = by
        self.values = np.full((rows, columns), np.nan)
        self._tops = np.full((rows, columns), -np.inf)

    def see(self, points: Any) -> None:
        """Takes some points."""
        z = np.array(points.z)
        field = {"height": "z", "class": "classification", "intensity": "intensity"}[self._by]
        shown = np.asarray(points[field]).astype(float)
        order = np.argsort(z, kind="stable")
        rows, columns = self.values.shape
        column, row = (np.clip((np.asarray(points[axis]) - low) / self.step, 0, most - 1).astype(int)[order]
                       for axis, low, most in (("x", self._low[0], columns), ("y", self._low[1], rows)))
        z, shown = z[order], shown[order]
        higher = z >= self._tops[row, column]
        # of equal pixels the last assignment stays, which is the highest
        self._tops[row[higher], column[higher]] = z[higher]
        self.values[row[higher], column[higher]] = shown[higher]


def _along(points: Any, line: tuple[float, float, float, float], width: float) -> Array:
    """Which points are within half a width of a line, and how far along it each is."""
    x, y = np.asarray(points.x) - line[0], np.asarray(points.y) - line[1]
    dx, dy = line[2] - line[0], line[3] - line[1]
    length = float(np.hypot(dx, dy))
    along, aside = (x * dx + y * dy) / length, (y * dx - x * dy) / length
    inside = (along >= 0) & (along <= length) & (np.abs(aside) <= width / 2)
    return np.where(inside, along, np.nan)


def _line_of(file: LasFile, line: tuple[float, float, float, float], width: float, by: str,
             threads: int) -> tuple[Array, Array, Array]:
    """How far along the line the points beside it are, their heights, and what they are drawn by."""
    parts = []
    for points in file.chunks(_PART, threads=threads):
        along = _along(points, line, width)
        there = ~np.isnan(along)
        values = {"height": points.z, "class": points.classification, "intensity": points.intensity}[by]
        parts.append((along[there], np.asarray(points.z)[there], np.asarray(values)[there].astype(float)))
    along, z, values = (np.concatenate([part[at] for part in parts]) if parts else np.empty(0) for at in range(3))
    step = max(1, -(-len(along) // _MOST_OF_LINE))
    return along[::step], z[::step], values[::step]


def _classes(values: Array) -> list[int]:
    return [int(it) for it in np.unique(values[~np.isnan(values)])]


def _legend(axes: Any, figure: Any, drawn: Any, by: str, values: Array) -> None:
    """What the colours mean, beside the axes."""
    if by != "class":
        figure.colorbar(drawn, ax=axes, label="height in metres" if by == "height" else "intensity", shrink=0.8)
        return
    from matplotlib.patches import Patch  # type: ignore[import]

    names = [(it, CLASSES[it] if it < len(CLASSES) else "class") for it in _classes(values)]
    axes.legend(handles=[Patch(color=_colour(it), label=f"{it} {name}") for it, name in names], loc="upper left",
                bbox_to_anchor=(1.01, 1), frameon=False)


def _colour(number: int) -> str:
    return _COLOURS[number % len(_COLOURS)]


def _scale(by: str) -> dict[str, Any]:
    if by != "class":
        return {"cmap": "viridis" if by == "height" else "gray"}
    from matplotlib.colors import BoundaryNorm, ListedColormap  # type: ignore[import]

    return {"cmap": ListedColormap([_colour(it) for it in range(32)]), "norm": BoundaryNorm(np.arange(33) - 0.5, 32)}


def _draw_above(axes: Any, file: LasFile, by: str, threads: int) -> tuple[Any, Array]:
    """Draws all points from above; answers what was drawn, and its values."""
    unit, tally, head = metres_of(file.head), file.tally(threads), file.head
    ends = [np.array(raw) * head.scales + head.offsets for raw in (tally.mins, tally.maxs)] if tally.points else \
        [np.zeros(3), np.zeros(3)]
    low = np.minimum(*ends)
    above = Above(low, np.maximum(*ends), by, tally.points)
    for points in file.chunks(_PART, threads=threads):
        above.see(points)
    rows, columns = above.values.shape
    extent = [low[0], low[0] + columns * above.step, low[1], low[1] + rows * above.step]
    drawn = axes.imshow(above.values * unit if by == "height" else above.values, origin="lower",
                        extent=[it * unit for it in extent], interpolation="nearest", **_scale(by))
    axes.set(xlabel="x in metres", ylabel="y in metres")
    axes.ticklabel_format(useOffset=False, style="plain")
    return drawn, above.values


def _draw_line(axes: Any, found: tuple[Array, Array, Array], by: str, unit: float) -> tuple[Any, Array]:
    """Draws points along a line; answers what was drawn, and its values."""
    along, z, values = found
    drawn = axes.scatter(along * unit, z * unit, c=values * unit if by == "height" else values, s=2, linewidths=0,
                         **_scale(by))
    axes.set(xlabel="metres along the line", ylabel="height in metres")
    axes.set_aspect("equal", adjustable="datalim")
    return drawn, values


def plot(name: str, image: str, *, by: str = "height", line: tuple[float, float, float, float] | None = None,
         width: float = 2.0, threads: int = 1) -> None:
    """Draws a file to an image: PNG, or what the end of the image's name says to matplotlib.

    From above, each pixel has the highest point in it. With a `line`, x and y of its two ends, the points within half a
    `width` of it are drawn by their way along it and their height. `by` is `height`, `class` or `intensity`. The axes
    are in metres, by the unit that the GeoKeys of the file name. It needs the package matplotlib.
    """
    import matplotlib  # type: ignore[import]

    matplotlib.use("Agg")
    from matplotlib.figure import Figure  # type: ignore[import]

    figure = Figure(figsize=(9, 7 if line is None else 4), layout="constrained")
    axes = figure.add_subplot()
    with LasFile(name) as file:
        axes.set_title(f"{os.path.basename(name)}: {len(file):,} points")
        if line is None:
            drawn, values = _draw_above(axes, file, by, threads)
        else:
            drawn, values = _draw_line(axes, _line_of(file, line, width, by, threads), by, metres_of(file.head))
    _legend(axes, figure, drawn, by, values)
    with Output(image) as out:
        figure.savefig(out, dpi=120, format=os.path.splitext(image)[1][1:].lower() or "png")


def main(arguments: list[str]) -> int:
    """Runs the command."""
    words = argparse.ArgumentParser(prog="balsamvise plot", description=(
        "Draws FILE to IMAGE from above, each pixel by its highest point, or along a line, with a legend and axes in "
        "metres. It needs matplotlib: Debian has it as python3-matplotlib."))
    words.add_argument("file", metavar="FILE", help="a LAS or LAZ file")
    words.add_argument("image", metavar="IMAGE", help="the image: .png, .svg, .pdf")
    words.add_argument("--by", choices=("height", "class", "intensity"), default="height", help="what the colours are")
    words.add_argument("--profile", nargs=4, type=float, metavar=("X1", "Y1", "X2", "Y2"),
                       help="a profile along the line between two points, in the units of the file")
    words.add_argument("--width", type=float, default=2.0, help="how wide a strip the profile has; 2 if not given")
    words.add_argument("--threads", type=int, default=os.cpu_count() or 1, metavar="N",
                       help="the number of threads, 1 to 256; that of the processors if it is not given")
    given = words.parse_args(arguments)
    line = tuple(given.profile) if given.profile else None
    if line is not None and (line[:2] == line[2:] or not given.width > 0):
        words.error("a profile has two different ends and a width above 0")
    try:
        plot(given.file, given.image, by=given.by, line=line, width=given.width,  # type: ignore[arg-type]
             threads=min(max(given.threads, 1), 256))
    except ModuleNotFoundError as error:
        print(f"balsamvise plot: {error}: it is python3-matplotlib in Debian, matplotlib elsewhere", file=sys.stderr)
        return 3
    return 0
