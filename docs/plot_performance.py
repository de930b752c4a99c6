#!/usr/bin/env python3
"""Draws performance.csv as bars: plot_performance.py writes performance.svg beside it."""
import csv
import os

HERE = os.path.dirname(os.path.abspath(__file__))
WIDTH, LEFT, BAR, GAP, TOP = 800, 190, 15, 14, 64
OURS, OTHERS, INK, FAINT = "#1f7a5c", "#b9bec6", "#22262b", "#e3e6ea"
PANEL = (WIDTH - LEFT - 40) // 2


def rows_of(path):
    with open(path, encoding="utf-8") as file:
        lines = csv.reader(line for line in file if not line.startswith("#"))
        next(lines)
        return [(name, [float(number) for number in numbers]) for name, *numbers in lines]


def text(x, y, words, anchor="start", size=12):
    return f'<text x="{x:g}" y="{y:g}" font-size="{size}" text-anchor="{anchor}" fill="{INK}">{words}</text>'


def bar(x, y, length, colour, words):
    return (f'<rect x="{x:g}" y="{y:g}" width="{length:.1f}" height="{BAR}" fill="{colour}"/>'
            + text(x + length + 4, y + BAR - 3, words, size=11))


def panel(left, title, rows, first, most):
    """The bars of one direction; first is the place of ours among the numbers of a row."""
    length = PANEL - 60
    height = len(rows) * (2 * BAR + GAP)
    parts = [text(left, TOP - 12, title, size=14)]
    for line in range(0, int(most) + 1, 200):
        x = left + length * line / most
        parts.append(f'<line x1="{x:.1f}" y1="{TOP}" x2="{x:.1f}" y2="{TOP + height}" stroke="{FAINT}"/>')
        parts.append(text(round(x, 1), TOP + height + 14, str(line), "middle", 11))
    for place, (_, numbers) in enumerate(rows):
        y = TOP + GAP / 2 + place * (2 * BAR + GAP)
        for turn, colour in enumerate([OURS, OTHERS]):
            number = numbers[first + turn]
            parts.append(bar(left, y + turn * BAR, length * number / most, colour, f"{number:g}"))
    return parts


def drawn(rows):
    most = max(max(numbers) for _, numbers in rows)
    high = TOP + len(rows) * (2 * BAR + GAP) + 26
    parts = [f'<svg xmlns="http://www.w3.org/2000/svg" viewBox="0 0 {WIDTH} {high}" font-family="sans-serif">',
             f'<rect width="{WIDTH}" height="{high}" fill="white"/>',
             text(LEFT - 180, 24, "Nanoseconds a point, in memory, one processor: shorter is faster", size=14),
             f'<rect x="{WIDTH - 254}" y="14" width="12" height="12" fill="{OURS}"/>', text(WIDTH - 238, 24, "las"),
             f'<rect x="{WIDTH - 200}" y="14" width="12" height="12" fill="{OTHERS}"/>',
             text(WIDTH - 184, 24, "plain C++ coder")]
    for place, (name, _) in enumerate(rows):
        parts.append(text(LEFT - 10, TOP + place * (2 * BAR + GAP) + BAR + GAP / 2 + 4, f"format {name}", "end"))
    parts += panel(LEFT, "packing", rows, 0, most)
    parts += panel(LEFT + PANEL + 20, "unpacking", rows, 2, most)
    return "\n".join(parts) + "\n</svg>\n"


if __name__ == "__main__":
    with open(os.path.join(HERE, "performance.svg"), "w", encoding="utf-8") as out:
        out.write(drawn(rows_of(os.path.join(HERE, "performance.csv"))))
