#!/usr/bin/env python3
"""Draws docs/missed.svg from docs/missed.csv: the share of missing poses against n.

    tools/measure/plot_missed.py [CSV [SVG]]

Both axes are logarithmic. A bar on each point of the heavy line spans two standard deviations of
its count to either side.
"""

import csv
import math
import sys

WIDTH, HEIGHT = 760, 500
LEFT, RIGHT, TOP, BOTTOM = 80, 190, 70, 70
SIZES = [25, 50, 100, 200, 400]
PERCENTS = [0.5, 1, 2, 5, 10, 20]
# Name in the table, name in the drawing, colour, dashes, marker.
LINES = [
    ("wrist-offset", "wrist-offset", "#b2182b", "", "circle"),
    ("across", "across", "#2166ac", "8 4", "square"),
    ("random-offsets", "random offsets", "#1b7837", "3 3", "diamond"),
    ("random-axes", "random axes", "#762a83", "10 3 2 3", "triangle"),
    ("all", "all arms", "#000000", "", "none"),
]


def along(value, low, high, start, end):
    return start + (end - start) * math.log(value / low) / math.log(high / low)


def x_of(n):
    return along(n, 22, 450, LEFT, WIDTH - RIGHT)


def y_of(percent):
    return along(percent, 0.35, 20, HEIGHT - BOTTOM, TOP)


def text(x, y, words, size=14, anchor="middle", more=""):
    return (f'<text x="{x:.1f}" y="{y:.1f}" font-size="{size}" text-anchor="{anchor}"'
            f'{more}>{words}</text>')


def line(x1, y1, x2, y2, style):
    return f'<line x1="{x1:.1f}" y1="{y1:.1f}" x2="{x2:.1f}" y2="{y2:.1f}" {style}/>'


def marker(kind, x, y, colour):
    shapes = {
        "square": [(-4, -4), (4, -4), (4, 4), (-4, 4)],
        "diamond": [(0, -6), (6, 0), (0, 6), (-6, 0)],
        "triangle": [(0, -6), (5, 4), (-5, 4)],
    }
    if kind == "circle":
        return f'<circle cx="{x:.1f}" cy="{y:.1f}" r="4.5" fill="{colour}"/>'
    points = " ".join(f"{x + dx:.1f},{y + dy:.1f}" for dx, dy in shapes.get(kind, []))
    return f'<polygon points="{points}" fill="{colour}"/>' if points else ""


def axes():
    right, bottom = WIDTH - RIGHT, HEIGHT - BOTTOM
    parts = []
    for n in SIZES:
        parts.append(line(x_of(n), TOP, x_of(n), bottom, 'stroke="#dddddd"'))
        parts.append(text(x_of(n), bottom + 22, n))
    for percent in PERCENTS:
        y = y_of(percent)
        parts.append(line(LEFT, y, right, y, 'stroke="#dddddd"'))
        parts.append(text(LEFT - 8, y + 5, f"{percent:g} %", anchor="end"))
    parts.append(f'<rect x="{LEFT}" y="{TOP}" width="{right - LEFT}" height="{bottom - TOP}" '
                 'fill="none" stroke="#333333"/>')
    parts.append(text((LEFT + right) / 2, HEIGHT - 20,
                      "n, grid steps over one turn of q1 (log scale)"))
    middle = (TOP + bottom) / 2
    parts.append(text(22, middle, "poses whose own angles are missing, in % (log scale)",
                      more=f' transform="rotate(-90 22 {middle:.1f})"'))
    return parts


def share(row):
    return 100 * int(row["missing"]) / int(row["poses"])


def curve(rows, colour, dashes, kind):
    heavy = kind == "none"
    points = " ".join(f"{x_of(int(r['n'])):.1f},{y_of(share(r)):.1f}" for r in rows)
    parts = [f'<polyline points="{points}" fill="none" stroke="{colour}" '
             f'stroke-width="{3.5 if heavy else 2}" stroke-dasharray="{dashes or "none"}"/>']
    for row in rows:
        x, y = x_of(int(row["n"])), y_of(share(row))
        parts.append(marker(kind, x, y, colour))
        if heavy:
            missing = int(row["missing"])
            spread = 2 / math.sqrt(missing)
            low, high = (y_of(share(row) * (1 + sign * spread)) for sign in (-1, 1))
            parts.append(line(x, low, x, high, f'stroke="{colour}" stroke-width="1.5"'))
    return parts


def legend(place, name, rows, colour, dashes, kind):
    x, y = WIDTH - RIGHT + 14, TOP + 16 + 40 * place
    style = (f'stroke="{colour}" stroke-width="{3.5 if kind == "none" else 2}" '
             f'stroke-dasharray="{dashes or "none"}"')
    first, last = share(rows[0]), share(rows[-1])
    return [line(x, y, x + 34, y, style), marker(kind, x + 17, y, colour),
            text(x + 42, y + 5, name, anchor="start"),
            text(x + 42, y + 21, f"{first:.1f} % to {last:.1f} %", 12, "start", ' fill="#555555"')]


def main():
    source = sys.argv[1] if len(sys.argv) > 1 else "docs/missed.csv"
    target = sys.argv[2] if len(sys.argv) > 2 else "docs/missed.svg"
    with open(source, newline="") as file:
        table = list(csv.DictReader(file))
    poses = next(int(row["poses"]) for row in table if row["arm"] == "all")
    parts = [f'<svg xmlns="http://www.w3.org/2000/svg" width="{WIDTH}" height="{HEIGHT}" '
             f'viewBox="0 0 {WIDTH} {HEIGHT}" font-family="sans-serif">',
             f'<rect width="{WIDTH}" height="{HEIGHT}" fill="#ffffff"/>',
             text(WIDTH / 2, 28, "Family 6: reachable poses whose own angles are not in the list",
                  18),
             text(WIDTH / 2, 50, f"{poses:,} poses of the oracle's arms, the same at each n; "
                  "flagged answers count as found", 13, more=' fill="#555555"')]
    parts += axes()
    for place, (key, name, colour, dashes, kind) in enumerate(LINES):
        rows = [row for row in table if row["arm"] == key]
        parts += curve(rows, colour, dashes, kind)
        parts += legend(place, name, rows, colour, dashes, kind)
    with open(target, "w") as file:
        file.write("\n".join(part for part in parts if part) + "\n</svg>\n")


if __name__ == "__main__":
    main()
