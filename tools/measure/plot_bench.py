#!/usr/bin/env python3
"""The table and the plot of what tools/measure/bench.sh measured.

    tools/measure/plot_bench.py CSV SVG

Prints the table of CSV, in Markdown, and writes the plot of family 6's cost against n to SVG. The
time on a core of 400 MHz is the number of instructions over 400 million, as if each took one cycle.
"""
import csv
import sys

SIDES = ("port", "rules", "machine")
UNTOUCHED = "untouched"  # the published Rust, which is not there in every run or for every n
COLOURS = {"port": "#c02020", "rules": "#2050c0", "machine": "#208040", UNTOUCHED: "#806000"}
MHZ = 400
WIDTH, HEIGHT, LEFT, RIGHT, TOP, BOTTOM = 720, 440, 80, 80, 50, 60


def read(path):
    """The rows by (family, n), each by side."""
    groups = {}
    with open(path, newline="") as lines:
        for row in csv.DictReader(lines):
            groups.setdefault((int(row["family"]), int(row["n"])), {})[row["side"]] = row
    return groups


def number(row, name):
    return float(row[name])


def row(cells):
    print("| " + " | ".join(cells) + " |")


def measured(sides, what, wanted):
    """A number for each side, then the port's over the machine's, and over the published Rust's if that is wanted."""
    least = number(sides["port"], what)
    numbers = [f"{number(sides[s], what):,.0f}" for s in SIDES]
    ratios = [f"{least / number(sides['machine'], what):.2f}"]
    if wanted:
        there = UNTOUCHED in sides
        numbers.append(f"{number(sides[UNTOUCHED], what):,.0f}" if there else "")
        ratios.append(f"{least / number(sides[UNTOUCHED], what):.2f}" if there else "")
    return numbers + ratios


def table(groups):
    wanted = any(UNTOUCHED in sides for sides in groups.values())
    names = ["port", "rules", "machine", *[UNTOUCHED] * wanted, "port / machine", *["port / untouched"] * wanted]
    head = ["family, n", "poses", *names, "ms at 400 MHz", "ns: port", *names[1:]]
    row(head)
    print("|---" * len(head) + "|")
    for (family, n), sides in groups.items():
        name = f"{family}, {n}" if n else f"{family}"
        at_400 = f"{number(sides['port'], 'instructions') / MHZ / 1e3:.2f}"
        row([name, sides["port"]["poses_counted"], *measured(sides, "instructions", wanted), at_400,
             *measured(sides, "ns", wanted)])
    print()
    print("| family 6, n | evaluations a solve | instructions an evaluation: port | rules | machine | port / machine | ns: port | rules | machine | port / machine |")
    print("|---|---|---|---|---|---|---|---|---|---|")
    for (family, n), sides in groups.items():
        if family != 6:
            continue
        count = [number(sides[s], "instructions") / number(sides[s], "evaluations") for s in SIDES]
        time = [number(sides[s], "ns") / number(sides[s], "evaluations_timed") for s in SIDES]
        cells = [str(n), f"{number(sides['port'], 'evaluations'):,.0f}"]
        for three in (count, time):
            cells += [f"{x:,.0f}" for x in three] + [f"{three[0] / three[2]:.2f}"]
        row(cells)


def text(x, y, words, anchor="middle", more=""):
    return f'<text x="{x:.1f}" y="{y:.1f}" text-anchor="{anchor}" {more}>{words}</text>'


def line(x1, y1, x2, y2, colour):
    return f'<line x1="{x1:.1f}" y1="{y1:.1f}" x2="{x2:.1f}" y2="{y2:.1f}" stroke="{colour}"/>'


def plot(groups, path):
    """Millions of instructions a solve against n: straight axes, both from 0."""
    points = {
        s: [(n, number(sides[s], "instructions") / 1e6) for (f, n), sides in groups.items() if f == 6 and s in sides]
        for s in (*SIDES, UNTOUCHED)
    }
    points = {side: marks for side, marks in points.items() if marks}
    most_n = 400
    step = 2
    top = step
    while top < max(y for side in points.values() for _, y in side):
        top += step

    def at(n, y):
        return (LEFT + (WIDTH - LEFT - RIGHT) * n / most_n, HEIGHT - BOTTOM - (HEIGHT - TOP - BOTTOM) * y / top)

    out = [
        f'<svg xmlns="http://www.w3.org/2000/svg" width="{WIDTH}" height="{HEIGHT}" font-family="sans-serif" font-size="13">',
        f'<rect width="{WIDTH}" height="{HEIGHT}" fill="white"/>',
        text(WIDTH / 2, 24, "Family 6: cost of a solve against the number of samples n", more='font-size="16"'),
    ]
    for k in range(0, top + 1, step):
        (x, y), (end, _) = at(0, k), at(most_n, k)
        out += [line(x, y, end, y, "#dddddd"), text(x - 8, y + 4, str(k), "end"), text(end + 8, y + 4, f"{k * 1e3 / MHZ:.1f}", "start")]
    for n in (0, 25, 50, 100, 200, 400):
        x, y = at(n, 0)
        out += [line(x, y, x, y + 5, "black"), text(x, y + 20, str(n))]
    out += [line(*at(0, 0), *at(most_n, 0), "black"), line(*at(0, 0), *at(0, top), "black"), line(*at(most_n, 0), *at(most_n, top), "black")]
    out.append(text(WIDTH / 2, HEIGHT - 14, "n"))
    middle = HEIGHT / 2
    out.append(text(24, middle, "million instructions a solve", more=f'transform="rotate(-90 24 {middle})"'))
    right = WIDTH - 18
    out.append(text(right, middle, "ms at 400 MHz, one instruction a cycle", more=f'transform="rotate(90 {right} {middle})"'))
    for i, side in enumerate(points):
        marks = [at(n, y) for n, y in points[side]]
        path_points = " ".join(f"{x:.1f},{y:.1f}" for x, y in marks)
        colour = COLOURS[side]
        out.append(f'<polyline points="{path_points}" fill="none" stroke="{colour}" stroke-width="2"/>')
        out += [f'<circle cx="{x:.1f}" cy="{y:.1f}" r="3.5" fill="{colour}"/>' for x, y in marks]
        y = TOP + 22 + 20 * i
        out += [f'<circle cx="{LEFT + 24}" cy="{y - 4}" r="4" fill="{colour}"/>', text(LEFT + 36, y, side, "start")]
    out.append("</svg>")
    with open(path, "w") as svg:
        svg.write("\n".join(out) + "\n")


def main():
    groups = read(sys.argv[1])
    table(groups)
    plot(groups, sys.argv[2])


if __name__ == "__main__":
    main()
