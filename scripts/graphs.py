#!/usr/bin/env python3
"""Draws graphs of the documents from what runs have printed.

    scripts/graphs.py cores RUN       docs/cores.svg: messages a second over cores, from scripts/bench-server.sh
    scripts/graphs.py restarts RUN    docs/restarts.svg: pauses over restarts, from scripts/check-restart.sh
"""
import html
import os
import re
import sys

ROOT = os.path.join(os.path.dirname(os.path.abspath(__file__)), "..")
# Pixels: the picture, and where its axes are. Above them are the names of lines.
WIDTH, HEIGHT, LEFT, RIGHT, TOP, BOTTOM = 640, 360, 70, 620, 100, 310
GREY, COLOURS = "#57606a", ("#0550ae", "#0a6b2d", "#8a3ffc", "#cf222e")


def text(x, y, words, anchor="middle", colour=GREY):
    return f'<text x="{x:.0f}" y="{y:.0f}" text-anchor="{anchor}" fill="{colour}">{html.escape(words)}</text>'


def ceiling(value):
    """A round number that isn't below a value, and the distance of at most five lines up to it."""
    steps = (digit * 10**power for power in range(9) for digit in (1, 2, 5))
    step = next(step for step in steps if value <= 5 * step)
    return -(-int(value + 0.999) // step) * step, step


class Graph:
    """A picture with two axes."""

    def __init__(self, title, below, xs, most):
        self.xs = xs
        self.top, step = ceiling(most)
        self.parts = [
            f'<svg xmlns="http://www.w3.org/2000/svg" width="{WIDTH}" height="{HEIGHT}" '
            f'viewBox="0 0 {WIDTH} {HEIGHT}" font-family="sans-serif" font-size="12">',
            f"<title>{html.escape(title)}</title>",
            f'<rect width="{WIDTH}" height="{HEIGHT}" fill="white"/>',
            text(WIDTH / 2, 18, title, colour="black"),
            text((LEFT + RIGHT) / 2, HEIGHT - 12, below),
        ]
        for value in range(0, int(self.top) + 1, step):
            y = self.y(value)
            self.parts.append(f'<path d="M{LEFT} {y:.1f}H{RIGHT}" stroke="#d0d7de"/>')
            self.parts.append(text(LEFT - 8, y + 4, f"{value:,}", "end"))
        self.parts += [text(self.x(x), BOTTOM + 18, str(x)) for x in xs]

    def x(self, value):
        least, most = min(self.xs), max(self.xs)
        return LEFT + 20 + (RIGHT - LEFT - 40) * (value - least) / max(1, most - least)

    def y(self, value):
        return BOTTOM - (BOTTOM - TOP) * value / self.top

    def line(self, name, points, number, dash=""):
        colour = COLOURS[number]
        path = "L".join(f"{self.x(x):.1f} {self.y(y):.1f}" for x, y in points)
        dashes = f' stroke-dasharray="{dash}"' if dash else ""
        self.parts.append(f'<path d="M{path}" fill="none" stroke="{colour}" stroke-width="2"{dashes}/>')
        if not dash:
            self.parts += [f'<circle cx="{self.x(x):.1f}" cy="{self.y(y):.1f}" r="3" fill="{colour}"/>' for x, y in points]
        self.parts.append(text(LEFT, 38 + 16 * number, name, "start", colour))

    def write(self, name):
        with open(os.path.join(ROOT, "docs", name), "w", encoding="utf-8") as file:
            file.write("\n".join([*self.parts, "</svg>", ""]))


def draw_cores(lines):
    """Rows of the table: associations, threads, .., messages a second in column 6, and the µs of each."""
    rows = [[cell.strip() for cell in line.split("|")[1:-1]] for line in lines if re.match(r"\| *\d", line)]
    kinds = sorted({int(row[0]) for row in rows})
    cores = sorted({int(row[1]) for row in rows})
    # What so many cores do when the clients have others: the processor's time of a message says that.
    able = {(int(row[0]), int(row[1])): int(row[1]) * 1e6 / sum(map(float, row[6].split("+"))) for row in rows}
    seen = {(int(row[0]), int(row[1])): float(row[5]) for row in rows}
    graph = Graph("Messages a second that the server sends back", "threads, a core each", cores,
                  max([*able.values(), *seen.values()]))
    for number, kind in enumerate(kinds):
        graph.line(f"{kind:,} associations", [(core, seen[kind, core]) for core in cores], number)
        graph.line(f"{kind:,}, by the processor time of a message", [(core, able[kind, core]) for core in cores], number + 2,
                   "5 4")
    graph.write("cores.svg")


def draw_restarts(lines):
    """The lines of processes from the second on."""
    form = r"^(\d+) process .* in ([\d.]+) ms, the longest away for ([\d.]+) ms; a pause of ([\d.]+) ms"
    rows = [found.groups() for line in lines if (found := re.search(form, line))]
    rows = [(int(number) - 1, *map(float, times)) for number, *times in rows]
    graph = Graph("Milliseconds of each restart of the server", "restarts", [row[0] for row in rows],
                  max(max(row[1:]) for row in rows))
    graph.line("the longest pause of an association, at 1 % loss", [(row[0], row[3]) for row in rows], 0)
    graph.line("from the start of the next process until it has all", [(row[0], row[1]) for row in rows], 1)
    graph.line("the longest that an association was in neither", [(row[0], row[2]) for row in rows], 2)
    graph.write("restarts.svg")


def main(words):
    draws = {"cores": draw_cores, "restarts": draw_restarts}
    if len(words) != 2 or words[0] not in draws:
        print(__doc__, file=sys.stderr)
        return 2
    with open(words[1], encoding="utf-8") as file:
        draws[words[0]](file.readlines())
    return 0


if __name__ == "__main__":
    sys.exit(main(sys.argv[1:]))
