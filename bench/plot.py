#!/usr/bin/env python3
"""Draws docs/benchmarks.svg and docs/benchmarks-growth.svg from bench/figures.json:  python3 bench/plot.py [--check]

Each figure was measured and is in docs/BENCHMARKS.md: a bar or a line names the row that it is from, and a row that
isn't there, or has other figures, is refused. With --check nothing is written. The exit status is 1 if a picture isn't
the one that would be drawn.
"""

import argparse
import html
import json
import math
import os
import sys

TOP = os.path.dirname(os.path.dirname(os.path.abspath(__file__)))

WIDTH, MARGIN, NAMES, VALUES = 760, 20, 200, 90
BAR, STEP, HEAD = 16, 26, 34
# A panel of lines: its height, the distance of labels, the grid's sides, and the indent of the first point.
PLOT, LABEL, LEFT, RIGHT, INSET = 170, 16, 50, 520, 30
# The card has its own background, so that it can be read on a light and on a dark page.
STYLE = """
  .card { fill: #ffffff; stroke: #d0d7de; }
  text { fill: #1f2328; font-family: system-ui, sans-serif; font-size: 13px; }
  .title { font-size: 16px; font-weight: 600; }
  .panel { font-weight: 600; }
  .small { fill: #59636e; font-size: 11px; }
  .own { fill: #0969da; }
  .other { fill: #818b98; }
  .more { opacity: 0.45; }
  @media (prefers-color-scheme: dark) {
    .card { fill: #0d1117; stroke: #3d444d; }
    text { fill: #f0f6fc; }
    .small { fill: #9198a1; }
    .own { fill: #4493f8; }
  }
"""
LINES = """
  .grid { fill: none; stroke: #d0d7de; }
  .own-line { fill: none; stroke: #0969da; stroke-width: 2; }
  .other-line { fill: none; stroke: #818b98; stroke-width: 2; }
  @media (prefers-color-scheme: dark) {
    .grid { stroke: #3d444d; }
    .own-line { stroke: #4493f8; }
  }
"""


def check_row(rows, row, told):
    """Refuses a row that isn't one of the page's, or doesn't have these cells in this order after its name."""
    cells = [cell.strip() for cell in row.split("|")]
    left = iter(cells[2:])
    if row not in rows or not all(words in left for words in told):
        sys.exit(f"refused: the page has no such row with these figures: {row}")


def checked(figures):
    """Returns the figures. Each has to be in the page's row that its bar or line names, and in its column."""
    with open(os.path.join(TOP, *figures["page"].split("/")), encoding="utf-8") as file:
        rows = file.read().split("\n")
    keys, growth = [panel["key"] for panel in figures["panels"]], figures["growth"]
    for bar in figures["bars"]:
        check_row(rows, bar["source"], [", ".join(bar[key]) for key in keys])
    check_row(rows, growth["source"], [f"{key}, {size:,}" for key in keys for size in growth["sizes"]])
    for line in growth["lines"]:
        if any(len(line[key]) != len(growth["sizes"]) for key in keys):
            sys.exit(f"refused: not a figure for each size: {line['name']}")
        check_row(rows, line["source"], [it for key in keys for it in line[key]])
    return figures


def text(x, y, words, kind="", anchor="start"):
    kind = f' class="{kind}"' if kind else ""
    return f'<text x="{x:.1f}" y="{y}" text-anchor="{anchor}"{kind}>{html.escape(words)}</text>'


def rectangle(x, y, width, kind):
    return f'<rect x="{x:.1f}" y="{y}" width="{width:.1f}" height="{BAR}" class="{kind}"/>'


def polyline(points, kind):
    return f'<polyline points="{" ".join(f"{x:.1f},{y:.1f}" for x, y in points)}" class="{kind}"/>'


def circle(x, y, kind):
    return f'<circle cx="{x:.1f}" cy="{y:.1f}" r="3.5" class="{kind}"/>'


def bars_of(figures, panel, top):
    """Returns a panel of bars, with its own scale."""
    bars, left = figures["bars"], MARGIN + NAMES
    scale = (WIDTH - MARGIN - VALUES - left) / max(float(it) for bar in bars for it in bar[panel["key"]])
    lines = []
    for number, bar in enumerate(bars):
        y = top + 14 + number * STEP
        least, most = sorted(float(it) * scale for it in bar[panel["key"]])
        lines.append(text(left - 8, y + 13, bar["name"], anchor="end"))
        lines.append(rectangle(left, y, least, bar["kind"]))
        if most > least:
            lines.append(rectangle(left + least, y, most - least, f"{bar['kind']} more"))
        values = sorted(set(bar[panel["key"]]), key=float)
        lines.append(text(left + most + 6, y + 13, " to ".join(values)))
    return lines


def spread(group):
    """Returns the heights of a group of labels, each directly below the other, around the middle of their points."""
    first = sum(group) / len(group) - (len(group) - 1) * LABEL / 2
    return [first + number * LABEL for number in range(len(group))]


def apart(heights, bottom):
    """Returns for each of these ascending heights one near it for a label. None is below the bottom, or too near."""
    groups = []
    for height in heights:
        group = [height]
        while groups and spread(groups[-1])[-1] + LABEL > spread(group)[0]:
            group = groups.pop() + group
        groups.append(group)
    places = [place for group in groups for place in spread(group)]
    return [min(place, bottom - LABEL * below) for below, place in zip(reversed(range(len(places))), places)]


def scale_of(most):
    """Returns the step of a scale from 0 (1, 2 or 5 with zeros), and how many steps the greatest value needs."""
    power = 10.0 ** math.floor(math.log10(most / 5))
    step = next(it * power for it in (1, 2, 5, 10) if 5 * it * power >= most)
    return step, math.ceil(most / step)


def grid(step, steps, places, bottom):
    """Returns the lines of the scale with their values, and the sizes below them."""
    lines = []
    for number in range(steps + 1):
        y = round(bottom - PLOT * number / steps)
        lines.append(polyline([(LEFT, y), (RIGHT, y)], "grid"))
        lines.append(text(LEFT - 6, y + 4, f"{number * step:g}", "small", "end"))
    return lines + [text(x, bottom + 16, f"{size:,}", "small", "middle") for size, x in places.items()]


def curves_of(growth, panel, top):
    """Returns a panel of lines by the number of entries, with its own scale: microseconds for each entry."""
    sizes, bottom = growth["sizes"], top + 18 + PLOT
    wide = (RIGHT - LEFT - 2 * INSET) / math.log(sizes[-1] / sizes[0])
    places = {size: LEFT + INSET + wide * math.log(size / sizes[0]) for size in sizes}
    curves = []
    for line in growth["lines"]:
        times = [float(it) * 1000 / size for it, size in zip(line[panel["key"]], sizes)]
        curves.append((times, line))
    step, steps = scale_of(max(max(times) for times, _ in curves))
    curves.sort(key=lambda curve: -curve[0][-1])
    heights = [[bottom - PLOT * it / (steps * step) for it in times] for times, _ in curves]
    lines = grid(step, steps, places, bottom)
    for (_, line), ys, label in zip(curves, heights, apart([ys[-1] for ys in heights], bottom)):
        points, kind = list(zip(places.values(), ys)), line["kind"]
        lines.append(polyline([points[-1], (RIGHT + 10, ys[-1]), (RIGHT + 22, label)], "grid"))
        lines.append(polyline(points, f"{kind}-line"))
        lines += [circle(x, y, kind) for x, y in points]
        lines.append(text(RIGHT + 26, round(label + 4), line["name"]))
    return lines


def picture_of(part, panels, panel_of, each, style):
    """Returns the card of a part of the figures: its title, and below it panels of this height."""
    height = 80 + len(panels) * each
    lines = [text(MARGIN, 32, part["title"], "title"), text(MARGIN, 52, part["unit"], "small")]
    for number, panel in enumerate(panels):
        top = 84 + number * each
        lines += [text(MARGIN, top, panel["title"], "panel"), *panel_of(part, panel, top)]
    size = f'width="{WIDTH}" height="{height}" viewBox="0 0 {WIDTH} {height}"'
    front = [f'<svg xmlns="http://www.w3.org/2000/svg" {size} role="img">']
    front += [f"<title>{html.escape(part['title'])}</title>", f"<style>{style}</style>"]
    front.append(f'<rect x="0.5" y="0.5" width="{WIDTH - 1}" height="{height - 1}" rx="6" class="card"/>')
    return "\n".join([*front, *lines, "</svg>", ""])


def pictures_of(figures):
    """Returns the pictures, by path."""
    panels, growth = figures["panels"], figures["growth"]
    bars = picture_of(figures, panels, bars_of, HEAD + len(figures["bars"]) * STEP, STYLE)
    curves = picture_of(growth, panels, curves_of, HEAD + PLOT + 32, STYLE.rstrip() + LINES)
    return {"docs/benchmarks.svg": bars, "docs/benchmarks-growth.svg": curves}


def main():
    parser = argparse.ArgumentParser()
    parser.add_argument("--check", action="store_true", help="only check whether the pictures are up to date")
    arguments = parser.parse_args()
    with open(os.path.join(TOP, "bench", "figures.json"), encoding="utf-8") as file:
        pictures = pictures_of(checked(json.load(file)))
    for path, picture in pictures.items():
        with open(os.path.join(TOP, *path.split("/")), "r" if arguments.check else "w", encoding="utf-8") as file:
            if not arguments.check:
                file.write(picture)
            elif file.read() != picture:
                sys.exit(f"{path} isn't what bench/plot.py draws")
    return 0


if __name__ == "__main__":
    sys.exit(main())
