#!/usr/bin/env python3
"""Draws the tables of docs/PERFORMANCE.md by matplotlib (Debian's package `python3-matplotlib`), and measures nothing.

docs/speed.svg has a bar for each figure that `tools/pages.py` reads there, and docs/growth.svg a line for each
operation of the same tables, which `growth` printed.
"""
import os
import sys
from itertools import groupby

import matplotlib
from matplotlib import pyplot

import compare

sys.path.append(os.path.join(compare.TOP, "tools"))
import pages

LESS, MORE = "#3b7dd8", "#d87a3b"
# Texts stay texts, and the same tables give the same file.
STYLE = {"svg.fonttype": "none", "svg.hashsalt": "woltsjem", "font.family": "sans-serif", "font.size": 9}


def save(figure, name):
    figure.savefig(os.path.join(compare.TOP, "docs", name), metadata={"Date": None}, bbox_inches="tight")


def draw_speed():
    """Draws the ratio of each time to the original's, by structure and data."""
    groups = [(name, list(group)) for name, group in groupby(pages.figures(), lambda it: f"{it.holder}, {it.data}")]
    sizes = [len(group) for _, group in groups]
    height = 0.3 * sum(sizes) + 0.5 * len(groups)
    figure, panels = pyplot.subplots(len(groups), sharex=True, figsize=(7, height), height_ratios=sizes,
                                     layout="constrained")
    for panel, (name, group) in zip(panels, groups):
        ratios = [float(it.ratio) for it in group]
        bars = panel.barh([it.call for it in group], ratios, color=[LESS if it <= 1 else MORE for it in ratios])
        panel.bar_label(bars, [it.ratio for it in group], padding=3)
        panel.set_title(name, loc="left", fontweight="bold", fontsize=9)
        panel.axvline(1, color="black", linestyle="--", linewidth=0.8)
        panel.invert_yaxis()
    figure.suptitle("Time of an operation, as a ratio to that of vers-vecs 1.10.2 (shorter is faster)")
    save(figure, "speed.svg")


def draw_growth():
    """Draws, for each structure, how the times of its queries, of its build and of a walk grow with its size."""
    tables = list(pages.growth_tables())
    figure, rows = pyplot.subplots(len(tables), 2, figsize=(9, 2.6 * len(tables)), layout="constrained")
    for row, ((structure, unit), sizes, operations) in zip(rows, tables):
        powers = [int(base) ** int(exponent) for base, exponent in (it.split("^") for it in sizes)]
        for panel, is_whole, what in zip(row, (False, True), ("a query", "an item of a build or of a walk")):
            for name, *cells in operations:
                call = pages.CALL.fullmatch(name)
                if bool(call and call[2]) != is_whole:
                    continue
                here, original = zip(*(map(float, pages.CELL.fullmatch(it).groups()[:2]) for it in cells))
                (line,) = panel.plot(powers, here, label=name.replace("`", ""))
                panel.plot(powers, original, color=line.get_color(), linestyle="--")
            panel.set(xscale="log", yscale="log", title=f"{structure}: {what}, ns", xlabel=unit)
            panel.legend(fontsize=8)
    figure.suptitle("Solid: this library. Dashed: vers-vecs 1.10.2.")
    save(figure, "growth.svg")


if __name__ == "__main__":
    matplotlib.rcParams.update(STYLE)
    draw_speed()
    draw_growth()
