#!/usr/bin/env python3
"""Draws bench/history.csv as bench/history.svg: a small chart for each figure that was measured twice or more, its values in the order of the file.

    bench/plot.py

A chart begins at 0, and each point bears its day and machine. Machines are not alike, so a step from one to another tells little.
"""
import csv
import os
from xml.sax.saxutils import escape

HERE = os.path.dirname(os.path.abspath(__file__))
WIDTH, HEIGHT, LEFT, TOP, ACROSS = 380, 190, 20, 34, 2


def chart(title, unit, rows, x, y):
    """The lines of one chart, whose upper left corner is at x and y."""
    most = max(float(it["value"]) for it in rows) or 1.0
    wide, high = WIDTH - 2 * LEFT - 30, HEIGHT - TOP - 48
    step = wide / max(len(rows) - 1, 1)
    points = [(x + LEFT + 15 + step * k, y + TOP + high * (1 - float(it["value"]) / most)) for k, it in enumerate(rows)]
    floor = y + TOP + high
    yield f'<text x="{x + LEFT}" y="{y + 16}" font-weight="bold">{escape(title)} ({escape(unit)})</text>'
    yield f'<line x1="{x + LEFT}" y1="{floor}" x2="{x + WIDTH - LEFT}" y2="{floor}" stroke="#888"/>'
    yield '<polyline fill="none" stroke="#2266aa" points="' + " ".join(f"{a:.1f},{b:.1f}" for a, b in points) + '"/>'
    for (a, b), it in zip(points, rows):
        yield f'<circle cx="{a:.1f}" cy="{b:.1f}" r="3" fill="#2266aa"/>'
        yield f'<text x="{a:.1f}" y="{b - 6:.1f}" text-anchor="middle">{escape(it["value"])}</text>'
        yield f'<text x="{a:.1f}" y="{floor + 14}" text-anchor="middle" fill="#666">{escape(it["day"][5:])}</text>'
        yield f'<text x="{a:.1f}" y="{floor + 27}" text-anchor="middle" fill="#666">{escape(it["machine"])}</text>'


def main():
    with open(f"{HERE}/history.csv", newline="") as file:
        rows = list(csv.DictReader(file))
    kinds = {}
    for it in rows:
        kinds.setdefault((it["what"], it["unit"]), []).append(it)
    kinds = {kind: of_kind for kind, of_kind in kinds.items() if len(of_kind) > 1}
    lines = []
    for k, ((what, unit), of_kind) in enumerate(kinds.items()):
        lines += chart(what, unit, of_kind, (k % ACROSS) * WIDTH, (k // ACROSS) * HEIGHT)
    high = -(-len(kinds) // ACROSS) * HEIGHT
    head = f'<svg xmlns="http://www.w3.org/2000/svg" width="{ACROSS * WIDTH}" height="{high}" font-family="sans-serif" font-size="11">'
    with open(f"{HERE}/history.svg", "w") as file:
        file.write("\n".join([head, '<rect width="100%" height="100%" fill="white"/>', *lines, "</svg>"]) + "\n")


main()
