#!/usr/bin/env python3
"""tools/draw-crates.py: draws the crates of crates.txt as SVG on standard output. Each stands above those that it stands on, and an arrow leads to each of them
that it doesn't reach by way of another one. Crates of tests and ported crates are left out."""
from __future__ import annotations

import os
import sys

sys.dont_write_bytecode = True

from pictures.svg import GREY, arrow, document, line, rectangle, text

ROOT = os.path.dirname(os.path.dirname(os.path.abspath(__file__)))
WIDTH, HEIGHT, GAP, RISE, EDGE, SIZE = 118, 30, 22, 44, 16, 13  # of a box, between boxes, between rows, around the picture, of letters


def crates():
    """What each crate of the program stands on."""
    with open(os.path.join(ROOT, 'crates.txt'), encoding='utf-8') as file:
        found = {name: others.split() for name, _, others in (row.partition(':') for row in file if not row.startswith('#')) if not name.endswith('_tests')}
    return {name: [other for other in others if other in found] for name, others in found.items()}


def drawn(below):
    reached, height = {}, {}
    for name, others in below.items():
        reached[name] = set(others).union(*(reached[other] for other in others))
        height[name] = max((height[other] + 1 for other in others), default=0)
    rows = [[name for name in below if height[name] == level] for level in range(max(height.values()), -1, -1)]
    most = max(map(len, rows))
    width = most * (WIDTH + GAP) - GAP + 2 * EDGE
    at = {}
    for level, names in enumerate(rows):
        left = (width - len(names) * (WIDTH + GAP) + GAP) / 2
        at.update({name: (left + place * (WIDTH + GAP), EDGE + level * (HEIGHT + RISE)) for place, name in enumerate(names)})
    parts = [f'<defs>{arrow(GREY)}</defs>']
    for name, others in below.items():
        for other in sorted(set(others) - set().union(*(reached[one] for one in others))):
            (x, y), (to_x, to_y) = at[name], at[other]
            parts.append(line('stands', [(x + WIDTH / 2, y + HEIGHT), (to_x + WIDTH / 2, to_y)], GREY, f'{name} stands on {other}').replace(
                ' shape-rendering="crispEdges"', ''))
    for name, (x, y) in at.items():
        parts += [rectangle('crate', x, y, WIDTH, HEIGHT, '#eef3f7', stroke=GREY), text(x + WIDTH / 2, y + HEIGHT / 2 + SIZE / 3, name, SIZE, 'middle')]
    return document(width, len(rows) * (HEIGHT + RISE) - RISE + 2 * EDGE, parts)


if __name__ == '__main__':
    print('\n'.join(drawn(crates())))
