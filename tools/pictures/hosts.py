"""Draws what `ac_cli hosts` writes: a square for each root, in rows by aggregate, in the colour of what is lacking there."""
from __future__ import annotations

import math
from collections import Counter
from dataclasses import dataclass

from pictures.cloud import members_of, rows
from pictures.svg import GREY, document, lines_of, natural, rectangle, text, width_of

COLUMNS = 'root', 'name', 'fits', 'slot', 'lacks'
FITS = 'fits'
# What a root may lack, in the order of an explanation. People who see no red or no green can tell these colours apart too.
COLOURS = {FITS: '#0072b2', 'root traits': '#000000', 'no inventory': '#bdbdbd', 'units': '#56b4e9', 'traits': '#882255', 'aggregates': '#cc79a7',
           'tree': '#7a5c3e', 'room': '#e69f00', 'required traits': '#b34700', 'together': '#fff14d'}
# What a root lacks, where the word of the column says it otherwise.
SAID = {'no inventory': 'an inventory'}
OTHER = '#ffffff'
NARROW = 640  # the least width of the picture
EDGE = 16  # the room around the picture, and between blocks
PER_ROW = 64  # how many squares stand side by side
SIDE, PITCH = 12, 14  # of a square, and from one to the next
SIZE, LINE = 11, 16  # of a text, and from one line to the next


@dataclass
class Host:
    """A row of `ac_cli hosts`."""
    root: str
    name: str
    fits: bool
    slot: str
    lacks: str

    def kind(self):
        return FITS if self.fits else self.lacks

    def colour(self):
        return COLOURS.get(self.kind(), OTHER)

    def told(self):
        what = 'fits' if self.fits else f'lacks {SAID.get(self.lacks, self.lacks)}' + (f' for slot {self.slot}' if self.slot else '')
        return f'{self.name} {self.root}: {what}' if self.name else f'{self.root}: {what}'


def order(host):
    """By this key hosts stand in the order of their names, and those without one behind, in that of their UUIDs."""
    return not host.name, natural(host.name), host.root


def hosts_of(path):
    """The rows, in order."""
    return sorted((Host(*row) for row in rows(path, *COLUMNS, told="this isn't what ac_cli hosts writes: ")), key=order)


def blocks_of(hosts, path, titles):
    """The roots of each aggregate, under its title: those with one in the order of titles, then the others in that of UUIDs. A root in several aggregates
    stands in the first of them, and those in none come last."""
    def place(aggregate):
        return not aggregate, aggregate not in titles, natural(titles.get(aggregate, '')), aggregate
    first = {}
    for one, aggregate in rows(path, 'resource_provider', 'uuid'):
        first[one] = min(first.get(one, aggregate), aggregate, key=place)
    blocks = {}
    for host in hosts:
        blocks.setdefault(first.get(host.root, ''), []).append(host)
    return [(titles.get(aggregate, aggregate), blocks[aggregate]) for aggregate in sorted(blocks, key=place)]


def blocks_by(hosts, path, asked):
    """The roots of each of these aggregates, under the title that it is given. A root in several of them stands in each, and those in none do nowhere."""
    inside = members_of(path)
    return [(title, [host for host in hosts if host.root in inside.get(aggregate, ())]) for aggregate, title in asked]


def not_shown(hosts):
    """A line about the roots that stand in no row, if there are any."""
    if hosts:
        yield f'not shown: {len(hosts)}, in none of these aggregates ({sum(host.fits for host in hosts)} of {len(hosts)} fit)'


def legend(hosts):
    """A colour and a line for each kind of lack that there is, and for those that fit."""
    counts = Counter(host.kind() for host in hosts)
    yield COLOURS[FITS], f'fit: {counts[FITS]} of {len(hosts)}'
    known = list(COLOURS)
    for kind in sorted(set(counts) - {FITS}, key=lambda kind: (known.index(kind) if kind in known else len(known), kind)):
        slots = Counter(host.slot for host in hosts if host.kind() == kind and host.slot)
        where = ', '.join(f'slot {slot}: {count}' for slot, count in sorted(slots.items(), key=lambda one: natural(one[0])))
        yield COLOURS.get(kind, OTHER), f'lack {SAID.get(kind, kind)}: {counts[kind]}' + (f' ({where})' if where else '')


def picture(hosts, blocks, query=''):
    """The picture of the roots in these rows, below the query. Those in no row are counted below, and not in the legend."""
    here = {host.root for _, block in blocks for host in block}
    labels = [(aggregate or 'in no aggregate', f'{sum(host.fits for host in block)} of {len(block)} fit') for aggregate, block in blocks]
    counts = EDGE + max((width_of(name, SIZE) for name, _ in labels), default=0) + EDGE
    left = counts + max((width_of(count, SIZE) for _, count in labels), default=0) + EDGE
    colours = list(legend([host for host in hosts if host.root in here]))
    width = max([left + PITCH * min(PER_ROW, max((len(block) for _, block in blocks), default=0)), NARROW,
                 *(3 * EDGE + width_of(words, SIZE) for _, words in colours)]) + EDGE
    parts, down = [f'<g stroke="{GREY}" stroke-width="0.5">'], EDGE
    heads = [(EDGE, down + SIZE + LINE * at, words) for at, words in enumerate(lines_of(query, width - 2 * EDGE, SIZE))]
    down += LINE * len(heads) + EDGE / 2
    for colour, words in colours:
        parts.append(rectangle('legend', EDGE, down, SIDE, SIDE, colour))
        heads.append((2 * EDGE + SIDE, down + SIZE - 1, words))
        down += LINE
    for (name, count), (_, block) in zip(labels, blocks):
        down += EDGE
        heads += [(EDGE, down + SIZE - 1, name), (counts, down + SIZE - 1, count)]
        for at, host in enumerate(block):
            x, y = left + PITCH * (at % PER_ROW), down + PITCH * (at // PER_ROW)
            parts.append(rectangle('host', x, y, SIDE, SIDE, host.colour(), host.told()))
        down += PITCH * math.ceil(len(block) / PER_ROW)
    for words in not_shown([host for host in hosts if host.root not in here]):
        down += EDGE
        heads.append((EDGE, down + SIZE - 1, words))
        down += LINE
    return document(width, down + EDGE, [*parts, '</g>', *(text(x, y, words, SIZE) for x, y, words in heads)])
