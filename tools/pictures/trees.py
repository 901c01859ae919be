"""Draws trees of a cloud. Each is a frame of boxes, and the frames stand in rows, as on a page."""
from __future__ import annotations

import math
from dataclasses import dataclass

from pictures.cloud import SHARES, NotDrawn, sharing
from pictures.svg import GREY, arrow, cut, document, line, lines_of, natural, plain, rectangle, text, width_of

NARROW, WIDE = 1200, 2000  # the least and the most width of a page, which no row of frames is wider than
LONGEST = 48  # how many letters of a line stand in a box
SHORTEST = 8  # how many letters of a class's name do, however long the numbers behind it are
EDGE = 16  # the room around the picture, and between frames
PAD = 12  # the room around the boxes of a frame
FALL = 28  # the room between a box and those below it
STEM = 18  # the room left of boxes in a column
LANE = 7  # the room between two lines side by side
NOTE = 10  # the size of what stands below
DASHES = '5 3'
SHARED = '#0072b2', '#d55e00', '#009e73', '#cc79a7', '#000000', '#56b4e9', '#e69f00'
PLAIN = {'fill': 'white', 'stroke': GREY}
MARKED = {'fill': '#ffe9c9', 'stroke': '#b3470f', 'stroke-width': 3}


@dataclass
class Row:
    """A line of text in a box. If it is too long, its words are cut, and not the numbers behind them."""
    words: str
    size: int
    centred: bool = False
    bold: bool = False
    numbers: str = ''

    def whole(self):
        return plain(self.words) + self.numbers

    def shown(self):
        return cut(self.words, max(LONGEST - len(self.numbers), SHORTEST)) + self.numbers

    def height(self):
        return self.size * 1.35


@dataclass
class Box:
    provider: object
    rows: list
    marked: bool
    x: float = 0
    y: float = 0

    def __post_init__(self):
        self.width = max(width_of(row.shown(), row.size) for row in self.rows) + 2 * PAD
        self.height = sum(row.height() for row in self.rows) + PAD

    def middle(self):
        return self.x + self.width / 2

    def drawn(self):
        yield '<g class="provider">'
        yield rectangle('box', self.x, self.y, self.width, self.height, rx=5, **(MARKED if self.marked else PLAIN))
        down = self.y + PAD / 2
        for row in self.rows:
            down += row.height()
            x, align = (self.middle(), 'middle') if row.centred else (self.x + PAD, 'start')
            shown, whole = row.shown(), row.whole()
            yield text(x, down - row.size * 0.35, shown, row.size, align, row.bold, whole if shown != whole else '')
        yield '</g>'


def rows_of(one, slots, traits):
    """What the box of a provider says: its name, its UUID, how much is left of each class, its traits, and how the UUID of each of its aggregates
    begins."""
    if one.name:
        yield Row(one.name, 13, centred=True, bold=True)
    yield Row(one.id, 9, centred=True)
    if slots:
        yield Row(f'slot {", ".join(map(str, slots))}', 11, centred=True, bold=True)
    for name, capacity in sorted(one.capacity.items()):
        yield Row(name, 11, numbers=f': {capacity - one.used.get(name, 0)} of {capacity} left')
    for name in sorted(traits):
        yield Row(name, 9)
    for aggregate in sorted(one.aggregates):
        yield Row(f'in {aggregate[:8]}', 9)


@dataclass
class Column:
    """What stands in a column below a box: boxes without children one below another, or a single box with all that is below it."""
    boxes: list
    stacked: bool
    width: float
    height: float


class Tree:
    """The boxes of a tree, each behind its parent, and where its frame stands."""

    def __init__(self, root, boxes):
        self.root = root
        children = {}
        for one in sorted((box.provider for box in boxes.values()), key=lambda one: natural(one.label())):
            children.setdefault(one.parent, []).append(one.id)
        order, waiting = [], [root.id]
        while waiting:
            order.append(waiting.pop())
            waiting += children.get(order[-1], ())
        if len(order) < len(boxes):
            raise NotDrawn(f'some providers of the tree of {root.label()} are not below it; `ac_cli check` tells a fault of the tables')
        self.boxes = {id: boxes[id] for id in order}
        self.below, self.widths, self.heights = {}, {}, {}
        for id in reversed(order):
            self.below[id] = list(self.columns(children.get(id, ()), id != self.root.id))
            self.widths[id] = max(self.boxes[id].width, self.row_width(id))
            self.heights[id] = self.boxes[id].height + max((FALL + column.height for column in self.below[id]), default=0)
        self.width = self.widths[self.root.id] + 2 * PAD
        self.height = self.heights[self.root.id] + 2 * PAD

    def columns(self, children, inner):
        """The columns below a box. Many boxes without children are stacked, more below one another than side by side."""
        leaves = [id for id in children if not self.below[id]]
        stacked = len(leaves) > 2 or inner and len(leaves) == len(children) == 2
        for id in children:
            if not stacked or self.below[id]:
                yield Column([self.boxes[id]], False, self.widths[id], self.heights[id])
        if stacked:
            many = math.ceil(len(leaves) / math.ceil(math.sqrt(3 * len(leaves))))
            most = math.ceil(len(leaves) / many)
            for first in range(0, len(leaves), most):
                boxes = [self.boxes[id] for id in leaves[first:first + most]]
                yield Column(boxes, True, STEM + max(box.width for box in boxes), sum(box.height + PAD for box in boxes) - PAD)

    def row_width(self, id):
        columns = self.below[id]
        return sum(column.width for column in columns) + EDGE * max(len(columns) - 1, 0)

    def place(self, x, y):
        """Puts the frame here, and the boxes into it."""
        self.x, self.y = x, y
        starts = {self.root.id: (x + PAD, y + PAD)}
        for id, box in self.boxes.items():
            if id not in starts:
                continue
            left, top = starts[id]
            box.x, box.y = left + (self.widths[id] - box.width) / 2, top
            left += (self.widths[id] - self.row_width(id)) / 2
            for column in self.below[id]:
                down = top + box.height + FALL
                for other in column.boxes:
                    if column.stacked:
                        other.x, other.y = left + STEM, down
                        down += other.height + PAD
                    else:
                        starts[other.provider.id] = left, down
                left += column.width + EDGE

    def frame(self):
        return rectangle('frame', self.x, self.y, self.width, self.height, '#f4f6f7', stroke='#c9d1d6', rx=8)

    def lines(self):
        """An arrow from each box to each one below it."""
        for id, columns in self.below.items():
            above = self.boxes[id]
            start = above.middle(), above.y + above.height
            turn = start[1] + FALL / 2
            for column in columns:
                for box in column.boxes:
                    side, halfway = box.x - STEM / 2, box.y + box.height / 2
                    way = [(side, turn), (side, halfway), (box.x, halfway)] if column.stacked else [(box.middle(), turn), (box.middle(), box.y)]
                    yield line('child', [start, (start[0], turn), *way], GREY, f'{above.provider.label()} -> {box.provider.label()}')


def filled(trees, page):
    """The trees in rows of at most this width, so that the squares of what is left free at their ends are least together. No tree is wider."""
    least, begins = [0], []
    for end in range(1, len(trees) + 1):
        free, tried = page + EDGE, []
        for begin in range(end - 1, -1, -1):
            free -= trees[begin].width + EDGE
            if free < 0:
                break
            tried.append((least[begin] + free ** 2, begin))
        least.append(min(tried)[0])
        begins.append(min(tried)[1])
    rows, end = [], len(trees)
    while end:
        rows.append(trees[begins[end - 1]:end])
        end = begins[end - 1]
    return rows[::-1]


def in_rows(trees):
    """The trees in as many rows as a page needs, and these as narrow as they can be."""
    widest = max(tree.width for tree in trees)
    area = sum((tree.width + EDGE) * (tree.height + EDGE) for tree in trees)
    page = max(widest, min(WIDE, max(NARROW, math.sqrt(1.5 * area))))
    rows = filled(trees, page)
    while page > widest:
        page = max(widest, max(sum(tree.width + EDGE for tree in row) for row in rows) - EDGE - 1)
        narrower = filled(trees, page)
        if len(narrower) > len(rows):
            break
        rows = narrower
    return rows


class Sharing:
    """The dashed lines from sharing providers to the roots that they share with. Those of one provider run together: beside all frames, then above the
    row of each root."""

    def __init__(self, trees):
        self.boxes = {id: box for tree in trees for id, box in tree.boxes.items()}
        self.roots = {}
        for one, root in sharing([box.provider for box in self.boxes.values()]):
            self.roots.setdefault(one, []).append(root)
        self.heights = {}

    def side(self, one):
        """Where the lines of a provider run beside all frames."""
        return EDGE + LANE * list(self.roots).index(one)

    def beside(self):
        return LANE * len(self.roots)

    def pass_row(self, trees, top):
        """Lets the lines of a row of trees run below this height, and returns below which height they don't."""
        here = {tree.root.id for tree in trees}
        for one, roots in self.roots.items():
            if here.intersection(roots) or self.boxes[one].provider.root in here:
                self.heights.update({(one, root): top for root in here})
                top += LANE
        return top

    def at(self, box, one):
        """Where the line of a provider ends at a box: beside those of others."""
        shift = self.side(one) - EDGE - self.beside() / 2 + LANE / 2
        return box.middle() + max(min(shift, box.width / 2 - LANE), LANE - box.width / 2)

    def lines(self):
        for place, (one, roots) in enumerate(self.roots.items()):
            colour, start = SHARED[place % len(SHARED)], self.boxes[one]
            begin = start.x + start.width * 0.75, self.heights[one, start.provider.root]
            yield line('shared', [(begin[0], start.y), begin], colour, dashes=DASHES)
            ends = [(self.at(self.boxes[root], one), self.heights[one, root]) for root in roots]
            rows = {height: [x for x, other in (begin, *ends) if other == height] for _, height in (begin, *ends)}
            if len(rows) > 1:
                yield line('shared', [(self.side(one), min(rows)), (self.side(one), max(rows))], colour, dashes=DASHES)
            for height, across in rows.items():
                across = [*across, self.side(one)] if len(rows) > 1 else across
                yield line('shared', [(min(across), height), (max(across), height)], colour, dashes=DASHES)
            for root, end in zip(roots, ends):
                told = f'{start.provider.label()} -> {self.boxes[root].provider.label()}'
                yield line('shares', [end, (end[0], self.boxes[root].y)], colour, told, DASHES)


def left_out(roots, asked):
    """The traits that no box of a host needs to show, since all hosts have them, and a line that says which. The roots that share are no hosts, unless
    there are no others."""
    hosts = [one for one in roots if SHARES not in one.traits] or roots
    traits = set.intersection(*(one.traits for one in hosts)) - asked
    who = hosts[0].label() if len(hosts) == 1 else 'Every host here' if SHARES not in hosts[0].traits else 'Every root here'
    return {one.id for one in hosts}, traits, f'{who} also has: {", ".join(sorted(traits))}' if traits else ''


def trees_of(providers, token, hidden, traits):
    """The trees of these providers; those that share come first."""
    inside = {}
    for one in providers:
        slots = [at for at, other in enumerate(token, 1) if other == one.id]
        shown = one.traits - traits if one.id in hidden else one.traits
        inside.setdefault(one.root, {})[one.id] = Box(one, list(rows_of(one, slots, shown)), bool(slots))
    trees = [Tree(boxes[root].provider, boxes) for root, boxes in inside.items()]
    return sorted(trees, key=lambda tree: (SHARES not in tree.root.traits, natural(tree.root.label())))


def picture(providers, token=(), asked=frozenset()):
    """The picture of the trees of these providers. Those of the token are marked, and the traits that are asked for are shown wherever they are."""
    hidden, traits, note = left_out([one for one in providers if one.id == one.root], asked)
    trees = trees_of(providers, token, hidden, traits)
    shared = Sharing(trees)
    down, widest = EDGE, 0
    for row in in_rows(trees):
        down = shared.pass_row(row, down)
        across = EDGE + shared.beside()
        for tree in row:
            tree.place(across, down)
            across += tree.width + EDGE
        widest = max(widest, across)
        down += max(tree.height for tree in row) + EDGE
    parts = ['<defs>', *(arrow(colour) for colour in (GREY, *SHARED)), '</defs>', *(tree.frame() for tree in trees), *shared.lines()]
    for tree in trees:
        parts += [*tree.lines(), *(part for box in tree.boxes.values() for part in box.drawn())]
    notes = lines_of(note, widest - 2 * EDGE, NOTE)
    for words in notes:
        parts.append(text(EDGE, down + NOTE, words, NOTE))
        down += NOTE * 1.4
    return document(max([widest, *(width_of(words, NOTE) + 2 * EDGE for words in notes)]), down + (EDGE if notes else 0), parts)
