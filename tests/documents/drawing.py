#!/usr/bin/env python3
"""tests/documents/drawing.py: checks that tools/draw-cloud.py draws what the tables say. It writes a line for each difference; the status is 0 only if
there is none.

The tool draws random clouds and hosts. What it draws is read as XML. The boxes of a cloud are compared with tests/model.py, which works out capacities
and sharing by itself. tests/program.py compares the pictures on the pages."""
from __future__ import annotations

import contextlib
import csv
import io
import math
import os
import random
import re
import subprocess
import sys
import tempfile
from collections import Counter
from dataclasses import dataclass
from xml.etree import ElementTree

sys.dont_write_bytecode = True
sys.path.append(os.path.dirname(os.path.dirname(os.path.abspath(__file__))))

from model import SHARES, available, draw_cloud
from notation import HEADERS, full, tables

ROOT = os.path.dirname(os.path.dirname(os.path.dirname(os.path.abspath(__file__))))
TOOL = os.path.join(ROOT, 'tools', 'draw-cloud.py')
EXAMPLES = os.path.join(ROOT, 'examples')
SVG = '{http://www.w3.org/2000/svg}'
ELEMENTS = {'svg', 'g', 'rect', 'path', 'text', 'title', 'defs', 'marker'}
LETTER = 0.602
PAGE = 2000
LACKS = 'root traits', 'no inventory', 'units', 'traits', 'aggregates', 'tree', 'room', 'required traits', 'together'
OF_SLOTS = LACKS[1:7]
SAID = {'no inventory': 'an inventory'}
ODD = '<b>&amp; \\N\n"x"\x1b é</title><script>alert(1)</script>'
SHOWN = '<b>&amp; \\N "x" é</title><script>alert(1)</script>'


@contextlib.contextmanager
def folder_of(cloud, names=None, aggregates=None):
    """A folder with the five tables of a cloud in the notation, and with these names, by provider, and rows of names of aggregates."""
    made = {**HEADERS, **tables(cloud), **({'aggregate-names': full(f'uuid,name\n{aggregates}')} if aggregates else {})}
    if names:
        header, *rows = csv.reader(io.StringIO(made['providers']))
        with io.StringIO() as out:
            csv.writer(out).writerows([[*header, 'name'], *([*row, {full(one): name for one, name in names.items()}.get(row[0], '')] for row in rows)])
            made['providers'] = out.getvalue()
    with tempfile.TemporaryDirectory() as folder:
        for name, text in made.items():
            with open(os.path.join(folder, name + '.csv'), 'w', encoding='utf-8', newline='') as file:
                file.write(text)
        yield folder


def drawn(*words, given=''):
    """What the tool writes: the picture, its messages, and its status."""
    ran = subprocess.run([sys.executable, '-B', TOOL, *words], input=given.encode(), capture_output=True, check=False)
    return ran.stdout.decode(), ran.stderr.decode(), ran.returncode


@dataclass
class Place:
    """Where a rectangle is."""
    x: float
    y: float
    width: float
    height: float

    def has(self, other):
        return (self.x <= other.x and other.x + other.width <= self.x + self.width + 0.2
                and self.y <= other.y and other.y + other.height <= self.y + self.height + 0.2)

    def meets(self, other):
        return (self.x < other.x + other.width - 0.2 and other.x < self.x + self.width - 0.2
                and self.y < other.y + other.height - 0.2 and other.y < self.y + self.height - 0.2)


def place(rectangle):
    return Place(*(float(rectangle.get(name)) for name in ('x', 'y', 'width', 'height')))


def room_of(text):
    """The least room that a text takes: the letters of some fonts are wider."""
    size, x, y = (float(text.get(name)) for name in ('font-size', 'x', 'y'))
    width = LETTER * size * len(said(text))
    return Place(x - width / 2 if text.get('text-anchor') == 'middle' else x, y - 0.75 * size, width, 0.9 * size)


def said(text):
    """What a text shows."""
    return (text.text or '') + ''.join(inner.tail or '' for inner in text)


class Picture:
    """What a picture shows."""

    def __init__(self, svg):
        try:
            self.all = ElementTree.fromstring(svg)
        except ElementTree.ParseError as fault:
            self.all = ElementTree.Element(str(fault), width='0', height='0')
        self.whole = Place(0, 0, float(self.all.get('width')), float(self.all.get('height')))

    def classed(self, name):
        return [one for one in self.all.iter() if one.get('class') == name]

    def frames(self):
        return [place(one) for one in self.classed('frame')]

    def boxes(self):
        """For each provider: the number of its frame, the lines in its box, and whether it is marked. A provider without a name has its UUID first."""
        found = {}
        for group in self.classed('provider'):
            box = group.find(SVG + 'rect')
            frame = [at for at, one in enumerate(self.frames()) if one.has(place(box))]
            lines = [said(text) for text in group.iter(SVG + 'text')]
            found[lines[0]] = frame, lines, box.get('stroke-width') == '3'
        return found

    def arrows(self):
        """The titles of all arrows, and whether they are dashed."""
        return sorted((one.find(SVG + 'title').text, one.get('stroke-dasharray') is not None)
                      for one in self.all.iter(SVG + 'path') if one.get('marker-end'))

    def below(self):
        """The texts outside boxes."""
        return ' '.join(said(one) for one in self.all.findall(SVG + 'text'))

    def wrong(self):
        """What no picture may have: overlaps, texts outside their boxes, anything that could run."""
        for one in self.all.iter():
            if one.tag.removeprefix(SVG) not in ELEMENTS or any(name.startswith('on') or 'href' in name for name in one.keys()):
                yield f'a picture has {one.tag}'
        boxes = [place(one) for one in self.classed('box')]
        for kind in (self.frames(), boxes, [place(one) for one in self.classed('host')]):
            tops = sorted(kind, key=lambda one: (one.y, one.x))
            yield from (f'{one} meets {other}' for at, one in enumerate(tops) for other in tops[at + 1:at + 200] if one.meets(other))
        frames = self.frames()
        yield from (f'{box} is in no frame' for box in boxes if not any(frame.has(box) for frame in frames))
        for group in self.classed('provider'):
            box = place(group.find(SVG + 'rect'))
            rows = [room_of(text) for text in group.iter(SVG + 'text')]
            yield from (f'{row} is outside of its box' for row in rows if not box.has(row))
            yield from (f'{one} meets {other}' for one, other in zip(rows, rows[1:]) if one.meets(other))
        for path in self.all.iter(SVG + 'path'):
            if path.get('marker-end'):
                points = [tuple(map(float, point.split(','))) for point in re.findall(r'[\d.]+,[\d.]+', path.get('d'))]
                parts = [Place(min(x, to_x), min(y, to_y), abs(to_x - x), abs(to_y - y)) for (x, y), (to_x, to_y) in zip(points, points[1:])]
                if any(part.meets(box) for part in parts for box in boxes) or not any(box.has(Place(*points[-1], 0, 0)) for box in boxes):
                    yield f'an arrow goes through boxes, or to none: {path.get("d")}'
        texts = list(map(room_of, self.all.findall(SVG + 'text')))
        others = [*boxes, *(place(one) for name in ('host', 'legend') for one in self.classed(name))]
        for at, text in enumerate(texts):
            yield from (f'{text} meets {other}' for other in (*others, *texts[:at]) if text.meets(other))
        yield from (f'{said(text)} is outside of the picture' for text in self.all.iter(SVG + 'text') if not self.whole.has(room_of(text)))
        yield from (f'{one} is outside of the picture' for one in frames if not self.whole.has(one))
        widest = max((one.width for one in frames), default=0)
        if self.whole.width > max(PAGE, widest) + 16 * 7:
            yield f'a picture is {self.whole.width} wide'


def box(provider, token, hidden):
    """What must be in a provider's box."""
    slots = [str(at) for at, name in enumerate(token, 1) if name == provider.name]
    return [full(provider.name), *([f'slot {", ".join(slots)}'] if slots else []),
            *(f'{name}: {has.capacity() - has.used} of {has.capacity()} left' for name, has in sorted(provider.has.items())),
            *sorted(provider.traits - hidden), *(f'in {full(name)[:8]}' for name in sorted(provider.aggregates))], bool(slots)


def hidden_in(shown, asked):
    """The traits that the roots which don't share have all, by the provider in whose box they aren't shown, and what is said of them."""
    roots = [one for one in shown if one.root() is one]
    hosts = [one for one in roots if SHARES not in one.traits] or roots
    traits = set.intersection(*(one.traits for one in hosts)) - asked
    who = full(hosts[0].name) if len(hosts) == 1 else 'Every root here' if SHARES in hosts[0].traits else 'Every host here'
    return {one.name: traits for one in hosts}, f'{who} also has: {", ".join(sorted(traits))}' if traits else ''


def by_chance(number):
    chance = random.Random(24)
    for at in range(number):
        cloud = draw_cloud(chance)
        token = chance.choice([[], [chance.choice(cloud).name for _ in range(2)]])
        named = chance.choice([[], [chance.choice(cloud)]])
        asked = set(chance.choice([[], ['CUSTOM_A'], ['CUSTOM_A', 'CUSTOM_B']]))
        trees = {one.root().name for one in (*(one for one in cloud if one.name in token), *named)}
        shown = [one for one in cloud if not trees or one.root().name in trees]
        words = [f'--tree={full(one.name)}' for one in named] + ([f'--token={full(",".join(token))}'] if token else [])
        query = f'--query=/placement/allocation_candidates?required1=in%3A{"%2C".join(sorted(asked))}&resources1=VCPU%3A1' if asked else '--query='
        with folder_of('\n'.join(provider.text() for provider in cloud)) as folder:
            svg, err, status = drawn('--tables', folder, query, *words)
        if status or err:
            yield f'drawn {at}: {err}'
            continue
        picture = Picture(svg)
        hidden, note = hidden_in(shown, asked)
        boxes = picture.boxes()
        wanted = {full(one.name): box(one, token, hidden.get(one.name, set())) for one in shown}
        if {one: (lines, marked) for one, (_, lines, marked) in boxes.items()} != wanted:
            yield f'drawn {at}: the boxes are {boxes}, and not {wanted}'
        pairs = {(*boxes[full(one.name)][0], one.root().name) for one in shown}
        roots = {one.root().name for one in shown}
        if not len(pairs) == len(roots) == len(picture.frames()):
            yield f'drawn {at}: the frames are not the trees: {pairs}'
        arrows = [(f'{full(one.parent.name)} -> {full(one.name)}', False) for one in shown if one.parent]
        arrows += [(f'{full(one.name)} -> {full(root.name)}', True) for one in shown for root in shown
                   if root.root() is root and one.root() is not root and available(one, root, cloud)]
        if picture.arrows() != sorted(arrows):
            yield f'drawn {at}: the arrows are {picture.arrows()}, and not {sorted(arrows)}'
        if picture.below() != note:
            yield f'drawn {at}: below stands {picture.below()!r}, and not {note!r}'
        yield from (f'drawn {at}: {what}' for what in picture.wrong())


def large():
    """Differences in a picture of as many trees as are drawn unasked: it has rows, and each is about as wide as a page."""
    rows = [f'P{at} | | VCPU total 8 | CUSTOM_A | A1' for at in range(1, 30)] + ['P30 | | DISK_GB total 8 | MISC_SHARES_VIA_AGGREGATE | A1']
    rows += [f'P{100 * at + child} | P{at} | VCPU total 4' for at in range(1, 30, 3) for child in range(1, 8)]
    with folder_of('\n'.join(rows), {'P1': 'host-1', 'P101': 'node-1'}) as folder:
        svg, err, status = drawn('--tables', folder)
        again, *_ = drawn('--tables', folder, '--tree', 'node-1')
    picture = Picture(svg)
    yield from picture.wrong()
    lines = {}
    for one in picture.frames():
        lines.setdefault(one.y, []).append(one.x + one.width)
    if status or err or len(picture.frames()) != 30 or len(lines) < 3 or min(map(max, lines.values())) < 0.6 * max(map(max, lines.values())):
        yield f'30 trees: {err}{len(picture.frames())} frames, rows {lines}'
    if len(picture.arrows()) != 70 + 29:
        yield f'30 trees: {len(picture.arrows())} arrows'
    if len(Picture(again).frames()) != 1 or 'host-1' not in Picture(again).boxes():
        yield 'a tree that is named by a child is another one'


def odd_names():
    """Differences if names with odd characters are drawn wrongly."""
    with folder_of('P1 | | VCPU total 8\nP2 | P1 |', {'P1': ODD, 'P2': 40 * 'long '}) as folder:
        svg, err, _ = drawn('--tables', folder)
    picture = Picture(svg)
    names = [said(next(group.iter(SVG + 'text'))) for group in picture.classed('provider')]
    if names != [SHOWN[:47] + '…', (10 * 'long ')[:47] + '…'] or picture.arrows() != [(f'{SHOWN} -> {40 * "long "}'.strip(), False)]:
        yield f'odd names: {err}{names} {picture.arrows()}'
    yield from picture.wrong()


def long_numbers():
    """Differences if a number is cut where a line is too long: it is the name of the class that is, and the pointer shows it whole."""
    widest = 'CUSTOM_LICENSE total 2147483647, allocation_ratio 1000000000000000.0'
    with folder_of(f'P1 | | NET_BW_EGR_KILOBIT_PER_SEC total 25000000, used 4500000; {widest}\nP2 | P1 |') as folder:
        svg, err, _ = drawn('--tables', folder, '--token', full(','.join(['P2', 'P2', *16 * ['P1']])))
    picture = Picture(svg)
    lines = picture.boxes().get(full('P1'), [0, []])[1]
    wanted = [full('P1'), 'slot 3, 4, 5, 6, 7, 8, 9, 10, 11, 12, 13, 14, …', 'CUSTOM_…: 2147483647000000000000000 of 2147483647000000000000000 left',
              'NET_BW_EGR_KILOBIT_P…: 20500000 of 25000000 left']
    if err or lines != wanted or 'NET_BW_EGR_KILOBIT_PER_SEC: 20500000 of 25000000 left' not in [one.text for one in picture.all.iter(SVG + 'title')]:
        yield f'long numbers: {err}{lines}'
    yield from picture.wrong()


def traits_asked():
    """Differences if a query changes more in a picture of trees than which traits of all hosts stand in their boxes."""
    rows = 'P1 | | VCPU total 8, used 3 | CUSTOM_A, CUSTOM_B\nP2 | | VCPU total 8 | CUSTOM_A, CUSTOM_B'
    with folder_of(rows, {'P1': 'cmp-1', 'P2': 'cmp-2'}) as folder:
        for words, traits, note in ((), [], 'CUSTOM_A, CUSTOM_B'), (('--query', 'resources=VCPU:6&required=CUSTOM_A'), ['CUSTOM_A'], 'CUSTOM_B'):
            picture = Picture(drawn('--tables', folder, *words)[0])
            wanted = {'cmp-1': ([0], ['cmp-1', full('P1'), 'VCPU: 5 of 8 left', *traits], False),
                      'cmp-2': ([1], ['cmp-2', full('P2'), 'VCPU: 8 of 8 left', *traits], False)}
            if (picture.boxes(), picture.below()) != (wanted, f'Every host here also has: {note}'):
                yield f'trees, and the query {words}: {picture.boxes()}, and below {picture.below()}'


def hosts_text(hosts):
    with io.StringIO() as out:
        csv.writer(out, lineterminator='\n').writerows([('root', 'name', 'fits', 'slot', 'lacks'), *hosts])
        return out.getvalue()


def rows_of_hosts(names, chance):
    """Rows as `ac_cli hosts` writes them, by name: what is lacking there, and for which slot."""
    kinds = {one: chance.choice(('', '', *LACKS)) for one in names}
    return {one: (full(one), f'host {ODD} {one[1:]}', 'no' if kind else 'yes', str(chance.randint(1, 12)) if kind in OF_SLOTS else '', kind)
            for one, kind in kinds.items()}


def told(host):
    """What a square says where the pointer is."""
    root, name, _, slot, kind = host
    return f'{name.replace(ODD, SHOWN)} {root}: ' + (f'lacks {SAID.get(kind, kind)}' + (f' for slot {slot}' if slot else '') if kind else 'fits')


def legend_of(hosts):
    """The lines that must stand beside the colours."""
    kinds = Counter(kind for *_, kind in hosts)
    yield f'fit: {kinds[""]} of {len(hosts)}'
    for kind in LACKS:
        slots = Counter(int(slot) for *_, slot, other in hosts if slot and other == kind)
        if kinds[kind]:
            yield f'lack {SAID.get(kind, kind)}: {kinds[kind]}' + (f' ({", ".join(f"slot {slot}: {slots[slot]}" for slot in sorted(slots))})' if slots else '')


def colours_differ(picture, hosts, texts):
    legend = [(one.get('fill'), next(words for y, words in texts if place(one).meets(Place(0, y - 8, 1000, 8)))) for one in picture.classed('legend')]
    if [words for _, words in legend] != list(legend_of(hosts)) or len({colour for colour, _ in legend}) != len(legend):
        yield f'the legend is {legend}, and not {list(legend_of(hosts))}'
    colours = {words.partition(':')[0].removeprefix('lack ').replace('fit', ''): colour for colour, words in legend}
    if Counter(one.get('fill') for one in picture.classed('host')) - Counter(colours.get(SAID.get(kind, kind)) for *_, kind in hosts):
        yield 'other colours'


def rows_differ(picture, hosts, within, texts):
    """Those of A1 stand first, then those of A2, then those in no aggregate, each beside a line that says what it is."""
    groups = {}
    for name, host in hosts.items():
        groups.setdefault(min(within.get(name, ['']), key=lambda one: (not one, one)), []).append(host)
    order = sorted(groups, key=lambda name: (not name, name))
    heads = [(y, words) for y, words in texts if words.startswith('00000000-') or words == 'in no aggregate']
    if [words for _, words in heads] != [full(name) or 'in no aggregate' for name in order]:
        yield f'the rows are {heads}'
    for (y, _), end, name in zip(heads, [*(y for y, _ in heads[1:]), math.inf], order):
        found = [one.find(SVG + 'title').text for one in picture.classed('host') if y - 12 < place(one).y < end - 12]
        if sorted(found) != sorted(map(told, groups[name])):
            yield f'other squares beside {name}'
        if f'{sum(not kind for *_, kind in groups[name])} of {len(groups[name])} fit' not in [words for other, words in texts if other == y]:
            yield f'another count beside {name}'


def squares():
    """Differences in pictures of hosts. P1 to P4 are in A1, some of them in A2 too, P5 in A2 alone, and the others in none."""
    chance = random.Random(42)
    within = {'P1': ['A1'], 'P2': ['A2', 'A1'], 'P3': ['A1', 'A2'], 'P4': ['A1'], 'P5': ['A2']}
    for number in 0, 1, 8, 300, 5000:
        hosts = rows_of_hosts([f'P{at}' for at in range(1, number + 1)], chance)
        with folder_of('\n'.join(f'{one} | | | | {", ".join(names)}' for one, names in within.items())) as folder:
            svg, err, status = drawn('--hosts', '-', '--tables', folder, '--query', 'resources=VCPU:1&required=<A>', given=hosts_text(hosts.values()))
        picture = Picture(svg)
        texts = [(float(one.get('y')), said(one)) for one in picture.all.iter(SVG + 'text')]
        differences = [*picture.wrong(), *colours_differ(picture, hosts.values(), texts), *rows_differ(picture, hosts, within, texts)]
        if status or err or picture.whole.width > 1400:
            differences.append(f'it is {picture.whole.width} wide: {err}')
        if sorted(one.find(SVG + 'title').text for one in picture.classed('host')) != sorted(map(told, hosts.values())):
            differences.append('other titles')
        if [words for _, words in texts[:1]] != ['resources=VCPU:1&required=<A>']:
            differences.append(f'{texts[:1]} is no query')
        yield from (f'{number} hosts: {what}' for what in differences)


def in_rows(svg):
    """What stands in each line of a picture of hosts, from left to right: its words, and what its squares say before the first blank."""
    lines = {}
    picture = Picture(svg)
    for one in picture.all.iter(SVG + 'text'):
        lines.setdefault(float(one.get('y')), []).append((float(one.get('x')), said(one)))
    for one in picture.classed('host'):
        lines.setdefault(place(one).y + 10, []).append((place(one).x, one.find(SVG + 'title').text.partition(' ')[0]))
    return [[words for _, words in sorted(line)] for _, line in sorted(lines.items())]


def in_order():
    """Differences if the squares of a row don't stand in the order of names, 2 before 10, with those without a name behind, in that of UUIDs."""
    names = {'P3': '', 'P1': 'cmp-10', 'P6': 'cmp-2', 'P4': 'cmp-b', 'P5': '', 'P2': 'cmp-002', 'P8': 'cmp-1'}
    svg, err, _ = drawn('--hosts', '-', given=hosts_text((full(one), name, 'yes', '', '') for one, name in names.items()))
    wanted = ['in no aggregate', '7 of 7 fit', 'cmp-1', 'cmp-002', 'cmp-2', 'cmp-10', 'cmp-b', full('P3:'), full('P5:')]
    if err or in_rows(svg)[1:] != [wanted]:
        yield f'the order of squares: {err}{in_rows(svg)}'


def rows_chosen():
    """Differences in pictures whose rows are named. P2 is in two of the aggregates, P4 in another, P5 in none, and P3 in one to which a child of P6 belongs."""
    rows = 'P1 | | | | A1\nP2 | | | | A1, A2\nP3 | | | | A2, A3\nP4 | | | | A3\nP5 | |\nP6 | | | | A1\nP7 | P6 | | | A2'
    lacks = {'P1': '', 'P2': '', 'P3': 'room', 'P4': '', 'P5': 'units', 'P6': 'room'}
    given = hosts_text((full(one), f'cmp-{one[1:]}', 'no' if kind else 'yes', '1' if kind else '', kind) for one, kind in lacks.items())
    both = [['fit: 2 of 4'], ['lack room: 2 (slot 1: 2)'], ['az <2>', '1 of 2 fit', 'cmp-2', 'cmp-3'], [full('A1'), '2 of 3 fit', 'cmp-1', 'cmp-2', 'cmp-6'],
            ['not shown: 2, in none of these aggregates (1 of 2 fit)']]
    every = [['fit: 3 of 6'], ['lack units: 1 (slot 1: 1)'], ['lack room: 2 (slot 1: 2)'], [full('A1'), '2 of 3 fit', 'cmp-1', 'cmp-2', 'cmp-6'],
             [full('A2'), '0 of 1 fit', 'cmp-3'], [full('A3'), '1 of 1 fit', 'cmp-4'], ['in no aggregate', '0 of 1 fit', 'cmp-5']]
    alone = [['fit: 0 of 0'], ['nobody', '0 of 0 fit'], ['not shown: 6, in none of these aggregates (3 of 6 fit)']]
    with folder_of(rows) as folder:
        for words, wanted in (([f'--by={full("A2")}=az <2>,{full("A1").upper()}'], both), ([f'--by={full("A2")}=az <2>', f'--by={full("A1")}='], both),
                              ([f'--by={full("A9")}=nobody'], alone), ([], every)):
            svg, err, _ = drawn('--hosts', '-', '--tables', folder, *words, given=given)
            if err or in_rows(svg) != wanted:
                yield f'rows by {words}: {err}{in_rows(svg)}, and not {wanted}'
            yield from Picture(svg).wrong()
    called = [['fit: 3 of 6'], ['lack units: 1 (slot 1: 1)'], ['lack room: 2 (slot 1: 2)'], ['az1', '1 of 2 fit', 'cmp-3', 'cmp-4'], ['az10', '1 of 2 fit', 'cmp-2', 'cmp-6'],
              [full('A2'), '1 of 1 fit', 'cmp-1'], ['in no aggregate', '0 of 1 fit', 'cmp-5']]
    one = [['fit: 1 of 2'], ['lack room: 1 (slot 1: 1)'], ['az1', '1 of 2 fit', 'cmp-3', 'cmp-4'], ['not shown: 4, in none of these aggregates (2 of 4 fit)']]
    with folder_of(rows.replace('P1 | | | | A1', 'P1 | | | | A2'), aggregates='A1,az10\nA3,az1\nA1,room\n') as folder:
        for words, wanted in ([], called), (['--by', 'az1'], one):
            svg, err, _ = drawn('--hosts', '-', '--tables', folder, *words, given=given)
            if err or in_rows(svg) != wanted:
                yield f'rows with names, by {words}: {err}{in_rows(svg)}, and not {wanted}'


def refused():
    """Differences in the messages about what can't be drawn, which are words, and never those of an exception."""
    strange = "draw-cloud: -: this isn't what ac_cli hosts writes: "
    cloud = ('--tables', os.path.join(EXAMPLES, 'cloud'))
    other = '00000000-0000-0000-0000-000000000001'
    rows = '\n'.join(f'P{at} | | VCPU total 8' for at in range(1, 32))
    first_row = HEADERS['inventories'] + f'{other},VCPU,8,0,1,8,1,'
    circle, wrong = (HEADERS['providers'] + full(lines) for lines in ('P1,P1,\nP2,P1,P3\nP3,P1,P2\n', 'P1,P2,\nP2,P2,P1\n'))
    with folder_of(rows, {'P1': 'one', 'P2': 'one', 'P3': 'two'}) as folder:
        single = ('--providers', os.path.join(folder, 'providers.csv'))
        for words, given, status, says in (
                ((*cloud, f'--token={other}'), '', 1, f'draw-cloud: there is no provider {other}\n'),
                ((*cloud, f'--tree={other}'), '', 1, f'draw-cloud: there is no provider {other}\n'),
                ((*cloud, '--tree=compute-03'), '', 1, 'draw-cloud: there is no provider compute-03\n'),
                ((*cloud, f'--token={other},x'), '', 2, "draw-cloud: --token: 'x' isn't a UUID; a token is a line of `ac_cli tokens`\n"),
                (('--tables', os.path.join(folder, 'absent')), '', 1, f'draw-cloud: {folder}/absent/providers.csv: No such file or directory\n'),
                (('--tables', folder), '', 2, 'draw-cloud: 31 trees are too many for a picture. Name some (--tree), or give a --token, or draw a square for '
                                              'each: ac_cli hosts QUERY --tables DIR | tools/draw-cloud.py --hosts - --tables DIR\n'),
                (('--tables', folder, '--tree=one'), '', 1, 'draw-cloud: 2 providers are named one; give the UUID of one\n'),
                (('--tables', folder, '--tree=two'), '', 0, ''),
                (('--tables', folder, f'--tree={other}'), '', 0, ''),
                (('--tables', folder, f'--token={other}'), '', 0, ''),
                ((*single, '--inventories', os.path.join(folder, 'usages.csv')), '', 2, '31 trees are too many'),
                ((*single, '--tree=two', '--inventories', os.path.join(folder, 'usages.csv')), '', 1,
                 f'draw-cloud: {folder}/usages.csv: the column total is missing\n'),
                ((*single, '--tree=two', '--inventories', '-'), first_row + 'x\n', 1,
                 "draw-cloud: -: line 2: allocation_ratio is 'x' and not a number\n"),
                ((*single, '--tree=two', '--inventories', '-'), HEADERS['inventories'] + other + '\n', 1, 'draw-cloud: -: line 2: it has too few columns\n'),
                (('--tables', folder, *single), '', 2, '--tables names all tables\n'),
                (single, '', 2, 'the tables are missing'),
                (('--providers', os.devnull, '--inventories', os.devnull), '', 1, f'draw-cloud: {os.devnull}: it is empty\n'),
                (('--providers', folder, '--inventories', os.devnull), '', 1, f'draw-cloud: {folder}: Is a directory\n'),
                (('--providers', '-', '--inventories', os.devnull), HEADERS['providers'], 1, 'draw-cloud: there are no providers\n'),
                (('--providers', '-', '--inventories', os.path.join(folder, 'inventories.csv')), circle, 1, 'are not below it'),
                (('--providers', '-', '--inventories', os.devnull), wrong, 1, 'has a wrong root'),
                (('--hosts', '-', '--tables', folder, '--tree=two'), '', 2, '--hosts draws no trees\n'),
                (('--hosts', '-'), '', 1, strange + 'it is empty\n'),
                (('--hosts', '-'), f'{other},{other}\n{other},{other}\n', 1, strange + 'the column root is missing\n'),
                (('--hosts', '-'), 'root,name\n', 1, strange + 'the column fits is missing\n'),
                (('--hosts', '-'), 'root,na\0me\n', 1, strange),
                (('--hosts', '-'), hosts_text([(other, 'one')]), 1, strange + 'line 2: it has too few columns\n'),
                (('--hosts', '-'), hosts_text([('x', '', 'yes', '', '')]), 1, strange + "line 2: root is 'x' and not a UUID\n"),
                (('--hosts', '-'), hosts_text([(other, '', 'perhaps', '', '')]), 1, strange + "line 2: fits is 'perhaps' and not yes or no\n"),
                (('--hosts', '-', '--tables', os.path.join(folder, 'absent')), hosts_text([]), 1, 'aggregates.csv: No such file or directory\n'),
                (('--hosts', '-', '--tables', folder, '--by=az1'), '', 2,
                 "draw-cloud: --by: 'az1' isn't a UUID, nor the name of one aggregate; give some between commas, each alone or as UUID=NAME\n"),
                (('--hosts', '-', '--tables', folder, f'--by={other}=a, b'), '', 2, "draw-cloud: --by: ' b' isn't a UUID, nor the name of one aggregate; give"),
                (('--hosts', '-', '--tables', folder, f'--by={other},'), '', 2, "draw-cloud: --by: '' isn't a UUID, nor the name of one aggregate; give"),
                (('--hosts', '-', f'--by={other}'), '', 2, 'the aggregates are missing: --tables, or --aggregates\n'),
                (('--tables', folder, f'--by={other}'), '', 2, '--by needs --hosts\n'),
                (('--hosts', '-'), hosts_text([(other, '', 'yes', '', '')]), 0, '')):
            svg, err, ended = drawn(*words, given=given)
            if (ended, bool(svg)) != (status, not status) or says not in err or not says and err or re.search('Error|Errno|Traceback', err):
                yield f'{words}: status {ended}, {err}'


if __name__ == '__main__':
    found = [*by_chance(40), *large(), *odd_names(), *long_numbers(), *traits_asked(), *squares(), *in_order(), *rows_chosen(), *refused()]
    print(''.join(line + '\n' for line in found), end='')
    sys.exit(1 if found else 0)
