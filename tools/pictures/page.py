"""Writes the page of tools/report: HTML with its style and its script inside. Whatever comes from data is escaped. A browser runs no other script than page.js,
since the page names its sum."""
from __future__ import annotations

import os
from base64 import b64encode
from collections import Counter
from collections.abc import Iterable, Iterator
from dataclasses import dataclass
from datetime import datetime
from hashlib import sha256
from string import ascii_lowercase
from typing import NamedTuple

from pictures.hosts import COLOURS, FITS, OTHER, SAID as SAID_OF_PICTURES, Host
from pictures.svg import escaped

# What a root provider lacks, where the word of the column says it otherwise.
SAID = {**SAID_OF_PICTURES, 'together': 'all of it together'}
HERE = os.path.dirname(os.path.abspath(__file__))
NOBODY = 'nobody here'
# The sign of each kind of square, since nobody should need its colour. A kind that isn't known here has the last one.
SIGNS = {FITS: '✓', 'root traits': 'R', 'no inventory': '–', 'units': 'U', 'traits': 'T', 'aggregates': 'A', 'tree': 'P', 'room': '×', 'required traits': 'Q',
         'together': '+', '': '?'}
# Names of classes are short, since a page has tens of thousands of squares.
CLASSES = dict(zip(SIGNS, ascii_lowercase))
FEW_SQUARES = 300  # so many squares on the page are shown from the start
FEW_FINDINGS = 50
FEW_NAMES = 8  # so many hosts with the same lack are named
FEW_HOSTS = 60  # so many are drawn as larger squares


class Answer(NamedTuple):
    """What a command wrote, and how it was called."""
    command: str
    text: str


@dataclass
class Square(Host):
    """A row of `ac_cli hosts`, with what is asked and what there is of it."""
    asks: str
    detail: str

    def label(self) -> str:
        return self.name or self.root

    def lack(self) -> str:
        """What other hosts may lack too."""
        return SAID.get(self.lacks, self.lacks) + (f': slot {self.slot} {self.asks}' if self.slot else '')

    def more(self) -> str:
        """What the detail says beyond the lack: of a slot that asks one class, its name isn't told again, nor that nobody has an inventory of it."""
        detail = self.detail if ',' in self.asks else self.detail.removeprefix(self.asks.partition(':')[0] + ': ')
        if detail in ('', NOBODY):
            return ''
        return (', ' if self.slot else ': ') + detail

    def told(self) -> str:
        return f'{self.label()} fits' if self.fits else f'{self.label()} lacks {self.lack()}{self.more()}'


@dataclass
class Zone:
    """Root providers that stand together, under this name; without one if they are all."""
    name: str
    squares: list[Square]


@dataclass
class Flavor:
    """A row of `ac_cli capacity`, and what `ac_cli hosts` wrote of the flavor."""
    row: dict[str, str]
    hosts: Answer
    squares: list[Square]
    zones: list[Zone]

    def label(self) -> str:
        return self.row['flavor'] or '(no name)'

    def is_short(self) -> bool:
        return int(self.row['at_least']) < int(self.row['wanted'])


@dataclass
class Report:
    """All that stands on the page."""
    exported: datetime
    folder: str
    changes: str
    version: str
    check: Answer
    capacity: Answer
    flavors: list[Flavor]
    audits: list[Answer]
    findings: list[dict[str, str]]


class Column(NamedTuple):
    """A column of a table: its name in CSV, and its head on the page."""
    name: str
    head: str
    is_number: bool = False


OF_FLAVORS = (Column('flavor', 'flavor'), Column('hosts', 'hosts', True), Column('at_least', 'at least', True), Column('at_most', 'at most', True),
              Column('wanted', 'wanted', True), Column('short_of', 'short of'), Column('short_at', 'at hosts', True))
OF_FINDINGS = Column('kind', 'finding'), Column('name', 'name'), Column('detail', 'detail'), Column('provider', 'resource provider')


# ---- pieces

def counted(number: int, one: str, many: str = '') -> str:
    return f'{number} {one if number == 1 else many or one + "s"}'


def fits(squares: list[Square]) -> str:
    return f'fits at {sum(square.fits for square in squares)} of {counted(len(squares), "host")}'


def command(told: Answer) -> str:
    return f'<p class="command">Made by <code>{escaped(told.command)}</code></p>\n'


def heads(columns: Iterable[Column]) -> str:
    return ''.join(f'<th scope="col"{" class=number" if column.is_number else ""}>{column.head}</th>' for column in columns)


def cells(columns: Iterable[Column], row: dict[str, str], first: str) -> str:
    """The cells of a row, the first with this inside."""
    _, *others = columns
    held = (f'<td class="{column.name}{" number" if column.is_number else ""}">{escaped(row[column.name])}</td>' for column in others)
    return f'<th scope="row">{first}</th>{"".join(held)}'


def table(name: str, caption: str, columns: Iterable[Column], lines: Iterable[str]) -> Iterator[str]:
    """A table that the script sorts."""
    yield f'<div class="wide"><table id="{name}" class="sorted">\n<caption>{caption}</caption>\n<thead><tr>{heads(columns)}</tr></thead>\n<tbody>\n'
    yield from lines
    yield '</tbody>\n</table></div>\n'


def class_of(square: Square) -> str:
    return CLASSES.get(square.kind(), CLASSES[''])


# ---- parts

def placed(flavors: list[Flavor]) -> str:
    """How many flavors have less room than is wanted."""
    short = sum(flavor.is_short() for flavor in flavors)
    return f'For <a href="#flavors">{short} of {counted(len(flavors), "flavor")}</a> there is less room than is wanted.'


def header(report: Report) -> Iterator[str]:
    tables = ', '.join(f'{count} {name}' for name, count in map(str.split, report.check.text.splitlines()))
    yield '<header>\n<h1>What fits, and what is lacking</h1>\n'
    yield f'<p class="sum">{placed(report.flavors)} The tables have <a href="#findings">{counted(len(report.findings), "finding")}</a>.</p>\n'
    yield f'<dl>\n<dt>exported</dt><dd><time datetime="{report.exported:%Y-%m-%dT%H:%MZ}">{report.exported:%Y-%m-%d %H:%M} UTC</time></dd>\n'
    yield f'<dt>tables</dt><dd>{escaped(report.folder)}: {escaped(tables)}</dd>\n'
    if report.changes:
        yield '<dt>changed</dt>' + ''.join(f'<dd>{escaped(line)}</dd>\n' for line in report.changes.splitlines())
    yield f'<dt>program</dt><dd>{escaped(report.version)}</dd>\n</dl>\n'
    yield command(report.check) + '</header>\n'


def flavor_rows(flavors: list[Flavor]) -> Iterator[str]:
    for at, flavor in enumerate(flavors, 1):
        link = f'<a href="#flavor-{at}">{escaped(flavor.label())}</a>'
        yield f'<tr{" class=short" if flavor.is_short() else ""}>{cells(OF_FLAVORS, flavor.row, link)}</tr>\n'


def flavor_part(report: Report) -> Iterator[str]:
    yield '<section id="flavors">\n<h2>Flavors</h2>\n'
    caption = 'How many of each can be placed if no other is, and what most hosts are short of. A row with ▲ has fewer than are wanted.'
    yield from table('capacity', caption, OF_FLAVORS, flavor_rows(report.flavors))
    yield command(report.capacity) + '</section>\n'


def names_of(squares: list[Square]) -> str:
    return f' <small>({escaped(", ".join(square.label() for square in squares))})</small>' if len(squares) <= FEW_NAMES else ''


def more_of(squares: list[Square]) -> str:
    """What the details of all of these say, if that is the same."""
    said = {square.more() for square in squares}
    return said.pop() if len(said) == 1 else ''


def groups_of(squares: list[Square]) -> list[tuple[str, str, list[Square]]]:
    """The hosts that fit, and those of each lack, the most first; with the class of the square, and what is said of them."""
    groups: dict[tuple[str, str], list[Square]] = {}
    for square in squares:
        groups.setdefault((class_of(square), 'fit' if square.fits else f'lack {square.lack()}'), []).append(square)
    found = [(kind, words + more_of(inside), inside) for (kind, words), inside in groups.items()]
    return sorted(found, key=lambda group: (group[0] != CLASSES[FITS], -len(group[2]), group[:2]))


def bar(squares: list[Square]) -> str:
    """A strip with the share of each kind of square."""
    parts, begin = [], 0
    for kind, number in sorted(Counter(map(class_of, squares)).items()):
        parts.append(f'<rect class={kind} x="{begin}" width="{number}" height="1"/>')
        begin += number
    return f'<svg viewBox="0 0 {begin} 1" preserveAspectRatio="none" aria-hidden="true">{"".join(parts)}</svg>'


def legend(squares: list[Square]) -> Iterator[str]:
    """A line for each lack, and the first for those that fit: how many hosts there are, and which, if they are few."""
    yield '<ul class="legend">\n'
    for kind, words, inside in groups_of(squares):
        yield f'<li><i class={kind}></i><span><b>{len(inside)}</b> {escaped(words)}{names_of(inside)}</span></li>\n'
    yield '</ul>\n'


def zone_part(zone: Zone) -> Iterator[str]:
    if zone.name:
        yield f'<h3>{escaped(zone.name)} <small>{fits(zone.squares)}</small></h3>\n'
    yield '<ol class="squares">\n'
    yield from (f'<li class={class_of(square)} title="{escaped(square.told())}"></li>' for square in zone.squares)
    yield '\n</ol>\n'


def squares_part(flavor: Flavor, at: int) -> Iterator[str]:
    """What opens below the line of a flavor."""
    yield f'<div id="flavor-{at}"{" class=few" if len(flavor.squares) <= FEW_HOSTS else ""}>\n'
    yield from legend(flavor.squares)
    for zone in flavor.zones:
        yield from zone_part(zone)
    yield f'<output></output>\n{command(flavor.hosts)}</div>\n'


def host_part(report: Report) -> Iterator[str]:
    is_open = ' open' if sum(len(flavor.squares) for flavor in report.flavors) <= FEW_SQUARES else ''
    yield '<section id="hosts">\n<h2>Hosts</h2>\n<p>A square is a root provider. Point at it to see its name, and what it lacks.</p>\n'
    for at, flavor in enumerate(report.flavors, 1):
        yield f'<details{is_open}>\n<summary><b>{escaped(flavor.label())}</b> <span>{fits(flavor.squares)}</span> {bar(flavor.squares)}</summary>\n'
        yield from squares_part(flavor, at)
        yield '</details>\n'
    yield '</section>\n'


def finding_part(report: Report) -> Iterator[str]:
    yield '<section id="findings">\n<h2>Findings</h2>\n'
    kinds = Counter(row['kind'] for row in report.findings)
    if kinds:
        is_open = ' open' if len(report.findings) <= FEW_FINDINGS else ''
        told = ', '.join(f'{number} {escaped(kind)}' for kind, number in kinds.items())
        yield f'<details{is_open}>\n<summary>{told}</summary>\n'
        lines = (f'<tr>{cells(OF_FINDINGS, row, escaped(row["kind"]))}</tr>\n' for row in report.findings)
        yield from table('audit', 'What is wrong in the tables, or looks so.', OF_FINDINGS, lines)
        yield '</details>\n'
    else:
        yield '<p>There are none.</p>\n'
    yield from map(command, report.audits)
    yield '</section>\n'


# ---- the page

def contents(name: str) -> str:
    with open(os.path.join(HERE, name), encoding='utf-8') as file:
        return file.read()


def ink(colour: str) -> str:
    """Black or white, whichever is the clearer one on this colour."""
    red, green, blue = (int(colour[at:at + 2], 16) for at in (1, 3, 5))
    return '#000' if 0.3 * red + 0.59 * green + 0.11 * blue > 110 else '#fff'


def style() -> str:
    """The style of page.css, and the colour and the sign of each kind of square."""
    kinds = ((CLASSES[kind], COLOURS.get(kind, OTHER), sign) for kind, sign in SIGNS.items())
    return contents('page.css') + ''.join(f'.{name} {{ background: {colour}; fill: {colour}; color: {ink(colour)}; }}\n'
                                          f'.{name}::before {{ content: "{sign}"; }}\n' for name, colour, sign in kinds)


def sum_of(text: str) -> str:
    """By this a page allows a style or a script."""
    return f"'sha256-{b64encode(sha256(text.encode()).digest()).decode()}'"


def page(report: Report) -> Iterator[str]:
    looks, acts = style(), contents('page.js')
    hosts = counted(max((len(flavor.squares) for flavor in report.flavors), default=0), 'host')
    yield '<!DOCTYPE html>\n<html lang="en">\n<head>\n<meta charset="utf-8">\n<meta name="viewport" content="width=device-width, initial-scale=1">\n'
    yield f'<meta http-equiv="Content-Security-Policy" content="default-src \'none\'; style-src {sum_of(looks)}; script-src {sum_of(acts)}">\n'
    yield f'<title>What fits: {counted(len(report.flavors), "flavor")}, {hosts}, {report.exported:%Y-%m-%d}</title>\n<style>{looks}</style>\n</head>\n<body>\n'
    yield from header(report)
    yield '<main>\n'
    for part in flavor_part, host_part, finding_part:
        yield from part(report)
    yield f'</main>\n<script>{acts}</script>\n</body>\n</html>\n'
