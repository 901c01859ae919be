"""Reads the tables of a cloud. They aren't checked here: `ac_cli check` does that."""
from __future__ import annotations

import csv
import math
import os
import sys
import uuid
from dataclasses import dataclass, field
from fractions import Fraction
from functools import lru_cache

SHARES = 'MISC_SHARES_VIA_AGGREGATE'
LONGEST = 40  # how much of a wrong text is told
TABLES = 'providers', 'inventories', 'usages', 'traits', 'aggregates'
# What reading a text that isn't what it should be may raise.
UNREADABLE = OSError, ValueError, LookupError, ArithmeticError, csv.Error

csv.field_size_limit(sys.maxsize)


class NotDrawn(Exception):
    """Why nothing can be drawn, in a line, and perhaps the status that goes with it."""


class NoTable(Exception):
    """Why a file isn't the table that it should be."""


@dataclass
class Provider:
    id: str
    name: str
    parent: str | None
    root: str
    capacity: dict = field(default_factory=dict)
    used: dict = field(default_factory=dict)
    traits: set = field(default_factory=set)
    aggregates: set = field(default_factory=set)

    def label(self):
        return self.name or self.id


@lru_cache(maxsize=None)
def identity(text):
    """A UUID in one form, whatever its form was."""
    return str(uuid.UUID(text))


def parent_of(text):
    return None if text in ('', 'None') else identity(text)


# How the text of a column is read, and what it must be. That of any other is taken as it is.
READ = {**dict.fromkeys(('uuid', 'root', 'resource_provider', 'root_provider_uuid'), (identity, 'a UUID')), 'parent_provider_uuid': (parent_of, 'a UUID'),
        **dict.fromkeys(('total', 'reserved', 'usage'), (int, 'a whole number')), 'allocation_ratio': (lru_cache(maxsize=None)(Fraction), 'a number'),
        'fits': ({'yes': True, 'no': False}.__getitem__, 'yes or no')}


def value(name, text):
    """What the text of a column says."""
    read, what = READ.get(name, (str, ''))
    try:
        return read(text)
    except UNREADABLE as fault:
        raise NoTable(f'{name} is {text[:LONGEST]!r} and not {what}') from fault


def table(file, columns, optional):
    """These columns of each row of an open table."""
    lines = csv.reader(file)
    places = {name: at for at, name in enumerate(next(lines, []))}
    if not places:
        raise NoTable('it is empty')
    for name in columns:
        if name not in places and name not in optional:
            raise NoTable(f'the column {name} is missing')
    wanted = [(name, places.get(name)) for name in columns]
    last = max(places[name] for name in columns if name in places)
    try:
        for row in filter(None, lines):
            if len(row) <= last:
                raise NoTable('it has too few columns')
            yield [value(name, '' if at is None else row[at]) for name, at in wanted]
    except NoTable as fault:
        raise NoTable(f'line {lines.line_num}: {fault}') from fault


def rows(path, *columns, optional=(), told=''):
    """These columns of each row of a table, and no rows where there is no path. Bytes that aren't text are kept, as the words of a command line keep
    them. Where the file isn't such a table, this is told before the reason."""
    if path is None:
        return
    try:
        with open(0 if path == '-' else path, encoding='utf-8-sig', errors='surrogateescape', newline='') as file:
            yield from table(file, columns, optional)
    except OSError as fault:
        raise NotDrawn(f'{path}: {fault.strerror}') from fault
    except NoTable as fault:
        raise NotDrawn(f'{path}: {told}{fault}') from fault
    except csv.Error as fault:
        raise NotDrawn(f'{path}: {told}it is no CSV') from fault


def cloud_of(path):
    """The providers by UUID, in ascending order, with nothing but their names and their trees."""
    cloud = {}
    for id, above, root, name in rows(path, 'uuid', 'parent_provider_uuid', 'root_provider_uuid', 'name', optional=('name',)):
        cloud[id] = Provider(id, name, above, root)
    if not cloud:
        raise NotDrawn('there are no providers')
    for one in cloud.values():
        for end in one.root, one.parent or one.root:
            if end not in cloud:
                raise NotDrawn(f'there is no provider {end}')
        if cloud[one.root].parent or cloud[one.parent or one.id].root != one.root or not one.parent and one.root != one.id:
            raise NotDrawn(f'{one.id} has a wrong root; `ac_cli check` tells a fault of the tables')
    return dict(sorted(cloud.items()))


def fill(providers, paths):
    """Gives these providers what the other tables say of them."""
    drawn = {one.id: one for one in providers}
    for id, name, total, reserved, ratio in rows(paths['inventories'], 'resource_provider', 'resource_class', 'total', 'reserved', 'allocation_ratio'):
        if id in drawn:
            drawn[id].capacity[name] = math.floor((total - reserved) * ratio)
    for id, name, used in rows(paths['usages'], 'resource_provider', 'resource_class', 'usage'):
        if id in drawn:
            drawn[id].used[name] = used
    for id, name in rows(paths['traits'], 'resource_provider', 'name'):
        if id in drawn:
            drawn[id].traits.add(name)
    for id, aggregate in rows(paths['aggregates'], 'resource_provider', 'uuid'):
        if id in drawn:
            drawn[id].aggregates.add(aggregate)


def members_of(path):
    """The providers of each aggregate."""
    found = {}
    for one, aggregate in rows(path, 'resource_provider', 'uuid'):
        found.setdefault(aggregate, set()).add(one)
    return found


def names_of(folder):
    """The UUIDs and names of aggregates that a folder's table has; none where there is no such table."""
    path = folder and os.path.join(folder, 'aggregate-names.csv')
    return [(one, name) for one, name in rows(path, 'uuid', 'name') if name] if path and os.path.exists(path) else []


def aggregate_named(text, names):
    """The aggregate of this UUID, else the only one of this name, or None."""
    try:
        return identity(text)
    except ValueError:
        found = {one for one, name in names if name == text}
        return found.pop() if len(found) == 1 else None


def named(cloud, text):
    """The provider that a text names: by its UUID, else by its name."""
    try:
        if identity(text) in cloud:
            return identity(text)
    except ValueError:
        pass
    found = [one.id for one in cloud.values() if one.name == text] if text else []
    if len(found) > 1:
        raise NotDrawn(f'{len(found)} providers are named {text}; give the UUID of one')
    if not found:
        raise NotDrawn(f'there is no provider {text}')
    return found[0]


def sharing(providers):
    """Pairs of a sharing provider and the root of another tree that it shares with, among these providers."""
    members = {}
    for one in providers:
        for aggregate in one.aggregates:
            members.setdefault(aggregate, set()).add(one.root)
    for one in providers:
        if SHARES in one.traits:
            roots = set().union(*(members[aggregate] for aggregate in one.aggregates)) - {one.root}
            yield from ((one.id, root) for root in sorted(roots))
