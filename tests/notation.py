"""Reads small clouds in a short notation, which docs/RULES.md uses too.

A row is `provider | parent | inventories | traits | aggregates | name`; cells at the end may be missing. `P1` stands for the UUID
00000000-0000-0000-0000-000000000001, `A1` for 00000000-0000-0000-0000-0000000000a1, in every text here. An inventory is
`VCPU total 8`, perhaps with `, reserved 1`, `, allocation_ratio 1.5` and so on, or `, used 7`; two of them are joined by `;`."""
from __future__ import annotations

import re

HEADERS = {
    'providers': 'uuid,root_provider_uuid,parent_provider_uuid\n',
    'inventories': 'resource_provider,resource_class,total,reserved,min_unit,max_unit,step_size,allocation_ratio\n',
    'usages': 'resource_provider,resource_class,usage\n',
    'traits': 'resource_provider,name\n',
    'aggregates': 'resource_provider,uuid\n',
}


def provider(number):
    return f'00000000-0000-0000-0000-{number:012x}'


def full(text):
    """The text with its UUIDs written out."""
    return re.sub(r'\b([PA])(\d+)\b', lambda name: provider(int(name[2]) + (0xa0 if name[1] == 'A' else 0)), text)


def shown(name):
    """A name, in bytes, as the program shows it: with `?` for each byte below 32, for 127, and for each that isn't UTF-8."""
    return re.sub(r'[\x00-\x1f\x7f\udc80-\udcff]', '?', name.decode(errors='surrogateescape'))


def inventory(cell):
    """The class, the six numbers of a row of inventories, and how much is used, or None if that isn't said."""
    name, *numbers = cell.replace(',', ' ').split()
    given = dict(zip(numbers[::2], numbers[1::2]))
    total = given.pop('total')
    used = given.pop('used', None)
    row = {'total': total, 'reserved': '0', 'min_unit': '1', 'max_unit': total, 'step_size': '1',
           'allocation_ratio': '1.0', **given}
    return name, list(row.values()), used


def cells(row):
    return [cell.strip() for cell in (row + '|||||').split('|')[:6]]


def root(parents, of):
    while parents[of]:
        of = parents[of]
    return of


def tables(cloud):
    """The tables of a cloud, by name. Usages, traits and aggregates are left out if they have no rows, and names if no provider has one."""
    rows = [cells(row) for row in cloud.strip().splitlines()]
    parents = {row[0]: row[1] for row in rows}
    headers = {**HEADERS, 'providers': HEADERS['providers'][:-1] + ',name\n'} if any(row[5] for row in rows) else HEADERS
    made = {name: [] for name in HEADERS}
    for name, parent, inventories, traits, aggregates, shown in rows:
        made['providers'].append(f'{name},{root(parents, name)},{parent}' + (f',{shown}' if headers is not HEADERS else ''))
        for cell in filter(None, inventories.split(';')):
            kind, numbers, used = inventory(cell)
            made['inventories'].append(','.join([name, kind, *numbers]))
            if used is not None:
                made['usages'].append(f'{name},{kind},{used}')
        made['traits'] += [f'{name},{trait}' for trait in traits.replace(',', ' ').split()]
        made['aggregates'] += [f'{name},{aggregate}' for aggregate in aggregates.replace(',', ' ').split()]
    return {name: headers[name] + ''.join(full(line) + '\n' for line in lines)
            for name, lines in made.items() if lines or name in ('providers', 'inventories')}
