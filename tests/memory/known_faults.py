#!/usr/bin/env python3
"""tests/memory/known_faults.py PROGRAM: checks that a memory allocation (a *growth*) that fails doesn't hide a fault that stands before it. It reads
tables with a fault again and again, and in each run another growth is refused. If it comes before the fault, the run ends with `out of memory`; if it
comes after the fault, the run must report the fault. So there is a last growth without which the fault isn't reported. It must be the same if
everything behind the fault is blank, and if the rows before it are in order already. The script writes what else happened."""
from __future__ import annotations

import os
import shutil
import sys
import tempfile
from concurrent.futures import ThreadPoolExecutor

TESTS = os.path.dirname(os.path.dirname(os.path.abspath(__file__)))
sys.path += [TESTS, os.path.join(TESTS, 'limits')]

from growths import MEMORY, refuser, run
from large import MOST_PROVIDERS, ids, shuffled
from notation import HEADERS, provider

RECORDS = 60
NAMES = shuffled(ids(RECORDS))
ROWS = {
    'providers': [f'{id},{id},\n' for id in NAMES],
    'inventories': [f'{id},VCPU,8,0,1,8,1,1.0\n' for id in NAMES],
    'usages': [f'{id},VCPU,1\n' for id in NAMES],
    'traits': [f'{id},CUSTOM_A\n' for id in NAMES],
    'aggregates': [f'{id},{id}\n' for id in NAMES],
}
NOBODY = provider(RECORDS + 1)
REPEATED = 'Duplicate'  # the record repeats the one before it

# Tables, faults, and a record with that fault.
WRONG = [
    ('providers', 'BadUuid', 'x,x,\n'),
    ('providers', REPEATED, None),
    ('inventories', 'BadRatio', f'{NAMES[0]},CUSTOM_BAD,8,0,1,8,1,x\n'),
    ('inventories', 'UnknownProvider', f'{NOBODY},VCPU,8,0,1,8,1,1.0\n'),
    ('inventories', REPEATED, None),
    ('usages', 'BadNumber', f'{NAMES[0]},VCPU,x\n'),
    ('usages', 'NoInventory', f'{NAMES[0]},CUSTOM_NEW,1\n'),
    ('usages', REPEATED, None),
    ('traits', 'BadTrait', f'{NAMES[0]},x\n'),
    ('aggregates', 'UnknownProvider', f'{NOBODY},{NOBODY}\n'),
]


def cases():
    """The table with the fault, its rows up to the fault, its rows behind the fault, and the line that reports it."""
    for table, kind, record in WRONG:
        rows = ROWS[table]
        for place in (1 if kind == REPEATED else 0, RECORDS // 2, RECORDS):
            # The row behind it has a fault too, which comes too late to be reported.
            yield (table, [*rows[:place], record or rows[place - 1]], [*rows[place:], record or rows[0]] if place < RECORDS else [],
                   f'{table}: record {place + 2}: {kind}\n')


def too_many():
    """A case with one provider too many; behind it come repeated ones."""
    rows = [f'{id.replace("-", "")},{id.replace("-", "")},\n' for id in ids(MOST_PROVIDERS + 2)]
    yield 'providers', rows[:-1], [rows[0]] + rows[-1:] * 2, f'providers: record {MOST_PROVIDERS + 2}: TooManyProviders\n'


def write(folder, table, text):
    """Writes the tables to files, and returns the words of a `check` of them."""
    words = ['check']
    for name, rows in ROWS.items():
        path = os.path.join(folder, name)
        with open(path, 'w', encoding='utf-8') as file:
            file.write(HEADERS[name] + (text if name == table else ''.join(rows)))
        words += [f'--{name}', path]
    return words


def growths(words, library):
    """How many growths a run needs."""
    few, many = 0, 1
    while run(words, library, many)[3]:
        few, many = many, 2 * many
    while many - few > 1:
        middle = (few + many) // 2
        few, many = (middle, many) if run(words, library, middle)[3] else (few, middle)
    return few


def hidden(words, library, line):
    """The number of the last growth without which the fault isn't reported, or what else happened."""
    if run(words, library, 0)[:3] != (b'', line.encode(), 3):
        return f'with ample memory: {run(words, library, 0)[1]!r}'
    for number in range(growths(words, library), 0, -1):
        out, err, status, _ = run(words, library, number)
        if (out, err, status) == (b'', *MEMORY):
            return number
        if (out, err, status) != (b'', line.encode(), 3):
            return f'growth {number} was refused: status {status}, {err!r}, {out[:200]!r}'
    return 'there is no growth before the fault'


def wrong(program, library, case):
    """What is wrong with the runs of a case, or None."""
    table, up_to, behind, line = case
    blank = '\n' * len(''.join(behind))
    texts = {'as it is': ''.join(up_to + behind), 'with blanks behind the fault': ''.join(up_to) + blank,
             'the same, with rising rows': ''.join(sorted(up_to[:-1]) + up_to[-1:]) + blank}
    found = {}
    for name, text in texts.items():
        with tempfile.TemporaryDirectory() as folder:
            found[name] = hidden([program, *write(folder, table, text)], library, line)
    return None if len(set(found.values())) == 1 and isinstance(found['as it is'], int) else f'{line.strip()}: the last growth without which it is not told: {found}'


def main(program):
    if not shutil.which('cc'):
        print('there is no C compiler, cc, to make tests/memory/refuse.c with')
        return 1
    with tempfile.TemporaryDirectory() as folder, ThreadPoolExecutor(max_workers=2) as pool:
        library = refuser(folder)
        found = list(pool.map(lambda case: wrong(program, library, case), [*too_many(), *cases()]))
    for why in filter(None, found):
        print(why)
    print(f'{len(found)} tables, each with a fault')
    return 1 if any(found) else 0


if __name__ == '__main__':
    sys.exit(main(*sys.argv[1:]))
