#!/usr/bin/env python3
"""tests/metrics.py PROGRAM WORDS..: checks that `capacity --prometheus` writes metrics as Prometheus reads them, with the numbers of the CSV.

The words are a call of `capacity`. The script runs it as it is, and with the option, and writes a line for each difference; the status is 0 only if there is
none. `metrics_of` makes the metrics of rows of the CSV; what reads them here takes nothing from it."""
from __future__ import annotations

import csv
import io
import re
import subprocess
import sys

sys.dont_write_bytecode = True

from notation import shown

METRICS = {
    'hosts': 'Root providers at which the flavor fits.',
    'at_least': 'Placements by first fit.',
    'at_most': 'Placements in any order at most.',
    'wanted': 'Placements that are wanted.',
    'short_at': 'Root providers that are short of the label short_of.',
}
COLUMNS = 'flavor', 'hosts', 'at_least', 'at_most', 'wanted', 'short_of', 'short_at'
LABEL = r'([a-zA-Z_]\w*)="((?:[^"\\\n]|\\["\\n])*)"'
SAMPLE = re.compile(rf'([a-zA-Z_:][\w:]*)\{{({LABEL}(?:,{LABEL})*)\}} ([0-9]+)', re.A)


def quoted(text):
    """A text as the value of a label."""
    return '"' + text.replace('\\', '\\\\').replace('"', '\\"') + '"'


def metrics_of(rows):
    """The metrics of rows of `capacity`, of which the names are as they are shown."""
    lines = []
    for name, told in METRICS.items():
        lines += [f'# HELP ac_flavor_{name} {told}', f'# TYPE ac_flavor_{name} gauge']
        for row in (dict(zip(COLUMNS, row, strict=True)) for row in rows):
            labels = f'flavor={quoted(row["flavor"])}' + (f',short_of={quoted(row["short_of"])}' if name == 'short_at' else '')
            lines += [f'ac_flavor_{name}{{{labels}}} {row[name]}'] if row['short_of'] or name != 'short_at' else []
    return ''.join(line + '\n' for line in lines)


def plain(value):
    """The text that stands in a label."""
    return re.sub(r'\\(.)', lambda one: '\n' if one[1] == 'n' else one[1], value)


def read(text):
    """Each metric with its text of help and its samples: the labels and the number of each. What isn't so written raises ValueError."""
    found = {}
    if text and not text.endswith('\n'):
        raise ValueError('the last line has no end')
    lines = iter(text.split('\n')[:-1])
    for line in lines:
        if line.startswith('#'):
            told = re.fullmatch(r'# HELP ([a-zA-Z_:][\w:]*) ([^\\]+)', line, re.A)
            if not told or told[1] in found or next(lines, '') != f'# TYPE {told[1]} gauge':
                raise ValueError(f'no metric begins so: {line!r}')
            found[told[1]] = told[2], []
        else:
            sample = SAMPLE.fullmatch(line)
            if not sample or sample[1] != next(reversed(found), None):
                raise ValueError(f'this is no line of the metric above it: {line!r}')
            labels = {name: plain(value) for name, value in re.findall(LABEL, sample[2], re.A)}
            if any(labels == other for other, _ in found[sample[1]][1]):
                raise ValueError(f'it has these labels twice: {line!r}')
            found[sample[1]][1].append((labels, int(sample[7])))
    return found


def wanted(rows):
    """What must be read where `capacity` writes these rows."""
    made = {f'ac_flavor_{name}': (told, []) for name, told in METRICS.items()}
    for row in rows:
        for name in METRICS:
            labels = {'flavor': shown(row['flavor'].encode(errors='surrogateescape'))} | ({'short_of': row['short_of']} if name == 'short_at' else {})
            if row[name]:
                made[f'ac_flavor_{name}'][1].append((labels, int(row[name])))
    return made


def differences(*words):
    plainly, as_metrics = (subprocess.run([*words, *more], capture_output=True) for more in ([], ['--prometheus']))
    for what, one, other in (('standard error', as_metrics.stderr, plainly.stderr), ('status', as_metrics.returncode, plainly.returncode)):
        if one != other:
            yield f'{what} is {one!r}, and not {other!r}'
            return
    if plainly.returncode > 1:
        yield from [f'nothing may be written, and not {as_metrics.stdout}'] if as_metrics.stdout else []
        return
    try:
        found = read(as_metrics.stdout.decode())
    except ValueError as fault:
        yield str(fault)
        return
    rows = csv.DictReader(io.StringIO(plainly.stdout.decode(errors='surrogateescape'), newline=''))
    for name, says in wanted(rows).items():
        if found.get(name) != says:
            yield f'{name} is {found.get(name)}, and not {says}'
    yield from (f'nobody knows of {name}' for name in found if name.removeprefix('ac_flavor_') not in METRICS)
    if list(found) != [f'ac_flavor_{name}' for name in METRICS]:
        yield f'the order is {list(found)}'


if __name__ == '__main__':
    said = list(differences(*sys.argv[1:]))
    print(''.join(line + '\n' for line in said), end='')
    sys.exit(1 if said else 0)
