"""Cases of tests/examples: texts with tables of a cloud in the notation of notation.py, each followed by lines that say what the program answers over it:

- `tokens resources=VCPU:2`: `P1` `P2`
- `tokens resources=VCPU:9`: nothing
- `verify resources=VCPU:9 P1` ends with 1: `no: rule 1 Units`
- `tokens resources=VCPU:0` is refused with 4: `query: pair 1: BadValue`

The first text has the words of the call, as a shell splits them; the others are the lines that it writes, to standard error if it is refused. Without a
number the status is 0. All values are worked out by hand from docs/RULES.md and docs/REFERENCE.md; none is taken from the program."""
from __future__ import annotations

import glob
import os
import re
import shlex

from cases import Case, full, tables

FOLDER = os.path.join(os.path.dirname(os.path.dirname(os.path.abspath(__file__))), 'examples')
CLOUD = re.compile(r'^\| provider \|.*\n\|[-|]+\n((?:\|.*\n)*)\n((?:(?:- `|  ).*\n)+)', re.M)
LINE = re.compile(r'- `([^`]*)`(?: (ends|is refused) with (\d))?: (nothing|`[^`]*`(?: `[^`]*`)*)$')


def examples():
    """The cases of all these texts."""
    for path in sorted(glob.glob(os.path.join(FOLDER, '*.txt'))):
        with open(path, encoding='utf-8') as page:
            text = page.read()
        count = 0
        for cloud, said in CLOUD.findall(text):
            rows = '\n'.join(row.strip('|') for row in cloud.splitlines())
            for line in re.findall('^- .*', said, re.M):
                count += 1
                yield example(os.path.basename(path), line, tables(rows))
        if count != len(re.findall('^- `', text, re.M)):
            raise ValueError(f'{path}: a line stands below no table')


def example(page, line, made):
    found = LINE.match(line)
    if not found:
        raise ValueError(f'{page}: this is no example: {line}')
    words, how, status, lines = found.groups()
    says = ''.join(full(each) + '\n' for each in re.findall('`([^`]*)`', lines))
    out, err = ('', says) if how == 'is refused' else (says, '')
    return Case(f'tests/examples/{page}: {line}', [full(word) for word in shlex.split(words)], out, err, int(status or 0), made)
