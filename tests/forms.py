"""The forms in which rows are written, as docs/REFERENCE.md has them: what -f must make of the comma-separated values that other cases expect, and cases by
hand. It takes nothing from the program."""
from __future__ import annotations

import csv
import io
import json
import unicodedata
from dataclasses import replace

from cases import ONE, SOME, Case, full, tables
from notation import shown

WITH_ROWS = 'list', 'hosts', 'why', 'capacity', 'audit'
NAMED = 'uuid,root_provider_uuid,parent_provider_uuid,name\nP1,P1,,{}\nP2,P2,,{}\n'


def rows_of(text):
    """The cells of a text of comma-separated values, as they are shown."""
    return [[shown(cell.encode(errors='surrogateescape')) for cell in row] for row in csv.reader(io.StringIO(text, newline=''))]


def width(text):
    """The columns that a text takes in a terminal. It knows letters, wide ones and those that stand on another."""
    return sum(0 if unicodedata.combining(one) else 2 if unicodedata.east_asian_width(one) in 'WF' else 1 for one in text)


def as_table(text):
    """Its rows, drawn with lines."""
    rows = rows_of(text)
    widths = [max(width(row[place]) for row in rows) for place in range(len(rows[0]))]
    between = '+' + ''.join('-' * (most + 2) + '+' for most in widths) + '\n'
    head, *others = ('|' + ''.join(f' {cell}{" " * (most - width(cell))} |' for cell, most in zip(row, widths, strict=True)) + '\n' for row in rows)
    return between + head + between + ''.join(others) + between


def as_json(text):
    """Its rows as a list of objects."""
    head, *others = rows_of(text)
    return json.dumps([dict(zip(head, row, strict=True)) for row in others], sort_keys=True, separators=(',', ':'), ensure_ascii=False) + '\n'


FORMS = {'csv': lambda text: text, 'table': as_table, 'json': as_json}


def formed(case, form, option='-f'):
    """The same case in a form."""
    return replace(case, name=f'{form}: {case.name}', words=[case.words[0], option, form, *case.words[1:]], out=FORMS[form](case.out) if case.status < 2 else case.out)


def has_rows(case):
    return isinstance(case.out, str) and case.words[:1] and case.words[0] in WITH_ROWS and '--prometheus' not in case.words and '--tries' not in case.words \
        and '\ufffd' not in case.out and not case.to and not case.closed


def in_forms(cases):
    """Each of them that expects rows, in a form, by turns."""
    turns = ('table', '-f'), ('json', '--format'), ('json', '-f'), ('table', '--format'), ('csv', '-f')
    return [formed(case, *turns[place % len(turns)]) for place, case in enumerate(filter(has_rows, cases))]


def named(name, first, second, drawn):
    """Two hosts with names: the table of `hosts`."""
    rows = full(NAMED).format(first, second)
    return Case(f'a table of hosts: {name}', ['hosts', 'resources=VCPU:1', '-f', 'table'], full(drawn), tables={**tables('P1 | | VCPU total 8\nP2 | | VCPU total 8'), 'providers': rows})


RULE = '+' + '+'.join('-' * n for n in (38, 6, 6, 6, 7, 6, 8)) + '+\n'
FORMS_BY_HAND = [
    named('names that a terminal draws wide', 'ab', '\u6771\u4eac', RULE + f'| root{" " * 33}| name | fits | slot | lacks | asks | detail |\n' + RULE
          + '| P1 | ab   | yes  |      |       |      |        |\n| P2 | \u6771\u4eac | yes  |      |       |      |        |\n' + RULE),
    named('a name with a bar, a quote and a comma', '"|"" ,"', '\'', RULE + f'| root{" " * 33}| name | fits | slot | lacks | asks | detail |\n' + RULE
          + '| P1 | |" , | yes  |      |       |      |        |\n| P2 | \'    | yes  |      |       |      |        |\n' + RULE),
    named('a name that ends a line, and one that stands on another letter', '"a\nb"', 'e\u0301', RULE + f'| root{" " * 33}| name | fits | slot | lacks | asks | detail |\n' + RULE
          + '| P1 | a?b  | yes  |      |       |      |        |\n| P2 | e\u0301    | yes  |      |       |      |        |\n' + RULE),
    Case('JSON of hosts: a quote, a line feed and a letter', ['hosts', 'resources=VCPU:9', '-f', 'json'],
         full('[{"asks":"VCPU:9","detail":"VCPU:9 not within min_unit 1, max_unit 8, step_size 1","fits":"no","lacks":"units","name":"a\\"b","root":"P1","slot":"1"},'
              '{"asks":"VCPU:9","detail":"VCPU:9 not within min_unit 1, max_unit 8, step_size 1","fits":"no","lacks":"units","name":"\u00e9?","root":"P2","slot":"1"}]\n'), status=1,
         tables={**tables('P1 | | VCPU total 8\nP2 | | VCPU total 8'), 'providers': full(NAMED).format('"a""b"', '"\u00e9\n"')}),
    Case('a table without rows', ['list', 'resources=VCPU:9', '-f', 'table'],
         ''.join('+' + '+'.join('-' * n for n in (3, 12, 19, 25, 8, 6)) + '+\n' if rule else '| # | allocation | resource provider | inventory used/capacity | traits | name |\n' for rule in (1, 0, 1, 1)),
         tables=tables(ONE)),
    Case('JSON without rows', ['list', 'resources=VCPU:9', '--format', 'json'], '[]\n', tables=tables(ONE)),
    Case('a search that stops writes no JSON', ['list', 'resources=VCPU:1', '--tries', '1', '-f', 'json'], '', 'search: TooManyTries\n', 8,
         tables=tables('P1 | | VCPU total 8\nP2 | | VCPU total 8')),
    Case('a refused query in a form', ['hosts', 'resources=VCPU:0', '-f', 'json'], '', 'query: pair 1: BadValue\n', 4, tables=tables(ONE)),
    Case('a form of nobody', ['hosts', 'resources=VCPU:1', '-f', 'xml'], '', SOME, 2, tables=tables(ONE),
         has=("error: invalid value 'xml' for '--format <FORM>': it is csv, table or json",)),
    Case('a form beside metrics', ['capacity', '--prometheus', '-f', 'csv'], '', SOME, 2, tables={**tables(ONE), 'flavors': 'flavor,query\n'},
         has=("error: the argument '--format <FORM>' cannot be used with '--prometheus'",)),
    Case('a form of tokens', ['tokens', 'resources=VCPU:1', '-f', 'json'], '', SOME, 2, tables=tables(ONE)),
    Case('a form twice', ['audit', '-f', 'csv', '-f', 'json'], '', SOME, 2, tables=tables(ONE)),
    Case('a device that is full', ['audit', '-f', 'json'], '', 'output: WriteFailed\n', 6, tables=tables(ONE), to='/dev/full'),
]
