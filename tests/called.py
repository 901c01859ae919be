"""Names in place of UUIDs: cases by hand, and what --names must make of queries that are drawn by chance, by a reading of names of its own. It takes nothing
from the program."""
from __future__ import annotations

import csv
import io
import random
from collections import Counter
from dataclasses import replace
from urllib.parse import quote_plus

from cases import CAPACITY_HEAD, SOME, Case, full, tables
from model import drawn, written
from notation import HEADERS, provider, shown
from sessions import UNKNOWN, drawn_lines, ended

TWO = 'P1 | | VCPU total 8 | | A1 | {}\nP2 | | VCPU total 8 | | A2 | {}'
CMP = TWO.format('cmp-1', 'cmp-2')
ZONES = 'A1,az1', 'A2,az2'
BOTH = 'cmp-1\ncmp-2\n'
LONG = 'n' * 65536


def beside(cloud, rows):
    """The five tables of a cloud in one folder, and the names of aggregates beside them. In a name, `\\n` ends a line."""
    named = {} if rows is None else {'aggregate-names': rows if isinstance(rows, bytes) else 'uuid,name\n' + ''.join(full(row) + '\n' for row in rows)}
    made = tables(cloud)
    return {**HEADERS, **made, 'providers': made['providers'].replace('\\n', '\n'), **named}


def called(name, words, out='', err='', status=0, cloud=CMP, rows=ZONES, has=()):
    """What a command must answer with --names."""
    return Case(f'names: {name}', [words[0], '--names', *map(full, words[1:])], full(out), err, status, beside(cloud, rows), True, has)


def found(name, query, out='', **over):
    return called(name, ['tokens', 'resources=VCPU:1&' + query], out, **over)


def refused(name, query, fault, **over):
    return called(name, ['tokens', 'resources=VCPU:1&' + query], err=f'query: {fault}\n', status=4, **over)


def bad_table(line, *rows):
    return called(f'a table of them: {line}', ['tokens', 'resources=VCPU:1'], err=f'aggregate-names: {line}\n', status=3, rows=rows)


def asked(name, turns, cloud=CMP, rows=ZONES, **more):
    """What a session must answer with --names: lines, each with its output and what stands behind `= `."""
    return Case(f'names: session, {name}', ['session', '--names'], full(''.join(ended(out, end) for _, out, end in turns)),
                given=full(''.join(line + '\n' for line, _, _ in turns)).encode(), tables=beside(cloud, rows), together=True, **more)


SESSIONS = [
    asked('questions', [
        ('tokens resources=VCPU:1&in_tree=cmp-2', 'cmp-2\n', 0),
        ('tokens resources=VCPU:1 cmp-1', 'cmp-2\n', 0),
        ('verify resources=VCPU:1&in_tree=P2 cmp-2', 'candidate\n', 0),
        ('claim resources=VCPU:8 cmp-1 one', 'claimed\n', 0),
        ('claim resources=VCPU:1 cmp-1', 'no: rule 6 Sums\n', 1),
        ('place resources=VCPU:1 two', 'cmp-2\n', 0),
        ('place resources=VCPU:1 two', 'in use\n', 1),
        ('release one', 'released\n', 0),
        ('move two cmp-1', 'moved\n', 0),
        ('fill resources=VCPU:4&member_of=az2', 'cmp-2\ncmp-2\n', 0),
        ('release resources=VCPU:4&member_of=!az1 cmp-2', 'released\n', 0),
        ('mark', 'marked\n', 0),
        ('place resources=VCPU:1&member_of=in:az2,A3 at cmp-2', 'cmp-2\n', 0),
        ('back', 'undone\n', 0),
        ('place resources=VCPU:8', '', 1),
        ('left cmp-2', 'resource_provider,name,resource_class,capacity,used,left\nP2,cmp-2,VCPU,8,4,4\n', 0),
    ]),
    asked('names that stand for nothing', [
        ('tokens resources=VCPU:1&in_tree=x', '', '4 query: pair 2: UnknownName'),
        ('fill resources=VCPU:1&member_of=in:az1,az3', '', '4 query: pair 2: UnknownName'),
        ('place resources=VCPU:1&member_of=az3 one at x', '', '4 query: pair 2: UnknownName'),
        ('claim limit=0&in_tree=x y', '', '4 query: pair 2: UnknownName'),
        ('claim resources=VCPU:1 x', '', '5 token: UnknownName'),
        ('release resources=VCPU:1 az1', '', '5 token: UnknownName'),
        ('move one x', '', '5 token: UnknownName'),
        ('move one cmp-1', 'not in use\n', 1),
        ('claim resources=VCPU:1 P1,cmp-2', '', '5 token: WrongLength'),
        ('claim resources=VCPU:9&limit=0 cmp-1', '', '4 query: pair 2: BadValue'),
        ('nonsense', '', '2 ' + UNKNOWN),
    ]),
    asked('two of a name', [
        ('tokens resources=VCPU:1', 'P1\nP2\n', 0),
        ('claim resources=VCPU:1 cmp', '', '5 token: AmbiguousName'),
        ('place resources=VCPU:1&in_tree=cmp', '', '4 query: pair 2: AmbiguousName'),
        ('place resources=VCPU:1', 'P1\n', 0),
    ], cloud=TWO.format('cmp', 'cmp')),
    asked('blanks, commas and equals signs', [
        ('tokens resources=VCPU:1&in_tree=NIC%20agent', 'NIC agent\n', 0),
        ('claim resources=VCPU:1 NIC agent', '', '5 token: UnknownName'),
        ('claim resources=VCPU:1 P1 agent', 'claimed\n', 0),
        ('place resources=VCPU:8', '"=a,b"\n', 0),
        ('release resources=VCPU:8 "=a,b"', 'released\n', 0),
    ], cloud=TWO.format('NIC agent', '"=a,b"')),
    asked('a line that begins as the last one does', [('place resources=VCPU:8', ' =a\n', 0), ('release resources=VCPU:8 =a', 'released\n', 0)],
          cloud=TWO.format('=a', 'x')),
    asked('there is no table of them', [('tokens resources=VCPU:1&in_tree=cmp-1', 'cmp-1\n', 0), ('tokens resources=VCPU:1&member_of=az1', '', '4 query: pair 2: UnknownName')],
          rows=None),
    Case('names: session, a table of them that is refused', ['session', '--names'], err='aggregate-names: record 2: BadUuid\n', status=3, given=b'check\n',
         tables=beside(CMP, ('x,y',)), together=True),
    Case('names: session, a table of them that is refused, in detail', ['session', '--names', '--detail'], err='aggregate-names: record 2: BadUuid\n'
         '  Each record is the UUID of an aggregate and a name of it, behind the header uuid,name.\n', status=3, given=b'check\n', tables=beside(CMP, ('x,y',)), together=True),
    Case('names: session, not asked for', ['session'], full(ended('', 4, 'query: pair 2: BadValue') + ended('P1\nP2\n', 0)),
         given=b'tokens resources=VCPU:1&in_tree=cmp-1\ntokens resources=VCPU:1\n', tables=beside(CMP, ('x',)), together=True),
]

def flavors(name, table, *rows, cloud=CMP, words=(), **over):
    """What `capacity` must answer with --names over a table of flavors."""
    return Case(f'names: flavors, {name}', ['capacity', '--names', *words], CAPACITY_HEAD + ''.join(row + '\n' for row in rows) if rows else '',
                tables={**beside(cloud, ZONES), 'flavors': table if isinstance(table, bytes) else full(table)}, together=True, **over)


def bad_flavors(line, table, more='', **over):
    return flavors(line + (more and ', in detail'), table, err=f'flavors: {line}\n{more}', status=4, words=['--detail'] if more else [], **over)


FLAVORS = [
    flavors('of an aggregate, of a provider, of all', 'flavor,query\none,resources=VCPU:4&member_of=az2\ntwo,resources=VCPU:4&in_tree=cmp-1\nall,resources=VCPU:8\n',
            'one,1,2,2,1,VCPU,1', 'two,1,2,2,1,VCPU,1', 'all,2,2,2,1,VCPU,2'),
    flavors('by UUIDs', 'flavor,query\none,resources=VCPU:4&member_of=A2&in_tree=P2\n', 'one,1,2,2,1,VCPU,1'),
    flavors('other columns, quotes', 'id,wanted,query,flavor\n7,3,"resources=VCPU:8&member_of=in:az2,A3","a,""b"""\n,,resources=VCPU:8,c\n',
            '"a,""b""",1,1,1,3,VCPU,1', 'c,2,2,2,1,VCPU,2', status=1),
    replace(flavors('as metrics', 'flavor,query\none,resources=VCPU:4&member_of=az2\n', words=['--prometheus'], has=('ac_flavor_hosts{flavor="one"} 1\n',)), out=SOME),
    bad_flavors('record 3: UnknownName', 'flavor,query\na,resources=VCPU:1\nb,resources=VCPU:1&member_of=az3\n'),
    bad_flavors('record 2: UnknownName', 'flavor,query\na,resources=VCPU:1&in_tree=az1\n',
                '  No provider has this name (in_tree), or no aggregate (member_of): their names stand in aggregate-names.csv.\n'),
    bad_flavors('record 2: AmbiguousName', 'flavor,query\na,resources=VCPU:1&in_tree=cmp\n', '  Several have this name; write the UUID of one.\n', cloud=TWO.format('cmp', 'cmp')),
    bad_flavors('record 3: UnknownName', 'flavor,query\na,resources=VCPU:0\nb,resources=VCPU:1&in_tree=x\n'),
    bad_flavors('record 2: BadQuery', 'flavor,query\na,resources=VCPU:0&in_tree=cmp-1\n', 'query: pair 1: BadValue\n'),
    bad_flavors('record 1: MissingColumn', 'flavor,wanted\na,1\n'),
    bad_flavors('record 3: Width', 'flavor,query\na,resources=VCPU:1&in_tree=x\nb\n'),
    bad_flavors('record 2: BadQuery', b'flavor,query\na,resources=VCPU:1\xff\n'),
]

BY_HAND = [
    found('a provider', 'in_tree=cmp-2', 'cmp-2\n'),
    found('a provider by its UUID', 'in_tree=P2', 'cmp-2\n'),
    found('a provider, encoded', 'in_tree%31=caf%c3%a9+%26+1&resources1=VCPU:1&in_tree=caf%c3%a9%20%26+1', 'caf\u00e9 & 1,caf\u00e9 & 1\n', cloud=TWO.format('caf\u00e9 & 1', 'x')),
    found('an aggregate', 'member_of=az2', 'cmp-2\n'),
    found('no aggregate', 'member_of=!az2', 'cmp-1\n'),
    found('one of two', 'member_of=in:az2,az1', BOTH),
    found('none of two, one by its UUID', 'member_of=!in:az2,A3', 'cmp-1\n'),
    found('a name with a comma is one name', 'member_of=in:az1,az2', 'cmp-2\n', rows=('A1,az1', 'A2,"az1,az2"')),
    found('behind "in:" a name may begin with "!"', 'member_of=in:!az1', 'cmp-2\n', rows=('A1,az1', 'A2,!az1')),
    found('two names of one aggregate, and one of them twice', 'member_of=in:az1&member_of=room 1', 'cmp-1\n', rows=('A1,az1', 'A1,room 1', 'A1,az1', 'A2,')),
    found('a provider and an aggregate of one name', 'in_tree=one&member_of=one', 'one\n', cloud=TWO.format('one', 'two'), rows=('A1,one', 'A2,two')),
    found('a UUID that is the name of another stands for itself', 'in_tree=P2', 'cmp-2\n', cloud=TWO.format('P2', 'cmp-2')),
    found('a name that is the UUID of another is not written', 'limit=2', 'P1\ncmp-2\n', cloud=TWO.format('P2', 'cmp-2')),
    found('a name that two have is not written', 'limit=9', 'P1\nP2\n', cloud=TWO.format('cmp', 'cmp')),
    found('a name that would harm a terminal is not written', 'in_tree=a%0Ab', 'P1\n', cloud=TWO.format('"a\\nb"', 'x')),
    found('a name that begins with a byte order mark is not written', 'in_tree=%EF%BB%BFx', 'P1\n', cloud=TWO.format('\ufeffx', 'x')),
    found('no name', 'limit=9', 'P1\nP2\n', cloud=TWO.format('', '')),
    found('a comma, a quote, an equals sign', 'limit=9', '"a,""b"""\nx=y\n', cloud=TWO.format('"a,""b"""', 'x=y')),
    found('65536 bytes', 'in_tree=' + LONG, LONG + '\n', cloud=TWO.format(LONG, 'x')),
    found('there is no table of them', 'in_tree=cmp-1&member_of=A1', 'cmp-1\n', rows=None),
    refused('a provider of nobody', 'in_tree=cmp-3', 'pair 2: UnknownName'),
    refused('an aggregate is no provider', '&in_tree=az1', 'pair 2: UnknownName'),
    refused('a provider is no aggregate', 'limit=9&member_of=cmp-1', 'pair 3: UnknownName'),
    refused('an empty name', 'in_tree=', 'pair 2: UnknownName', cloud=TWO.format('', 'x'), rows=('A1,', 'A2,az2')),
    refused('an unknown name in a list', 'member_of=in:az1,az3', 'pair 2: UnknownName'),
    refused('a provider that has a name of another', 'in_tree=cmp', 'pair 2: AmbiguousName', cloud=TWO.format('cmp', 'cmp')),
    refused('two aggregates of one name', 'member_of=in:A1,az', 'pair 2: AmbiguousName', rows=('A1,az', 'A2,az')),
    refused('there is no table of names of aggregates', 'member_of=az1', 'pair 2: UnknownName', rows=None),
    refused('names are read before all else of a query', 'limit=0&in_tree=cmp-3', 'pair 3: UnknownName'),
    refused('behind names the query is read as ever', 'limit=0&in_tree=cmp-1', 'pair 2: BadValue'),
    called('a page is by UUIDs', ['candidates', 'resources=VCPU:9&in_tree=cmp-1'], '{"allocation_requests":[],"provider_summaries":{}}\n'),
    called('fill', ['fill', 'resources=VCPU:4&member_of=!az2'], 'cmp-1\ncmp-1\n'),
    called('fill up to a limit, none placed', ['fill', 'resources=VCPU:9&in_tree=cmp-2'], status=1),
    called('tokens after one', ['tokens', 'resources=VCPU:1', '--after', 'cmp-1'], 'cmp-2\n'),
    called('tokens after a UUID', ['tokens', 'resources=VCPU:1', '--after', 'P1'], 'cmp-2\n'),
    called('verify', ['verify', 'resources=VCPU:1&in_tree=cmp-2', 'cmp-1'], 'no: rule 4 Tree\n', status=1),
    called('verify: two slots', ['verify', 'resources=VCPU:1&resources1=VCPU:2', '"a,b",cmp-2'], 'no: rule 9 Anchor\n', status=1, cloud=TWO.format('"a,b"', 'cmp-2')),
    called('verify: nobody', ['verify', 'resources=VCPU:1', 'cmp-3'], err='token: UnknownName\n', status=5),
    called('verify: two of a name', ['verify', 'resources=VCPU:1', 'cmp'], err='token: AmbiguousName\n', status=5, cloud=TWO.format('cmp', 'cmp')),
    called('verify: two lines', ['verify', 'resources=VCPU:1', 'cmp-1\ncmp-2'], err='token: BadToken\n', status=5),
    called('verify: too many', ['verify', 'resources=VCPU:1', 'cmp-1,cmp-2'], err='token: WrongLength\n', status=5),
    called('a query is refused before a token', ['verify', 'resources=VCPU:1&in_tree=x', 'y'], err='query: pair 2: UnknownName\n', status=4),
    called('an unknown name, in detail', ['tokens', 'resources=VCPU:1&member_of=x', '--detail'], err='query: pair 2: UnknownName\n'
           '  No provider has this name (in_tree), or no aggregate (member_of): their names stand in aggregate-names.csv.\n', status=4),
    called('a name of two, in detail', ['tokens', 'resources=VCPU:1', '--detail', '--after', 'cmp'], err='token: AmbiguousName\n  Several have this name; write the UUID of one.\n',
           status=5, cloud=TWO.format('cmp', 'cmp')),
    called('hosts', ['hosts', 'resources=VCPU:1&in_tree=cmp-2'], 'root,name,fits,slot,lacks,asks,detail\nP1,cmp-1,no,1,tree,VCPU:1,in_tree=P2\nP2,cmp-2,yes,,,,\n'),
    called('explain', ['explain', 'resources=VCPU:1&in_tree=nobody'], err='query: pair 2: UnknownName\n', status=4),
    bad_table('record 2: BadUuid', 'x,az1'),
    bad_table('record 3: Width', 'A1,az1', 'A2'),
    called('a table of them without its header', ['tokens', 'resources=VCPU:1'], err='aggregate-names: record 1: MissingColumn\n', status=3, rows=b'uuid\n'),
    called('a table of them that is no text', ['tokens', 'resources=VCPU:1'], BOTH, rows=full('uuid,name\nA1,').encode() + b'\xff\n'),
    called('a fault of a table goes before one of names', ['tokens', 'resources=VCPU:1&in_tree=x'], err='aggregate-names: record 2: BadUuid\n', status=3, rows=('x,y',)),
    called('a fault of the table, in detail', ['tokens', 'resources=VCPU:1', '--detail'], err='aggregate-names: record 2: BadUuid\n'
           '  Each record is the UUID of an aggregate and a name of it, behind the header uuid,name.\n', status=3, rows=('x,y',)),
    Case('names: not asked for, their table is not read', ['tokens', 'resources=VCPU:1'], full('P1\nP2\n'), tables=beside(CMP, ('x',)), together=True),
    Case('names: not asked for, none is read', ['tokens', 'resources=VCPU:1&in_tree=cmp-1'], err='query: pair 2: BadValue\n', status=4, tables=beside(CMP, ZONES), together=True),
    Case('names: a table for each option', ['tokens', '--names', 'resources=VCPU:1&in_tree=cmp-1'], 'cmp-1\n', tables=tables(CMP)),
]


# ---- by chance

NAMES = ('cmp-1', 'a,b', 'say "hi"', 'x=y&z', '100%+', '\u00e9 \u6771\u4eac', ' ', 'in:x', '!no', 'tab\t', 'line\nfeed', '=cmd', "o'clock", 'P1', 'same', 'same', '', '\ufeffmark')
UUIDS = {provider(n) for n in range(1, 300)}


def alone(names):
    """The names that stand for one alone."""
    counts = Counter(names.values())
    return {one: name for one, name in names.items() if name and counts[name] == 1 and full(name) not in UUIDS}


def is_plain(name):
    return shown(name.encode()) == name and not name.startswith('\ufeff')


def line(text, names):
    """A line of UUIDs by names, where those are written plainly."""
    return written([[names[one] if one in names and is_plain(names[one]) else one for one in text.split(',')]])


def spelled(one, names, chance, within=False):
    name = names.get(one)
    usable = name is not None and not (within and ',' in name) and chance.random() < 0.8
    return quote_plus(name, safe=chance.choice(('', '!:'))) if usable else one


def with_names(piece, providers, aggregates, chance):
    """A pair with names in place of its UUIDs."""
    name, _, value = piece.partition('=')
    if name.startswith('in_tree'):
        return f'{name}={spelled(value, providers, chance)}'
    if not name.startswith('member_of'):
        return piece
    mark, _, listed = value.rpartition('in:')
    ids = listed.split(',')
    return f'{name}={mark}in:' + ','.join(spelled(one, aggregates, chance, len(ids) > 1) for one in ids)


def token_by(text, names, chance):
    return written([[names[one] if one in names and names[one][0] != '\ufeff' and chance.random() < 0.7 else one for one in text.split(',')]]).removesuffix('\n')


def providers_named(table, names):
    head, *rows = csv.reader(io.StringIO(table))
    return written([[*head[:3], 'name'], *([*row[:3], names[row[0]]] for row in rows)])


def by_names(case, chance):
    """The same case with --names, and names in place of UUIDs."""
    own = case.words[0] in ('tokens', 'candidates', 'fill', 'verify', 'explain')
    ids = [row[0] for row in csv.reader(io.StringIO(case.tables['providers']))][1:]
    names = dict(zip(ids, map(full, chance.sample(NAMES, len(ids))), strict=True)) if own else {}
    rooms = dict(zip((provider(0xa0 + n) for n in range(1, 5)), chance.sample(NAMES, 4), strict=True))
    providers, aggregates = alone(names), alone(rooms)
    query = '&'.join(with_names(piece, providers, aggregates, chance) for piece in case.words[1].split('&'))
    words = [case.words[0], '--names', query, *case.words[2:]]
    if '--after' in words:
        at = words.index('--after') + 1
        words[at] = token_by(words[at], providers, chance)
    if words[0] == 'verify':
        words[3] = token_by(words[3], providers, chance)
    lines = words[0] == 'tokens' or words[0] == 'fill' and '--sum' not in words
    made = {**HEADERS, **case.tables, 'aggregate-names': written([['uuid', 'name'], *rooms.items()])}
    if own:
        made['providers'] = providers_named(made['providers'], names)
    return replace(case, name=f'names, {case.name}', words=words, tables=made, together=True,
                   out=''.join(line(one, providers) for one in case.out.splitlines()) if lines else case.out)


WORDS = [name for name in NAMES if name.strip() and not set(name) & set(' \t\n')] + ['=cmd', 'at']
LINES = 'tokens', 'fill', 'place'


def is_kept(line, told, own):
    """Whether a line of a session may be asked by names: its fault is none of a token, and nothing of its output is a name of a provider."""
    command, *words = line.split(' ')
    if own and command in ('hosts', 'fits', 'why', 'list', 'left', 'explain'):
        return False
    return 'token: BadToken' not in told and 'host: ' not in told and 'query: ' not in told and not (command == 'move' and words[1:] == ['x'])


def turn_by(line, told, providers, aggregates, chance):
    """A line of a session with names in place of UUIDs, and what it answers."""
    command, *words = line.split(' ')
    if words and '=' in words[0]:
        words[0] = '&'.join(with_names(piece, providers, aggregates, chance) for piece in words[0].split('&'))
    if len(words) > 1 and words[1] != 'at' and command in ('tokens', 'list', 'candidates', 'verify', 'claim', 'release', 'move'):
        words[1] = token_by(words[1], providers, chance)
    rows = told.splitlines(True)
    if command in LINES:
        rows = [row if row.startswith('= ') or row == 'in use\n' else line_by(row, providers) for row in rows]
    return ' '.join([command, *words]), ''.join(rows)


def line_by(row, providers):
    """A line of a session by names, behind a blank where it begins as one that ends an answer, or with a blank."""
    text = line(row.removesuffix('\n'), providers)
    return ' ' + text if text[0] in '= ' else text


def sessions_by_names(number):
    """Random sessions with --names, and names in place of UUIDs."""
    chance = random.Random(3)
    for n, (made, words, drawn) in enumerate(drawn_lines(number, seed=68)):
        own = n % 2 == 0
        ids = [row[0] for row in csv.reader(io.StringIO(made['providers']))][1:]
        names = dict(zip(ids, map(full, chance.sample(WORDS, len(ids))), strict=True)) if own else {}
        rooms = dict(zip((provider(0xa0 + k) for k in range(1, 5)), chance.sample(NAMES, 4), strict=True))
        kept = [turn_by(full(asks), full(told), alone(names), alone(rooms), chance) for asks, told in drawn if is_kept(asks, told, own)]
        tabled = {**HEADERS, **made, 'aggregate-names': written([['uuid', 'name'], *rooms.items()])}
        if own:
            tabled['providers'] = providers_named(tabled['providers'], names)
        yield Case(f'names: session, drawn {n}', ['session', '--names', *words], ''.join(told for _, told in kept),
                   given=''.join(asks + '\n' for asks, _ in kept).encode(), tables=tabled, together=True)


def takes_names(case):
    return case.words[0] in ('tokens', 'candidates', 'fill', 'verify', 'list', 'hosts', 'why', 'explain') and not case.words[1].startswith('-') \
        and case.tables.keys() <= HEADERS.keys()


def names_cases(program):
    """All of them."""
    chance = random.Random(1)
    folder = Case('names: their table is a folder', ['sh', '-c', 'made=$(mktemp -d) && cp examples/cloud/*.csv "$made" && mkdir "$made/aggregate-names.csv" && "$0" tokens '
                  '--names resources=VCPU:1 --tables "$made"; status=$?; rm -r "$made"; exit $status', program], err='aggregate-names: Unreadable\n', status=3)
    return [*BY_HAND, *SESSIONS, *FLAVORS, *sessions_by_names(60), folder, *(by_names(case, chance) for case in drawn(60, seed=65) if takes_names(case))]
