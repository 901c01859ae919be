"""A model of `--change`: a cloud is asked about as lines leave it. Cases that are written here by hand, and random lines over random clouds, where each command must
answer as the model does of the cloud that is left. It takes nothing from the program."""
from __future__ import annotations

import itertools
import random
from dataclasses import replace

from cases import AUDIT_HEAD, CHILD, ONE, SHARED, SOME, Case, lines, tables
from large import MOST_BYTES
from model import AGGREGATES, CLASSES, SHARES, TRAITS, Provider, asked, draw_cloud, draw_query, judgement
from notation import HEADERS, full

DISABLED = 'COMPUTE_STATUS_DISABLED'
FIELDS = {'total': 'total', 'reserved': 'reserved', 'min_unit': 'min_unit', 'max_unit': 'max_unit', 'step_size': 'step_size', 'allocation_ratio': 'ratio'}


# ---- what lines leave

def touched(cloud, where):
    """The providers that a word names: all, one, or those of the trees in which a member of an aggregate is."""
    if where.startswith('in:'):
        roots = {provider.root().name for provider in cloud if where[3:] in provider.aggregates}
        return [provider for provider in cloud if provider.root().name in roots]
    return [provider for provider in cloud if where in ('*', provider.name)]


def grown(cloud, count, host):
    """The cloud with so many trees more like a host's, which stand in the order of UUIDs behind all others, with nothing used."""
    tree = sorted((one for one in cloud if one.root() is host.root()), key=number)
    for _ in range(count):
        last = max(map(number, cloud))
        copies = {one.name: f'P{last + place}' for place, one in enumerate(tree, 1)}
        made = {one.name: Provider(copies[one.name], None, {name: replace(inventory, used=0) for name, inventory in one.has.items()}, set(one.traits), set(one.aggregates)) for one in tree}
        for one in tree:
            made[one.name].parent = one.parent and made[one.parent.name]
        cloud = [*cloud, *made.values()]
    return cloud


def number(provider):
    return int(provider.name[1:])


def left(cloud, words):
    """The cloud that a line leaves, or None where it would reserve more than there is. Its providers are changed in place."""
    match words:
        case ['add', count, 'like', name]:
            return grown(cloud, int(count), next(provider for provider in cloud if provider.name == name))
        case ['remove', host]:
            root = next(provider.root().name for provider in cloud if provider.name == host)
            return [provider for provider in cloud if provider.root().name != root]
        case ['disable' | 'enable' as verb, host]:
            traits = next(provider.root().traits for provider in cloud if provider.name == host)
            traits.discard(DISABLED)
            traits.update({DISABLED} if verb == 'disable' else ())
        case ['trait' | 'aggregate' as verb, where, mark]:
            for provider in touched(cloud, where):
                some = provider.traits if verb == 'trait' else provider.aggregates
                some.discard(mark[1:])
                some.update({mark[1:]} if mark[0] == '+' else ())
        case ['set', where, name, column, value]:
            found = [provider.has[name] for provider in touched(cloud, where) if name in provider.has]
            for inventory in found:
                setattr(inventory, FIELDS[column], round(float(value) * 1000000) if column == 'allocation_ratio' else int(value))
            if any(inventory.reserved > inventory.total for inventory in found):
                return None
    return cloud


def draw_line(chance, cloud):
    host = chance.choice(cloud).name
    where = chance.choice([host, host, '*', 'in:' + chance.choice(AGGREGATES)])
    mark = chance.choice('+-')
    more = '011' if max(map(number, cloud)) + len(cloud) < 10 else '0'  # so that names stand in the order of numbers
    return chance.choice([
        ['disable', host], ['enable', host], ['remove', host], ['add', chance.choice(more), 'like', host],
        ['trait', where, mark + chance.choice([*TRAITS, SHARES])],
        ['aggregate', where, mark + chance.choice(AGGREGATES)],
        ['set', where, chance.choice(CLASSES), *chance.choice([
            ('total', chance.choice('0248')), ('reserved', chance.choice('0012')), ('min_unit', '2'), ('max_unit', chance.choice('148')),
            ('step_size', '2'), ('allocation_ratio', chance.choice(('0.5', '1.0', '3.000000')))])],
    ])


def drawn_changes(number, seed=1):
    """Cases over this number of random clouds, each with a query, behind up to four changes."""
    chance = random.Random(seed)
    for n in range(number):
        cloud, query, text = draw_cloud(chance), draw_query(chance), []
        made = tables('\n'.join(provider.text() for provider in cloud))
        for _ in range(chance.randint(1, 4)):
            words = draw_line(chance, cloud)
            text.append(chance.choice(['', '# ', '\t']) + full(chance.choice([' ', '  ']).join(words)) + chance.choice(['', '', '\r', ' ']))
            after = cloud if text[-1].startswith('#') else left(cloud, words)
            if not after:
                break
            cloud = after
        made['change'] = '\n'.join(text) + chance.choice(['', '\n'])
        if after is None:
            yield Case(f'change drawn {n}: refused', ['tokens', full(query.text(chance))], err=f'change: line {len(text)}: ReservedOverTotal\n', status=3, tables=made)
        elif not after:
            yield Case(f'change drawn {n}: nothing is left', ['check'], 'providers 0\ninventories 0\nusages 0\ntraits 0\naggregates 0\n', tables=made)
        else:
            every = list(itertools.product(cloud, repeat=len(list(query.slots()))))
            judged = [judgement(assignment, query, cloud) for assignment in every]
            for case in asked(f'change drawn {n}', chance, cloud, query, every, judged):
                yield replace(case, tables={**case.tables, **{name: made.get(name, HEADERS[name]) for name in HEADERS}, 'change': made['change']})


# ---- by hand

NAMED = 'P1 | | VCPU total 8 | | | one\nP2 | P1 | MEMORY_MB total 64 | | A1 | two\nP3 | | VCPU total 4 | | | *\nP4 | | VCPU total 2, used 1 | | | two'
TWO = 'resources=VCPU:2'
BAD_LINES = ('disable', 'disable P1 P2', 'Disable P1', 'enable', 'remove', 'remove P1 P1', 'add P1', 'add 1 P1', 'add 1 as P1', 'add 1 like', 'add -1 like P1', 'add 1 like P1 P1', 'add x like P1', 'add 2147483648 like P1', 'set P1 VCPU total', 'set P1 VCPU total 8 8', 'set P1 vcpu total 8',
             'set P1 VCPU used 8', 'set P1 VCPU total -1', 'set P1 VCPU total 8.0', 'set P1 VCPU total 2147483648', 'set P1 VCPU step_size 0', 'set P1 VCPU allocation_ratio 1e3',
             'set in:one VCPU total 8', 'trait P1 CUSTOM_A', 'trait P1 +custom_a', 'trait P1 +', 'trait P1 + CUSTOM_A', 'trait in: +CUSTOM_A', 'aggregate P1 +one', 'aggregate P1 A1', '\0')
REMEDY = ('  A line is disable HOST, enable HOST, remove HOST, add N like HOST, set WHERE CLASS FIELD VALUE, trait WHERE +NAME or aggregate WHERE +UUID, with - where it is to go; '
          'WHERE is a provider, * or in:AGGREGATE.\n')


HIGH = 'ffffffff-ffff-ffff-ffff-fffffffffff'
TOO_MANY = 'change: line 1: TooManyProviders\n'


def changed(name, cloud, change, query, *answers):
    """`tokens` must give these assignments of what a change leaves."""
    return Case(f'change: {name}', ['tokens', full(query)], lines(*answers), tables={**tables(cloud), 'change': full(change)})


def refused(change, fault, number=1, cloud=ONE, detail=''):
    """A change must be refused, whatever the query is."""
    return Case(f'change: refused, {change.splitlines()[-1]!r}{detail and ", in detail"}', ['tokens', 'limit', *(['--detail'] if detail else [])],
                err=f'change: line {number}: {fault}\n{detail}', status=3, tables={**tables(cloud), 'change': full(change)})


def beside(name, words, err, status, **more):
    return Case(f'change: {name}', words, '', err, status, {**tables(ONE), **more})


BY_HAND = [
    changed('a host is disabled', CHILD, 'disable P2', f'{TWO}&root_required=!{DISABLED}'),
    changed('a host is enabled again', CHILD, 'disable P2\nenable P1\n', f'{TWO}&root_required=!{DISABLED}', 'P1', 'P2'),
    changed('a tree is gone', NAMED, 'remove P2', TWO, 'P3'),
    changed('by its name', NAMED, 'remove one', TWO, 'P3'),
    changed('a name is no scope', NAMED, 'remove *', TWO, 'P1'),
    changed('a tree more', NAMED, 'add 1 like P4', TWO, 'P1', 'P3', 'P5'),
    changed('two trees more, of a child', NAMED, 'add 2 like P2', 'resources1=VCPU:2&resources2=MEMORY_MB:64&group_policy=none&same_subtree=1,2', 'P1,P2', 'P5,P6', 'P7,P8'),
    changed('more of what was added', NAMED, 'add 1 like P3\nadd 1 like P5\nset P6 VCPU total 9\nset P6 VCPU max_unit 9', 'resources=VCPU:9', 'P6'),
    changed('in the same aggregates', SHARED, 'remove P3\nadd 1 like P1', 'resources=DISK_GB:10,VCPU:2', 'P9,P1', 'P9,P10'),
    changed('no tree more', NAMED, 'add 0 like P1', TWO, 'P1', 'P3'),
    changed('a tree more, and gone again', NAMED, 'add 1 like P4\nremove P5', TWO, 'P1', 'P3'),
    changed('names of trees that are added', NAMED, 'add 2 like one\nremove one+2\ndisable one+1', f'{TWO}&root_required={DISABLED}', 'P5'),
    changed('a number of all', NAMED, 'set * VCPU max_unit 3', 'resources=VCPU:3', 'P1', 'P3'),
    changed('a number of the trees of an aggregate', NAMED, f'set in:A1 VCPU total 9\nset in:A1 VCPU max_unit 9', 'resources=VCPU:9', 'P1'),
    changed('a number of a class that is not there', NAMED, 'set P2 VCPU total 9', TWO, 'P1', 'P3'),
    changed('what is used stays', NAMED, 'set P4 VCPU total 3', TWO, 'P1', 'P3', 'P4'),
    changed('a ratio', ONE, 'set * VCPU allocation_ratio 0.25', TWO, 'P1'),
    changed('another ratio', ONE, 'set * VCPU allocation_ratio 0.249999', TWO),
    changed('a trait that is had', CHILD, 'trait P2 +CUSTOM_A\ntrait P2 +CUSTOM_A', f'{TWO}&required=CUSTOM_A', 'P2'),
    changed('a trait that is not had any more', CHILD, 'trait * +CUSTOM_A\ntrait P2 -CUSTOM_A', f'{TWO}&required=CUSTOM_A', 'P1'),
    changed('a storage in an aggregate', SHARED, 'aggregate P2 -A1', 'resources=DISK_GB:10,VCPU:2', 'P9,P3'),
    changed('an aggregate that was there', SHARED, 'aggregate P2 -A1\naggregate P1 +A1', 'resources=DISK_GB:10,VCPU:2', 'P9,P1', 'P9,P3'),
    changed('lines that say nothing', CHILD, '\n \t\r\n#remove P1\n # remove P1\nset P2  VCPU\ttotal 1 \r\n', TWO, 'P1'),
    changed('an empty file', ONE, '', TWO, 'P1'),
    changed('in order', ONE, 'set P1 VCPU total 1\nset P1 VCPU total 2', TWO, 'P1'),
    *(refused(line, 'BadLine') for line in BAD_LINES),
    refused('# one\n\ndisable P9', 'UnknownHost', 3), refused('disable P9', 'UnknownHost', detail='  No provider has this UUID or name.\n'),
    refused('remove P1\nenable P1', 'UnknownHost', 2), refused('trait P9 -CUSTOM_A', 'UnknownHost'), refused('set P9 VCPU total 1', 'UnknownHost'),
    refused('disable two', 'AmbiguousHost', cloud=NAMED), refused('disable two', 'AmbiguousHost', cloud=NAMED, detail='  Several providers have this name; write the UUID of one.\n'),
    refused('set * VCPU reserved 8\nset * VCPU total 7', 'ReservedOverTotal', 2), refused('set * VCPU reserved 9', 'ReservedOverTotal', detail='  More would be reserved than there is.\n'),
    refused('add 65536 like P1', 'TooManyProviders'), refused('add 65535 like P1\nadd 0 like P1\nadd 1 like P1', 'TooManyProviders', 3),
    refused('add 32768 like P2', 'TooManyProviders', cloud=CHILD, detail='  There would be more than 65536 providers, or no UUID is left behind the greatest.\n'),
    refused('add 65536 like P9', 'UnknownHost'), refused('add 1 like two', 'AmbiguousHost', cloud=NAMED),
    refused('enable P1\nwhat if', 'BadLine', 2, detail=REMEDY), refused('disable P9\nwhat if', 'BadLine', 2), refused('\n' * 70000 + 'x', 'BadLine', 70001),
    beside('behind a fault of the tables', ['check'], 'providers: record 1: MissingColumn\n', 3, providers='uuid\n', change='x\n'),
    beside('before a fault of the query', ['tokens', 'limit=0'], 'change: line 1: BadLine\n', 3, change='x\n'),
    beside('before a table of flavors', ['capacity'], 'change: line 1: BadLine\n', 3, change='x\n', flavors=''),
    beside('too large', ['check'], 'change: TooLarge\n', 3, change=lambda: '\n' * (MOST_BYTES + 1)),
    beside('no file', ['check', '--change', 'no/such'], 'change: Unreadable\n', 3),
    beside('a folder, in detail', ['check', '--change', 'docs', '--detail'], SOME, 3),
    Case('change: check counts what is left', ['check'], 'providers 2\ninventories 2\nusages 2\ntraits 2\naggregates 1\n',
         tables={**tables(NAMED), 'change': full('remove P1\ntrait P3 +CUSTOM_A\ntrait P4 +CUSTOM_A\naggregate P4 +A2')}),
    Case('change: as many as there may be', ['check'], 'providers 65536\ninventories 65536\nusages 65536\ntraits 0\naggregates 0\n', tables={**tables(ONE), 'change': full('add 65535 like P1')}),
    *(Case(f'change: behind {last}', ['tokens', TWO], out, err, status, {'providers': f'{HEADERS["providers"]}{last},{last},\n', 'inventories': f'{HEADERS["inventories"]}{last},VCPU,8,0,1,8,1,1.0\n', 'change': f'add 1 like {last}'})
      for last, out, err, status in ((HIGH + 'd', f'{HIGH}d\n{HIGH}e\n', '', 0), (HIGH + 'e', '', TOO_MANY, 3), (HIGH + 'f', '', TOO_MANY, 3))),
    Case('change: audit', ['audit'], full(AUDIT_HEAD + 'never fits,P1,,"PCPU: min_unit 9, max_unit 8, step_size 1, capacity 8"\n'), status=1,
         tables={**tables('P1 | | PCPU total 8, used 0'), 'change': 'set * PCPU min_unit 9'}),
    Case('change: a session begins with what is left', ['session'], full('P2\n= 0\n= 5 host: Unknown\nno: rule 1 Units\n= 1\n'), given=full('tokens resources=VCPU:2\nleft P1\nverify resources=VCPU:9 P2\n').encode(),
         tables={**tables('P1 | | VCPU total 8\nP2 | | VCPU total 8'), 'change': full('remove P1')}),
    Case('change: a session with a fault', ['session'], '', 'change: line 1: BadLine\n', 3, {**tables(ONE), 'change': 'x'}, given=b'help\n'),
    Case('change: query takes none', ['query', 'resources=VCPU:1', '--change', 'x'], err=SOME, status=2, has=("unexpected argument '--change' found",)),
]


def changes():
    """All cases that are written by hand, and those by chance."""
    return [*BY_HAND, *drawn_changes(100)]
