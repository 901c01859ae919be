"""Cases with hostile tables, queries and tokens. The program must answer each within two seconds of processor time and 2 GiB of memory; otherwise the
system ends it, and the case fails. Tables with millions of columns have twice the time and memory, since `csv` keeps two numbers for each field of a
record."""
from __future__ import annotations

from cases import AUDIT_HEAD, Case, lines, tables
from large import MOST_BYTES, MOST_PROVIDERS, ONE, QUERY_BYTES, chain, ids, roots, shuffled, star, vcpu
from notation import HEADERS, provider

LIMITED = 'ulimit -v $((2097152 * {0})); ulimit -t $((2 * {0})); exec "$@"'
SIXTY_MIB = 60 << 20
MANY = 100000
P1 = provider(1)


def quoted(size, text='x'):
    """A quoted field with this number of bytes."""
    return '"' + text * ((size - 2) // len(text)) + '"'


def filled(front, text, end):
    """A table with the most bytes that are allowed: the middle text again and again, between the other two."""
    return front + text * ((MOST_BYTES - len(front) - len(end)) // len(text)) + end


def columns(number, table):
    """The columns of a table, after this number of other columns."""
    return ''.join(f'c{n},' for n in range(number)) + HEADERS[table]


def wide(number, *ids):
    """Providers, each with this number of other fields before its own."""
    return columns(number, 'providers') + ''.join(',' * number + f'{id},{id},\n' for id in ids)


# What is refused, or accepted with these counts, by the table that has it.
TABLES = [
    ('64 MiB in one quoted field', 'providers', lambda: quoted(MOST_BYTES), 'record 1: MissingColumn'),
    ('64 MiB behind a quote that isn\'t closed', 'providers', lambda: quoted(MOST_BYTES + 1)[:-1], 'record 1: MissingColumn'),
    ('64 MiB of quotes', 'providers', lambda: '"' * MOST_BYTES, 'record 1: MissingColumn'),
    ('64 MiB of newlines in one quoted field', 'providers', lambda: quoted(MOST_BYTES, '\n'), 'record 1: MissingColumn'),
    ('64 MiB of one field without quotes', 'providers', lambda: 'x' * MOST_BYTES, 'record 1: MissingColumn'),
    ('a quoted name of 64 MiB', 'traits', lambda: filled(HEADERS['traits'] + f'{P1},"', 'A', '"\n'), 'record 2: BadTrait'),
    ('a quoted UUID of 64 MiB', 'traits', lambda: filled(HEADERS['traits'] + '"', '0', '",A\n'), 'record 2: BadUuid'),
    ('a field of 64 MiB that is passed over', 'traits',
     lambda: filled(HEADERS['traits'].strip() + f',note\n{P1},A,"', ',\n', '"\n'), (1, 0, 0, 1, 0)),
    ('64 MiB of newlines alone', 'providers', lambda: '\n' * MOST_BYTES, 'record 1: NoHeader'),
    ('64 MiB of carriage returns', 'providers', lambda: '\r' * MOST_BYTES, 'record 1: NoHeader'),
    ('100000 columns, and none that is needed', 'providers', lambda: ''.join(f'c{n},' for n in range(MANY)) + '\n', 'record 1: MissingColumn'),
    ('100000 columns before the needed ones', 'providers', lambda: wide(MANY, P1), (1, 0, 0, 0, 0)),
    ('100000 columns, and a needed one twice', 'providers', lambda: 'uuid,' + wide(MANY, P1), 'record 1: DoubleColumn'),
    ('100000 columns, and a record without them', 'providers', lambda: wide(MANY) + f'{P1},{P1},\n', 'record 2: Width'),
    ('100000 columns of 600 records', 'providers', lambda: wide(MANY, *map(provider, range(1, 601))), (600, 0, 0, 0, 0)),
    ('60 MiB of commas', 'providers', lambda: ',' * SIXTY_MIB, 'record 1: MissingColumn'),
    ('60 MiB of commas in a record', 'traits', lambda: HEADERS['traits'] + ',' * SIXTY_MIB, 'record 2: Width'),
    ('64 MiB of commas', 'providers', lambda: ',' * MOST_BYTES, 'record 1: MissingColumn'),
    ('a chain of 65536', 'providers', lambda: chain(MOST_PROVIDERS), (MOST_PROVIDERS, 0, 0, 0, 0)),
    ('a chain of 65536, shuffled', 'providers', lambda: chain(MOST_PROVIDERS, order=shuffled), (MOST_PROVIDERS, 0, 0, 0, 0)),
    ('a ring of 65536', 'providers', lambda: chain(MOST_PROVIDERS, top=provider(MOST_PROVIDERS)), 'record 2: ParentCycle'),
]

# One provider with many classes, and a usage of each, in the other order.
CLASSES = 200000
OF_MANY_CLASSES = {
    **ONE,
    'inventories': lambda: HEADERS['inventories'] + ''.join(f'{P1},CUSTOM_{n},1,0,1,1,1,1.0\n' for n in range(CLASSES)),
    'usages': lambda: HEADERS['usages'] + ''.join(f'{P1},CUSTOM_{n},1\n' for n in reversed(range(CLASSES))),
}

# Disks in the aggregate of a site, and each in one of a host of its own too: so many lists of roots that all differ, each of the whole site and that host.
SITE = 14000


def knot(disks):
    names = ids(SITE + 2 * disks)
    rack = [f'{provider(0xa0000 + place)}\n' for place in range(disks)]
    return {
        'providers': lambda: roots(SITE + 2 * disks),
        'inventories': HEADERS['inventories'],
        'traits': lambda: HEADERS['traits'] + ''.join(f'{id},MISC_SHARES_VIA_AGGREGATE\n' for id in names[SITE:SITE + disks]),
        'aggregates': lambda: HEADERS['aggregates'] + ''.join([*(f'{id},{provider(0xf0000)}\n' for id in names[:SITE + disks]),
                                                              *(f'{id},{place}' for id, place in zip(names[SITE:SITE + disks], rack)),
                                                              *(f'{id},{place}' for id, place in zip(names[SITE + disks:], rack))]),
    }


# Each list has SITE + disks + 1 roots; all together may have 67108864.
MOST_DISKS = 3775

MILLIONS_OF_COLUMNS = '60 MiB of commas', '64 MiB of commas'

# Queries of 65536 bytes, or nearly as many, and the line or the answer.
QUERIES = [
    ('20000 pairs of no parameter', ('a=&' * 20000).ljust(QUERY_BYTES, '&'), 'pair 1: UnknownParameter'),
    ('20000 pairs, of which the first is accepted', ('limit=1&' + 'a=&' * 20000).ljust(QUERY_BYTES, '&'), 'pair 2: UnknownParameter'),
    ('20000 pairs without a name', 'resources=VCPU:2&' + '=1&' * 20000, 'pair 2: UnknownParameter'),
    ('65536 bytes between which no pair stands', '&' * QUERY_BYTES, 'NoResources'),
    ('65536 signs of escapes', '%' * QUERY_BYTES, 'pair 1: UnknownParameter'),
    ('a value of 21800 escapes', ('resources=' + '%41' * 21800).ljust(QUERY_BYTES, '&'), 'pair 1: BadValue'),
    ('7000 classes of one group', 'resources=' + ','.join(f'C{n}:1' for n in range(7000)), 'TooManySlots'),
    ('7000 classes, the last for the second time', 'resources=' + ','.join(f'C{n % 6999}:1' for n in range(7000)), 'pair 1: BadValue'),
    ('9000 traits that nobody has', 'resources=VCPU:2&required=' + ','.join(f'C{n}' for n in range(9000)), None),
    ('9000 traits, the last of them forbidden too', 'resources=VCPU:2&required=' + ','.join([*(f'C{n}' for n in range(9000)), '!C8999']),
     'pair 2: Conflict'),
    ('32700 times one trait, then one that is forbidden too', 'resources=VCPU:2&required=' + 'A,' * 32700 + 'B,!B', 'pair 2: Conflict'),
    ('9000 suffixes in one list', 'resources1=VCPU:2&same_subtree=' + ','.join(str(n) for n in range(1, 9000)), 'group "10": UnknownSuffix'),
    ('4366 lists of one subtree', ('resources1=VCPU:2&' + 'same_subtree=1&' * 4366).ljust(QUERY_BYTES, '&'), 'P1'),
]

# 65536 providers with four traits each, and queries of 9000 others: whether there is a candidate.
CROWD = {
    'providers': lambda: roots(MOST_PROVIDERS),
    'inventories': lambda: vcpu(MOST_PROVIDERS),
    'traits': lambda: HEADERS['traits'] + ''.join(f'{id},CUSTOM_{letter}\n' for id in ids(MOST_PROVIDERS) for letter in 'ABDE'),
}
OTHERS = [f'C{n}' for n in range(9000)]
CROWDED = [
    ('that a group forbids', 'resources1=VCPU:2&limit=1&required1=' + ','.join(f'!{name}' for name in OTHERS), True),
    ('of which a group asks for one', 'resources1=VCPU:2&required1=in:' + ','.join(OTHERS), False),
    ('of which the group without a suffix asks for one', 'resources=VCPU:2&required=in:' + ','.join(OTHERS), False),
    ('that a root may not have', 'resources=VCPU:2&limit=1&root_required=' + ','.join(f'!{name}' for name in OTHERS), True),
]

# One chain, in which the root has a disk, and each provider is below it: a candidate for each, which asks who is above whom over up to 65535 steps.
DEEP = {'providers': lambda: chain(MOST_PROVIDERS), 'inventories': lambda: vcpu(MOST_PROVIDERS) + f'{P1},DISK_GB,9,0,1,9,1,1.0\n'}
BELOW = 'resources1=DISK_GB:1&resources2=VCPU:1&same_subtree=1,2&group_policy=none'

TOKENS = [
    ('131000 letters', 'z' * 131000, 'BadToken'),
    ('130000 commas', ',' * 130000, 'BadToken'),
    ('3500 UUIDs', ','.join([P1] * 3500), 'WrongLength'),
    ('3500 UUIDs and a bad part', ','.join([P1] * 3500 + ['z']), 'BadToken'),
]


def told(*kinds):
    """What `audit` writes of several kinds: each with its providers and what is said of each."""
    return AUDIT_HEAD + ''.join(f'{kind},{id},{said}\n' for kind, names, said in kinds for id in names)


def each(table, names, *says):
    """A table with a row for each of these providers and each of these texts."""
    return HEADERS[table] + ''.join(f'{id},{text}\n' for id in names for text in says)


# What `audit` may take long for: the tables, a zone, and what it writes.
EVERY = ids(MOST_PROVIDERS)
HALF = MOST_PROVIDERS // 2
SHARING = 'MISC_SHARES_VIA_AGGREGATE'
A1, A2 = provider(0xa1), provider(0xa2)
NO_DISK = ',"VCPU in its tree, and no DISK_GB there, its own or shared"'
UNUSED = 'no usage', [''], f',{MOST_PROVIDERS} of {MOST_PROVIDERS} inventories have no row'
AUDITS = [
    (f'{CLASSES} classes of one provider, each used', OF_MANY_CLASSES, None, lambda: AUDIT_HEAD),
    ('a chain of 65536', {'providers': lambda: chain(MOST_PROVIDERS), 'inventories': lambda: vcpu(MOST_PROVIDERS)}, None,
     lambda: told(('no storage', [P1], NO_DISK), UNUSED)),
    ('a name of 65536 providers', {
        'providers': lambda: star(MOST_PROVIDERS).replace('\n', ',x\n').replace('uuid,x', 'uuid,name', 1), 'inventories': lambda: vcpu(MOST_PROVIDERS)}, None,
     lambda: told(('no storage', [P1], 'x' + NO_DISK), ('name twice', EVERY, f'x,{MOST_PROVIDERS} providers have it'), UNUSED)),
    ('a tree of 65536 that share with nobody', {
        'providers': lambda: star(MOST_PROVIDERS), 'inventories': lambda: vcpu(MOST_PROVIDERS), 'traits': lambda: each('traits', EVERY, SHARING),
        'aggregates': lambda: each('aggregates', EVERY, A1)}, None,
     lambda: told(('shares with nobody', EVERY, ',in no aggregate of another tree'), ('no storage', [P1], NO_DISK), UNUSED)),
    ('65536 that share with each other, half of them in the zone', {
        'providers': lambda: roots(MOST_PROVIDERS), 'inventories': lambda: each('inventories', EVERY, 'DISK_GB,8,0,1,8,1,1.0'),
        'traits': lambda: each('traits', EVERY, SHARING), 'aggregates': lambda: each('aggregates', EVERY[:HALF], A1) + each('aggregates', EVERY[HALF:], A1, A2)
        .removeprefix(HEADERS['aggregates'])}, A2,
     lambda: told(("outside its hosts' aggregates", EVERY[:HALF], f',"not in {A2}, where {HALF} of its hosts are"'), UNUSED)),
    # Each disk but that of the zone is available at the root of that one, which is a member of the zone.
    ('as many roots in lists as there may be', knot(MOST_DISKS), provider(0xa0000), lambda: told(
        ('shares nothing', EVERY[SITE:SITE + MOST_DISKS], ',no inventory'), ('no inventory', EVERY[:SITE + 2 * MOST_DISKS], ',no provider of its tree has one'),
        ("outside its hosts' aggregates", EVERY[SITE + 1:SITE + MOST_DISKS], f',"not in {provider(0xa0000)}, where 1 of its hosts are"'))),
]


def hostile(program):
    """The cases, each of which runs this program."""
    limited = ['sh', '-c', LIMITED.format(1), 'limited', program]
    for name, table, made, says in TABLES:
        counts = ''.join(f'{kind} {count}\n' for kind, count in zip(HEADERS, says)) if isinstance(says, tuple) else ''
        line = '' if counts else f'{table}: {says}\n'
        room = ['sh', '-c', LIMITED.format(2), 'limited', program] if name in MILLIONS_OF_COLUMNS else limited
        yield Case(f'hostile table: {name}', [*room, 'check'], counts, line, 0 if counts else 3,
                   {**ONE, 'inventories': HEADERS['inventories'], table: made})
    counts = f'providers 1\ninventories {CLASSES}\nusages {CLASSES}\ntraits 0\naggregates 0\n'
    yield Case(f'hostile tables: {CLASSES} classes of one provider, each used', [*limited, 'check'], counts, tables=OF_MANY_CLASSES)
    counts = f'providers {SITE + 2 * MOST_DISKS}\ninventories 0\nusages 0\ntraits {MOST_DISKS}\naggregates {SITE + 3 * MOST_DISKS}\n'
    yield Case('hostile tables: as many roots in lists as there may be', [*limited, 'check'], counts, tables=knot(MOST_DISKS))
    yield Case('hostile tables: more roots in lists than there may be', [*limited, 'check'], '', 'out of memory\n', 7, knot(MOST_DISKS + 1))
    for name, made, zone, says in AUDITS:
        yield Case(f'hostile tables: audit of {name}', [*limited, 'audit', *(['--zone', zone] if zone else [])], says, status=0 if made is OF_MANY_CLASSES else 1, tables=made)
    for name, query, says in QUERIES:
        accepted = says in (None, 'P1')
        yield Case(f'hostile query: {name}', [*limited, 'tokens', query], lines('P1') if says == 'P1' else '',
                   '' if accepted else f'query: {says}\n', 0 if accepted else 4, ONE)
        if not accepted:
            yield Case(f'hostile query, in detail: {name}', [*limited, 'tokens', query, '--detail'], err=None, status=4, tables=ONE, has=(f'query: {says}\n  ',))
    for name, query, is_found in CROWDED:
        yield Case(f'hostile query: 9000 traits {name}, over 65536 providers', [*limited, 'tokens', query, '--microversion', '1.39'],
                   lines('P1') if is_found else '', '', 0, CROWD)
    yield Case('hostile query: a group of the root of a chain of 65536, and one of each provider below it', [*limited, 'tokens', BELOW],
               ''.join(f'{P1},{id}\n' for id in ids(MOST_PROVIDERS)), tables=DEEP)
    for name, token, says in TOKENS:
        for command in ['tokens', 'resources=VCPU:2', f'--after={token}'], ['verify', 'resources=VCPU:2', token]:
            yield Case(f'hostile token: {name}, {command[0]}', [*limited, *command], '', f'token: {says}\n', 5, tables('P1 | | VCPU total 8'))
