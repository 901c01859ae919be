"""Cases with tables and queries at the limits."""
from __future__ import annotations

import random

from cases import Case, lines, tables
from notation import HEADERS, provider

ONE = tables('P1 | | VCPU total 8')
MOST_BYTES = 67108864
MOST_PROVIDERS = 65536
QUERY_BYTES = 65536


def ids(number):
    return [provider(n) for n in range(1, number + 1)]


def roots(number, *more):
    return HEADERS['providers'] + ''.join(f'{id},{id},\n' for id in ids(number)) + ''.join(more)


def chain(number, *, top='', order=list):
    """One tree, in which each provider is the child of the one before it."""
    names = ids(number)
    records = [f'{id},{names[0]},{above}\n' for id, above in zip(names, [top, *names])]
    return HEADERS['providers'] + ''.join(order(records))


def shuffled(records):
    return random.Random(7).sample(records, len(records))


def star(number):
    names = ids(number)
    return HEADERS['providers'] + ''.join(f'{id},{names[0]},{names[0] if id != names[0] else ""}\n' for id in names)


def vcpu(number):
    return HEADERS['inventories'] + ''.join(f'{id},VCPU,8,0,1,8,1,1.0\n' for id in ids(number))


def filled(record, size):
    """A table of traits with this number of bytes: one record again and again; the last column of the last record fills it up."""
    head = HEADERS['traits'].strip() + ',note\n'
    times, rest = divmod(size - len(head), len(record))
    return head + record * (times - 1) + record[:-1] + 'x' * rest + '\n'


def million(table, row):
    """A thousand records for each of a thousand providers. UUIDs have no hyphens, so that the aggregates too fit into 64 MiB."""
    return HEADERS[table] + ''.join(row(id.replace('-', ''), n) + '\n' for id in ids(1000) for n in range(1000))


def check(name, made, counts=None, line=None):
    out = ''.join(f'{table} {count}\n' for table, count in zip(HEADERS, counts or ()))
    return Case(f'check: {name}', ['check'], out, line + '\n' if line else '', 3 if line else 0,
                {**ONE, 'inventories': HEADERS['inventories'], **made})


def pairs(start, pair, size):
    """A query with exactly this number of bytes, from one pair again and again."""
    times = (size - len(start)) // len(pair)
    return (start + pair * times).ljust(size, '&')


def query(name, text, out='', line=''):
    return Case(f'tokens: {name}', ['tokens', text], out, line and line + '\n', 4 if line else 0, ONE)


def explained(name, text, slots, counts, trees, made, because, missing=(), other=()):
    """Nothing is found, though these slots all have these counts. Nobody has what is missing, and nothing is found in these other ways either; and why."""
    told = [f'slot {number} {slot}: {counts}' for number, slot in enumerate(slots, 1)]
    nobody = [f'nobody has {name}' for name in missing]
    kept = [f'{way}: none' for way in other]
    told_lines = [*told, trees, *nobody, 'candidates: none', *kept, f'because {because}']
    return Case(f'explain: {name}', ['explain', text], ''.join(f'{line}\n' for line in told_lines), status=1, tables=made)


def hosts(number, functions):
    """This number of hosts, each with this number of children, and one function below each child."""
    width = functions + 1
    providers, inventories = [HEADERS['providers']], [HEADERS['inventories']]
    for host in range(number):
        top, *children = (provider(host * width + n + 1) for n in range(width))
        providers.append(f'{top},{top},\n')
        for child in children:
            providers.append(f'{child},{top},{top}\n')
            inventories.append(f'{child},SRIOV_NET_VF,1,0,1,1,1,1.0\n')
    return ''.join(providers), ''.join(inventories)


TRAIT = f'{provider(1)},CUSTOM_A,\n'
MILLIONS = {
    'providers': lambda: roots(1000),
    'inventories': lambda: million('inventories', lambda id, n: f'{id},C{n},1,0,1,1,1,1.0'),
    'usages': lambda: million('usages', lambda id, n: f'{id},C{n},1'),
    'traits': lambda: million('traits', lambda id, n: f'{id},T{n}'),
    'aggregates': lambda: million('aggregates', lambda id, n: f'{id},{n:032x}'),
}
STAR = {'providers': lambda: star(40), 'inventories': lambda: vcpu(40)}
FUNCTIONS = {'providers': lambda: hosts(1000, 7)[0], 'inventories': lambda: hosts(1000, 7)[1]}
EIGHT_APART = '&'.join(f'resources{n}=SRIOV_NET_VF:1' for n in range(8)) + '&group_policy=isolate'
PAIRS = 'resources=VCPU:2' + '&required=A' * 5000
THREE = 'resources1=VCPU:1&resources2=VCPU:1&resources3=VCPU:1&group_policy=none'
EACH = [f'resources{n}=' + ','.join(f'C{k}:1' for k in range(4)) for n in range(64)]

LARGE = [
    check('65536 roots', {'providers': lambda: roots(MOST_PROVIDERS)}, (MOST_PROVIDERS, 0, 0, 0, 0)),
    check('65537 roots', {'providers': lambda: roots(MOST_PROVIDERS + 1)}, line='providers: record 65538: TooManyProviders'),
    check('a double record after 65536 roots', {'providers': lambda: roots(MOST_PROVIDERS, f'{provider(1)},{provider(1)},\n')},
          line='providers: record 65538: Duplicate'),
    check('65537 providers, the first with an unknown parent',
          {'providers': lambda: chain(MOST_PROVIDERS + 1, top=provider(0xfffff))}, line='providers: record 65538: TooManyProviders'),
    check('a chain of 65536', {'providers': lambda: chain(MOST_PROVIDERS)}, (MOST_PROVIDERS, 0, 0, 0, 0)),
    check('a chain of 65536, falling', {'providers': lambda: chain(MOST_PROVIDERS, order=lambda r: r[::-1])},
          (MOST_PROVIDERS, 0, 0, 0, 0)),
    check('a chain of 65536, shuffled', {'providers': lambda: chain(MOST_PROVIDERS, order=shuffled)}, (MOST_PROVIDERS, 0, 0, 0, 0)),
    check('a ring of 65536', {'providers': lambda: chain(MOST_PROVIDERS, top=provider(MOST_PROVIDERS))},
          line='providers: record 2: ParentCycle'),
    *(check(f'{name} of newlines', {'usages': lambda size=size: HEADERS['usages'].ljust(size, '\n')},
            (1, 0, 0, 0, 0) if size <= MOST_BYTES else None, None if size <= MOST_BYTES else 'usages: TooLarge')
      for name, size in (('64 MiB less a byte', MOST_BYTES - 1), ('64 MiB', MOST_BYTES), ('64 MiB and a byte', MOST_BYTES + 1))),
    *(check(f'{name} of rows', {'traits': lambda size=size: filled(TRAIT, size)},
            (1, 0, 0, 1, 0) if size <= MOST_BYTES else None, None if size <= MOST_BYTES else 'traits: TooLarge')
      for name, size in (('64 MiB', MOST_BYTES), ('64 MiB and a byte', MOST_BYTES + 1))),
    check('a fault past the record 100000', {'traits': lambda: HEADERS['traits'] + f'{provider(1)},CUSTOM_A\n' * 100000 + f'{provider(1)},small\n'},
          line='traits: record 100002: BadTrait'),
    check('four tables of a million rows', MILLIONS, (1000, *[1000000] * 4)),
    check('a large table is told before the fault of an earlier one',
          {'providers': 'x', 'usages': lambda: '\n' * (MOST_BYTES + 1)}, line='usages: TooLarge'),
    query('4366 lists of one subtree, 65536 bytes', pairs('resources1=VCPU:2&', 'same_subtree=1&', QUERY_BYTES), lines('P1')),
    query('the same with a byte more', pairs('resources1=VCPU:2&', 'same_subtree=1&', QUERY_BYTES) + '&', line='query: QueryTooLong'),
    Case('tokens: 5001 pairs, by the version in which required may be repeated', ['tokens', PAIRS, '--microversion', '1.39'], lines('P1'),
         tables=tables('P1 | | VCPU total 8 | A')),
    Case('tokens: 5001 pairs, and a bad one', ['tokens', PAIRS + '&limit=0', '--microversion', '1.39'], '', 'query: pair 5002: BadValue\n', 4, ONE),
    query('thousands of groups', '&'.join(f'resources{n:04}=C:1' for n in range(3600)) + '&group_policy=none', line='query: TooManySlots'),
    query('thousands of groups without resources', '&'.join(['resources=VCPU:2', *(f'required{n:04}=A' for n in range(3600, 0, -1))]),
          line='query: group "0001": GroupWithoutResources'),
    query('thousands of groups without a policy', '&'.join(f'resources{n:04}=C:1' for n in range(3600)), line='query: PolicyMissing'),
    query('thousands of pairs, the last repeated', '&'.join([*(f'required{n:04}=A' for n in range(3600)), 'required0000=A']),
          line='query: pair 3601: Repeated'),
    query('a list of thousands of aggregates', 'resources=VCPU:2&member_of=in:' + ','.join(ids(1700)), ''),
    query('64 groups of four classes, which nobody has', '&'.join([*EACH, 'group_policy=none'])),
    query('64 groups of four classes, and one class more', '&'.join([*EACH[1:], 'resources=A:1,B:1,C:1,D:1,E:1', 'group_policy=none']),
          line='query: TooManySlots'),
    Case('tokens: 64000 assignments of 40 providers to three groups', ['tokens', THREE],
         lambda: ''.join(f'{a},{b},{c}\n' for a in ids(40) for b in ids(40) for c in ids(40)), tables=STAR),
    Case('tokens: eight functions apart on 1000 hosts of seven', ['tokens', EIGHT_APART], tables=FUNCTIONS),
    explained('eight functions apart on 1000 hosts of seven', EIGHT_APART, [f'"{n}" SRIOV_NET_VF:1' for n in range(8)],
              'units 7000 of 8000, traits 7000, aggregates 7000, tree 7000, room 7000', 'trees 1000: root traits 1000, each slot 1000, required traits 1000', FUNCTIONS,
              'no providers for the slots go together', other=['with group_policy=none']),
    explained('64 groups of four classes, which nobody has', '&'.join([*EACH, 'group_policy=none']),
              [f'"{n}" C0:1,C1:1,C2:1,C3:1' for n in sorted(map(str, range(64)))],
              'units 0 of 1, traits 0, aggregates 0, tree 0, room 0', 'trees 1: root traits 1, each slot 0, required traits 0', ONE,
              'slot 1 "0" C0:1,C1:1,C2:1,C3:1: none of 1 gives it', ['C0', 'C1', 'C2', 'C3'] * 64),
    Case('tokens: after the last of 64000', ['tokens', THREE, '--after', ','.join([provider(40)] * 3)], tables=STAR),
]
