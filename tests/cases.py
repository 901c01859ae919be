"""Cases over small clouds: tables, a command line, and what the program must answer. The clouds are in the notation of notation.py."""
from __future__ import annotations

from dataclasses import dataclass, field

from metrics import metrics_of
from notation import HEADERS, full, provider, tables

SOME = None  # any text that isn't empty


@dataclass
class Case:
    name: str
    words: list
    out: str | None = ''
    err: str | None = ''
    status: int = 0
    tables: dict = field(default_factory=dict)  # contents by name, or functions that make them; they are written to files, which options name
    together: bool = False  # whether --tables names their folder, in place of an option for each table
    has: tuple = ()  # texts that must be in the output or on standard error
    to: str | None = None  # the file that standard output is written to
    err_to: str | None = None
    given: bytes = b''
    folder: str | None = None
    closed: bool = False  # whether standard output is a pipe that nobody reads


ONE = 'P1 | | VCPU total 8'
CHILD = 'P1 | | VCPU total 8\nP2 | P1 | VCPU total 8'
APART = 'P1 | | VCPU total 8\nP3 | | VCPU total 8'
MEMORY = 'P1 | | VCPU total 8; MEMORY_MB total 4096\nP2 | P1 | VCPU total 8'
DEVICES = 'P1\nP2 | P1 | VCPU total 8 | CUSTOM_A\nP3 | P1 | PGPU total 1 | CUSTOM_B'
SHARED = '''P1 | | VCPU total 8
P2 | P1 | | | A1
P3 | | VCPU total 8
P4 | P3 | | | A1
P9 | | DISK_GB total 100 | MISC_SHARES_VIA_AGGREGATE | A1'''
SHARED_SSD = SHARED.replace('AGGREGATE |', 'AGGREGATE, CUSTOM_SSD |')
SHARED_X = SHARED.replace('P3 | | VCPU total 8', 'P3 | | VCPU total 8 | CUSTOM_X')
MEMBER = 'P1 | | | | A1\nP2 | P1 | VCPU total 8'
NUMA = '''P1
P2 | P1 | | HW_NUMA_ROOT
P3 | P1 | | HW_NUMA_ROOT
P4 | P2 | VCPU total 4'''
OLD = 'P1 | | | CUSTOM_OLD\nP2 | P1 | VCPU total 8\nP3 | | VCPU total 8'
OLD_PARENT = 'P1 | | VCPU total 8 | CUSTOM_OLD\nP2 | P1 | VCPU total 8'
STEPS = 'P1 | | VCPU total 8, min_unit 2, step_size 2'
GREATEST = 2147483647
FIVE_AND_FIVE = 'resources1=VCPU:5&resources2=VCPU:5&group_policy=none'
THREE_AND_THREE = 'resources1=VCPU:3&resources2=VCPU:3&group_policy=none'
ISOLATED = 'resources=MEMORY_MB:512&resources1=VCPU:1&resources2=VCPU:1&group_policy=isolate'
UNDER_NUMA = 'resources_PF=VCPU:1&required_NUMA=HW_NUMA_ROOT&same_subtree=_NUMA,_PF'
BOTH = 'resources=VCPU:1,PGPU:1&required='


def lines(*answers):
    return ''.join(full(answer) + '\n' for answer in answers)


def by(version):
    return [] if version is None else ['--microversion', version]


def found(name, cloud, query, *answers, after=None, at=None, version=None):
    """`tokens` must give these assignments."""
    words = ['tokens', full(query), *([] if after is None else ['--after', full(after)]), *([] if at is None else ['--at', full(at)]), *by(version)]
    return Case(f'tokens: {name}', words, lines(*answers), tables=tables(cloud))


def judged(name, cloud, query, token, line, version=None):
    """`verify` must answer this line about one assignment."""
    words = ['verify', full(query), full(token), *by(version)]
    return Case(f'verify: {name}', words, line + '\n', status=0 if line == 'candidate' else 1, tables=tables(cloud))


def detailed(name, cloud, query, token, line, version=None):
    """`verify --detail` must answer this line about one assignment."""
    words = ['verify', '--detail', full(query), full(token), *by(version)]
    return Case(f'verify in detail: {name}', words, full(line) + '\n', status=0 if line == 'candidate' else 1, tables=tables(cloud))


def page(name, cloud, query, body, after=None):
    words = ['candidates', full(query), *([] if after is None else ['--after', full(after)])]
    return Case(f'candidates: {name}', words, full(body) + '\n', tables=tables(cloud))


def listed(name, cloud, query, rows, *words, **changed):
    """`list` must write these rows below its header."""
    out = '#,allocation,resource provider,inventory used/capacity,traits,name\n' + ''.join(full(row) + '\n' for row in rows)
    return Case(f'list: {name}', ['list', full(query), *map(full, words)], out, tables={**tables(cloud), **changed})


def filled(name, cloud, query, *placed, said, status=0):
    """`fill` must write these placements, and this in sum. The status is that of the former."""
    yield Case(f'fill: {name}', ['fill', full(query)], lines(*placed), status=status, tables=tables(cloud))
    yield Case(f'fill, in sum: {name}', ['fill', '--sum', full(query)], said + '\n', status=0 if placed else 1, tables=tables(cloud))


CAPACITY_HEAD = 'flavor,hosts,at_least,at_most,wanted,short_of,short_at\n'


def capacity(name, cloud, flavors, *rows, status=0):
    """`capacity` over this table of flavors must write these rows below its header."""
    return Case(f'capacity: {name}', ['capacity'], CAPACITY_HEAD + ''.join(row + '\n' for row in rows), status=status, tables={**tables(cloud), 'flavors': full(flavors)})


def bad_flavors(line, flavors, *words, detail='', why=''):
    """A table of flavors must be refused with this line, and with this one behind it where more is told."""
    return Case(f'capacity: {line}{why and ", " + why}{detail and ", in detail"}', ['capacity', *words], err=f'flavors: {line}\n{detail}', status=4,
                tables={**tables(ONE), 'flavors': flavors})


def measured(name, cloud, flavors, *rows, status=0):
    """`capacity --prometheus` over this table of flavors must write the numbers of these rows, in which names are as they are shown."""
    return Case(f'capacity, as metrics: {name}', ['capacity', '--prometheus'], metrics_of(rows), status=status, tables={**tables(cloud), 'flavors': full(flavors)})


AUDIT_HEAD = 'kind,provider,name,detail\n'


def audited(name, cloud, *rows, zone=None, **changed):
    """`audit` must write these rows below its header. A table that is changed to None isn't given."""
    made = {table: text for table, text in {**tables(cloud), **changed}.items() if text is not None}
    return Case(f'audit: {name}', ['audit', *([] if zone is None else ['--zone', full(zone)])], AUDIT_HEAD + ''.join(full(row) + '\n' for row in rows),
                status=1 if rows else 0, tables=made)


def counted(name, counts, **changed):
    out = ''.join(f'{table} {count}\n' for table, count in zip(HEADERS, counts))
    return Case(f'check: {name}', ['check'], out, tables={**tables(ONE), **changed})


def bad_table(line, *, command=('check',), why='', **changed):
    """The tables of one host, with a change, must be refused with this line."""
    return Case(f'{command[0]}: {line}{why and ", " + why}', list(command), err=line + '\n', status=3,
                tables={**tables(ONE), **changed})


def bad_query(line, query, cloud=ONE, shown=None, version=None):
    name = f'query: {line}: {shown or query}' + ('' if version is None else f' by {version}')
    return Case(name, ['tokens', full(query), *by(version)], err=f'query: {line}\n', status=4, tables=tables(cloud))


def bad_token(line, query, token, command='tokens', cloud=CHILD):
    words = [command, query, full(token)] if command == 'verify' else [command, query, f'--after={full(token)}']
    return Case(f'{command}: token: {line}: {token[:12]!r}', words, err=f'token: {line}\n', status=5, tables=tables(cloud))


def one_inventory(*, kind='VCPU', of='P1', **numbers):
    row = {'total': 8, 'reserved': 0, 'min_unit': 1, 'max_unit': 8, 'step_size': 1, 'allocation_ratio': '1.0', **numbers}
    return HEADERS['inventories'] + full(','.join([of, kind, *map(str, row.values())])) + '\n'


def rows(table, *records, header=None):
    return (header or HEADERS[table]) + ''.join(full(record) + '\n' for record in records)



QUANTITIES = [
    found('one host', ONE, 'resources=VCPU:2', 'P1'),
    Case('tokens: no provider at all', ['tokens', 'resources=VCPU:2'],
         tables={name: HEADERS[name] for name in ('providers', 'inventories')}),
    found('what is reserved is taken off before the ratio', 'P1 | | VCPU total 3, reserved 1, max_unit 10, allocation_ratio 1.5',
          'resources=VCPU:3', 'P1'),
    found('one over the capacity', 'P1 | | VCPU total 3, reserved 1, max_unit 10, allocation_ratio 1.5', 'resources=VCPU:4'),
    found('the greatest amount', f'P1 | | VCPU total {GREATEST}, allocation_ratio 1', f'resources=VCPU:{GREATEST}', 'P1'),
    found('a ratio is rounded down at the end', 'P1 | | VCPU total 1, max_unit 2, allocation_ratio 1.999', 'resources=VCPU:2'),
    found('zeros at the end of a ratio', 'P1 | | VCPU total 8, allocation_ratio 1.500000', 'resources=VCPU:2', 'P1'),
    *(found(f'a ratio of millionths: {total} times {ratio}, for {amount}', f'P1 | | VCPU total {total}, max_unit 2000000, allocation_ratio {ratio}',
            f'resources=VCPU:{amount}', *hosts)
      for total, ratio, amount, *hosts in [(8, '1.2345', 9, 'P1'), (8, '1.2345', 10), (8, '1.2345670', 9, 'P1'), (3, '0.333333', 1), (3, '0.333334', 1, 'P1'),
                                           (1000000, '1.000001', 1000001, 'P1'), (1000000, '1.000001', 1000002), (1000000, '1.0000010', 1000001, 'P1'),
                                           (1999999, '0.000001', 1, 'P1'), (1999999, '0.000001', 2), (999999, '0.000001', 1)]),
    found('a whole number of steps', STEPS, 'resources=VCPU:4', 'P1'),
    found('under the least amount', STEPS, 'resources=VCPU:1'),
    found('between two steps', STEPS, 'resources=VCPU:3'),
    found('what is left beside the usage', 'P1 | | VCPU total 8, used 7', 'resources=VCPU:1', 'P1'),
    found('one more than is left', 'P1 | | VCPU total 8, used 7', 'resources=VCPU:2'),
    found('usage over the capacity', 'P1 | | VCPU total 8, used 9', 'resources=VCPU:1'),
    found('usage far over the capacity', 'P1 | | VCPU total 8, used 9', 'resources=VCPU:2'),
    found('a sum over the greatest amount at once', 'P1 | | VCPU total 100, max_unit 4', THREE_AND_THREE),
    found('two groups on one tree', CHILD, FIVE_AND_FIVE, 'P1,P2', 'P2,P1'),
    found('two classes, one of them on one host alone', 'P1 | | VCPU total 8; MEMORY_MB total 4096\nP3 | | VCPU total 8',
          'resources=VCPU:1,MEMORY_MB:512', 'P1,P1'),
    found('a child as well as its parent', CHILD, 'resources=VCPU:1', 'P1', 'P2'),
]

RULES = [
    found('required traits held by two providers together', DEVICES, BOTH + 'CUSTOM_A,CUSTOM_B', 'P3,P2'),
    found('a sharing provider that three trees anchor, once', SHARED, 'resources=DISK_GB:10', 'P9'),
    found('a sharing provider with either host', SHARED, 'resources=DISK_GB:10,VCPU:1', 'P9,P1', 'P9,P3'),
    found('a sharing provider without aggregates', 'P9 | | DISK_GB total 100 | MISC_SHARES_VIA_AGGREGATE',
          'resources=DISK_GB:10', 'P9'),
    found('a required trait of the sharing provider', SHARED_SSD, 'resources=DISK_GB:10,VCPU:1&required=CUSTOM_SSD', 'P9,P1', 'P9,P3'),
    found('an anchor that hosts nothing', SHARED_X, 'resources=DISK_GB:10&root_required=CUSTOM_X', 'P9'),
    found('the anchor with the trait alone', SHARED_X, 'resources=DISK_GB:10,VCPU:1&root_required=CUSTOM_X', 'P9,P3'),
    found('no anchor for the disk', SHARED_X, 'resources=DISK_GB:10&root_required=CUSTOM_Y'),
    found('no anchor for disk and host', SHARED_X, 'resources=DISK_GB:10,VCPU:1&root_required=CUSTOM_Y'),
    found("an aggregate of the root counts in the group without suffix", MEMBER, 'resources=VCPU:1&member_of=A1', 'P2'),
    found('an aggregate of the root counts in no group with a suffix', MEMBER, 'resources1=VCPU:1&member_of1=A1'),
    found('an aggregate of the root counts against it too', MEMBER, 'resources=VCPU:1&member_of=!A1'),
    found('isolated groups beside the group without suffix', MEMORY, ISOLATED, 'P1,P1,P2', 'P1,P2,P1'),
    found('a subtree under a NUMA node', NUMA, UNDER_NUMA, 'P2,P4'),
    found('a group without resources is outside the policy', NUMA,
          'resources_PF=VCPU:1&required_NUMA=!CUSTOM_X&same_subtree=_NUMA,_PF&group_policy=isolate', 'P1,P4', 'P2,P4', 'P4,P4'),
    found('two trees that nothing joins', APART, FIVE_AND_FIVE),
    found('a forbidden trait of the root', OLD, 'resources=VCPU:1&root_required=!CUSTOM_OLD', 'P3'),
    found('in one tree', OLD, 'resources=VCPU:1&in_tree=P1', 'P2'),
    found('in a tree of no table', OLD, 'resources=VCPU:1&in_tree=P8'),
    found('a forbidden trait is of the provider itself', OLD, 'resources=VCPU:1&required=!CUSTOM_OLD', 'P2', 'P3'),
    judged('a sum over the capacity', CHILD, FIVE_AND_FIVE, 'P1,P1', 'no: rule 6 Sums'),
    judged('a candidate', CHILD, FIVE_AND_FIVE, 'P1,P2', 'candidate'),
    judged('an unknown provider', CHILD, FIVE_AND_FIVE, 'P1,P7', 'unknown provider'),
    judged('an aggregate of the root alone', MEMBER, 'resources1=VCPU:1&member_of1=A1', 'P2', 'no: rule 3 Aggregates'),
    judged('no one above in the listed groups', NUMA, UNDER_NUMA, 'P3,P4', 'no: rule 8 Subtree'),
    judged('no tree for both', APART, FIVE_AND_FIVE, 'P1,P3', 'no: rule 9 Anchor'),
    judged('under the least amount', STEPS, 'resources=VCPU:1', 'P1', 'no: rule 1 Units'),
    judged('between two steps', STEPS, 'resources=VCPU:3', 'P1', 'no: rule 1 Units'),
    judged('a forbidden trait', OLD_PARENT, 'resources1=VCPU:1&required1=!CUSTOM_OLD', 'P1', 'no: rule 2 SlotTraits'),
    judged('the lowest number, and not the first slot', OLD_PARENT,
           'resources1=VCPU:1&required1=!CUSTOM_OLD&resources2=VCPU:9&group_policy=none', 'P1,P2', 'no: rule 1 Units'),
    judged('a tree of no table', OLD, 'resources=VCPU:1&in_tree=P8', 'P2', 'no: rule 4 Tree'),
    judged('a required trait that nobody brings', DEVICES, BOTH + 'CUSTOM_A,CUSTOM_X', 'P3,P2', 'no: rule 5 Collective'),
    judged('isolated groups on one provider', MEMORY, ISOLATED, 'P1,P1,P1', 'no: rule 7 Isolate'),
    judged('no inventory of the class', DEVICES, 'resources=PGPU:1', 'P2', 'no: rule 1 Units'),
    judged('within the units and over the capacity', 'P1 | | VCPU total 8, max_unit 9', 'resources=VCPU:9', 'P1', 'no: rule 6 Sums'),
    judged('the limit is not asked', CHILD, FIVE_AND_FIVE + '&limit=1', 'P2,P1', 'candidate'),
]

TWO_CHILDREN = 'P1\nP2 | P1 | VCPU total 8\nP3 | P1 | VCPU total 8'
ISOLATED_THREE = 'resources1=VCPU:1&resources2=VCPU:1&resources3=VCPU:1&group_policy=isolate'
TWO_SUBTREES = 'resources_A=VCPU:1&resources_B=VCPU:1&same_subtree=_A&same_subtree=_B,_A&group_policy=none'
NOT_WITHIN = 'VCPU:9 not within min_unit 1, max_unit 8, step_size 1'
DETAILS = [
    detailed('a candidate', CHILD, FIVE_AND_FIVE, 'P1,P2', 'candidate'),
    detailed('an unknown provider', CHILD, FIVE_AND_FIVE, 'P1,P7', 'unknown provider'),
    detailed('the second slot', MEMORY, 'resources=MEMORY_MB:512,VCPU:9', 'P1,P2', f'no: rule 1 Units: slot 2 on P2, {NOT_WITHIN}'),
    detailed('the first of two slots', CHILD, 'resources1=VCPU:9&resources2=VCPU:9&group_policy=none', 'P2,P1', f'no: rule 1 Units: slot 1 on P2, {NOT_WITHIN}'),
    detailed('the lowest number, and not the first slot', OLD_PARENT,
             'resources1=VCPU:1&required1=!CUSTOM_OLD&resources2=VCPU:9&group_policy=none', 'P1,P2', f'no: rule 1 Units: slot 2 on P2, {NOT_WITHIN}'),
    detailed('no inventory', DEVICES, 'resources=PGPU:1', 'P2', 'no: rule 1 Units: slot 1 on P2, PGPU: no inventory'),
    detailed('the first trait that is missing', DEVICES, 'resources1=VCPU:1&required1=CUSTOM_A,CUSTOM_Y,CUSTOM_X', 'P2',
             'no: rule 2 SlotTraits: slot 1 on P2, CUSTOM_X missing'),
    detailed('a list of traits', DEVICES, 'resources1=VCPU:1&required1=in:CUSTOM_A,CUSTOM_X&required1=in:CUSTOM_Y,CUSTOM_B', 'P2',
             'no: rule 2 SlotTraits: slot 1 on P2, none of CUSTOM_B,CUSTOM_Y', version='1.39'),
    detailed('a forbidden trait', OLD_PARENT, 'resources=VCPU:1&required=!CUSTOM_OLD', 'P1', 'no: rule 2 SlotTraits: slot 1 on P1, CUSTOM_OLD forbidden'),
    detailed('two aggregates', MEMBER, 'resources1=VCPU:1&member_of1=in:A2,A1', 'P2', 'no: rule 3 Aggregates: slot 1 on P2, member_of=in:A2,A1'),
    detailed('a forbidden aggregate', MEMBER, 'resources=VCPU:1&member_of=!A1', 'P2', 'no: rule 3 Aggregates: slot 1 on P2, member_of=!A1'),
    detailed('a tree of no table', OLD, 'resources=VCPU:1&in_tree=P8', 'P2', 'no: rule 4 Tree: slot 1 on P2, in_tree=P8'),
    detailed('the first trait that nobody brings', DEVICES, BOTH + 'CUSTOM_Y,CUSTOM_A,CUSTOM_X', 'P3,P2', 'no: rule 5 Collective: CUSTOM_X missing'),
    detailed('the list that nobody brings', DEVICES, BOTH + 'in:CUSTOM_A,CUSTOM_X&required=in:CUSTOM_Y,CUSTOM_X', 'P3,P2',
             'no: rule 5 Collective: none of CUSTOM_X,CUSTOM_Y', version='1.39'),
    detailed('what is used, and the sum', 'P1 | | VCPU total 8, used 2\nP2 | P1 | VCPU total 8', FIVE_AND_FIVE, 'P1,P1',
             'no: rule 6 Sums: VCPU on P1, 6 of 8 left, max_unit 8, 10 asked'),
    detailed('a sum over the greatest amount at once', 'P1 | | VCPU total 100, max_unit 4', THREE_AND_THREE, 'P1,P1',
             'no: rule 6 Sums: VCPU on P1, 100 of 100 left, max_unit 4, 6 asked'),
    detailed('more used than there is', 'P1 | | VCPU total 8, used 9', 'resources=VCPU:2', 'P1', 'no: rule 6 Sums: VCPU on P1, 0 of 8 left, max_unit 8, 2 asked'),
    detailed('the second class of a slot', 'P1 | | VCPU total 8, used 7; MEMORY_MB total 4096', 'resources1=MEMORY_MB:512,VCPU:2', 'P1',
             'no: rule 6 Sums: VCPU on P1, 1 of 8 left, max_unit 8, 2 asked'),
    detailed('isolated groups beside the group without suffix', MEMORY, ISOLATED, 'P1,P1,P1', 'no: rule 7 Isolate: slots 2 and 3 on P1'),
    detailed('the first and the third slot', CHILD, ISOLATED_THREE, 'P1,P2,P1', 'no: rule 7 Isolate: slots 1 and 3 on P1'),
    detailed('the first two of three slots', CHILD, ISOLATED_THREE, 'P2,P2,P2', 'no: rule 7 Isolate: slots 1 and 2 on P2'),
    detailed('a list of groups', NUMA, UNDER_NUMA, 'P3,P4', 'no: rule 8 Subtree: same_subtree=_NUMA,_PF'),
    detailed('the second list of groups', TWO_CHILDREN, TWO_SUBTREES, 'P2,P3', 'no: rule 8 Subtree: same_subtree=_A,_B'),
    detailed('no tree for both', APART, FIVE_AND_FIVE, 'P1,P3', 'no: rule 9 Anchor: no root gives all of them'),
    detailed('a forbidden trait of the root', OLD, 'resources=VCPU:1&root_required=!CUSTOM_OLD', 'P2', 'no: rule 9 Anchor: on P1, CUSTOM_OLD forbidden'),
    detailed('a required trait of the root', OLD, 'resources=VCPU:1&root_required=CUSTOM_OLD,CUSTOM_X', 'P2', 'no: rule 9 Anchor: on P1, CUSTOM_X missing'),
    detailed('the first root of a sharing provider', SHARED, 'resources=DISK_GB:10&root_required=CUSTOM_X', 'P9', 'no: rule 9 Anchor: on P1, CUSTOM_X missing'),
    detailed('the root that gives all', SHARED, 'resources=DISK_GB:10,VCPU:1&root_required=CUSTOM_X', 'P9,P3', 'no: rule 9 Anchor: on P3, CUSTOM_X missing'),
    detailed('a host that is disabled', ONE + ' | COMPUTE_STATUS_DISABLED', 'resources=VCPU:1&root_required=!COMPUTE_STATUS_DISABLED', 'P1',
             'no: rule 9 Anchor: on P1, COMPUTE_STATUS_DISABLED forbidden: the host is disabled'),
]

# Lists `in:A,B`, of which one trait each must be had, and a repeated `required`: only with 1.39.
DISKS_TOO = 'resources=DISK_GB:30,VCPU:2'
ZONES = '''P1 | | VCPU total 8 | COMPUTE_STATUS_DISABLED
P2 | | VCPU total 8 | COMPUTE_STATUS_DISABLED
P3 | | VCPU total 8 | CUSTOM_B
P4 | | VCPU total 4 | CUSTOM_B'''
ONE_MORE = 'P1 | | VCPU total 8; MEMORY_MB total 1024\nP3 | | VCPU total 8'
TWO_SHORT = 'P1 | | VCPU total 8; MEMORY_MB total 1024\nP3 | | VCPU total 4; MEMORY_MB total 4096'
BESIDE_SHARED = '''P1 | | VCPU total 8 | | A1
P3 | | VCPU total 4; DISK_GB total 1000
P9 | | DISK_GB total 100 | MISC_SHARES_VIA_AGGREGATE | A1'''
FILLED = [
    *filled('one host', ONE, 'resources=VCPU:3', 'P1', 'P1', said='at least 2, at most 2: short of VCPU at 1 host'),
    *filled('all of it', ONE, 'resources=VCPU:8', 'P1', said='at least 1, at most 1: short of VCPU at 1 host'),
    *filled('nothing', ONE, 'resources=VCPU:9', said='at least 0, at most 0', status=1),
    *filled('two hosts', APART, 'resources=VCPU:4', 'P1', 'P1', 'P3', 'P3', said='at least 4, at most 4: short of VCPU at 2 hosts'),
    *filled('up to a limit, which a sum leaves aside', APART, 'resources=VCPU:4&limit=3', 'P1', 'P1', 'P3', said='at least 4, at most 4: short of VCPU at 2 hosts'),
    *filled('just the limit', APART, 'resources=VCPU:4&limit=4', 'P1', 'P1', 'P3', 'P3', said='at least 4, at most 4: short of VCPU at 2 hosts'),
    *filled('fewer than the limit', APART, 'resources=VCPU:4&limit=50', 'P1', 'P1', 'P3', 'P3', said='at least 4, at most 4: short of VCPU at 2 hosts', status=1),
    *filled('nothing up to a limit', ONE, 'resources=VCPU:9&limit=1', said='at least 0, at most 0', status=1),
    *filled('two slots on one provider', CHILD, THREE_AND_THREE, 'P1,P1', 'P2,P2', said='at least 2, at most 4: short of VCPU at 1 host'),
    *filled('two slots that stand apart', CHILD, THREE_AND_THREE.replace('none', 'isolate'), 'P1,P2', 'P1,P2', said='at least 2, at most 4: short of VCPU at 1 host'),
    *filled('a shared disk that is full first', SHARED, DISKS_TOO, 'P9,P1', 'P9,P1', 'P9,P1', said='at least 3, at most 3: short of DISK_GB at 2 hosts'),
    *filled('in steps', STEPS, 'resources=VCPU:2', 'P1', 'P1', 'P1', 'P1', said='at least 4, at most 4: short of VCPU at 1 host'),
    *filled('a provider that the slot does not take', SHARED_X, 'resources1=VCPU:4&required1=CUSTOM_X', 'P3', 'P3', said='at least 2, at most 2: short of VCPU at 1 host'),
    # Roots that don't fit count nothing: neither those of a zone that is disabled, nor one whose room is for another class alone.
    *filled('a zone that is disabled', ZONES, 'resources=VCPU:4&root_required=!COMPUTE_STATUS_DISABLED', 'P3', 'P3', 'P4', said='at least 3, at most 3: short of VCPU at 2 hosts'),
    *filled('all zones are disabled', ZONES, 'resources=VCPU:4&root_required=!COMPUTE_STATUS_DISABLED,!CUSTOM_B', said='at least 0, at most 0', status=1),
    *filled('a host that has one of two classes', ONE_MORE, 'resources=VCPU:2,MEMORY_MB:512', 'P1,P1', 'P1,P1', said='at least 2, at most 2: short of MEMORY_MB at 1 host'),
    # Two roots that are short of different classes: in the order of the slots, not of the roots.
    *filled('two classes that are short', TWO_SHORT, 'resources=VCPU:2,MEMORY_MB:512', 'P1,P1', 'P1,P1', 'P3,P3', 'P3,P3',
            said='at least 4, at most 4: short of MEMORY_MB at 1 host, VCPU at 1'),
    *filled('two classes that are short, by groups', TWO_SHORT, 'resources_A=VCPU:2&resources_B=MEMORY_MB:512&group_policy=none', 'P1,P1', 'P1,P1', 'P3,P3', 'P3,P3',
            said='at least 4, at most 4: short of VCPU at 1 host, MEMORY_MB at 1'),
    *filled('two classes that are short alike: the first', 'P1 | | VCPU total 4; MEMORY_MB total 1024', 'resources=VCPU:2,MEMORY_MB:512', 'P1,P1', 'P1,P1',
            said='at least 2, at most 2: short of MEMORY_MB at 1 host'),
    *filled('two slots of one class: the second is short', CHILD, 'resources1=VCPU:2&resources2=VCPU:5&group_policy=isolate', 'P1,P2', 'P2,P1',
            said='at least 2, at most 2: short of VCPU at 1 host'),
    *filled('a shared disk is short at one root alone', BESIDE_SHARED, DISKS_TOO, 'P3,P3', 'P3,P3', 'P9,P1', 'P9,P1', 'P9,P1',
            said='at least 5, at most 5: short of DISK_GB at 1 host, VCPU at 1'),
    *filled('a shared disk is less than its roots together', SHARED, 'resources=DISK_GB:30,VCPU:3', 'P9,P1', 'P9,P1', 'P9,P3', said='at least 3, at most 3: short of VCPU at 2 hosts'),
]

LISTED = 'resources=PGPU:1,VCPU:1&required=in:CUSTOM_A,CUSTOM_X&required=CUSTOM_B'
NOBODY = 'resources=PGPU:1,VCPU:1&required=in:CUSTOM_X,CUSTOM_Y'
TWICE = 'resources=VCPU:1&required=CUSTOM_A&required=CUSTOM_A'
LISTS = [
    found('a list, and a trait of another provider', DEVICES, LISTED, 'P3,P2', version='1.39'),
    bad_query('pair 2: BadValue', LISTED, DEVICES),
    bad_query('pair 2: BadValue', LISTED, DEVICES, version='1.36'),
    found('a list of which nobody has one', DEVICES, NOBODY, version='1.39'),
    judged('a list of which nobody has one', DEVICES, NOBODY, 'P3,P2', 'no: rule 5 Collective', version='1.39'),
    found('two lists, each met by another provider', DEVICES, BOTH + 'in:CUSTOM_A,CUSTOM_X&required=in:CUSTOM_B', 'P3,P2', version='1.39'),
    found('two lists, and nobody meets the second', DEVICES, BOTH + 'in:CUSTOM_A,CUSTOM_B&required=in:CUSTOM_X', version='1.39'),
    found('a list of a group with a suffix', DEVICES, 'resources1=VCPU:1&required1=in:CUSTOM_A,CUSTOM_B', 'P2', version='1.39'),
    found('a list that the one provider lacks', DEVICES, 'resources1=VCPU:1&required1=in:CUSTOM_B', version='1.39'),
    judged('a list that the one provider lacks', DEVICES, 'resources1=VCPU:1&required1=in:CUSTOM_B', 'P2', 'no: rule 2 SlotTraits', version='1.39'),
    found('two lists of one provider, of which it lacks one', DEVICES, 'resources1=VCPU:1&required1=in:CUSTOM_A&required1=in:CUSTOM_B', version='1.39'),
    found('a trait asked twice', DEVICES, TWICE, 'P2', version='1.39'),
    bad_query('pair 3: Repeated', TWICE, DEVICES, version='1.36'),
    found('a trait asked, and forbidden by another pair', DEVICES, 'resources=VCPU:1&required=CUSTOM_A&required=!CUSTOM_A', version='1.39'),
    found('a group of nothing but a list', NUMA, 'resources_PF=VCPU:1&required_NUMA=in:HW_NUMA_ROOT,CUSTOM_X&same_subtree=_NUMA,_PF', 'P2,P4', version='1.39'),
    found('a trait twice in a list, in an escape', DEVICES, 'resources=VCPU:1&required=in%3ACUSTOM_A%2CCUSTOM_A', 'P2', version='1.39'),
    *(bad_query('pair 2: BadValue', 'resources=VCPU:1&' + pair, DEVICES, version='1.39') for pair in (
        'required=in:!CUSTOM_A', 'root_required=in:CUSTOM_A', 'required=!in:CUSTOM_A', 'required=in:', 'required=in:CUSTOM_A,', 'required=IN:CUSTOM_A',
        'required=CUSTOM_A,in:CUSTOM_B', 'required=in:CUSTOM_A,in:CUSTOM_B', 'required1=in:a')),
    bad_query('pair 3: Repeated', 'resources=VCPU:1&root_required=CUSTOM_A&root_required=CUSTOM_A', DEVICES, version='1.39'),
    bad_query('pair 2: Repeated', 'resources=VCPU:1&resources=VCPU:1', DEVICES, version='1.39'),
    bad_query('pair 2: Conflict', BOTH + 'CUSTOM_A,!CUSTOM_A', DEVICES, version='1.39'),
    bad_query('group "": GroupWithoutResources', 'resources1=VCPU:1&required=in:A', version='1.39'),
]

TWO_HALVES = '''{"allocation_requests":[\
{"allocations":{"P1":{"resources":{"VCPU":5}},"P2":{"resources":{"VCPU":5}}},"mappings":{"1":["P1"],"2":["P2"]}},\
{"allocations":{"P1":{"resources":{"VCPU":5}},"P2":{"resources":{"VCPU":5}}},"mappings":{"1":["P2"],"2":["P1"]}}],"provider_summaries":{\
"P1":{"parent_provider_uuid":null,"resources":{"VCPU":{"capacity":8,"used":0}},"root_provider_uuid":"P1","traits":[]},\
"P2":{"parent_provider_uuid":"P1","resources":{"VCPU":{"capacity":8,"used":0}},"root_provider_uuid":"P1","traits":[]}}}'''
ONE_SUMMARY = '''"P1":{"parent_provider_uuid":null,"resources":{"VCPU":{"capacity":8,"used":0}},"root_provider_uuid":"P1","traits":[]}'''
DISK_SUMMARY = '''"P9":{"parent_provider_uuid":null,"resources":{"DISK_GB":{"capacity":100,"used":0}},\
"root_provider_uuid":"P9","traits":["MISC_SHARES_VIA_AGGREGATE"]}'''
ONE_BODY = ('{"allocation_requests":[{"allocations":{"P1":{"resources":{"VCPU":2}}},"mappings":{"":["P1"]}}],"provider_summaries":{'
            + ONE_SUMMARY + '}}')


def shared_body(host, child):
    return ('{"allocation_requests":[{"allocations":{"%s":{"resources":{"VCPU":1}},"P9":{"resources":{"DISK_GB":10}}},"mappings":{"":["%s","P9"]}}],'
            '"provider_summaries":{%s,"%s":{"parent_provider_uuid":"%s","resources":{},"root_provider_uuid":"%s","traits":[]},%s}}'
            % (host, host, ONE_SUMMARY.replace('P1', host), child, host, host, DISK_SUMMARY))


# Names, and how each is shown: with `?` for each byte that would move the cursor, and for each that is of no UTF-8 text.
NAMES = [(b'', ''), (b'cmp-az1-050', 'cmp-az1-050'), (b'rack 1, "top"', '"rack 1, ""top"""'), (b'two\nlines\r\n', 'two?lines??'), (b'\x1b[2J\x1b[H', '?[2J?[H'),
         (b'\0\x1f \x7f~', '?? ?~'), ('Z\u00fcrich \u20ac5 \U0001f600'.encode(), 'Z\u00fcrich \u20ac5 \U0001f600'), (b'?', '?'), (b'\xff', '?'), (b'\x80', '?'),
         (b'a\xc3', 'a?'), (b'a\xe2\x82b', 'a??b'), (b'\xf0\x9f\x98x', '???x'), (b'\xc0\x80', '??'), (b'\xed\xa0\x80', '???'), (b'\xf5\x80\x80\x80', '????'),
         (b'\xc3\xa9\xff\xc3\xa9\n\xfe\xfe', '\u00e9?\u00e9???')]
SHOWN = b'uuid,root_provider_uuid,parent_provider_uuid,name\n' + b''.join(
    full(f'P{place},P{place},,').encode() + b'"' + name.replace(b'"', b'""') + b'"\n' for place, (name, _) in enumerate(NAMES, 1))
TOO_MANY = 'units,VCPU:9,"VCPU:9 not within min_unit 1, max_unit 8, step_size 1"'
SHOWN_ROWS = 'root,name,fits,slot,lacks,asks,detail\n' + ''.join(
    full(f'P{place},{shown},no,1,{TOO_MANY if place == 1 else "no inventory,VCPU:9,VCPU: nobody here"}\n') for place, (_, shown) in enumerate(NAMES, 1))

PAGES = [
    page('one host', ONE, 'resources=VCPU:2', ONE_BODY),
    Case('candidates: none', ['candidates', 'resources=VCPU:2'], '{"allocation_requests":[],"provider_summaries":{}}\n',
         tables={name: HEADERS[name] for name in ('providers', 'inventories')}),
    page('the greatest capacity', f'P1 | | VCPU total {GREATEST}, allocation_ratio 1000000', 'resources=VCPU:2',
         ONE_BODY.replace('"capacity":8', '"capacity":2147483647000000')),
    page('the greatest capacity, of a ratio of six decimals', f'P1 | | VCPU total {GREATEST}, allocation_ratio 1000000.000000', 'resources=VCPU:2',
         ONE_BODY.replace('"capacity":8', '"capacity":2147483647000000')),
    page('a capacity whose product is just over 64 bits', f'P1 | | VCPU total {GREATEST}, allocation_ratio 8589.934597', 'resources=VCPU:2',
         ONE_BODY.replace('"capacity":8', '"capacity":18446744075857')),
    page('the summaries are of the page alone', SHARED, 'resources=DISK_GB:10,VCPU:1&limit=1', shared_body('P1', 'P2')),
    page('the summaries of the page after a token', SHARED, 'resources=DISK_GB:10,VCPU:1&limit=1', shared_body('P3', 'P4'), after='P9,P1'),
    page('equal allocations and different mappings', CHILD, FIVE_AND_FIVE, TWO_HALVES),
    page('amounts are added', ONE, 'resources1=VCPU:2&resources2=VCPU:3&group_policy=none',
         '{"allocation_requests":[{"allocations":{"P1":{"resources":{"VCPU":5}}},"mappings":{"1":["P1"],"2":["P1"]}}],'
         '"provider_summaries":{' + ONE_SUMMARY + '}}'),
    page('a provider of a group without resources is in the mappings alone', NUMA, UNDER_NUMA,
         '{"allocation_requests":[{"allocations":{"P4":{"resources":{"VCPU":1}}},"mappings":{"_NUMA":["P2"],"_PF":["P4"]}}],'
         '"provider_summaries":{'
         '"P1":{"parent_provider_uuid":null,"resources":{},"root_provider_uuid":"P1","traits":[]},'
         '"P2":{"parent_provider_uuid":"P1","resources":{},"root_provider_uuid":"P1","traits":["HW_NUMA_ROOT"]},'
         '"P3":{"parent_provider_uuid":"P1","resources":{},"root_provider_uuid":"P1","traits":["HW_NUMA_ROOT"]},'
         '"P4":{"parent_provider_uuid":"P2","resources":{"VCPU":{"capacity":4,"used":0}},"root_provider_uuid":"P1","traits":[]}}}'),
    page('what is used is told, also over the capacity', 'P1 | | VCPU total 8, used 9; PGPU total 1', 'resources=PGPU:1',
         '{"allocation_requests":[{"allocations":{"P1":{"resources":{"PGPU":1}}},"mappings":{"":["P1"]}}],"provider_summaries":{'
         '"P1":{"parent_provider_uuid":null,"resources":{"PGPU":{"capacity":1,"used":0},"VCPU":{"capacity":8,"used":9}},'
         '"root_provider_uuid":"P1","traits":[]}}}'),
    Case('candidates: without traits', ['candidates', '--no-traits', full('resources=DISK_GB:10&limit=1')],
         full('{"allocation_requests":[{"allocations":{"P9":{"resources":{"DISK_GB":10}}},"mappings":{"":["P9"]}}],"provider_summaries":{'
              + DISK_SUMMARY.replace('"MISC_SHARES_VIA_AGGREGATE"', '') + '}}\n'), tables=tables(SHARED)),
    # Two rows of each candidate, of which the providers stand in the order of their UUIDs, and not in that of the slots.
    listed('two candidates of a shared disk', SHARED, 'resources=DISK_GB:10,VCPU:1',
           ['1,VCPU=1,P1,VCPU=0/8,,', '1,DISK_GB=10,P9,DISK_GB=0/100,MISC_SHARES_VIA_AGGREGATE,',
            '2,VCPU=1,P3,VCPU=0/8,,', '2,DISK_GB=10,P9,DISK_GB=0/100,MISC_SHARES_VIA_AGGREGATE,']),
    listed('without traits', SHARED, 'resources=DISK_GB:10,VCPU:1&limit=1', ['1,VCPU=1,P1,VCPU=0/8,,', '1,DISK_GB=10,P9,DISK_GB=0/100,,'], '--no-traits'),
    listed('after a token, counted from 1', SHARED, 'resources=DISK_GB:10,VCPU:1',
           ['1,VCPU=1,P3,VCPU=0/8,,', '1,DISK_GB=10,P9,DISK_GB=0/100,MISC_SHARES_VIA_AGGREGATE,'], '--after', 'P9,P1'),
    listed('none', SHARED, 'resources=VCPU:9', []),
    listed('at a host, by a provider of its tree', SHARED, 'resources=DISK_GB:10,VCPU:1',
           ['1,VCPU=1,P3,VCPU=0/8,,', '1,DISK_GB=10,P9,DISK_GB=0/100,MISC_SHARES_VIA_AGGREGATE,'], '--at', 'P4'),
    listed('at a host with none', SHARED, 'resources=DISK_GB:10,VCPU:1', [], '--at', 'P9'),
    *(found(f'at {host}: {name}', cloud, query, *answers, at=host, after=after) for name, cloud, query, host, after, answers in (
        ('a shared disk, and a processor of the host', SHARED, 'resources=DISK_GB:10,VCPU:1', 'P1', None, ['P9,P1']),
        ('the disk alone', SHARED, 'resources=DISK_GB:10', 'P3', None, ['P9']),
        ('the disk alone, at its own', SHARED, 'resources=DISK_GB:10', 'P9', None, ['P9']),
        ('behind a token of another host', SHARED, 'resources=DISK_GB:10,VCPU:1', 'P3', 'P9,P1', ['P9,P3']),
        ('behind its last', SHARED, 'resources=DISK_GB:10,VCPU:1', 'P1', 'P9,P1', []),
        ('the first two', CHILD, 'resources=VCPU:1&limit=1', 'P2', None, ['P1']),
        ('a root that the query does not take', OLD, 'resources=VCPU:1&root_required=!CUSTOM_OLD', 'P2', None, []),
        ('a root that it takes', OLD, 'resources=VCPU:1&root_required=!CUSTOM_OLD', 'P3', None, ['P3']))),
    Case('tokens: at a host that is not there', ['tokens', 'resources=VCPU:1', '--at', 'nobody'], err='host: Unknown\n', status=5, tables=tables(ONE)),
    Case('tokens: at a host, after a token that is none', ['tokens', 'resources=VCPU:1', '--at', 'nobody', '--after', 'x'], err='token: BadToken\n', status=5,
         tables=tables(ONE)),
    Case('tokens: at a host, in detail', ['tokens', 'resources=VCPU:1', '--at', 'nobody', '--detail'],
         err='host: Unknown\n  "nobody": no provider has this UUID or this name: give one that is in the table of providers\n', status=5, tables=tables(ONE)),
    listed('a provider that serves two slots has one row, with the sum', ONE, 'resources1=VCPU:2&resources2=VCPU:3&group_policy=none', ['1,VCPU=5,P1,VCPU=0/8,,']),
    listed('two candidates that take the same', CHILD, FIVE_AND_FIVE,
           ['1,VCPU=5,P1,VCPU=0/8,,', '1,VCPU=5,P2,VCPU=0/8,,', '2,VCPU=5,P1,VCPU=0/8,,', '2,VCPU=5,P2,VCPU=0/8,,']),
    listed('a provider of a group without resources has no row', NUMA, UNDER_NUMA, ['1,VCPU=1,P4,VCPU=0/4,,']),
    listed('several classes and traits, in byte order', 'P1 | | VCPU total 8, used 3; MEMORY_MB total 64, reserved 4, allocation_ratio 1.5 | CUSTOM_B, CUSTOM_A',
           'resources=VCPU:2,MEMORY_MB:16', ['1,"MEMORY_MB=16,VCPU=2",P1,"MEMORY_MB=0/90,VCPU=3/8","CUSTOM_A,CUSTOM_B",']),
    listed('what is used may be more than the capacity', 'P1 | | VCPU total 8, used 9; PGPU total 1', 'resources=PGPU:1', ['1,PGPU=1,P1,"PGPU=0/1,VCPU=9/8",,']),
    listed('a name with a comma, a quote and a newline', ONE, 'resources=VCPU:2', ['1,VCPU=2,P1,VCPU=0/8,,"a,""b""?c"'],
           providers='uuid,name,root_provider_uuid,parent_provider_uuid\n' + full('P1,"a,""b""\nc",P1,\n')),
    Case('hosts: names that would harm a terminal, or that are no text', ['hosts', 'resources=VCPU:9'], SHOWN_ROWS, status=1, tables={**tables(ONE), 'providers': SHOWN}),
    found('after the first', SHARED, 'resources=DISK_GB:10,VCPU:1', 'P9,P3', after='P9,P1'),
    found('after the first, with a limit', SHARED, 'resources=DISK_GB:10,VCPU:1&limit=1', 'P9,P3', after='P9,P1'),
    found('after a token with a provider of no table', CHILD, FIVE_AND_FIVE, 'P2,P1', after='P1,P7'),
    found('after the last', CHILD, FIVE_AND_FIVE, after='P2,P1'),
    found('after every list', CHILD, FIVE_AND_FIVE, after='P7,P7'),
    found('limit of one', CHILD, FIVE_AND_FIVE + '&limit=1', 'P1,P2'),
    found('limit of one, after the first', CHILD, FIVE_AND_FIVE + '&limit=1', 'P2,P1', after='P1,P2'),
    found('limit beyond the last', CHILD, FIVE_AND_FIVE + '&limit=5', 'P1,P2', 'P2,P1'),
    found('limit and one candidate', ONE, 'resources=VCPU:2&limit=1', 'P1'),
]

TOKENS = [
    bad_token('WrongLength', FIVE_AND_FIVE, 'P1'),
    bad_token('BadToken', FIVE_AND_FIVE, 'P1,zz'),
    bad_token('BadToken', FIVE_AND_FIVE, ''),
    bad_token('BadToken', FIVE_AND_FIVE, 'zz'),
    bad_token('BadToken', FIVE_AND_FIVE, 'P1, P2'),
    bad_token('BadToken', FIVE_AND_FIVE, '-x'),
    bad_token('WrongLength', FIVE_AND_FIVE, 'P1', 'candidates'),
    bad_token('WrongLength', FIVE_AND_FIVE, 'P1', 'verify'),
    bad_token('BadToken', FIVE_AND_FIVE, 'P7,zz', 'verify'),
    bad_token('WrongLength', FIVE_AND_FIVE, 'P7', 'verify'),
    bad_token('WrongLength', 'resources=VCPU:2', ','.join(['P1'] * 65), cloud=ONE),
    bad_token('WrongLength', 'resources=VCPU:2', ','.join(['P1'] * 65), 'verify', cloud=ONE),
    *(bad_token('WrongLength', 'resources=VCPU:2', ','.join(['P1'] * count), cloud=ONE) for count in (2, 67, 3067)),
    *(bad_token('BadToken', 'resources=VCPU:2', 'A' * count, cloud=ONE) for count in (37, 300)),
]

CYCLE = rows('providers', 'P1,P2,P2', 'P2,P1,P1')
QUOTED = '"name","parent_provider_uuid","uuid","root_provider_uuid"\n' + full('"cn1","None","P1","P1"\n')
COLUMNS = {name: header.strip().split(',') for name, header in HEADERS.items()}

TABLES = [
    counted('one host', (1, 1, 0, 0, 0)),
    counted('quoted texts, other columns, None for no parent', (1, 1, 0, 0, 0), providers=QUOTED),
    Case('tokens: quoted texts', ['tokens', 'resources=VCPU:2'], lines('P1'), tables={**tables(ONE), 'providers': QUOTED}),
    Case('candidates: quoted texts', ['candidates', 'resources=VCPU:2'], full(ONE_BODY) + '\n',
         tables={**tables(ONE), 'providers': QUOTED}),
    counted('zeros at the end of a ratio', (1, 1, 0, 0, 0), inventories=one_inventory(allocation_ratio='1.500000')),
    counted('a repeated trait and a repeated aggregate count once', (1, 1, 0, 1, 1), traits=rows('traits', 'P1,CUSTOM_A', 'P1,CUSTOM_A'),
            aggregates=rows('aggregates', 'P1,A1', 'P1,{A1}', 'P1,urn:uuid:A1')),
    counted('tables of a header alone', (1, 1, 0, 0, 0), usages=HEADERS['usages'], traits=HEADERS['traits'], aggregates=HEADERS['aggregates']),
    counted('a usage of nothing', (1, 1, 1, 0, 0), usages=rows('usages', 'P1,VCPU,0')),
    bad_table('inventories: record 1: NoHeader', inventories=''),
    bad_table('traits: record 1: NoHeader', traits='\n\n', why='newlines alone'),
    bad_table('providers: record 1: MissingColumn', providers=rows('providers', 'P1,P1', header='uuid,root_provider_uuid\n')),
    bad_table('providers: record 1: DoubleColumn', providers=rows('providers', 'P1,P1,P1,', header='uuid,' + HEADERS['providers'])),
    bad_table('providers: record 1: MissingColumn', why='before a double one', providers='uuid,uuid,root_provider_uuid\n'),
    bad_table('providers: record 2: Width', providers=rows('providers', 'P1,P1')),
    bad_table('providers: record 2: BadUuid', providers=rows('providers', 'xyz,P1,')),
    bad_table('providers: record 2: BadUuid', why='no root', providers=rows('providers', 'P1,None,')),
    bad_table('inventories: record 2: BadClass', inventories=one_inventory(kind='vcpu')),
    bad_table('traits: record 2: BadTrait', traits=rows('traits', 'P1,hw_x')),
    bad_table('inventories: record 2: BadNumber', inventories=one_inventory(total='8.0')),
    bad_table('inventories: record 2: BadRatio', inventories=one_inventory(allocation_ratio='1e-05')),
    counted('a ratio of four decimals', (1, 1, 0, 0, 0), inventories=one_inventory(allocation_ratio='1.2345')),
    counted('a ratio of six decimals and zeros', (1, 1, 0, 0, 0), inventories=one_inventory(allocation_ratio='999999.9999990')),
    bad_table('inventories: record 2: BadRatio', why='seven decimals, by tokens', command=('tokens', 'resources=VCPU:2'),
              inventories=one_inventory(allocation_ratio='1.2345678')),
    bad_table('inventories: record 2: BadRatio', why='as a Python float is written', inventories=one_inventory(allocation_ratio='0.3333333333333333')),
    bad_table('inventories: record 2: BadRatio', why='over the greatest', inventories=one_inventory(allocation_ratio='1000000.001')),
    bad_table('inventories: record 2: BadRatio', why='seven decimals', inventories=one_inventory(allocation_ratio='1.2345678')),
    bad_table('inventories: record 2: BadRatio', why='over the greatest by the sixth decimal',
              inventories=one_inventory(allocation_ratio='1000000.000001')),
    bad_table('inventories: record 2: BadRatio', why='before ZeroStep', inventories=one_inventory(step_size=0, allocation_ratio='.5')),
    bad_table('inventories: record 2: ZeroStep', inventories=one_inventory(step_size=0)),
    bad_table('inventories: record 2: ZeroStep', why='before ReservedOverTotal', inventories=one_inventory(step_size=0, reserved=9)),
    bad_table('inventories: record 2: ReservedOverTotal', inventories=one_inventory(reserved=9)),
    bad_table('providers: record 3: Duplicate', providers=rows('providers', 'P1,P1,', 'P1,P1,')),
    bad_table('providers: record 3: Duplicate', why='in another form', providers=rows('providers', 'P1,P1,', '{P1},P1,')),
    bad_table('inventories: record 3: Duplicate', inventories=one_inventory() + full('P1,VCPU,9,0,1,9,1,1.0\n')),
    bad_table('inventories: record 2: UnknownProvider', inventories=one_inventory(of='P2')),
    bad_table('usages: record 2: NoInventory', usages=rows('usages', 'P1,MEMORY_MB,1')),
    bad_table('providers: record 2: UnknownParent', providers=rows('providers', 'P1,P1,P2')),
    bad_table('providers: record 3: UnknownParent', why='before a cycle in an earlier record',
              providers=rows('providers', 'P1,P1,P1', 'P2,P2,P7')),
    bad_table('providers: record 2: ParentCycle', why='before a fault of the inventories', providers=CYCLE,
              inventories=one_inventory(kind='vcpu')),
    bad_table('providers: record 2: ParentCycle', providers=CYCLE),
    bad_table('providers: record 2: ParentCycle', why='by tokens', command=('tokens', 'resources=VCPU:2'), providers=CYCLE),
    bad_table('providers: record 3: WrongRoot', providers=rows('providers', 'P1,P1,', 'P2,P2,P1')),
    bad_table('providers: record 3: WrongRoot', why='by tokens', command=('tokens', 'resources=VCPU:2'),
              providers=rows('providers', 'P1,P1,', 'P2,P2,P1')),
    bad_table('providers: record 2: BadUuid', why='a fault of the query is not looked for', command=('tokens', ''),
              providers=rows('providers', 'xyz,P1,')),
    bad_table('inventories: record 2: BadNumber', why='the fields in their own order, and not in the header\'s',
              inventories=rows('inventories', '1.,P1,VCPU,0,1,8,1,8.0', header='allocation_ratio,resource_provider,resource_class,'
                               'reserved,min_unit,max_unit,step_size,total\n')),
    bad_table('traits: record 2: Width', why='before its fields', traits=rows('traits', 'xyz,hw_x,')),
    bad_table('traits: record 2: BadUuid', why='before the trait', traits=rows('traits', 'xyz,hw_x')),
    bad_table('aggregates: record 2: BadUuid', aggregates=rows('aggregates', 'P1,None')),
    bad_table('providers: record 2: ParentCycle', why='of a provider below the cycle',
              providers=rows('providers', 'P3,P3,P1', 'P1,P1,P2', 'P2,P1,P1')),
    bad_table('providers: record 3: ParentCycle', why='before a wrong root', providers=rows('providers', 'P1,P2,', 'P2,P2,P2')),
    bad_table('providers: record 2: WrongRoot', why='a root of no table', providers=rows('providers', 'P1,P7,')),
    bad_table('usages: record 3: Duplicate', usages=rows('usages', 'P1,VCPU,1', 'P1,VCPU,1')),
    bad_table('usages: record 2: UnknownProvider', why='before NoInventory', usages=rows('usages', 'P2,MEMORY_MB,1')),
    bad_table('inventories: record 2: UnknownProvider', why='before a fault of the usages', inventories=one_inventory(of='P2'), usages=''),
    *(bad_table('providers: record 2: BadUuid', why=f'{text!r} for the parent', providers=rows('providers', f'P1,P1,{text}'))
      for text in ('none', ' ', 'P2 ')),
    *(bad_table('inventories: record 2: BadClass', why=repr(text), inventories=one_inventory(kind=text)) for text in (' VCPU', '', 'A' * 256)),
    *(bad_table('inventories: record 2: BadNumber', why=repr(text), inventories=one_inventory(min_unit=text))
      for text in ('', '+8', '-1', ' 8', '2147483648', '00000000008')),
    *(bad_table('inventories: record 2: BadRatio', why=repr(text), inventories=one_inventory(allocation_ratio=text))
      for text in ('', '.5', '1.', '+1', '1e3', '00000001', '9999999', '1.0 ', '1.0.0', '1.23456x')),
    counted('the longest and the least forms of numbers', (1, 1, 0, 0, 0),
            inventories=one_inventory(total='0000000008', min_unit=9, max_unit=0, allocation_ratio='1000000.0000')),
    counted('a column needed elsewhere is there twice', (1, 1, 0, 0, 0),
            providers=rows('providers', 'P1,P1,,a,b', header=HEADERS['providers'].strip() + ',name,name\n')),
    counted('names of all sorts', (6, 1, 0, 0, 0),
            providers=rows('providers', 'P1,P1,,"a, b"', 'P2,P2,,"say ""hi"""', 'P3,P3,,"two\nlines"', 'P4,P4,,"two\nlines"', 'P5,P5,,',
                           'P6,P6,,' + 'x' * 65536, header=HEADERS['providers'].strip() + ',name\n')),
    counted('quotes within a field, and each end of a record', (2, 1, 0, 0, 0),
            providers=HEADERS['providers'].replace('\n', '\r') + full('"00000000-"0000-0000-0000-000000000001,P1,""\r\n\r\nP2,P2,None')),
    bad_table('providers: record 2: BadUuid', why='a quote that begins no field', providers=HEADERS['providers'] + full(' "P1",P1,')),
    *(Case(f'tokens: the byte 255 in a column {column}', ['tokens', 'resources=VCPU:2'], lines('P1'),
           tables={**tables(ONE), 'providers': rows('providers', 'P1,P1,,\xff', header=f'{HEADERS["providers"].strip()},{column}\n')
                   .encode('latin-1')})
      for column in ('note', 'name')),
    Case('tokens: a byte order mark, CR LF', ['tokens', 'resources=VCPU:2'], lines('P1'),
         tables={**tables(ONE), 'providers': '\ufeff' + tables(ONE)['providers'].replace('\n', '\r\n')}),
    *(bad_table(f'{table}: record 1: MissingColumn', why=column,
                **{table: HEADERS[table].replace(column, column + '_', 1) if column != 'uuid' else 'id' + HEADERS[table].replace('uuid', 'id')})
      for table in HEADERS for column in COLUMNS[table][:1]),
]


def bad_headers(table):
    """No record, a column that isn't there, and one that is there twice; and where both are so, the one that isn't there."""
    columns = COLUMNS[table]
    for kind, why, header in (('NoHeader', 'no record', []), ('NoHeader', 'empty lines', ['\n\r\n']), ('MissingColumn', 'all but the first', columns[1:]),
                              ('MissingColumn', 'all but the last', columns[:-1]), ('MissingColumn', 'all but the last, twice', columns[:-1] * 2),
                              ('DoubleColumn', 'all but the first, twice', columns + columns[1:])):
        yield bad_table(f'{table}: record 1: {kind}', why=why, **{table: ','.join(header)})


NAMED = 'name,' + HEADERS['providers']
LETTERS, FINE = 'A' * 255, (1, 1, 0, 0, 0)
RECORDS = [
    ('providers', '2: Width', 'P1,P1,,'), ('providers', '2: BadUuid', 'P1,xyz,'), ('providers', '2: BadUuid', 'P1,P1,xyz'),
    ('inventories', '2: BadUuid', 'xyz,VCPU,8,0,1,8,1,1'), ('inventories', '2: BadClass', 'P1,,8,0,1,8,1,1'),
    ('inventories', '2: BadNumber', 'P1,VCPU,8,-1,1,8,1,1'), ('inventories', '2: BadNumber', 'P1,VCPU,8,0,,8,1,1'),
    ('inventories', '2: BadNumber', 'P1,VCPU,8,0,1,2147483648,1,1'), ('inventories', '2: BadNumber', 'P1,VCPU,8,0,1,8,+1,1'),
    ('inventories', '4: Duplicate', 'P1,VCPU,8,0,1,8,1,1', 'P1,PGPU,8,0,1,8,1,1', 'P1,VCPU,9,0,1,8,1,1'),
    ('usages', '2: Width', 'P1,VCPU'), ('usages', '2: BadUuid', 'xyz,VCPU,1'), ('usages', '2: BadClass', 'P1,vcpu,1'),
    ('usages', '2: BadNumber', 'P1,VCPU,1.0'), ('usages', '2: UnknownProvider', 'P2,VCPU,1'), ('usages', '2: NoInventory', f'P1,{LETTERS},1'),
    ('traits', '2: Width', 'P1,A,'), ('traits', '2: BadUuid', 'xyz,A'), ('traits', '2: BadTrait', 'P1,'), ('traits', '3: UnknownProvider', 'P1,A', 'P2,A'),
    ('aggregates', '2: Width', 'P1'), ('aggregates', '2: BadUuid', 'xyz,A1'), ('aggregates', '3: UnknownProvider', 'P1,A1', 'P2,A1'),
    # Names, numbers and UUIDs that are too long, a little and much.
    *(('inventories', '2: BadClass', f'P1,{"A" * size},8,0,1,8,1,1.0') for size in (300, 100000)),
    *(('usages', '2: BadClass', f'P1,{"A" * size},1') for size in (256, 300, 100000)),
    *(('traits', '2: BadTrait', f'P1,{"A" * size}') for size in (256, 300, 100000)),
    *(('inventories', '2: BadNumber', f'P1,VCPU,{"0" * size}8,0,1,8,1,1.{"0" * size}') for size in (10, 300, 100000)),
    *(('inventories', '2: BadRatio', f'P1,VCPU,8,0,1,8,1,1.{"0" * size}1') for size in (9, 10, 300, 100000)),
    *(('providers', '2: BadUuid', f'{"0" * size},P1,') for size in (37, 300, 100000)),
    *(('aggregates', '2: BadUuid', f'P1,{"0" * size}') for size in (37, 300, 100000)),
]

TABLES += [
    *(case for table in HEADERS for case in bad_headers(table)),
    *(bad_table(f'{table}: record {line}', why='; '.join(records)[:60], **{table: rows(table, *records)}) for table, line, *records in RECORDS),
    *(bad_table(f'providers: record {line}', why=f'{why}, beside a name', providers=rows('providers', *records, header=NAMED)) for line, why, *records in (
        ('2: Width', 'two names', 'a,b,P1,P1,'), ('2: BadUuid', 'no UUID', 'a,x,P1,'), ('3: Duplicate', 'one provider twice', 'a,P1,P1,', 'b,P1,P1,'))),
    bad_table('providers: record 1: MissingColumn', why='a name alone', providers='name'),
    bad_table('inventories: record 2: BadClass', why='a hyphen', inventories=one_inventory(kind='CUSTOM-GOLD')),
    *(counted(f'a ratio of {text}', FINE, inventories=one_inventory(allocation_ratio=text)) for text in ('0', '0.125', '1.2345670000', '999999.999999')),
    *(bad_table('inventories: record 2: BadRatio', why=repr(text), inventories=one_inventory(allocation_ratio=text)) for text in ('1.23456700001', '1.234567 ')),
    counted('a trait of 255 letters', (1, 1, 0, 1, 0), traits=rows('traits', f'P1,{LETTERS}')),
    counted('a class of 255 letters', FINE, inventories=one_inventory(kind=LETTERS)),
    counted('zeros before a number, and behind a ratio', FINE, inventories=one_inventory(total='0' * 9 + '8', allocation_ratio='1.' + '0' * 9)),
    # Columns that aren't needed, before those that are: none is too many, and each record has them all.
    *(case for count in (62, 65, 300, 5000) for more, least, needed in [('note,' * count, 'x,' * count, HEADERS['providers'])] for case in (
        counted(f'{count} columns that are not needed', FINE, providers=more + needed + full(f'{least}P1,P1,\n')),
        bad_table('providers: record 2: Width', why=f'{count} columns', providers=more + needed + full('P1,P1,\n')),
        bad_table('providers: record 1: MissingColumn', why=f'{count} columns', providers=more + needed.removeprefix('uuid,')),
        bad_table('providers: record 1: DoubleColumn', why=f'{count} columns', providers='uuid,' + more + needed))),
]


def named_host(name, host, shown, found, *records, header=NAMED):
    """`why` must find this provider by a text, in a table of providers with names; one class of it has room. Its name is shown in this way."""
    out = 'slot,suffix,asks,provider,name,lacks,detail\n' + ''.join(
        full(f'{slot},,{asks},{found},{shown},,{end}\n') for slot, asks, end in (('1', 'VCPU:2', ''), ('root', '', ''), ('verdict', '', 'fits')))
    return Case(f'why: {name}', ['why', 'resources=VCPU:2', host], out, tables={**tables(ONE), 'providers': rows('providers', *records, header=header)})


HOSTS = [
    named_host('a host by a name of two lines', 'two\nlines', 'two?lines', 'P1', '"two\nlines",P1,P1,'),
    *(named_host(f'a host by a name of {len(name)} bytes', name, f'"{name}"', 'P1', f'"{name}",P1,P1,') for name in ('n,' * 128, 'n,' * 32768)),
    named_host('a host by its name in the first of two columns', 'cmp-1', 'cmp-1', 'P1', 'cmp-1,P1,P1,,cmp-2', header=NAMED.strip() + ',name\n'),
    Case('why: a name in the second of two columns', ['why', 'resources=VCPU:2', 'cmp-2'], err='host: Unknown\n', status=5,
         tables={**tables(ONE), 'providers': rows('providers', 'cmp-1,P1,P1,,cmp-2', header=NAMED.strip() + ',name\n')}),
]

# Nearly 65536 bytes: 1900 groups, each with a list that names it.
MANY_LISTED = '&'.join(['resources=VCPU:1', *(f'required{n}=A' for n in range(1900)), *(f'same_subtree={n}' for n in range(1900))])

QUERIES = [
    bad_query('QueryTooLong', 'a' * 65537, shown='65537 letters'),
    bad_query('pair 2: UnknownParameter', 'resources=VCPU:1&colour=red'),
    bad_query('pair 2: Repeated', 'limit=1&limit=1&resources=VCPU:1'),
    bad_query('pair 1: BadValue', 'resources=VCPU:0'),
    bad_query('pair 1: BadValue', 'resources=VCPU:2147483648'),
    bad_query('pair 1: BadValue', 'resources=VCPU:1,VCPU:1'),
    bad_query('pair 1: BadValue', 'resources'),
    bad_query('pair 2: BadValue', 'resources=VCPU:1&member_of=A1,A1'),
    bad_query('pair 2: BadValue', 'resources=VCPU:1&required=A,!A,a'),
    bad_query('pair 2: BadValue', 'resources=VCPU:2&limit=0'),
    bad_query('pair 2: BadValue', BOTH + 'in:CUSTOM_A,CUSTOM_X&required=CUSTOM_B', DEVICES),
    bad_query('pair 3: Repeated', 'resources=VCPU:1&required=CUSTOM_A&required=CUSTOM_A', DEVICES),
    bad_query('pair 2: Repeated', 'limit=1&%6Cimit=x'),
    bad_query('pair 2: Conflict', 'resources=VCPU:1&required=A,!A'),
    bad_query('pair 2: Conflict', 'resources=VCPU:1&root_required=!A,A'),
    bad_query('NoResources', ''),
    bad_query('NoResources', 'required=A'),
    bad_query('group "": GroupWithoutResources', 'resources1=VCPU:1&required=A'),
    bad_query('group "_NUMA": GroupWithoutResources', 'resources_PF=VCPU:1&required_NUMA=HW_NUMA_ROOT', NUMA),
    bad_query('group "2": UnknownSuffix', 'resources1=VCPU:1&same_subtree=1,2'),
    bad_query('PolicyMissing', 'resources1=VCPU:1&resources2=VCPU:1'),
    bad_query('TooManySlots', '&'.join(f'resources{n}=VCPU:1' for n in range(1, 66)) + '&group_policy=none', shown='65 groups'),
    bad_query('TooManySlots', 'resources1=' + ','.join(f'C{n}:1' for n in range(1, 258)), shown='257 classes'),
    bad_query('pair 1: UnknownParameter', 'colour=red&resources=VCPU:0'),
    bad_query('pair 1: UnknownParameter', 'resources%3DVCPU:1'),
    bad_query('pair 1: UnknownParameter', 'resources' + 'a' * 65 + '=VCPU:1', shown='a suffix of 65 letters'),
    bad_query('pair 1: UnknownParameter', 'limit1=1&resources=VCPU:1'),
    bad_query('pair 1: BadValue', f'resources={"A" * 256}:1', shown='a class of 256 letters'),
    found('a class of 255 letters, which nobody has', ONE, f'resources={"A" * 255}:1'),
    *(bad_query('pair 1: UnknownParameter', name + '=1') for name in ('Resources', 'root_required1', 'group_policy1', 'same_subtree1', '', 'required.')),
    *(bad_query('pair 2: BadValue', 'resources=VCPU:1&' + pair) for pair in (
        'required', 'required=', 'required=A,', 'required=!', 'required=!!A', 'member_of=in:', 'member_of=!in:', 'member_of=in:A1,', 'member_of=IN:A1',
        'member_of=!!A1', 'member_of=in:!A1', 'in_tree=', 'in_tree=A1,A1', 'group_policy=None', 'same_subtree=', 'same_subtree=1,', 'limit=', 'limit=-1')),
    *(bad_query('pair 1: BadValue', 'resources=' + value) for value in ('', 'VCPU', 'VCPU:', ':1', 'VCPU:1,', 'VCPU:1:1', 'VCPU:+1', 'vcpu:1', '%FF:1')),
    bad_query('TooManySlots', 'resources=' + ','.join(f'C{n}:1' for n in range(1, 66)), shown='65 classes without a suffix'),
    bad_query('group "1": GroupWithoutResources', 'resources2=VCPU:1&required10=A&required1=A&same_subtree=a'),
    bad_query('group "10": UnknownSuffix', 'resources1=VCPU:1&resources3=VCPU:1&same_subtree=2,10'),
    found('UUIDs in other forms', ONE, 'resources=VCPU:1&in_tree=urn:uuid:P1&member_of=!{A1}', 'P1', after='{P0}'),
    found('a repeated aggregate, a policy that is not needed', MEMBER, 'resources=VCPU:1&member_of=in:A1,A1&group_policy=isolate', 'P2'),
    found('the slot of 10 comes before that of 2', MEMORY, 'resources2=VCPU:1&resources10=MEMORY_MB:1&group_policy=none', 'P1,P1', 'P1,P2'),
    found('a query in another form', ONE, '&resources=VCPU%3A2&', 'P1'),
    found('256 classes in one group', ONE, 'resources1=' + ','.join(f'C{n}:1' for n in range(1, 257))),
    # Names as long as they may be, and longer, a little and much.
    *(found(f'{shown} of {count} letters', ONE, query.replace('#', 'A' * count), *hosts) if count <= most
      else bad_query(fault, query.replace('#', 'A' * count), shown=f'{shown} of {count} letters')
      for shown, query, most, fault, *hosts in (('a class', 'resources=#:1', 255, 'pair 1: BadValue'), ('a trait', 'resources=VCPU:1&required=#', 255, 'pair 2: BadValue'),
                                                ('a suffix', 'resources#=VCPU:1', 64, 'pair 1: UnknownParameter', 'P1'))
      for count in (64, 65, 255, 256, 300, 60000)),
    bad_query('pair 1: UnknownParameter', 'a' * 65536, shown='65536 letters'),
    *(bad_query(line, '&'.join([MANY_LISTED, *more]), shown='1900 groups in lists')
      for line, *more in (('TooManySlots',), ('group "-": UnknownSuffix', 'same_subtree=-'))),
]

WORDS_NEEDED = 'error: the following required arguments were not provided:\n'
WORDS_BESIDE = "error: the argument '--tables <DIR>' cannot be used with:\n"
WORDS_VERSION = "error: invalid value '1.40' for '--microversion <VERSION>': it is 1.36 to 1.39\n"
WORDS_USAGE = '\nUsage: ac_cli tokens [OPTIONS] --tables <DIR> <QUERY>\n       ac_cli tokens [OPTIONS] --providers <FILE> --inventories <FILE> <QUERY>\n'


def words_told(line, *says):
    """Words that are refused in these lines and no other, and with how `tokens` is used."""
    return Case(f'refused words: {line}', line.split(' '), err=SOME, status=2, has=(''.join(says) + WORDS_USAGE,))


def each_file(*names):
    return [f'  --{name} <FILE>\n' for name in names]


WORDS = [
    *(Case(f'refused words: {line}', line.split(' '), err=SOME, status=2) for line in (
        'help other', 'check', 'check --inventories b --usages c --traits d --aggregates e', '--tables d check', 'tokens q --providers a --inventories',
        'tokens q --providers a --inventories b --usages', 'tokens q --providers a --inventories b --after -t',
        'candidates q --providers a --inventories b --traits c --traits c', 'candidates q --providers a --inventories b --after t --after t',
        'verify q -t --providers a --inventories b', 'verify q t t --providers a --inventories b', 'why --providers a --inventories b',
        '--detail', 'check --detail=true --tables d', 'session --details --tables d', 'verify q t --tables --detail',
        'tokens q --detail=yes --tables d', 'verify q t --providers a --inventories b --microversion=1.390')),
    words_told('tokens q', WORDS_NEEDED, '  --tables <DIR>\n'),
    words_told('tokens q --usages c --traits d --aggregates e', WORDS_NEEDED, *each_file('providers', 'inventories')),
    words_told('tokens q --providers a', WORDS_NEEDED, *each_file('inventories')),
    words_told('tokens q --inventories b', WORDS_NEEDED, *each_file('providers')),
    words_told('tokens q --tables d --providers a', WORDS_BESIDE, *each_file('providers')),
    words_told('tokens q --inventories b --tables d', WORDS_BESIDE, *each_file('inventories')),
    words_told('tokens --tables d --usages c q', WORDS_BESIDE, *each_file('usages')),
    words_told('tokens q --tables=d --traits=d', WORDS_BESIDE, *each_file('traits')),
    words_told('tokens q --tables= --aggregates=', WORDS_BESIDE, *each_file('aggregates')),
    words_told('tokens q --providers a --tables d --inventories b', WORDS_BESIDE, *each_file('providers', 'inventories')),
    # A version that isn't known is told before the tables.
    words_told('tokens q --microversion 1.40', WORDS_VERSION),
    words_told('tokens q --microversion 1.40 --tables d --traits d', WORDS_VERSION),
    # Options in front of other words and behind them, with blanks and with equals signs; behind `--` a word like any other.
    *(Case(f'words: {line}', full(line).split(' '), out, err, status, tables=tables(CHILD)) for line, out, err, status in (
        ('tokens --after=P1 resources=VCPU:8', lines('P2'), '', 0), ('tokens --detail --microversion=1.36 resources=VCPU:8 --after P1', lines('P2'), '', 0),
        ('fill --sum --detail resources=VCPU:8', 'at least 2, at most 2: short of VCPU at 1 host\n', '', 0),
        ('fill resources=VCPU:8 --microversion 1.39 --sum', 'at least 2, at most 2: short of VCPU at 1 host\n', '', 0),
        ('verify resources=VCPU:8 --microversion 1.39 P2', 'candidate\n', '', 0), ('verify --detail a?resources=VCPU:9 P2', full(f'no: rule 1 Units: slot 1 on P2, {NOT_WITHIN}\n'), '', 1),
        ('verify a?resources=VCPU:8 b?P2', '', 'token: BadToken\n', 5), ('verify  ', '', 'query: NoResources\n', 4), ('tokens resources=VCPU:8 --after ', '', 'token: BadToken\n', 5))),
    *(Case(f'words: {line}', line.split(' '), '', err, status) for line, err, status in (
        ('tokens --tables examples/cloud -- --detail', 'query: pair 1: UnknownParameter\n', 4), ('verify resources=VCPU:1 --tables examples/cloud -- -t', 'token: BadToken\n', 5),
        ('verify --detail --tables examples/cloud -- resources=VCPU:1 -t', SOME, 5), ('why --tables=examples/cloud --detail -- resources=VCPU:1 -h', SOME, 5))),
]

TWO_FIT = '"resources=VCPU:2,MEMORY_MB:512"'
CAPACITIES = [
    capacity('a row for each flavor, in the order of the table', TWO_SHORT, f'flavor,query\nb,{TWO_FIT}\na,resources=VCPU:8\n', 'b,2,4,4,1,MEMORY_MB,1', 'a,1,1,1,1,VCPU,1'),
    capacity('what most hosts are short of', TWO_SHORT + '\nP4 | | VCPU total 2; MEMORY_MB total 4096', f'flavor,query\nb,{TWO_FIT}\n', 'b,3,5,5,1,VCPU,2'),
    capacity('fewer than are wanted, and just as many', APART, 'flavor,query,wanted\na,resources=VCPU:4,5\na,resources=VCPU:4,4\n', 'a,2,4,4,5,VCPU,2', 'a,2,4,4,4,VCPU,2', status=1),
    capacity('none is wanted, and none fits', APART, 'flavor,query,wanted\na,resources=VCPU:9,0\n', 'a,0,0,0,0,units VCPU:9,2'),
    capacity('nobody has the class', APART, 'flavor,query\na,resources=VGPU:1\n', 'a,0,0,0,1,no inventory VGPU:1,2', status=1),
    capacity('the trait of a host', OLD, 'flavor,query\na,resources=VCPU:1&root_required=CUSTOM_A\n', 'a,0,0,0,1,root traits,2', status=1),
    capacity('a required trait', OLD, 'flavor,query\na,resources=VCPU:1&required=CUSTOM_A\n', 'a,0,0,0,1,required traits,2', status=1),
    capacity('the first of what as many lack', OLD, 'flavor,query\na,resources=VCPU:1&root_required=CUSTOM_OLD&required=CUSTOM_A\n', 'a,0,0,0,1,root traits,1', status=1),
    capacity('a limit says nothing', APART, 'flavor,query\na,resources=VCPU:4&limit=1\n', 'a,2,4,4,1,VCPU,2'),
    capacity('more can be placed than by first fit', CHILD, f'flavor,query\na,{THREE_AND_THREE}\n', 'a,1,2,4,1,VCPU,1'),
    capacity('a shared disk', SHARED, f'flavor,query\na,"{DISKS_TOO}"\n', 'a,2,3,3,1,DISK_GB,2'),
    capacity('columns in any order, others beside them, and a mark of UTF-8 before them', ONE, '\ufeffid,wanted,query,flavor\n7,,resources=VCPU:4,a\n', 'a,1,2,2,1,VCPU,1'),
    capacity('names that need quotes, and one that is empty', ONE, 'flavor,query\n"a,""b""\nc",resources=VCPU:4\n,resources=VCPU:4\n', '"a,""b""\nc",1,2,2,1,VCPU,1', ',1,2,2,1,VCPU,1'),
    capacity('no flavor', ONE, 'flavor,query\n'),
    capacity('of the column wanted the first counts, as of a name of a provider', ONE, 'wanted,flavor,query,wanted\n3,a,resources=VCPU:4,1\n', 'a,1,2,2,3,VCPU,1', status=1),
    bad_flavors('record 1: NoHeader', ''),
    bad_flavors('record 1: MissingColumn', 'flavor,wanted\na,1\n'),
    bad_flavors('record 1: MissingColumn', 'Flavor,query\n', why='by the case of a letter'),
    bad_flavors('record 1: DoubleColumn', 'query,flavor,query\n'),
    bad_flavors('record 1: MissingColumn', 'query,query\n', why='before one that is there twice'),
    bad_flavors('record 2: Width', 'flavor,query\na\n'),
    bad_flavors('record 3: BadNumber', 'flavor,query,wanted\na,resources=VCPU:1,2\na,resources=VCPU:1,-1\n'),
    bad_flavors('record 2: BadNumber', 'flavor,query,wanted\na,resources=VCPU:1,2147483648\n', why='beyond the greatest'),
    bad_flavors('record 3: BadQuery', 'flavor,query\na,resources=VCPU:1\nb,\n'),
    bad_flavors('record 3: BadQuery', 'flavor,query\na,resources=VCPU:1\nb,\n', '--detail', detail='query: NoResources\n'),
    bad_flavors('record 2: BadQuery', b'flavor,query\na,resources=VCPU:1\xff\n', why='no UTF-8'),
    bad_flavors('record 2: BadQuery', b'flavor,query\na,resources=VCPU:1\xff\n', '--detail', why='no UTF-8, in detail'),
    bad_flavors('record 2: BadQuery', 'flavor,query\na,resources=VCPU:1&required=A&required=B\n', why='by version 1.36'),
    Case('capacity: by version 1.39', ['capacity', '--microversion', '1.39'], CAPACITY_HEAD + 'a,0,0,0,1,required traits,1\n', status=1,
         tables={**tables(ONE), 'flavors': 'flavor,query\na,resources=VCPU:1&required=A&required=B\n'}),
    bad_flavors('record 3: Width', 'flavor,query\na,\nb\n', why='before a query in an earlier record'),
    bad_table('usages: record 2: BadUuid', command=('capacity',), flavors='', usages=HEADERS['usages'] + 'x,VCPU,1\n', why='before the flavors'),
    Case('capacity: a search that stops', ['capacity', '--tries', '1'], '', 'search: TooManyTries\n', 8, {**tables(APART), 'flavors': 'flavor,query\na,resources=VCPU:1\n'}),
]

FULL_METRICS = '''\
# HELP ac_flavor_hosts Root providers at which the flavor fits.
# TYPE ac_flavor_hosts gauge
ac_flavor_hosts{flavor="b"} 2
ac_flavor_hosts{flavor="say \\"hi\\", \\\\o/"} 0
# HELP ac_flavor_at_least Placements by first fit.
# TYPE ac_flavor_at_least gauge
ac_flavor_at_least{flavor="b"} 4
ac_flavor_at_least{flavor="say \\"hi\\", \\\\o/"} 0
# HELP ac_flavor_at_most Placements in any order at most.
# TYPE ac_flavor_at_most gauge
ac_flavor_at_most{flavor="b"} 4
ac_flavor_at_most{flavor="say \\"hi\\", \\\\o/"} 0
# HELP ac_flavor_wanted Placements that are wanted.
# TYPE ac_flavor_wanted gauge
ac_flavor_wanted{flavor="b"} 3
ac_flavor_wanted{flavor="say \\"hi\\", \\\\o/"} 1
# HELP ac_flavor_short_at Root providers that are short of the label short_of.
# TYPE ac_flavor_short_at gauge
ac_flavor_short_at{flavor="b",short_of="MEMORY_MB"} 1
ac_flavor_short_at{flavor="say \\"hi\\", \\\\o/",short_of="units VCPU:9"} 2
'''
ODD_FLAVORS = 'flavor,query\n' + ''.join(f'"{name}",resources=VCPU:4\n' for name in ('a""b\\c', '\\', '\\\\n""', 'two\nlines\r\n', '\x1b[2J\x7f', 'Z\u00fcrich \u20ac5, {x=1} #', ''))
OF_NONE = {name: HEADERS[name] for name in ('providers', 'inventories')}
METRICS = [
    Case('capacity, as metrics: each line', ['capacity', '--prometheus'], FULL_METRICS, status=1,
         tables={**tables(TWO_SHORT), 'flavors': f'flavor,query,wanted\nb,{TWO_FIT},3\n"say ""hi"", \\o/",resources=VCPU:9,\n'}),
    measured('in the order of the table', TWO_SHORT, f'flavor,query\nb,{TWO_FIT}\na,resources=VCPU:8\n', ('b', 2, 4, 4, 1, 'MEMORY_MB', 1), ('a', 1, 1, 1, 1, 'VCPU', 1)),
    measured('more can be placed than by first fit', CHILD, f'flavor,query\na,{THREE_AND_THREE}\n', ('a', 1, 2, 4, 1, 'VCPU', 1)),
    measured('fewer than are wanted', APART, 'flavor,query,wanted\na,resources=VCPU:4,5\n', ('a', 2, 4, 4, 5, 'VCPU', 2), status=1),
    measured('none is wanted, and none fits', APART, 'flavor,query,wanted\na,resources=VCPU:9,0\n', ('a', 0, 0, 0, 0, 'units VCPU:9', 2)),
    measured('nobody has the class', APART, 'flavor,query\na,"resources=MEMORY_MB:1&resources_A=VGPU:1,VCPU:1"\n',
             ('a', 0, 0, 0, 1, 'no inventory MEMORY_MB:1', 2), status=1),
    measured('a lack without a slot', OLD, 'flavor,query\na,resources=VCPU:1&root_required=CUSTOM_A\n', ('a', 0, 0, 0, 1, 'root traits', 2), status=1),
    measured('no flavor', ONE, 'flavor,query\n'),
    measured('odd names', ONE, ODD_FLAVORS, *((name, 1, 2, 2, 1, 'VCPU', 1) for name in ('a"b\\c', '\\', '\\\\n"', 'two?lines??', '?[2J?', 'Z\u00fcrich \u20ac5, {x=1} #', ''))),
    Case('capacity, as metrics: names that are no text', ['capacity', '--prometheus'], metrics_of([('a?b', 1, 2, 2, 1, 'VCPU', 1), ('???x', 1, 2, 2, 1, 'VCPU', 1)]),
         tables={**tables(ONE), 'flavors': b'flavor,query\na\xffb,resources=VCPU:4\n\xf0\x9f\x98x,resources=VCPU:4\n'}),
    Case('capacity, as metrics: of no provider, a flavor is short of nothing', ['capacity', '--prometheus'], metrics_of([('a', 0, 0, 0, 1, '', '')]), status=1,
         tables={**OF_NONE, 'flavors': 'flavor,query\na,resources=VCPU:1\n'}),
    Case('capacity, as metrics: by version 1.39', ['capacity', '--prometheus', '--microversion', '1.39'], metrics_of([('a', 0, 0, 0, 1, 'required traits', 1)]), status=1,
         tables={**tables(ONE), 'flavors': 'flavor,query\na,resources=VCPU:1&required=A&required=B\n'}),
    bad_flavors('record 3: BadQuery', 'flavor,query\na,resources=VCPU:1\nb,\n', '--prometheus', why='as metrics'),
    bad_flavors('record 1: MissingColumn', 'flavor,wanted\na,1\n', '--prometheus', why='as metrics'),
    bad_table('usages: record 2: BadUuid', command=('capacity', '--prometheus'), flavors='', usages=HEADERS['usages'] + 'x,VCPU,1\n', why='before the flavors, as metrics'),
    Case('capacity, as metrics: a search that stops', ['capacity', '--prometheus', '--tries', '1'], '', 'search: TooManyTries\n', 8,
         {**tables(APART), 'flavors': 'flavor,query\na,resources=VCPU:1\n'}),
]

# A provider or more for each thing that can be amiss, and what is said of it. P8 shares with P1 and P5, which are in A3, and isn't there itself.
PLANTED = '''P1 | | VCPU total 8, reserved 2, max_unit 9, allocation_ratio 1.5, used 10; DISK_GB total 10 | | A1, A3 | cmp-1
P2 | P1 | VGPU total 2, min_unit 3, max_unit 4, used 0; PCPU total 4, step_size 5, used 0; MEMORY_MB total 64, min_unit 9, max_unit 8, used 0
P3 | | DISK_GB total 50, used 50 | MISC_SHARES_VIA_AGGREGATE | A2 | nfs-1
P4 | | DISK_GB total 50, used 0 | MISC_SHARES_VIA_AGGREGATE | | nfs-2
P5 | | | MISC_SHARES_VIA_AGGREGATE | A1, A3 | nfs-3
P6 | | | | | cmp-6
P7 | | VCPU total 8, used 0 | COMPUTE_STATUS_DISABLED | | cmp-6
P8 | | CUSTOM_X total 5, used 0 | MISC_SHARES_VIA_AGGREGATE | A1 | ceph'''
INSIDE = (
    'over capacity,P1,cmp-1,VCPU: 10 used of 9',
    'never fits,P2,,"MEMORY_MB: min_unit 9, max_unit 8, step_size 1, capacity 64"',
    'never fits,P2,,"PCPU: min_unit 1, max_unit 4, step_size 5, capacity 4"',
    'never fits,P2,,"VGPU: min_unit 3, max_unit 4, step_size 1, capacity 2"',
    'shares with nobody,P3,nfs-1,in no aggregate of another tree',
    'shares with nobody,P4,nfs-2,in no aggregate',
    'shares nothing,P5,nfs-3,no inventory',
    'no inventory,P5,nfs-3,no provider of its tree has one',
    'no inventory,P6,cmp-6,no provider of its tree has one',
    'no storage,P7,cmp-6,"VCPU in its tree, and no DISK_GB there, its own or shared"',
)
OUTSIDE = 'outside its hosts\' aggregates,P8,ceph,"not in A3, where 2 of its hosts are"'
BEHIND = (
    'name twice,P6,cmp-6,2 providers have it',
    'name twice,P7,cmp-6,2 providers have it',
    'no usage,,,1 of 9 inventories have no row',
    'disabled,P7,cmp-6,trait COMPUTE_STATUS_DISABLED',
)
SOUND = '''P1 | | VCPU total 8, allocation_ratio 1.5, used 12; MEMORY_MB total 4096, min_unit 256, step_size 256, used 0 | CUSTOM_A | A1, A2 | cmp-1
P2 | P1 | SRIOV_NET_VF total 4, used 1 | HW_NIC_SRIOV | | cmp-1_PF0
P3 | | VCPU total 8, used 0; DISK_GB total 100, used 0 | COMPUTE_NODE | A3 | cmp-3
P9 | | DISK_GB total 100, min_unit 10, max_unit 100, step_size 10, used 100 | MISC_SHARES_VIA_AGGREGATE | A1, A2 | ceph'''
NO_DISK, BOTH_LACK = '"VCPU in its tree, and no DISK_GB there, its own or shared"', 'in no aggregate of another tree'
SHARER = 'PCPU total 8, used 0 | MISC_SHARES_VIA_AGGREGATE'

# What an inventory is, and where no amount of it can be had, its four numbers that say so: min_unit, max_unit, step_size, capacity.
UNITS = [
    ('total 8', None), ('total 8, min_unit 8, step_size 8', None), ('total 8, min_unit 9', (9, 8, 1, 8)), ('total 8, step_size 9', (1, 8, 9, 8)),
    ('total 8, min_unit 5, max_unit 7, step_size 4', (5, 7, 4, 8)), ('total 8, min_unit 5, max_unit 8, step_size 4', None),
    ('total 8, reserved 1, min_unit 5, max_unit 8, step_size 4', (5, 8, 4, 7)), ('total 8, reserved 8', (1, 8, 1, 0)), ('total 0', (1, 0, 1, 0)),
    ('total 0, max_unit 8', (1, 8, 1, 0)), ('total 8, max_unit 0', (1, 0, 1, 8)), ('total 8, min_unit 0, max_unit 0', (0, 0, 1, 8)),
    ('total 8, min_unit 0, max_unit 1', None), ('total 8, min_unit 0, step_size 8', None), ('total 8, min_unit 0, max_unit 9, step_size 9', (0, 9, 9, 8)),
    ('total 8, min_unit 9, max_unit 20, allocation_ratio 1.125', None), ('total 8, min_unit 9, max_unit 20, allocation_ratio 1.124999', (9, 20, 1, 8)),
    ('total 8, allocation_ratio 0', (1, 8, 1, 0)), ('total 1, allocation_ratio 0.999999', (1, 1, 1, 0)), ('total 8, min_unit 4, max_unit 5, step_size 3', (4, 5, 3, 8)),
    ('total 8, min_unit 4, max_unit 6, step_size 3', None), ('total 8, min_unit 3, max_unit 5, step_size 3', None),
    (f'total {GREATEST}, min_unit {GREATEST}, step_size {GREATEST}, allocation_ratio 1000000', None),
    (f'total {GREATEST}, min_unit {GREATEST}, step_size 2, allocation_ratio 1000000', (GREATEST, GREATEST, 2, GREATEST * 1000000)),
    (f'total {GREATEST}, reserved 1, step_size {GREATEST}', (1, GREATEST, GREATEST, GREATEST - 1)),
    (f'total {GREATEST}, min_unit {GREATEST - 1}, step_size {GREATEST - 1}', None),
    (f'total {GREATEST}, min_unit {GREATEST}, step_size {GREATEST - 1}', (GREATEST, GREATEST, GREATEST - 1, GREATEST)),
    (f'total 1, min_unit {GREATEST}, max_unit {GREATEST}, step_size {GREATEST - 1}, allocation_ratio 1000000', (GREATEST, GREATEST, GREATEST - 1, 1000000)),
]


def never_fits(units, numbers):
    detail = '"PCPU: min_unit {}, max_unit {}, step_size {}, capacity {}"'.format(*numbers) if numbers else ''
    return audited(f'units: {units}', f'P1 | | PCPU {units}, used 0', *([f'never fits,P1,,{detail}'] if numbers else []))


AUDITS = [
    audited('each thing once', PLANTED, *INSIDE, *BEHIND),
    audited('each thing, of a zone in which the storage of its hosts is not', PLANTED, *INSIDE, OUTSIDE, *BEHIND, zone='A3'),
    *(audited(f'of a zone, {why}', PLANTED, *INSIDE, *BEHIND, zone=zone) for why, zone in (
        ('in which its storage is', 'A1'), ('of storage that nobody uses', 'A2'), ('of nobody', 'A7'), ('that is the UUID of a provider', 'P1'))),
    *(audited(f'of a zone that is written {zone}', PLANTED, *INSIDE, OUTSIDE, *BEHIND, zone=zone)
      for zone in (full('A3').upper(), '{A3}', 'urn:uuid:A3', full('A3').replace('-', ''))),
    audited('the rows of a table in another order, and UUIDs in another form', PLANTED, *INSIDE, *BEHIND,
            providers='name,uuid,root_provider_uuid,parent_provider_uuid\n' + ''.join(
                f'{name},{{{full(of).upper()}}},{full(root)},{full(parent)}\n' for name, of, root, parent in (
                    ('ceph', 'P8', 'P8', ''), ('nfs-3', 'P5', 'P5', ''), ('', 'P2', 'P1', 'P1'), ('cmp-6', 'P7', 'P7', 'None'), ('nfs-1', 'P3', 'P3', ''),
                    ('cmp-6', 'P6', 'P6', ''), ('cmp-1', 'P1', 'P1', ''), ('nfs-2', 'P4', 'P4', '')))),
    audited('nothing', SOUND),
    *(audited(f'nothing, of the zone {zone}', SOUND, zone=zone) for zone in ('A1', 'A2', 'A3', 'A9')),
    audited('no provider', '', **OF_NONE),
    audited('no provider, of a zone', '', zone='A1', **HEADERS),
    # Which inventories have a row of usages.
    audited('no table of usages', SOUND, 'no usage,,,6 of 6 inventories have no row', usages=None),
    audited('a table of usages without rows', SOUND, 'no usage,,,6 of 6 inventories have no row', usages=HEADERS['usages']),
    audited('a table of usages in which one is missing', SOUND, 'no usage,,,1 of 6 inventories have no row', usages=rows(
        'usages', 'P1,MEMORY_MB,0', 'P1,VCPU,12', 'P2,SRIOV_NET_VF,1', 'P3,DISK_GB,0', 'P9,DISK_GB,100')),
    audited('no inventory that could have a usage', 'P1', 'no inventory,P1,,no provider of its tree has one'),
    # What is left out counts as empty.
    audited('no table of traits', PLANTED, *INSIDE[:4], 'no inventory,P5,nfs-3,no provider of its tree has one', *INSIDE[8:], *BEHIND[:3], zone='A3', traits=None),
    audited('no table of aggregates', PLANTED, *INSIDE[:4], *(f'shares with nobody,P{n},{name},in no aggregate' for n, name in ((3, 'nfs-1'), (4, 'nfs-2'), (5, 'nfs-3'), (8, 'ceph'))),
            *INSIDE[6:], *BEHIND, zone='A3', aggregates=None),
    # Used amounts and capacities.
    audited('all of it used, and more', 'P1 | | VGPU total 3, used 3; PCPU total 3, used 4; CUSTOM_A total 3, allocation_ratio 1.333334, used 5; CUSTOM_1 total 3, allocation_ratio 1.333333, used 4',
            'over capacity,P1,,CUSTOM_1: 4 used of 3', 'over capacity,P1,,CUSTOM_A: 5 used of 4', 'over capacity,P1,,PCPU: 4 used of 3'),
    audited('the first of nothing', 'P1 | | PCPU total 8, reserved 8, used 1', 'over capacity,P1,,PCPU: 1 used of 0',
            'never fits,P1,,"PCPU: min_unit 1, max_unit 8, step_size 1, capacity 0"'),
    audited('the greatest numbers', f'P1 | | PCPU total {GREATEST}, allocation_ratio 1000000, used {GREATEST}; VGPU total {GREATEST}, used {GREATEST}; '
            f'CUSTOM_A total {GREATEST}, allocation_ratio 0.999999, used {GREATEST}', f'over capacity,P1,,CUSTOM_A: {GREATEST} used of 2147481499'),
    audited('classes in byte order', 'P1 | | V_A total 1, used 2; VCPU_ total 1, used 2; VCPU total 1, used 2; V9 total 1, used 2; DISK_GB total 1, used 2',
            *(f'over capacity,P1,,{name}: 2 used of 1' for name in ('DISK_GB', 'V9', 'VCPU', 'VCPU_', 'V_A'))),
    *(never_fits(*one) for one in UNITS),
    # With whom a provider shares.
    audited('it shares with its own tree alone', f'P1 | | {SHARER} | A1\nP2 | P1 | PCPU total 8, used 0 | | A1\nP3 | | PCPU total 8, used 0 | | A2',
            f'shares with nobody,P1,,{BOTH_LACK}'),
    audited('a child that shares with another tree', f'P1 | | PCPU total 8, used 0\nP2 | P1 | {SHARER} | A1\nP3 | | PCPU total 8, used 0\nP4 | P3 | | | A2, A1'),
    audited('a child that shares with its root alone', f'P1 | | PCPU total 8, used 0 | | A1\nP2 | P1 | {SHARER} | A1', f'shares with nobody,P2,,{BOTH_LACK}'),
    audited('two that share with each other', f'P1 | | {SHARER} | A1\nP2 | | {SHARER} | A1'),
    audited('the aggregate of its root is not its own', f'P1 | | PCPU total 8, used 0 | | A1\nP2 | P1 | {SHARER}\nP3 | | PCPU total 8, used 0 | | A1',
            'shares with nobody,P2,,in no aggregate'),
    audited('the trait is of the provider itself', 'P1 | | PCPU total 8, used 0 | MISC_SHARES_VIA_AGGREGATE | A1\nP2 | P1 | PCPU total 8, used 0 | | A2\nP3 | | PCPU total 8, used 0 | | A2',
            f'shares with nobody,P1,,{BOTH_LACK}'),
    audited('a child has what it shares not', 'P1 | | | MISC_SHARES_VIA_AGGREGATE | A1\nP2 | P1 | PCPU total 8, used 0\nP3 | | PCPU total 8, used 0 | | A1',
            'shares nothing,P1,,no inventory'),
    # Trees without inventories, and without storage.
    audited('a tree of three without an inventory', 'P1 | | | | A1\nP2 | P1\nP3 | P2\nP9 | | DISK_GB total 1, used 0 | MISC_SHARES_VIA_AGGREGATE | A1',
            'no inventory,P1,,no provider of its tree has one'),
    audited('the inventory of a grandchild', 'P1\nP2 | P1\nP3 | P2 | PCPU total 8, used 0'),
    audited('the disk of a child', 'P1 | | VCPU total 8, used 0\nP2 | P1 | DISK_GB total 8, used 0'),
    audited('units of a child, and no disk', 'P1 | | MEMORY_MB total 8, used 0\nP2 | P1 | VCPU total 8, used 0', f'no storage,P1,,{NO_DISK}'),
    audited('a disk that is shared with a child, and full', 'P1 | | VCPU total 8, used 0\nP2 | P1 | | | A1\nP9 | | DISK_GB total 8, used 8 | MISC_SHARES_VIA_AGGREGATE | A1'),
    audited('a disk that is shared by a child of another tree', 'P1 | | VCPU total 8, used 0 | | A1\nP8 | | PCPU total 8, used 0\nP9 | P8 | DISK_GB total 8, used 0 | MISC_SHARES_VIA_AGGREGATE | A1'),
    audited('a disk beside one that shares', 'P1 | | VCPU total 8, used 0 | | A1\nP8 | | PCPU total 8, used 0 | MISC_SHARES_VIA_AGGREGATE | A1\nP9 | P8 | DISK_GB total 8, used 0',
            f'no storage,P1,,{NO_DISK}'),
    audited('a disk that is not shared', 'P1 | | VCPU total 8, used 0 | | A1\nP9 | | DISK_GB total 8, used 0 | | A1', f'no storage,P1,,{NO_DISK}'),
    audited('a disk of no size', 'P1 | | VCPU total 8, used 0; DISK_GB total 0, used 0', 'never fits,P1,,"DISK_GB: min_unit 1, max_unit 0, step_size 1, capacity 0"'),
    audited('units that are shared with a host', 'P1 | | MEMORY_MB total 8, used 0 | | A1\nP9 | | VCPU total 8, used 0 | MISC_SHARES_VIA_AGGREGATE | A1', f'no storage,P9,,{NO_DISK}'),
    audited('dedicated units alone', 'P1 | | PCPU total 8, used 0; VCPU9 total 8, used 0'),
    # Storage outside of the zone that its hosts are in.
    audited('one host in the zone, one of which a child is', f'P1 | | PCPU total 8, used 0 | | A1, A2\nP3 | | PCPU total 8, used 0 | | A1\nP4 | P3 | | | A2\nP9 | | {SHARER} | A1',
            'outside its hosts\' aggregates,P9,,"not in A2, where 1 of its hosts are"', zone='A2'),
    audited('a host that is in the zone, and shares by a child', f'P1 | | PCPU total 8, used 0 | | A2\nP3 | P1 | | | A1\nP9 | | {SHARER} | A1',
            'outside its hosts\' aggregates,P9,,"not in A2, where 1 of its hosts are"', zone='A2'),
    audited('its own root is one of its hosts', f'P1 | | PCPU total 8, used 0 | | A2\nP2 | P1 | {SHARER} | A1\nP3 | | PCPU total 8, used 0 | | A1, A2',
            'outside its hosts\' aggregates,P2,,"not in A2, where 2 of its hosts are"', zone='A2'),
    audited('hosts in the zone with which it does not share', f'P1 | | PCPU total 8, used 0 | | A2\nP3 | | PCPU total 8, used 0 | | A1\nP9 | | {SHARER} | A1', zone='A2'),
    audited('one that does not share', 'P1 | | PCPU total 8, used 0 | | A1, A2\nP9 | | PCPU total 8, used 0 | | A1', zone='A2'),
    # Names, which are compared byte for byte and shown as elsewhere.
    audited('names that would harm a terminal, or that are no text', ONE, *(
        f'no inventory,P{place},{says},no provider of its tree has one' for place, (_, says) in enumerate(NAMES, 1) if place > 1), f'no storage,P1,{NAMES[0][1]},{NO_DISK}',
            'no usage,,,1 of 1 inventories have no row', providers=SHOWN),
    audited('a name of three', 'P1 | | PCPU total 8, used 0 | | | a\nP2 | P1 | | | | a\nP3 | | PCPU total 8, used 0 | | | A\nP4 | P3 | | | | \nP5 | P3 | | | | \nP6 | P2 | | | | a',
            *(f'name twice,P{n},a,3 providers have it' for n in (1, 2, 6))),
    audited('two names of two, which look alike', 'P1 | | PCPU total 8, used 0',
            *(f'name twice,P{n},"<b>x, ""y""?z",2 providers have it' for n in (1, 2, 4, 5)),
            providers=rows('providers', *(f'"<b>x, ""y""{end}z",P{n},P1,{"P1" if n > 1 else ""}' for n, end in ((1, '\n'), (2, '\r'), (3, '\t'), (4, '\n'), (5, '\r'))),
                           header='name,' + HEADERS['providers'])),
    audited('a child that is disabled, and its root', 'P1 | | PCPU total 8, used 0 | COMPUTE_STATUS_DISABLED\nP2 | P1 | | COMPUTE_STATUS_DISABLED\nP3 | P1 | | COMPUTE_STATUS_DISABLED_',
            *(f'disabled,P{n},,trait COMPUTE_STATUS_DISABLED' for n in (1, 2))),
    # What a table says twice, or in another form.
    audited('a trait twice', 'P1 | | PCPU total 8, used 0', 'disabled,P1,,trait COMPUTE_STATUS_DISABLED', traits=rows('traits', *['P1,COMPUTE_STATUS_DISABLED'] * 2)),
    audited('aggregates twice, in several forms', f'P1 | | PCPU total 8, used 0\nP9 | | {SHARER}', 'outside its hosts\' aggregates,P9,,"not in A2, where 1 of its hosts are"',
            zone='{A2}', aggregates=rows('aggregates', 'P1,A1', 'P9,{A1}', 'P1,urn:uuid:A1', 'P1,{A2}', 'P1,A2')),
    audited('numbers that begin with zeros', 'P1 | | PCPU total 8, used 0', 'over capacity,P1,,PCPU: 9 used of 4', 'never fits,P1,,"PCPU: min_unit 5, max_unit 8, step_size 1, capacity 4"',
            inventories=one_inventory(kind='PCPU', total='0000000008', min_unit='0000000005', step_size='01', allocation_ratio='0000000.500000'), usages=rows('usages', 'P1,PCPU,0000000009')),
    audited('the longest name of a class', f'P1 | | {"A" * 255} total 8, used 9', f'over capacity,P1,,{"A" * 255}: 9 used of 8'),
    *(audited(f'a name of {2 * count} bytes', 'P1', f'no inventory,P1,"{"n," * count}",no provider of its tree has one', providers=rows('providers', f'"{"n," * count}",P1,P1,', header=NAMED))
      for count in (128, 32768)),
    audited('of two names the first counts', 'P1 | | PCPU total 8, used 0', 'name twice,P1,a,2 providers have it', 'name twice,P3,a,2 providers have it',
            providers=rows('providers', 'a,P1,P1,,b', 'b,P2,P1,P1,a', 'a,P3,P1,P2,', header=NAMED.strip() + ',name\n')),
    *(bad_table(f'{table}: record 2: {fault}', command=('audit', *more), **{table: rows(table, record)}) for table, fault, record, *more in (
        ('providers', 'UnknownParent', 'P1,P1,P2'), ('inventories', 'ZeroStep', 'P1,VCPU,8,0,1,8,0,1'), ('usages', 'NoInventory', 'P1,MEMORY_MB,1'),
        ('traits', 'BadTrait', 'P1,hw_x', '--zone', full('A1')), ('aggregates', 'UnknownProvider', 'P2,A1'))),
]

SIXTY_FOUR = '&'.join(f'resources{n}=VCPU:1' for n in range(1, 65)) + '&group_policy=none'
EIGHT = '\n'.join(f'P{n} | {"P1" if n > 1 else ""} | VCPU total 8' for n in range(1, 9))
EIGHT_EACH = ','.join(f'P{n}' for n in range(1, 9) for _ in range(8))
FULL = '\n'.join(f'P{n} | | VCPU total 8, used 8' for n in range(1, 21))

# 64 groups on 20 and on 8 providers: more lists than anyone could go through one by one.
MANY_GROUPS = [
    found('64 groups, and no room on any of 20 hosts', FULL, SIXTY_FOUR),
    found('64 groups fill 8 providers: the first', EIGHT, SIXTY_FOUR + '&limit=1', EIGHT_EACH),
    found('64 groups fill 8 providers: after the last', EIGHT, SIXTY_FOUR, after=','.join(reversed(EIGHT_EACH.split(',')))),
    judged('64 groups fill 8 providers', EIGHT, SIXTY_FOUR, EIGHT_EACH, 'candidate'),
]

SMALL = [*QUANTITIES, *RULES, *DETAILS, *LISTS, *FILLED, *CAPACITIES, *METRICS, *AUDITS, *PAGES, *TOKENS, *TABLES, *HOSTS, *QUERIES, *WORDS, *MANY_GROUPS]


def cuts():
    """The tables of one host, cut off after each byte, and what `tokens` must say."""
    whole = tables(ONE)
    wide, last = len(HEADERS['inventories']), len(whole['inventories'])
    expected = {
        'providers': [(0, 'providers: record 1: NoHeader'), (1, 'providers: record 1: MissingColumn'),
                      (44, 'inventories: record 2: UnknownProvider'), (46, 'providers: record 2: Width'), (119, 'P1')],
        'inventories': [(0, 'inventories: record 1: NoHeader'), (1, 'inventories: record 1: MissingColumn'), (wide - 1, ''),
                        (wide + 1, 'inventories: record 2: Width'), (last - 4, 'inventories: record 2: BadRatio'), (last - 3, 'P1'),
                        (last - 2, 'inventories: record 2: BadRatio'), (last - 1, 'P1')],
    }
    for table, steps in expected.items():
        for length in range(len(whole[table]) + 1):
            says = [text for start, text in steps if start <= length][-1]
            name = f'tokens: {table} cut off after {length} bytes'
            cut = {**whole, table: whole[table][:length]}
            if ':' in says:
                yield Case(name, ['tokens', 'resources=VCPU:2'], err=says + '\n', status=3, tables=cut)
            else:
                yield Case(name, ['tokens', 'resources=VCPU:2'], lines(says) if says else '', tables=cut)
