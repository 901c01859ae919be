"""What the second line of a fault says, with --detail: the first line is as without the option, and a run that does what the second says passes.
`second_lines` gives the cases."""
from __future__ import annotations

from typing import NamedTuple

from cases import SOME, Case
from notation import HEADERS, full

MOST_BYTES, QUERY_BYTES, MOST_PROVIDERS = 1 << 26, 1 << 16, 1 << 16
TABLES = {
    'providers': 'uuid,root_provider_uuid,parent_provider_uuid,name\nP1,P1,,host\nP2,P1,P1,host_nic\nP3,P3,,twin\nP4,P4,,twin\n',
    'inventories': 'resource_provider,resource_class,total,reserved,min_unit,max_unit,step_size,allocation_ratio\n'
                   'P1,VCPU,8,0,1,8,1,1.0\nP1,DISK_GB,100,0,1,100,1,1.0\nP2,VF,4,0,1,4,1,1.0\nP3,VCPU,8,0,1,8,1,1.0\n',
    'usages': 'resource_provider,resource_class,usage\nP1,VCPU,2\n',
    'traits': 'resource_provider,name\nP1,HW_CPU\nP1,CUSTOM_A\nP2,CUSTOM_A\n',
    'aggregates': 'resource_provider,uuid\nP1,A1\n',
}
RESOURCES = 'CLASS:AMOUNT between commas, with : where the client has =; each class once, in A-Z, 0-9 and _; amounts from 1 to 2147483647'
TRAITS = 'a trait is written A-Z, 0-9 and _'
AGGREGATES = 'UUIDs of aggregates (names with --names): one, or several between commas behind in:, and ! before what is forbidden'
POLICY = 'add group_policy=none, and groups may share a provider, or group_policy=isolate, and each has its own'
SLOTS = 'a query has at most 64 slots, and 256 classes over all groups: ask for less, or in several queries'
LATER = '--microversion', '1.39'
LONG = ('0123456789abcdef' * 4)[:63]


class Asked(NamedTuple):
    """A command line with a fault of its query, its token or its host, the two lines, and command lines that do what the second line says."""

    fault: str
    words: list
    line: str
    then: list


class Row(NamedTuple):
    """A fault of a table: the text that is put in place of another one of that table, the two lines, and what is then put in place of that text. The
    text that was there before is always one of these."""

    fault: str
    was: str
    text: str
    line: str
    then: tuple = ()


def tokens(query, fault, line, *queries, faulty=(), then=()):
    """A query with a fault, and queries of the next run, each with more words of its command line."""
    return Asked(f'query: {fault}', ['tokens', query, *faulty], line, [['tokens', next_query, *then] for next_query in queries])


def bad_value(parameter, value, remedy, *values, faulty=(), then=()):
    return tokens(f'resources=VCPU:1&{parameter}={value}', 'pair 2: BadValue', f'{parameter}="{value}": {remedy}',
                  *(f'resources=VCPU:1&{parameter}={next_value}' for next_value in values), faulty=faulty, then=then)


def repeated(parameter, values, remedy, *then):
    one, other = values
    return tokens(f'resources=VCPU:1&{parameter}={one}&{parameter}={other}', 'pair 3: Repeated', f'{parameter}="{other}": given once: {remedy}',
                  *(f'resources=VCPU:1&{parameter}={value}' for value in then))


def asked():
    """A case for each thing that is said of a query, a token or a host."""
    yield tokens('resource=VCPU:1', 'pair 1: UnknownParameter', '"resource": no parameter; resources?', 'resources=VCPU:1')
    yield bad_value('resources1', 'VCPU=1', RESOURCES, 'VCPU:1')
    yield bad_value('resources1', 'VCPU:1:1', RESOURCES, 'VCPU:1')
    # Of several, the first that is wrong: no class with its amount, or a class for the second time.
    for value, wrong in (('VCPU:1,DISK_GB:0', 'DISK_GB:0'), ('VCPU:1,DISK_GB:1,VCPU:2', 'VCPU:2'), ('VCPU:1,VCPU:1,DISK_GB', 'VCPU:1'),
                         ('VCPU:1,disk_gb:1,VCPU:1', 'disk_gb:1'), ('VCPU:0,VCPU:1', 'VCPU:0'), ('DISK_GB:1,VCPU:1,', ''), (',', ''),
                         ('VCPU:1,DISK_GB:2147483648', 'DISK_GB:2147483648'), ('VCPU:1, DISK_GB:1', ' DISK_GB:1')):
        yield bad_value('resources1', value, f'"{wrong}" is wrong: {RESOURCES}', 'VCPU:1,DISK_GB:1')
    yield tokens(f'resources=VCPU:1,{LONG}fg', 'pair 1: BadValue', f'resources="VCPU:1,{LONG[:57]}"..: "{LONG}f".. is wrong: {RESOURCES}', 'resources=VCPU:1')
    yield bad_value('required', 'hw_cpu', f'{TRAITS}; HW_CPU?', 'HW_CPU')
    yield bad_value('required', 'HW_CPU ^CUSTOM_B', f'{TRAITS}, between commas, with ! before what is forbidden', 'HW_CPU,!CUSTOM_B')
    yield bad_value('required', 'in:HW_CPU,CUSTOM_B', 'in: is read by --microversion 1.39', 'in:HW_CPU,CUSTOM_B', then=LATER)
    yield bad_value('required', 'in:HW_CPU,!CUSTOM_B', 'behind in: stand traits between commas, in A-Z, 0-9 and _, and none with !', 'in:HW_CPU,CUSTOM_B',
                    faulty=LATER, then=LATER)
    yield bad_value('root_required', 'hw_cpu', f'{TRAITS}; HW_CPU?', 'HW_CPU')
    yield bad_value('root_required', 'in:HW_CPU,CUSTOM_A', 'root_required has no in: and asks for all its traits', 'HW_CPU,CUSTOM_A', faulty=LATER)
    yield bad_value('member_of', 'az1', AGGREGATES, 'A1', 'in:A1,A2', '!A2')
    yield bad_value('in_tree', 'host', 'the UUID of a provider (its name with --names)', 'P1')
    yield bad_value('group_policy', 'any', 'none or isolate', 'none', 'isolate')
    yield bad_value('same_subtree', '_A/_B', 'suffixes of groups between commas, in A-Z, a-z, 0-9, _ and -', '_A,_B&resources_A=VF:1&resources_B=VF:1&group_policy=none')
    yield bad_value('limit', '0', 'a number from 1 to 2147483647', '1')
    yield tokens('resources=VCPU:1&resources=DISK_GB:1', 'pair 2: Repeated', 'resources="DISK_GB:1": given once: join the classes by commas in one',
                 'resources=VCPU:1,DISK_GB:1')
    traits = 'HW_CPU', 'CUSTOM_A'
    yield repeated('required', traits, 'join the traits by commas in one, or read the query by --microversion 1.39', 'HW_CPU,CUSTOM_A')
    yield tokens('resources=VCPU:1&required=HW_CPU&required=CUSTOM_A', 'pair 3: Repeated',
                 'required="CUSTOM_A": given once: join the traits by commas in one, or read the query by --microversion 1.39',
                 'resources=VCPU:1&required=HW_CPU&required=CUSTOM_A', then=LATER)
    yield repeated('root_required', traits, 'join the traits by commas in one', 'HW_CPU,CUSTOM_A')
    yield repeated('limit', ('1', '2'), 'leave out all but one', '1', '2')
    yield tokens('resources=VCPU:1&required=HW_CPU,!HW_CPU', 'pair 2: Conflict', 'required="HW_CPU,!HW_CPU": "HW_CPU" is required and forbidden: leave one of the two out',
                 'resources=VCPU:1&required=HW_CPU')
    yield tokens('limit=1', 'NoResources', 'add resources=CLASS:AMOUNT, as in resources=VCPU:1', 'limit=1&resources=VCPU:1')
    yield tokens('required=HW_CPU&resources_NET=VCPU:1', 'group "": GroupWithoutResources',
                 'add resources=CLASS:AMOUNT, or write the suffix of a group with resources behind the names of the other parameters',
                 'required=HW_CPU&resources_NET=VF:1&resources=VCPU:1', 'required_NET=HW_CPU&resources_NET=VCPU:1')
    yield tokens('resources=VCPU:1&required_NET=CUSTOM_A', 'group "_NET": GroupWithoutResources', 'add resources_NET=CLASS:AMOUNT, or list _NET in a same_subtree',
                 'resources=VCPU:1&required_NET=CUSTOM_A&resources_NET=VF:1', 'resources=VCPU:1&required_NET=CUSTOM_A&same_subtree=_NET')
    yield tokens('resources=VCPU:1&same_subtree=_NET', 'group "_NET": UnknownSuffix', 'add resources_NET=CLASS:AMOUNT, or take _NET off the list of same_subtree',
                 'resources=VCPU:1&same_subtree=_NET&resources_NET=VF:1', 'resources=VCPU:1')
    yield tokens('resources1=VCPU:1&resources2=VF:1', 'PolicyMissing', POLICY, *(f'resources1=VCPU:1&resources2=VF:1&group_policy={policy}' for policy in ('none', 'isolate')))
    yield tokens('&'.join(['resources=VCPU:1', *['member_of=A1'] * 2000]), 'QueryTooLong', 'a query has at most 65536 bytes: ask for less, or in several queries',
                 'resources=VCPU:1&member_of=A1')
    yield tokens(slots(65), 'TooManySlots', 'a query has at most 64 slots, and 256 classes over all groups: ask for less, or in several queries', slots(64), slots(1))
    pair = 'resources=VCPU:1,DISK_GB:1'
    each = 'one for each of DISK_GB, VCPU, in this order'
    yield Asked('token: BadToken', ['tokens', pair, '--after', 'host'], f'"host": UUIDs between commas: {each}', [['tokens', pair, '--after', 'P0,P0']])
    yield Asked('token: WrongLength', ['tokens', pair, '--after', 'P0'], f'UUIDs 1, slots 2: {each}', [['tokens', pair, '--after', 'P0,P0']])
    why = 'why', 'resources=VCPU:1'
    yield Asked('host: Unknown', [*why, 'cmp'], '"cmp": no provider has this UUID or this name: give one that is in the table of providers',
                [[*why, 'host'], [*why, 'P1']])
    yield Asked('host: Unknown', [*why, 'cmp\x1b'], r'"cmp\x1b": no provider has this UUID or this name: give one that is in the table of providers', [[*why, 'P1']])
    yield Asked('host: Ambiguous', [*why, 'twin'], '"twin": several providers have this name: give the UUID of one of them', [[*why, 'P3']])


def slots(number):
    """A query of so many slots."""
    return '&'.join([*(f'resources{place}=DISK_GB:1' for place in range(number)), 'group_policy=none', 'limit=1'])


# Of each table its faults of records.
LACKS = 'the header lacks this column; export the table with all its columns'
NAME = 'is written A-Z, 0-9 and _; give its name as the cloud has it'
NUMBER = '1 to 10 digits, at most 2147483647; write no sign, point or blank'
UUID = 'not a UUID; give one of 32 hexadecimal digits, and take out a header between records'
WIDTH = 'a record has as many fields as the header; put a field with a comma in quotes'
TWICE = 'an earlier record has the same; take one of them out'
STRAY = 'not in the table of providers; export all tables together, or take the record out'
WRONG_ROOT = "not the root of the provider's tree; give the UUID of its topmost parent, or its own if it has none"
ROWS = {
    'providers': [
        Row('record 1: MissingColumn', 'root_provider_uuid,', 'root,', f', root_provider_uuid, header "uuid,root,parent_provider_uuid,name": {LACKS}'),
        Row('record 1: DoubleColumn', 'name\n', 'uuid\n', ', uuid: the header has this column twice; take one of them out'),
        Row('record 2: Width', ',host\n', ',host, old\n',
            f', fields 5, header 4, provider P1: {WIDTH}', [',"host, old"\n']),
        Row('record 3: BadUuid', 'P2,P1,P1', 'P2,P1,host', f', parent_provider_uuid "host", provider P2: {UUID}'),
        Row('record 3: BadUuid', 'P2,', 'uuid,root_provider_uuid,parent_provider_uuid,name\nP2,', f', uuid "uuid": {UUID}'),
        Row('record 4: Duplicate', 'P3,', 'P1,', f', uuid "P1": {TWICE}'),
        Row('record 2: UnknownParent', 'P1,P1,,host\n', '', ', parent_provider_uuid "P1", provider P2: not in the table of providers; export the whole table'),
        Row('record 2: ParentCycle', 'P1,P1,,', 'P1,P1,P2,', ', parent_provider_uuid "P2", provider P1: the parents from here on go in a circle; correct one of them'),
        Row('record 3: WrongRoot', 'P2,P1,P1', 'P2,P2,P1', f', root_provider_uuid "P2", provider P2: {WRONG_ROOT}'),
        Row('record 2: WrongRoot', 'P1,P1,', 'P1,P2,', f', root_provider_uuid "P2", provider P1: {WRONG_ROOT}'),
        Row('record 3: BadUuid', 'P2,P1,P1', 'P2,host,x', f', root_provider_uuid "host", provider P2: {UUID}'),
        Row('record 4: Width', 'P3,P3,,twin', 'P3', f', fields 1, header 4, provider P3: {WIDTH}'),
    ],
    'inventories': [
        Row('record 4: BadClass', 'VF', 'vf', f', resource_class "vf", provider P2: a class {NAME}'),
        Row('record 2: BadNumber', 'VCPU,8,', 'VCPU,-1,', f', total "-1", provider P1, VCPU: {NUMBER}', ['VCPU,10,']),
        Row('record 3: BadRatio', '100,1,1.0', '100,1,1e-05',
            ', allocation_ratio "1e-05", provider P1, DISK_GB: at most six decimals and no exponent; export with --round-ratios; lower one over 1000000 in the cloud',
            ['100,1,0.00001', '100,1,1000000']),
        Row('record 4: ZeroStep', '4,1,1.0', '4,0,1.0', ', step_size "0", provider P2, VF: a step is at least 1; set step_size to 1 or more in the cloud, and export again'),
        Row('record 4: ReservedOverTotal', 'VF,4,0', 'VF,4,5',
            ', reserved "5", total "4", provider P2, VF: reserved is at most total; lower it in the cloud, and export again', ['VF,4,4']),
        Row('record 3: Duplicate', 'DISK_GB', 'VCPU', f', resource_class "VCPU", provider P1: {TWICE}'),
        Row('record 2: UnknownProvider', 'P1,VCPU', 'P9,VCPU', f', resource_provider "P9", VCPU: {STRAY}'),
        Row('record 2: BadUuid', 'P1,VCPU,8', 'host,VCPU,x', f', resource_provider "host", VCPU: {UUID}'),
        Row('record 2: BadNumber', '0,1,8,1', '0,-1,8.0,1', f', min_unit "-1", provider P1, VCPU: {NUMBER}'),
        Row('record 2: BadNumber', '8,1,1.0', '8,2147483648,1.0', f', step_size "2147483648", provider P1, VCPU: {NUMBER}'),
        Row('record 3: Width', '100,1,1.0', '100,1', f', fields 7, header 8, provider P1, DISK_GB: {WIDTH}'),
    ],
    'usages': [
        Row('record 1: NoHeader', TABLES['usages'], '', ': the file has no record; export the table again, with its header'),
        Row('record 2: NoInventory', 'P1,VCPU,2\n', 'P1,MEMORY_MB,2\n',
            ', resource_class "MEMORY_MB", provider P1: the provider has no inventory of this class; export all tables together, or take the record out', ['']),
        Row('record 2: NoInventory', 'P1,VCPU,2\n', '{P1},IPV4_ADDRESS,1\n',
            ', resource_class "IPV4_ADDRESS", provider P1: the provider has no inventory of this class; export all tables together, or take the record out', ['']),
        Row('record 2: UnknownProvider', 'P1,VCPU,2\n', '{P9},VCPU,2\n', f', resource_provider "{{P9}}", VCPU: {STRAY}', ['']),
        Row('record 2: BadNumber', 'VCPU,2', 'VCPU,x', f', usage "x", provider P1, VCPU: {NUMBER}'),
        # The first column that is at fault in the order of the table, whatever the order of the header.
        Row('record 1: MissingColumn', 'resource_provider,resource_class,usage\n', 'resource_provider\n', f', resource_class, header "resource_provider": {LACKS}'),
        Row('record 1: DoubleColumn', 'resource_provider,resource_class,usage\n', 'usage,usage,resource_class,resource_class,resource_provider\n',
            ', resource_class: the header has this column twice; take one of them out'),
        # The header, with a comma between each two of its fields, as values are shown.
        *(Row('record 1: MissingColumn', 'resource_provider,resource_class,usage\n', f'{header}\n', f', resource_provider, header {shown}: {LACKS}') for header, shown in [
            ('resource_provider;resource_class;usage', '"resource_provider;resource_class;usage"'), ('provider\tclass\tusage', r'"provider\x09class\x09usage"'),
            ('<html>', '"<html>"'), ('\x1f\x08\x00', r'"\x1f\x08\x00"'), (',resource_class,usage', '",resource_class,usage"'), (',,', '",,"'), ('""', '""'),
            ('"resource_provider,resource_class",usage', '"resource_provider,resource_class,usage"'), (LONG + 'f', f'"{LONG}f"'), (LONG + 'fg', f'"{LONG}f"..'),
            (LONG + ',usage', f'"{LONG},"..'), ('a' * 70000, f'"{"a" * 64}"..')]),
    ],
    'traits': [
        Row('record 3: BadTrait', 'P1,CUSTOM_A', 'P1,custom_a', f', name "custom_a", provider P1: a trait {NAME}'),
        Row('record 4: UnknownProvider', 'P2,CUSTOM_A\n', 'P9,CUSTOM_A\n', f', resource_provider "P9": {STRAY}', ['']),
        Row('record 1: NoHeader', TABLES['traits'], '\n\r\n', ': the file has no record; export the table again, with its header'),
        # Values that would harm a terminal, and long ones.
        *(Row('record 2: BadTrait', 'HW_CPU', value, f', name {shown}, provider P1: a trait {NAME}') for value, shown in [
            ('', '""'), ('\x1b[2J\t~ \x7f', r'"\x1b[2J\x09~ \x7f"'), ('"a""b\\\nc"', r'"a\x22b\x5c\x0ac"'), ('é', r'"\xc3\xa9"'),
            (LONG + 'f', f'"{LONG}f"'), (LONG + 'é', rf'"{LONG}\xc3"..')]),
    ],
    'aggregates': [
        Row('record 2: BadUuid', 'P1,A1', 'P1,az1', f', uuid "az1", provider P1: {UUID}'),
    ],
}


def roots(number):
    return 'uuid,root_provider_uuid,parent_provider_uuid\n' + ''.join(f'{place:032x},{place:032x},\n' for place in range(number))


def of_rows(number):
    return HEADERS['traits'] + full('P1,CUSTOM_A\n') * number


# Tables that are too large, and what is left if rows are taken out.
LARGE = [
    ('providers', 'record 65538: TooManyProviders', lambda: roots(MOST_PROVIDERS + 1), ': more than 65536 providers; take whole trees out, in each table',
     lambda: roots(MOST_PROVIDERS)),
    ('traits', 'TooLarge', lambda: of_rows(MOST_BYTES // 40), ': more than 67108864 bytes; take out rows that no query asks for', lambda: of_rows(1000)),
]

# Paths of tables that can't be read, how they are shown, and what stands behind them: files that aren't there, and a folder, which opens.
UNREAD = [
    ('nowhere.csv', 'nowhere.csv', ': there is no such file; give the path of a file that can be read'),
    ('\x1b[2J"é.csv', '\\x1b[2J\\x22\\xc3\\xa9.csv', ': there is no such file; give the path of a file that can be read'),
    ('.', '.', ': reading failed, as it does of a folder; give the path of a file that can be read'),
]


def written(made):
    return {table: text if callable(text) else full(text) for table, text in made.items()}


def both(name, words, lines, status, made):
    """The run with the option, which tells these two lines (of which a path may be left out), and the one without it, which tells the first."""
    given = written(made)
    yield Case(f'second line: {name}', [*words, '--detail'], err=lines[0] if lines[1:] == () else SOME, status=status, tables=given, has=lines)
    yield Case(f'no second line: {name}', words, err=lines[0].partition('\n')[0] + '\n', status=status, tables=given)


def follows(name, words, made):
    return Case(f'a second line is followed: {name}', words, SOME, tables=written(made))


def second_lines():
    for fault, words, line, then in asked():
        name = f'{fault}, {words[1][:50]}'
        yield from both(name, [full(word) for word in words], (f'{fault}\n  {full(line)}\n',), 4 if fault.startswith('query') else 5, TABLES)
        for place, next_words in enumerate(then, 1):
            yield follows(f'{name}, {place}', [full(word) for word in next_words], TABLES)
    for table, rows in ROWS.items():
        for kind, was, text, line, then in rows:
            name = f'{table}: {kind}'
            yield from both(name, ['check'], (f'{name}\n  ', full(f'/{table}.csv{line}\n')), 3, {**TABLES, table: TABLES[table].replace(was, text, 1)})
            for place, next_text in enumerate([was, *then], 1):
                yield follows(f'{name}, {place}', ['check'], {**TABLES, table: TABLES[table].replace(was, next_text, 1)})
    for table, kind, large, line, left in LARGE:
        name, others = f'{table}: {kind}', {table: HEADERS[table] for table in ('providers', 'inventories')} if table == 'providers' else TABLES
        yield from both(name, ['check'], (f'{name}\n  ', f'/{table}.csv{line}\n'), 3, {**others, table: large})
        yield follows(name, ['check'], {**others, table: left})
    for path, shown, line in UNREAD:
        others = {table: text for table, text in TABLES.items() if table != 'providers'}
        yield from both(f'the path {shown}', ['check', '--providers', path], (f'providers: Unreadable\n  {shown}{line}\n',), 3, others)
        yield follows(f'the path {shown}', ['check'], TABLES)
