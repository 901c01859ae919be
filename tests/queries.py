"""A model of `query`: how the text of a query is read, and how that is told. Cases that are written here by hand, and over queries that are drawn by chance; of
each accepted one the last line, given again, must be told alike. It takes nothing from the program."""
from __future__ import annotations

import random
import re
from urllib.parse import unquote_plus
from uuid import UUID

from cases import SOME, Case
from faults import drawn_query, query_fault
from model import written
from notation import full

COLUMNS = ('slot', 'group', 'resources', 'required', 'forbidden', 'member_of', 'in_tree')
PARAMETERS = '''\
resources=VCPU:2,DISK_GB:20            how much of each class
required=HW_CPU_X86_AVX2,!CUSTOM_OLD   traits to have, and behind ! not to have
required=in:CUSTOM_A,CUSTOM_B          one of these traits (1.39), repeatable
member_of=in:UUID,UUID                 in one of these aggregates, repeatable
member_of=!in:UUID,UUID                in none of these aggregates, repeatable
in_tree=UUID                           in the tree of this provider
resources_NET=SRIOV_NET_VF:1           a granular group, of any suffix
required_NET=CUSTOM_PHYSNET_1          its traits
member_of_NET=UUID                     its aggregates
in_tree_NET=UUID                       its tree
group_policy=isolate                   granular groups apart; or none
same_subtree=_NET,_GPU                 one of these groups above all of them
root_required=COMPUTE_NODE,!CUSTOM_OLD traits of the root provider
limit=10                               so many candidates at most
'''


# ---- how a text is read

def pairs_of(text):
    """The decoded names and values of a query; what stands before a path's `?` is dropped, and what stands behind the end of a URL."""
    path, mark, behind = text.partition('?')
    if mark and not re.search('[=&]', path):
        text = re.split(r'[\x00-\x20"\']', behind)[0]
    return [tuple(unquote_plus(part, errors='replace') for part in (piece.partition('=')[0], piece.partition('=')[2])) for piece in text.split('&') if piece]


def read(text):
    """The values of each group by its suffix and its parameter, and of each parameter of the whole."""
    groups, whole = {}, {}
    for name, value in pairs_of(text):
        if name in ('group_policy', 'same_subtree', 'root_required', 'limit'):
            whole.setdefault(name, []).append(value)
        else:
            word = next(word for word in ('resources', 'required', 'member_of', 'in_tree') if name.startswith(word))
            groups.setdefault(name[len(word):], {}).setdefault(word, []).append(value)
    return groups, whole


# ---- values in one form

def needs(values):
    """Classes in byte order, each with its amount as a number."""
    return sorted((name, int(amount)) for value in values for name, _, amount in [item.partition(':') for item in value.split(',')])


def in_order(items):
    return sorted(set(items))


def traits(values):
    """What is required and what is forbidden, and the lists of which one trait each is asked."""
    plain = [item for value in values if not value.startswith('in:') for item in value.split(',')]
    lists = [in_order(value[3:].split(',')) for value in values if value.startswith('in:')]
    return in_order(item for item in plain if not item.startswith('!')), in_order(item[1:] for item in plain if item.startswith('!')), lists


def rule(value):
    """A `member_of`: a list has `in:`, one aggregate has none."""
    _, bang, listed = value.rpartition('!')
    ids = [str(UUID(text)) for text in listed.removeprefix('in:').split(',')]
    return f'{bang}{"in:" if len(ids) > 1 else ""}{",".join(ids)}'


def needs_text(some):
    return ','.join(f'{name}:{amount}' for name, amount in some)


def choices(lists):
    return ['in:' + ','.join(listed) for listed in lists]


def one_value(required, forbidden):
    """Traits as one value, where there are any."""
    return [','.join([*required, *('!' + name for name in forbidden)])] if required or forbidden else []


# ---- what is told

def slot_rows(groups):
    number = 0
    for suffix in sorted(groups):
        given = groups[suffix]
        required, forbidden, lists = traits(given.get('required', []))
        some = needs(given.get('resources', []))
        for asked in [[need] for need in some] if suffix == '' else [some]:
            number += 1
            yield [number, suffix, needs_text(asked), ' '.join([*one_value(required, []), *choices(lists)]), ','.join(forbidden),
                   ' '.join(map(rule, given.get('member_of', []))), ''.join(str(UUID(text)) for text in given.get('in_tree', []))]


def group_pairs(suffix, given):
    required, forbidden, lists = traits(given.get('required', []))
    torn = set(required) & set(forbidden)
    values = {
        'resources': [needs_text(needs(given['resources']))] if 'resources' in given else [],
        'required': [*(one_value(required, []) + one_value([], forbidden) if torn else one_value(required, forbidden)), *choices(lists)],
        'member_of': map(rule, given.get('member_of', [])),
        'in_tree': [str(UUID(text)) for text in given.get('in_tree', [])],
    }
    return [(name + suffix, value) for name, some in values.items() for value in some]


def whole_pairs(whole):
    values = {
        'group_policy': whole.get('group_policy', []),
        'same_subtree': [','.join(in_order(value.split(','))) for value in whole.get('same_subtree', [])],
        'root_required': one_value(*traits(whole.get('root_required', []))[:2]),
        'limit': [str(int(value)) for value in whole.get('limit', [])],
    }
    return [(name, value) for name, some in values.items() for value in some]


def plain(groups, whole):
    pairs = [pair for suffix in sorted(groups) for pair in group_pairs(suffix, groups[suffix])] + whole_pairs(whole)
    return '&'.join(f'{name}={value}' for name, value in pairs)


def reading(text):
    """What `query` writes of a text that is accepted."""
    groups, whole = read(text)
    lines = [*whole_pairs(whole), ('query', plain(groups, whole))]
    return written([COLUMNS, *slot_rows(groups)]) + ''.join(f'{name}: {value}\n' for name, value in lines)


# ---- by hand

def told(name, query, *lines, words=()):
    """`query` must write these lines of a text, below its header."""
    return Case(f'query: {name}', ['query', full(query), *words], ''.join(full(line) + '\n' for line in (','.join(COLUMNS), *lines)))


def refused(query, fault):
    return Case(f'query: refused, {fault}', ['query', full(query)], err=f'query: {fault}\n', status=4)


BY_HAND = [
    told('one class', 'resources=VCPU:2', '1,,VCPU:2,,,,', 'query: resources=VCPU:2'),
    told('slots of the group without a suffix are in byte order', 'resources=VCPU:2,DISK_GB:0050,MEMORY_MB:4',
         '1,,DISK_GB:50,,,,', '2,,MEMORY_MB:4,,,,', '3,,VCPU:2,,,,', 'query: resources=DISK_GB:50,MEMORY_MB:4,VCPU:2'),
    told('groups by suffix, the one without first', 'resources2=VCPU:1&resources10=PGPU:1,MEMORY_MB:2&resources=VCPU:3&group_policy=none',
         '1,,VCPU:3,,,,', '2,10,"MEMORY_MB:2,PGPU:1",,,,', '3,2,VCPU:1,,,,', 'group_policy: none',
         'query: resources=VCPU:3&resources10=MEMORY_MB:2,PGPU:1&resources2=VCPU:1&group_policy=none'),
    told('traits', 'required=CUSTOM_B,!CUSTOM_C,CUSTOM_A,CUSTOM_B&resources=VCPU:1', '1,,VCPU:1,"CUSTOM_A,CUSTOM_B",CUSTOM_C,,',
         'query: resources=VCPU:1&required=CUSTOM_A,CUSTOM_B,!CUSTOM_C'),
    told('lists of traits, by 1.39', 'resources=VCPU:1&required=in:CUSTOM_B,CUSTOM_A&required=!CUSTOM_C&required=in:CUSTOM_D&required=CUSTOM_E',
         '1,,VCPU:1,"CUSTOM_E in:CUSTOM_A,CUSTOM_B in:CUSTOM_D",CUSTOM_C,,',
         'query: resources=VCPU:1&required=CUSTOM_E,!CUSTOM_C&required=in:CUSTOM_A,CUSTOM_B&required=in:CUSTOM_D', words=('--microversion', '1.39')),
    told('a trait that is required and forbidden, by 1.39', 'resources=VCPU:1&required=!CUSTOM_A&required=CUSTOM_A', '1,,VCPU:1,CUSTOM_A,CUSTOM_A,,',
         'query: resources=VCPU:1&required=CUSTOM_A&required=!CUSTOM_A', words=('--microversion', '1.39')),
    told('aggregates and a tree', 'resources_NET=SRIOV_NET_VF:1&member_of_NET=!in:A2,A1&in_tree_NET=P7&member_of_NET=in:A3&member_of_NET=!A4',
         '1,_NET,SRIOV_NET_VF:1,,,"!in:A2,A1 A3 !A4",P7',
         'query: resources_NET=SRIOV_NET_VF:1&member_of_NET=!in:A2,A1&member_of_NET=A3&member_of_NET=!A4&in_tree_NET=P7'),
    told('a group without resources has a slot', 'resources_PF=VCPU:1&required_NUMA=HW_NUMA_ROOT&same_subtree=_PF,_NUMA,_PF&limit=010',
         '1,_NUMA,,HW_NUMA_ROOT,,,', '2,_PF,VCPU:1,,,,', 'same_subtree: _NUMA,_PF', 'limit: 10',
         'query: required_NUMA=HW_NUMA_ROOT&resources_PF=VCPU:1&same_subtree=_NUMA,_PF&limit=10'),
    told('traits of the root', 'root_required=!CUSTOM_B,COMPUTE_NODE&resources=VCPU:1', '1,,VCPU:1,,,,', 'root_required: COMPUTE_NODE,!CUSTOM_B',
         'query: resources=VCPU:1&root_required=COMPUTE_NODE,!CUSTOM_B'),
    told('a URL of a log', '"GET /placement/allocation_candidates?limit=5&resources=VCPU%3A1%2CMEMORY_MB%3A2&member%5Fof=%21in:A1 HTTP/1.1" 200',
         '1,,MEMORY_MB:2,,,!A1,', '2,,VCPU:1,,,!A1,', 'limit: 5', 'query: resources=MEMORY_MB:2,VCPU:1&member_of=!A1&limit=5'),
    told('two same_subtree', 'resources1=VCPU:1&resources2=VCPU:1&group_policy=isolate&same_subtree=2,1&same_subtree=1', '1,1,VCPU:1,,,,', '2,2,VCPU:1,,,,',
         'group_policy: isolate', 'same_subtree: 1,2', 'same_subtree: 1',
         'query: resources1=VCPU:1&resources2=VCPU:1&group_policy=isolate&same_subtree=1,2&same_subtree=1'),
    refused('resources=VCPU:0', 'pair 1: BadValue'),
    refused('limit=1', 'NoResources'),
    Case('query: refused, with what to do', ['query', '--detail', 'limit=1'], err=SOME, status=4, has=('query: NoResources\n  ',)),
    Case('query: refused, tables', ['query', 'resources=VCPU:1', '--tables', 'examples/cloud'], err=SOME, status=2,
         has=("unexpected argument '--tables' found", 'Usage: ac_cli query')),
    Case('query: the parameters', ['query'], PARAMETERS),
    Case('query: the parameters, in detail', ['query', '--detail', '--microversion', '1.39'], PARAMETERS),
]


# ---- by chance

def drawn_readings(number, seed=1):
    """Cases over this number of random queries: how each is read, or why it is refused; and its last line, given again."""
    chance = random.Random(seed)
    for n in range(number):
        text, version = drawn_query(chance), chance.choice(('1.36', '1.39'))
        fault, _ = query_fault(text, version)
        words = [text, '--microversion', version]
        out = '' if fault else reading(text)
        yield Case(f'query drawn {n}: {text[:60]} by {version}', ['query', *words], out, f'query: {fault}\n' if fault else '', 4 if fault else 0)
        if not fault:
            last = out.splitlines()[-1].removeprefix('query: ')
            yield Case(f'query drawn {n}: its last line', ['query', last, '--microversion', version], out)


def queries():
    """All cases that are written by hand, and those by chance."""
    return [*BY_HAND, *drawn_readings(300)]
