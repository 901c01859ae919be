"""A model of `compare`: what an answer of the service is, and what is told of it beside the candidates. Cases over answers that are written here by hand, and
over answers that are made by chance from the candidates of small random clouds. It takes nothing from the program."""
from __future__ import annotations

import itertools
import json
import math
import random

from cases import CHILD, FIVE_AND_FIVE, GREATEST, MEMORY, NUMA, ONE, SHARED, UNDER_NUMA, Case, tables
from hostile import LIMITED as BOUNDED
from large import MOST_BYTES, MOST_PROVIDERS, ids, roots, shuffled, vcpu
from model import difference_line, difference_lines, draw_cloud, draw_query, headings, judgement, names, request
from notation import HEADERS, full

BAD, STOPPED = 'answer: BadAnswer\n', 'search: TooManyTries\n'
REMEDY = '  It is to be the body that the service answers GET /allocation_candidates with: JSON, with allocation_requests of 1.34 or later.\n'
MOST_DEPTH = 127


# ---- what an answer is

def whole_number(text):
    """An integer of 64 bits; what is no such integer, `-0` too, is a float."""
    number = int(text)
    return number if -1 << 63 <= number < 1 << 64 and text != '-0' else real_number(text)


def real_number(text):
    number = float(text)
    if math.isinf(number):
        raise ValueError(f'{text} is too large')
    return number


def members(pairs):
    """An object, in which the last member of a name counts; each must be a text, which a lone surrogate is not."""
    json.dumps(pairs, ensure_ascii=False).encode()
    return dict(pairs)


def no_constant(text):
    raise ValueError(f'{text} is no JSON')


def depth(value):
    """How deep arrays and objects nest."""
    if not isinstance(value, dict | list):
        return 0
    return 1 + max(map(depth, value.values() if isinstance(value, dict) else value), default=0)


def value_of(body):
    """The value that bytes are as JSON; else ValueError is raised."""
    value = json.loads(body.decode(), parse_int=whole_number, parse_float=real_number, parse_constant=no_constant, object_pairs_hook=members)
    json.dumps(value, ensure_ascii=False).encode()
    if depth(value) > MOST_DEPTH:
        raise ValueError('it nests too deep')
    return value


def has_float(value):
    if isinstance(value, dict | list):
        return any(map(has_float, value.values() if isinstance(value, dict) else value))
    return isinstance(value, float)


def is_texts(value):
    return isinstance(value, list) and all(isinstance(one, str) for one in value)


def compact(value):
    """A value as JSON without blanks; members are in byte order, which is the order of their characters."""
    return json.dumps(value, sort_keys=True, separators=(',', ':'), ensure_ascii=False)


def text_in_order(value):
    """The text of an allocation request in order: its allocations, and of each group its providers, each once."""
    if not isinstance(value, dict) or has_float(value):
        raise ValueError('it is no object, or has a float')
    allocations, mappings = value.get('allocations'), value.get('mappings')
    if not isinstance(allocations, dict) or not isinstance(mappings, dict) or not all(map(is_texts, mappings.values())):
        raise ValueError('a member is missing or is not so')
    return compact({'allocations': allocations, 'mappings': {name: sorted(set(texts)) for name, texts in mappings.items()}})


def answer_read(body):
    """The texts of an answer's requests, in its order; None where it is malformed."""
    try:
        value = value_of(body)
        requests = value.get('allocation_requests') if isinstance(value, dict) else None
        return [text_in_order(one) for one in requests] if isinstance(requests, list) else None
    except ValueError:
        return None


def comparison(candidates, limit, answer):
    """What is written of candidates, each a token and the text of its request, and of the texts of an answer; and the status."""
    is_whole = limit is None or len(answer) < limit
    here = [f'only here: {token}\n' for token, text in candidates if is_whole and text not in answer]
    there = [f'only the service: {text}\n' for text in sorted(set(answer) - {text for _, text in candidates}, key=str.encode)]
    same = sum(text in answer for _, text in candidates)
    return ''.join([*here, *there, f'the same: {same}\n']), 1 if here or there else 0


# ---- by hand

TWO = 'resources=VCPU:2'
DISK = 'resources=DISK_GB:10,VCPU:1'
NO_CLOUD = {name: HEADERS[name] for name in ('providers', 'inventories')}


def two_of(provider, amount='2'):
    """A request for VCPUs of one provider."""
    return f'{{"allocations":{{"{provider}":{{"resources":{{"VCPU":{amount}}}}}}},"mappings":{{"":["{provider}"]}}}}'


def disk_of(host, group):
    """A request for a processor of a host and a disk of P9, with this list of providers."""
    return f'{{"allocations":{{"{host}":{{"resources":{{"VCPU":1}}}},"P9":{{"resources":{{"DISK_GB":10}}}}}},"mappings":{{"":[{group}]}}}}'


def halves(first, second, amount='5'):
    """A request for two groups of five, one on each provider."""
    taken = f'{{"P1":{{"resources":{{"VCPU":{amount}}}}},"P2":{{"resources":{{"VCPU":5}}}}}}'
    return f'{{"allocations":{taken},"mappings":{{"1":["{first}"],"2":["{second}"]}}}}'


def answered(*requests, more=''):
    return f'{{"allocation_requests":[{",".join(requests)}]{more}}}'


def compared(name, cloud, query, answer, *told, words=(), err=''):
    """`compare` must write these lines of an answer."""
    made = full(answer) if isinstance(answer, str) else answer
    return Case(f'compare: {name}', ['compare', full(query), *words], ''.join(full(line) + '\n' for line in told), err, 1 if len(told) > 1 else 0,
                {**(tables(cloud) if cloud else NO_CLOUD), 'answer': made})


def malformed(name, answer, query=TWO):
    """An answer must be refused; and with more told, with what it is to be."""
    made = {**tables(CHILD), 'answer': full(answer) if isinstance(answer, str) else answer}
    yield Case(f'compare: refused: {name}', ['compare', query], err=BAD, status=5, tables=made)
    yield Case(f'compare: refused, in detail: {name}', ['compare', query, '--detail'], err=BAD + REMEDY, status=5, tables=made)


FIRST, SECOND, THIRD = map(two_of, ('P1', 'P2', 'P3'))
BOTH = answered(FIRST, SECOND)
PRETTY = '''\r
{\t"provider_summaries" : { } ,
  "allocation_requests"\t: [
    { "mappings" : { "" : [ "P1" ] } , "allocations" : { "P1" : { "resources" : { "VCPU" : 2 } } } } ,
    {
      "allocations": {"P2": {"resources": {"VCPU": 2}}},
      "mappings": {"": ["P2"]}
    }
  ] }\r\n\t \n'''
IN_FULL = '''"provider_summaries":{"P1":{"resources":{"VCPU":{"capacity":8,"used":0}},"traits":[],"parent_provider_uuid":null,"root_provider_uuid":"P1"},
"P2":{"resources":{"VCPU":{"capacity":8,"used":0}},"traits":["HW_NUMA_ROOT"],"parent_provider_uuid":"P1","root_provider_uuid":"P1"}}'''
GROUPS_IN_ORDER = 'resources1=VCPU:1,MEMORY_MB:512&resources2=VCPU:1&group_policy=none'
TOGETHER, APART = ('{"allocations":{%s},"mappings":{"1":["P1"],"2":["%s"]}}' % one for one in (
    ('"P1":{"resources":{"MEMORY_MB":512,"VCPU":2}}', 'P1'), ('"P1":{"resources":{"MEMORY_MB":512,"VCPU":1}},"P2":{"resources":{"VCPU":1}}', 'P2')))
UNDER = '{"allocations":{"P4":{"resources":{"VCPU":1}}},"mappings":{"_NUMA":["P2"],"_PF":["P4"]}}'
LONG_LIST = [f'P{number}' for number in range(1, 6001)]
ODD_TEXT = r'"\u0000\u001F\b\f\n\r\t\"\\\/\u007f\u00e9\ud83d\ude00é😀"'
ODD_SHOWN = '"\\u0000\\u001f\\b\\f\\n\\r\\t\\"\\\\/\x7fé😀é😀"'


NONE = '{"allocations":{},"mappings":{}}'
SERVICE = 'only the service: '


def only(text):
    return SERVICE + text


def replaced(*pairs, of=FIRST):
    """A request in which some texts are others."""
    for old, new in pairs:
        of = of.replace(old, new)
    return of


def deep(number):
    """A request of nothing, with so many levels of arrays in its allocations."""
    return NONE.replace('"allocations":{}', f'"allocations":{{"":{"[" * number}{"]" * number}}}')


def in_group(providers):
    """A request of nothing, with these providers in a group."""
    return NONE.replace('"mappings":{}', '"mappings":{"":["%s"]}' % '","'.join(providers))


ANOTHER_CLASS = replaced(('VCPU', 'PCPU'))
GENERATION = replaced(('{"resources"', '{"generation":7,"resources"'))
EMPTY_TAKEN = replaced(('{"resources":{"VCPU":2}}', '{}'))
MORE_GROUPS = replaced(('["P1"]', '["P1"],"_X":[]'))
ANOTHER_GROUP = replaced(('{"":', '{"1":'))
CAPITAL = full(two_of('P10')).replace('00a', '00A')
LONG_NAME = NONE.replace('"allocations":{}', f'"allocations":{{"{"x" * 200000}":1}}')
FLOATS_BESIDE = ',"allocation_request":{},"":[-0,1.5]'

# Answers for tests of devices and of memory: without a request, and to a query for a shared disk one that is the same and one that isn't.
NO_REQUEST = answered()
MIXED = answered(disk_of('P3', '"P9","P3"'), disk_of('P7', '"P9","P7","P9"'))

SAME = [
    compared('the same', CHILD, TWO, BOTH, 'the same: 2'),
    compared('the same, in another order', CHILD, TWO, answered(SECOND, FIRST), 'the same: 2'),
    compared('the same, with blanks and line endings', CHILD, TWO, PRETTY, 'the same: 2'),
    compared('the same, in bytes that end with no line ending', ONE, TWO, full(answered(FIRST)).encode(), 'the same: 1'),
    compared('the same, with summaries', CHILD, TWO, f'{{{IN_FULL},{BOTH[1:]}', 'the same: 2'),
    compared('none on both sides', None, TWO, answered(), 'the same: 0'),
    compared('none on both sides, with members that are ignored', None, TWO, '{"x":[{"allocations":1}],"allocation_requests":[ ],"provider_summaries":0.5}',
             'the same: 0'),
    compared('a request twice in the answer', CHILD, TWO, answered(SECOND, FIRST, SECOND), 'the same: 2'),
    compared('other members of a request', ONE, TWO,
             answered('{"x":[null,{"":""}],"mappings":{"":["P1"]},"a":1,"allocations":{"P1":{"resources":{"VCPU":2}}}}'), 'the same: 1'),
    compared('other members of the body, with floats', ONE, TWO, '{"a":1e3,' + answered(FIRST, more=FLOATS_BESIDE)[1:], 'the same: 1'),
    compared('a member of the body twice: the last counts', ONE, TWO, '{"allocation_requests":{},' + answered(FIRST)[1:], 'the same: 1'),
    compared('members of a request twice: the last count', ONE, TWO, answered(
        '{"mappings":[],"allocations":2.0,"mappings":{"":[1],"":["P1"]},"allocations":{"P1":{"resources":{"VCPU":3,"VCPU":2}}}}'), 'the same: 1'),
    compared('escapes in names and texts', ONE, TWO, answered(
        r'{"allocations":{"00000000-0000-0000-0000-00000000000\u0031":{"\u0072esources":{"\u0056CP\u0055":2}}},"m\u0061ppings":{"":["P1"]}}'), 'the same: 1'),
    compared('a query pasted with its path', ONE, '/placement/allocation_candidates?' + TWO, answered(FIRST), 'the same: 1'),
    compared('by version 1.39', ONE, TWO + '&required=!CUSTOM_A&required=!CUSTOM_B', answered(FIRST), 'the same: 1', words=['--microversion', '1.39']),
]

ONE_SIDE = [
    compared('one only here', CHILD, TWO, answered(SECOND), 'only here: P1', 'the same: 1'),
    compared('all only here, in their order', CHILD, TWO, answered(), 'only here: P1', 'only here: P2', 'the same: 0'),
    compared("one only the service's", CHILD, TWO, answered(FIRST, SECOND, THIRD), only(THIRD), 'the same: 2'),
    compared("all only the service's", None, TWO, answered(SECOND, FIRST), only(FIRST), only(SECOND), 'the same: 0'),
    compared('one on each side', CHILD, TWO, answered(THIRD, FIRST), 'only here: P2', only(THIRD), 'the same: 1'),
    compared('nothing in common', CHILD, TWO, answered(THIRD), 'only here: P1', 'only here: P2', only(THIRD), 'the same: 0'),
    compared("the service's twice, told once", CHILD, TWO, answered(THIRD, SECOND, FIRST, replaced(('["P3"]', '["P3","P3"]'), of=THIRD)),
             only(THIRD), 'the same: 2'),
    compared("the service's in byte order, not by number nor in the answer's order", CHILD, TWO,
             answered(two_of('P1', '3'), THIRD, two_of('P1', '20'), SECOND, two_of('P1', '-1'), FIRST, two_of('P1', '"2"'), two_of('P1', 'null')),
             *(only(two_of('P1', amount)) for amount in ('"2"', '-1', '20', '3', 'null')), only(THIRD), 'the same: 2'),
    compared('another amount', ONE, TWO, answered(two_of('P1', '3')), 'only here: P1', only(two_of('P1', '3')), 'the same: 0'),
    compared('another class', ONE, TWO, answered(ANOTHER_CLASS), 'only here: P1', only(ANOTHER_CLASS), 'the same: 0'),
    compared('another member of an allocation', ONE, TWO, answered(replaced(('{"VCPU":2}', '{"VCPU":2},"generation":7'))),
             'only here: P1', only(GENERATION), 'the same: 0'),
    compared('no member of an allocation', ONE, TWO, answered(EMPTY_TAKEN), 'only here: P1', only(EMPTY_TAKEN), 'the same: 0'),
    compared('one more group', ONE, TWO, answered(replaced(('{"":', '{"_X":[],"":'))), 'only here: P1', only(MORE_GROUPS), 'the same: 0'),
    compared('a group of another name', ONE, TWO, answered(ANOTHER_GROUP), 'only here: P1', only(ANOTHER_GROUP), 'the same: 0'),
    compared('a request of nothing', ONE, TWO, answered('{"mappings":{},"allocations":{}}', FIRST), only(NONE), 'the same: 1'),
    compared('a UUID in capital letters', 'P10 | | VCPU total 8', TWO, answered(CAPITAL), 'only here: P10', only(CAPITAL), 'the same: 0'),
    compared('allocations of any shape', None, TWO, answered('{"mappings":{},"allocations":{"b":[true,false,null,{"d":[],"c":{}}],"a":"x"}}'),
             only('{"allocations":{"a":"x","b":[true,false,null,{"c":{},"d":[]}]},"mappings":{}}'), 'the same: 0'),
    compared('the least and the greatest integers', None, TWO, answered(*(two_of('P1', number) for number in (
        '9223372036854775808', '18446744073709551615', '-9223372036854775808', '0', '10000000000000000000'))), *(only(two_of('P1', number)) for number in (
            '-9223372036854775808', '0', '10000000000000000000', '18446744073709551615', '9223372036854775808')), 'the same: 0'),
    compared('odd characters', None, TWO, answered(f'{{"allocations":{{{ODD_TEXT}:{ODD_TEXT}}},"mappings":{{{ODD_TEXT}:[{ODD_TEXT}]}}}}'),
             only(f'{{"allocations":{{{ODD_SHOWN}:{ODD_SHOWN}}},"mappings":{{{ODD_SHOWN}:[{ODD_SHOWN}]}}}}'), 'the same: 0'),
    compared('names and texts in byte order', None, TWO, answered(
        r'{"allocations":{"b":1,"\ud83d\ude00":2,"a":3,"\uffff":4,"Z":5,"":6,"aa":7},'
        r'"mappings":{"2":[],"10":["\ud83d\ude00","\uffff","b","B","a","","b","aa","a"]}}'),
             only('{"allocations":{"":6,"Z":5,"a":3,"aa":7,"b":1,"\uffff":4,"😀":2},"mappings":{"10":["","B","a","aa","b","\uffff","😀"],"2":[]}}'),
             'the same: 0'),
    compared('a long list of providers', None, TWO, answered(in_group([*LONG_LIST[::-1], *LONG_LIST])), only(in_group(LONG_LIST)), 'the same: 0'),
    compared('a text longer than what is gathered', None, TWO, answered(LONG_NAME), only(LONG_NAME), 'the same: 0'),
    compared('127 levels in a request', None, TWO, answered(deep(123)), only(deep(123)), 'the same: 0'),
]

LIMITED = [
    compared('as many as the limit', CHILD, TWO + '&limit=1', answered(SECOND), 'the same: 1'),
    compared('as many as the limit, one of them not ours', CHILD, TWO + '&limit=2', answered(THIRD, SECOND), only(THIRD), 'the same: 1'),
    compared('as many as the limit, one of them twice', CHILD, TWO + '&limit=2', answered(SECOND, SECOND), 'the same: 1'),
    compared('more than the limit', CHILD, TWO + '&limit=1', answered(THIRD, SECOND), only(THIRD), 'the same: 1'),
    compared('fewer than the limit', CHILD, TWO + '&limit=2', answered(SECOND), 'only here: P1', 'the same: 1'),
    compared('fewer than the limit, and none: also those behind the limit', CHILD, TWO + '&limit=1', answered(),
             'only here: P1', 'only here: P2', 'the same: 0'),
    compared('a limit over all', CHILD, f'limit={GREATEST}&{TWO}', answered(SECOND, THIRD), 'only here: P1', only(THIRD), 'the same: 1'),
    compared('a limit, and all of ours behind it too', CHILD, TWO + '&limit=1', BOTH, 'the same: 2'),
]

GROUPED = [
    compared('a host and a shared disk', SHARED, DISK, answered(disk_of('P1', '"P1","P9"'), disk_of('P3', '"P9","P3"')), 'the same: 2'),
    compared('a host and a shared disk, told twice', SHARED, DISK, answered(disk_of('P1', '"P9","P1","P9"'), disk_of('P3', '"P9","P3","P3"')), 'the same: 2'),
    compared('a host and a shared disk, only here', SHARED, DISK, answered(disk_of('P3', '"P9","P3"')), 'only here: P9,P1', 'the same: 1'),
    compared('a host without its disk in the group', SHARED, DISK, answered(disk_of('P1', '"P9","P1"'), disk_of('P3', '"P3"')),
             'only here: P9,P3', only(disk_of('P3', '"P3"')), 'the same: 1'),
    compared('groups with the same amounts', CHILD, FIVE_AND_FIVE, answered(halves('P2', 'P1'), halves('P1', 'P2')), 'the same: 2'),
    compared('groups with the same amounts, one way only here', CHILD, FIVE_AND_FIVE, answered(halves('P1', 'P2')), 'only here: P2,P1', 'the same: 1'),
    compared("groups with the same amounts, one way only the service's", CHILD, FIVE_AND_FIVE,
             answered(halves('P1', 'P1'), halves('P2', 'P1'), halves('P1', 'P2')), only(halves('P1', 'P1')), 'the same: 2'),
    compared('groups with the same amounts, of which the service adds others', CHILD, FIVE_AND_FIVE, answered(halves('P1', 'P2', '10'), halves('P2', 'P1')),
             'only here: P1,P2', only(halves('P1', 'P2', '10')), 'the same: 1'),
    compared('amounts of two groups on one provider', MEMORY, GROUPS_IN_ORDER, answered(APART, TOGETHER), 'the same: 2'),
    compared('only here in the order of candidates, and not of their texts', MEMORY, GROUPS_IN_ORDER, answered(),
             'only here: P1,P1', 'only here: P1,P2', 'the same: 0'),
    compared('amounts of two groups on one provider, which are not added', MEMORY, GROUPS_IN_ORDER, answered(APART, TOGETHER.replace('"VCPU":2', '"VCPU":1')),
             'only here: P1,P1', only(TOGETHER.replace('"VCPU":2', '"VCPU":1')), 'the same: 1'),
    compared('a group without resources', NUMA, UNDER_NUMA, answered(UNDER), 'the same: 1'),
    compared('a group without resources, which the service leaves out', NUMA, UNDER_NUMA, answered(UNDER.replace('"_NUMA":["P2"],', '')),
             'only here: P2,P4', only(UNDER.replace('"_NUMA":["P2"],', '')), 'the same: 0'),
    compared('a group without resources, at two providers', NUMA, UNDER_NUMA, answered(UNDER.replace('["P2"]', '["P2","P1","P2"]')),
             'only here: P2,P4', only(UNDER.replace('["P2"]', '["P1","P2"]')), 'the same: 0'),
]


def nested(number):
    """A good answer with so many levels of arrays and objects."""
    return answered(FIRST, SECOND, more=',"x":' + '[' * (number - 1) + ']' * (number - 1))


OLD_ALLOCATIONS = '[{"resource_provider":{"uuid":"P1"},"resources":{"VCPU":2}}]'
WITHOUT_MAPPINGS = FIRST.rpartition(',"mappings"')[0] + '}'
MALFORMED = {
    **{f'an amount of {number}': answered(FIRST, two_of('P2', number)) for number in (
        '2.0', '2e0', '2E0', '20e-1', '-0', '0.0', '-0.0', '18446744073709551616', '-9223372036854775809', '1' + '0' * 400, '1e999', '02', '+2', '2.', '.5',
        '0x2', 'NaN', 'Infinity', 'two')},
    'a float in another member of an allocation': answered(FIRST.replace('{"resources"', '{"x":[[1.5]],"resources"')),
    'a float in another member of a request': answered('{"x":[{"y":1.5}],' + FIRST[1:]),
    'an error of the service': '{"errors":[{"status":400,"title":"Bad Request","detail":"","request_id":"req-1"}]}',
    'no allocation_requests': '{"provider_summaries":{}}',
    'no member at all': '{}',
    'allocation_requests of another name': BOTH.replace('allocation_requests', 'Allocation_requests'),
    **{f'allocation_requests that are {value}': f'{{"allocation_requests":{value}}}' for value in ('{}', 'null', '""', '0', 'true', f'{{"0":{FIRST}}}')},
    'the last allocation_requests are no array': answered(FIRST, more=',"allocation_requests":null'),
    **{f'a body that is {value[:20]}': value for value in ('[]', 'null', '""', '7', f'[{FIRST}]', f'[{BOTH}]', FIRST)},
    **{f'a request that is {value}': answered(FIRST, value, SECOND) for value in ('null', '[]', '""', '1', 'false', '{}', '["allocations","mappings"]')},
    'no mappings, as before 1.34': answered(WITHOUT_MAPPINGS),
    'no mappings of the last request': answered(FIRST, WITHOUT_MAPPINGS.replace('P1', 'P2')),
    'no allocations': answered('{"mappings":{"":["P1"]}}'),
    'allocations in an array, as before 1.12': answered(FIRST.replace('{"P1":{"resources":{"VCPU":2}}}', OLD_ALLOCATIONS)),
    **{f'allocations that are {value}': answered(f'{{"allocations":{value},"mappings":{{"":["P1"]}}}}') for value in ('null', '[]', '"P1"', '2')},
    **{f'mappings that are {value}': answered(FIRST.replace('{"":["P1"]}', value)) for value in ('null', '[]', '"P1"', '2', '["P1"]')},
    **{f'a group that is {value}': answered(FIRST.replace('["P1"]', value)) for value in (
        'null', '"P1"', '2', '{}', '{"P1":"P1"}', '[1]', '["P1",1]', '[null]', '["P1",["P1"]]', '[{}]', '[true]')},
    'an empty file': '',
    'blanks alone': ' \n',
    'a text that is no JSON': 'VCPU:2\n',
    'a page of HTML': '<html><body>401 Unauthorized</body></html>',
    'a table': HEADERS['providers'],
    'half an answer': BOTH[:-20],
    'all but the last byte': BOTH[:-1],
    'more behind it': BOTH + '}',
    'two answers': BOTH + BOTH,
    'a byte order mark': '\ufeff' + BOTH,
    'a comma behind the last request': answered(FIRST, ''),
    'a comma behind the last member': answered(FIRST, more=','),
    'no comma between requests': f'{{"allocation_requests":[{FIRST}{SECOND}]}}',
    'no colon': BOTH.replace(':', ' ', 1),
    'a comment': '/* */' + BOTH,
    'quotes that are single': BOTH.replace('"', "'"),
    'a name without quotes': BOTH.replace('"allocation_requests"', 'allocation_requests'),
    'an escape that is none': BOTH.replace('VCPU', r'\x56CPU', 1),
    'an escape of three digits': BOTH.replace('VCPU', r'\u056', 1),
    'an escape whose digits are none': BOTH.replace('VCPU', r'\u00g6', 1),
    'half of a pair of escapes': BOTH.replace('VCPU', r'\ud83d', 1),
    'the other half of a pair of escapes': answered(FIRST, more=r',"x":"\ude00"'),
    'half of a pair of escapes, where all is ignored': answered(FIRST, more=r',"x":["\ud83dx"]'),
    'a line ending in a text': BOTH.replace('VCPU', 'VC\nPU', 1),
    'a byte 0 behind it': BOTH + '\0',
    'a byte 0 in a text': BOTH.replace('VCPU', 'VC\0PU', 1),
    'a byte that is no UTF-8': full(BOTH).encode().replace(b'VCPU', b'\xff', 1),
    'a byte that is no UTF-8, where all is ignored': full(answered(FIRST, SECOND, more=',"x":"?"')).encode().replace(b'?', b'\xe9'),
    'a byte that is no UTF-8 behind it': BOTH.encode() + b'\x80',
    'half a character': full(BOTH).encode().replace(b'VCPU', b'\xc3', 1),
    'a character in too many bytes': full(BOTH).encode().replace(b'VCPU', b'\xc0\xaf', 1),
    'half of a pair in bytes': full(BOTH).encode().replace(b'VCPU', b'\xed\xa0\xbd', 1),
    'UTF-16': full(BOTH).encode('utf-16'),
    '200 levels': nested(200),
    '128 levels': nested(128),
    '200 levels that do not end': '[' * 200,
    '128 levels in a request': answered(FIRST, deep(124)),
    'a million levels': '[' * 1000000,
    'a million levels of objects': '{"":' * 1000000,
}


# ---- what is told first

ANSWER = {'answer': full(answered(FIRST))}
FOLDER, NO_FILE = 'examples', 'examples/no_such_file.json'
NO_SUCH = ': there is no such file; give the path of a file that can be read\n'
FAILED = ': reading failed, as it does of a folder; give the path of a file that can be read\n'
ODD_ROWS = {**tables(ONE), 'usages': HEADERS['usages'] + full('P9,VCPU,1\n')}
ODD_TABLE = 'usages: record 2: UnknownProvider\n'
BAD_QUERY = 'resources=VCPU:0'


def refused(name, words, line, status, made, *more):
    return Case(f'compare: {name}', ['compare', *words], err=line + ''.join(more), status=status, tables=made)


def of_size(size):
    """An answer of so many bytes."""
    return lambda: full(BOTH).ljust(size)


def with_text(size):
    """The same, with most of them in a text that is ignored."""
    front, end = full(BOTH)[:-1] + ',"x":"', '"}'
    return lambda: front + 'x' * (size - len(front) - len(end)) + end


ORDERED = [
    refused('no file', [TWO, NO_FILE], 'answer: Unreadable\n', 5, tables(ONE)),
    refused('a folder', [TWO, FOLDER], 'answer: Unreadable\n', 5, tables(ONE)),
    refused('an empty path', [TWO, ''], 'answer: Unreadable\n', 5, tables(ONE)),
    refused('no file, in detail', ['--detail', TWO, NO_FILE], 'answer: Unreadable\n', 5, tables(ONE), '  ', NO_FILE, NO_SUCH),
    refused('no file, in detail, with an odd name', [TWO, '--detail', '\x1b[2J"é.json'], 'answer: Unreadable\n', 5, tables(ONE),
            '  \\x1b[2J\\x22\\xc3\\xa9.json', NO_SUCH),
    refused('a folder, in detail', [TWO, FOLDER, '--detail'], 'answer: Unreadable\n', 5, tables(ONE), '  ', FOLDER, FAILED),
    refused('a file below a file', [TWO, 'README.md/x'], 'answer: Unreadable\n', 5, tables(ONE)),
    refused('an answer without end', [TWO, '/dev/zero'], 'answer: TooLarge\n', 5, tables(ONE)),
    refused('an answer without end, in detail', ['--detail', TWO, '/dev/zero'], 'answer: TooLarge\n', 5, tables(ONE)),
    refused('a byte too many', [TWO], 'answer: TooLarge\n', 5, {**tables(CHILD), 'answer': of_size(MOST_BYTES + 1)}),
    Case('compare: as many bytes as there may be', ['compare', TWO], 'the same: 2\n', tables={**tables(CHILD), 'answer': of_size(MOST_BYTES)}),
    Case('compare: as many bytes as there may be, most of them in a text', ['compare', TWO], 'the same: 2\n',
         tables={**tables(CHILD), 'answer': with_text(MOST_BYTES)}),
    refused('neither a table nor an answer: the table is told', [TWO, NO_FILE, '--providers', NO_FILE, '--inventories', NO_FILE],
            'providers: Unreadable\n', 3, {}),
    refused('no table of aggregates, and no answer: the table is told', [TWO, NO_FILE, '--aggregates', NO_FILE], 'aggregates: Unreadable\n', 3, tables(ONE)),
    refused('a folder for a table, and no answer: the answer is told', [TWO, NO_FILE, '--traits', FOLDER], 'answer: Unreadable\n', 5, tables(ONE)),
    refused('a folder for a table, and one for the answer: the answer is told', [TWO, FOLDER, '--traits', FOLDER], 'answer: Unreadable\n', 5, tables(ONE)),
    refused('a refused table, and no answer: the answer is told', [TWO, NO_FILE], 'answer: Unreadable\n', 5, ODD_ROWS),
    refused('a refused table, and an answer without end: the answer is told', [TWO, '/dev/zero'], 'answer: TooLarge\n', 5, ODD_ROWS),
    refused('a table without end, and no answer: the answer is told', [TWO, NO_FILE, '--traits', '/dev/zero'], 'answer: Unreadable\n', 5, tables(ONE)),
    refused('a refused table, and a malformed answer: the table is told', [TWO], ODD_TABLE, 3, {**ODD_ROWS, 'answer': '{}'}),
    refused('a refused table, a refused query and a malformed answer: the table is told', [BAD_QUERY], ODD_TABLE, 3, {**ODD_ROWS, 'answer': '{}'}),
    refused('a refused query, and no answer: the answer is told', [BAD_QUERY, NO_FILE], 'answer: Unreadable\n', 5, tables(ONE)),
    refused('a refused query, and an answer without end: the answer is told', [BAD_QUERY, '/dev/zero'], 'answer: TooLarge\n', 5, tables(ONE)),
    refused('a refused query, and a malformed answer: the query is told', [BAD_QUERY], 'query: pair 1: BadValue\n', 4, {**tables(ONE), 'answer': '{}'}),
    refused('a refused query', [BAD_QUERY], 'query: pair 1: BadValue\n', 4, {**tables(ONE), **ANSWER}),
    refused('an empty query', [''], 'query: NoResources\n', 4, {**tables(ONE), **ANSWER}),
    refused('a list of traits before 1.39', [TWO + '&required=in:A,B'], 'query: pair 2: BadValue\n', 4, {**tables(ONE), **ANSWER}),
    refused('a refused query, in detail', [TWO + '&limit=0', '--detail'], 'query: pair 2: BadValue\n', 4, {**tables(ONE), **ANSWER},
            '  limit="0": a number from 1 to 2147483647\n'),
    refused('a malformed answer, and no tries', [FIVE_AND_FIVE, '--tries', '0'], BAD, 5, {**tables(CHILD), 'answer': '{}'}),
    Case('compare: an answer through a pipe', ['compare', TWO, '/dev/stdin'], 'the same: 1\n', tables=tables(ONE), given=ANSWER['answer'].encode()),
    Case('compare: nothing through a pipe', ['compare', TWO, '/dev/null'], err=BAD, status=5, tables=tables(ONE)),
    Case('compare: a folder of tables', ['compare', TWO], 'the same: 1\n', tables={**HEADERS, **tables(ONE), **ANSWER}, together=True),
    Case('compare: options on both sides of the words', ['compare', '--microversion=1.39', '--tries', '9', TWO], 'the same: 1\n',
         tables={**tables(ONE), **ANSWER}),
    refused('no file, by a path with more than 255 bytes', [TWO, './' * 150 + NO_FILE], 'answer: Unreadable\n', 5, tables(ONE)),
]


def within(tries, query, answer, *told, stops=True):
    """A comparison over two providers that five and five fit in two ways, with so many tries; tests/limits/tries.py counts how many `tokens` makes."""
    out = ''.join(full(line) + '\n' for line in told)
    return Case(f'compare: with {tries} tries: {query[-8:]}, {answer.count("mappings")} requests', ['compare', query, '--tries', str(tries)], out,
                STOPPED if stops else '', 8 if stops else int(len(told) > 1), {**tables(CHILD), 'answer': full(answer)})


TRIED = [
    *(within(tries, FIVE_AND_FIVE, answered(), *['only here: P1,P2', 'only here: P2,P1'][:found]) for tries, found in enumerate((0, 0, 0, 1, 1, 2))),
    within(6, FIVE_AND_FIVE, answered(), 'only here: P1,P2', 'only here: P2,P1', 'the same: 0', stops=False),
    within(5, FIVE_AND_FIVE, answered(halves('P1', 'P2')), 'only here: P2,P1'),
    within(5, FIVE_AND_FIVE, answered(halves('P1', 'P2'), halves('P2', 'P1'))),
    within(6, FIVE_AND_FIVE, answered(halves('P1', 'P2'), halves('P2', 'P1')), 'the same: 2', stops=False),
    # All candidates are looked for, whatever the limit.
    within(5, FIVE_AND_FIVE + '&limit=1', answered(halves('P1', 'P2'))),
    within(6, FIVE_AND_FIVE + '&limit=1', answered(halves('P2', 'P1')), 'the same: 1', stops=False),
    within(GREATEST, FIVE_AND_FIVE + '&limit=1', answered(halves('P1', 'P1')), only(halves('P1', 'P1')), 'the same: 0', stops=False),
]

# The query names a group without a suffix beside one with it, over a disk that two trees share.
NOTED_QUERY = 'resources=DISK_GB:10&resources1=VCPU:1'
NOTED = difference_line(headings()[1]) + '\n'
NOTES = [
    compared('in detail, with nothing to note', ONE, TWO, answered(FIRST), 'the same: 1', words=['--detail']),
    compared('in detail, a note behind an answer with a difference', SHARED, NOTED_QUERY, answered(), 'only here: P9,P1', 'only here: P9,P3', 'the same: 0',
             words=['--detail'], err=NOTED),
    compared('not in detail, no note', SHARED, NOTED_QUERY, answered(), 'only here: P9,P1', 'only here: P9,P3', 'the same: 0'),
    refused('in detail, no note where the answer is malformed', [NOTED_QUERY, '--detail'], BAD, 5, {**tables(SHARED), 'answer': '[]'}, REMEDY),
    refused('in detail, no note where the search stops', [NOTED_QUERY, '--detail', '--tries', '0'], STOPPED, 8, {**tables(SHARED), 'answer': answered()}),
]


# ---- many

def many_roots(order):
    """The answer of a cloud with the most providers, each of which fits, in an order of these."""
    return lambda: answered(*map(two_of, order(ids(MOST_PROVIDERS))))


def line_for_each(front, names):
    return ''.join(f'{front}{one}\n' for one in names)


ALL_ROOTS = {'providers': lambda: roots(MOST_PROVIDERS), 'inventories': lambda: vcpu(MOST_PROVIDERS)}
EVERY_ID = ids(MOST_PROVIDERS)
MANY_MEMBERS = ''.join(f',"{number}":0' for number in range(1000000))
MANY_ESCAPES = ',"' + r'\u0041\/\n' * 1000000 + '":0'
PARTS = '[', '{"":', '[],', '"', '{}', '\\', '0', '\0', ']', '{"allocation_requests":['

# A name, a cloud, an answer, and what is written.
MANY = [
    ('65536 candidates, in any order', ALL_ROOTS, many_roots(shuffled), f'the same: {MOST_PROVIDERS}\n'),
    ('65536 candidates, of which the service has every second, from the last to the first', ALL_ROOTS, many_roots(lambda order: order[-2::-2]),
     line_for_each('only here: ', EVERY_ID[1::2]) + f'the same: {MOST_PROVIDERS // 2}\n'),
    ('65536 candidates, and none in the answer', ALL_ROOTS, answered(), line_for_each('only here: ', EVERY_ID) + 'the same: 0\n'),
    ("65536 requests that are only the service's", NO_CLOUD, many_roots(shuffled), line_for_each(SERVICE, map(two_of, EVERY_ID)) + 'the same: 0\n'),
    ('one request 50000 times', tables(CHILD), lambda: answered(*[full(FIRST)] * 50000), full('only here: P2\nthe same: 1\n')),
    ('a group with a provider a million times', tables(CHILD), lambda: full(BOTH).replace('["', '["' + '","'.join(EVERY_ID[:1] * 1000000) + '","', 1),
     'the same: 2\n'),
    ('a group with 200000 providers', NO_CLOUD, lambda: answered(in_group(shuffled(ids(200000)))), only(in_group(ids(200000))) + '\nthe same: 0\n'),
    ('64 MiB of a text that is ignored', tables(CHILD), with_text(MOST_BYTES), 'the same: 2\n'),
    ('64 MiB of blanks', tables(CHILD), of_size(MOST_BYTES), 'the same: 2\n'),
    ('a million members that are ignored', tables(CHILD), lambda: full(answered(FIRST, SECOND, more=MANY_MEMBERS)), 'the same: 2\n'),
    ('a member a million times', tables(CHILD), lambda: full(answered(FIRST, SECOND, more=',"x":[]' * 1000000)), 'the same: 2\n'),
    ('a name of three million escapes', tables(CHILD), lambda: full(answered(FIRST, SECOND, more=MANY_ESCAPES)), 'the same: 2\n'),
    *((f'a million times {part!r}', tables(CHILD), part * 1000000, BAD) for part in PARTS),
    ('200000 requests of nothing', NO_CLOUD, lambda: answered(*[NONE] * 200000), only(NONE) + '\nthe same: 0\n'),
    ('a million requests that are malformed', NO_CLOUD, lambda: answered(*['{}'] * 1000000), BAD),
]


def hosted(program):
    """Cases in which much is compared, each within six seconds of processor time and 6 GiB of memory."""
    for name, cloud, answer, told in MANY:
        out, err, status = ('', BAD, 5) if told == BAD else (told, '', int(told.startswith('only ')))
        yield Case(f'compare: {name}', ['sh', '-c', BOUNDED.format(3), 'limited', program, 'compare', TWO], out, err, status, {**cloud, 'answer': answer})


# ---- by chance

CLASSES = 'VCPU', 'MEMORY_MB', 'DISK_GB', 'CUSTOM_A'
ODD_NAMES = 'x', '', 'a/b', 'é', '"', '\\', '\n', '\x7f', '😀', 'P2'


def blanks(chance):
    return ''.join(chance.choices(' \t\r\n', k=chance.choice((0, 0, 0, 0, 1, 2))))


def quoted(text, chance):
    """A text in quotes, with some characters as escapes that needn't be."""
    return '"' + ''.join(f'\\u{ord(one):04{chance.choice("xX")}}' if ord(one) < 0x10000 and chance.random() < 0.01
                         else json.dumps(one, ensure_ascii=chance.random() < 0.5)[1:-1].replace('/', chance.choice(('/', '\\/'))) for one in text) + '"'


def spelled(value, chance):
    """A value as JSON, with blanks and escapes, with members in any order, and with some twice, of which the last counts."""
    if isinstance(value, dict):
        pairs = [(name, spelled(one, chance)) for name, one in chance.sample(list(value.items()), len(value))]
        pairs[:0] = [(name, chance.choice(('0', '[]', 'null', '"P1"', '{"":[]}'))) for name in value if chance.random() < 0.02]
        parts, ends = [quoted(name, chance) + blanks(chance) + ':' + blanks(chance) + one for name, one in pairs], '{}'
    elif isinstance(value, list):
        parts, ends = [spelled(one, chance) for one in value], '[]'
    else:
        return quoted(value, chance) if isinstance(value, str) else json.dumps(value)
    return ends[0] + ','.join(blanks(chance) + part + blanks(chance) for part in parts) + ends[1]


def in_any_order(one, chance):
    """A request with the providers of its groups in any order, and some of them twice."""
    groups = {suffix: chance.sample(found, len(found)) + chance.choices(found, k=chance.random() < 0.1) for suffix, found in one['mappings'].items()}
    return {**one, 'mappings': groups, **({chance.choice(ODD_NAMES): chance.choice((1, None, [], {'mappings': 2}))} if chance.random() < 0.1 else {})}


def alter(one, chance):
    """Changes something in a request, in place."""
    taken, groups = one['allocations'], one['mappings']
    of, suffix, change = chance.choice(list(taken)), chance.choice(list(groups)), chance.randrange(9)
    amounts = taken[of]['resources']
    name = chance.choice(list(amounts))
    if change == 0:
        amounts[name] += chance.choice((-3, -1, 1, 1 << 40))
    elif change == 1:
        amounts[chance.choice(CLASSES)] = amounts.pop(name)
    elif change == 2:
        taken[chance.choice(('P1', 'P2', 'P3', 'P7', 'x'))] = taken.pop(of)
    elif change == 3:
        del taken[of]
    elif change == 4:
        taken[of][chance.choice(('generation', *ODD_NAMES))] = chance.choice((1, True, None, 'P1', [], {}))
    elif change == 5:
        groups[suffix] = groups[suffix] + [chance.choice(('P1', 'P2', 'P3', *ODD_NAMES))]
    elif change == 6:
        groups[suffix] = []
    elif change == 7:
        groups[chance.choice(('', '1', '2', '_X', *ODD_NAMES))] = groups.pop(suffix)
    else:
        taken[of], groups[suffix] = chance.choice((amounts, None, 'P1', [amounts])), ['P1']


def break_(one, chance):
    """Makes a request malformed, in place."""
    change = chance.randrange(7)
    if change == 0:
        one['allocations']['P1'] = {'resources': {'VCPU': chance.choice((2.0, -0.0, 1e30, 1 << 64, -(1 << 63) - 1))}}
    elif change == 1:
        one['mappings'][chance.choice(list(one['mappings']))] = chance.choice(('P1', None, {}, [1], ['P1', None], [['P1']], [{}]))
    elif change == 2:
        del one[chance.choice(('mappings', 'allocations'))]
    elif change == 3:
        one['mappings'] = chance.choice((None, [], 'P1', [['P1']], 1))
    elif change == 4:
        one['allocations'] = chance.choice((None, [one['allocations']], 'P1', 1))
    else:
        one[chance.choice(('x', ''))] = [{'y': chance.choice((0.5, 1e-30))}]


def spoil(made, chance):
    """Bytes with one that is taken out, put in or changed."""
    at = chance.randrange(len(made))
    other = chance.choice((b'', bytes([made[at]]) * 2, bytes([chance.randrange(256)]), b',', b'"', b'\\', b'0', b'.5', b'e1', b'\xc3'))
    return made[:at] + other + made[at + 1:]


def draw_answer(chance, found, others, query):
    """The bytes of an answer: some of these candidates, some of them altered, and some of what are no candidates."""
    often = chance.choice((0, 0, 0.2, 0.5, 1))
    kept = [assignment for assignment in found if chance.random() >= often / 2]
    kept += chance.choices(kept, k=chance.choice((0, 0, 1))) if kept else []
    kept += chance.sample(others, min(len(others), chance.choice((0, 0, 1, 3)))) if often else []
    requests = [in_any_order(request(assignment, query), chance) for assignment in kept]
    for one in requests:
        if chance.random() < often / 3:
            alter(one, chance)
    if requests and chance.random() < 0.1:
        break_(chance.choice(requests), chance)
    whole = {'allocation_requests': chance.sample(requests, len(requests)), **chance.choice(({}, {'provider_summaries': {}}, {'x': 0.5, '': [1e3]}))}
    plain = full(json.dumps(whole))
    made = (plain if chance.random() < 0.2 else spelled(json.loads(plain), chance)).encode()
    return spoil(made, chance) if chance.random() < 0.1 else made


def drawn_clouds(number, chance):
    """So many clouds, each with a query and all lists of providers for its slots, with the judgement of each. Most have a candidate."""
    while number:
        cloud, query = draw_cloud(chance), draw_query(chance)
        every = list(itertools.product(cloud, repeat=len(list(query.slots()))))
        judged = [judgement(assignment, query, cloud) for assignment in every]
        if 0 in judged or chance.random() < 0.1:
            yield cloud, query, every, judged
            number -= 1


def made_for(name, words, body, candidates, limit, noted, made):
    """A case for an answer of these bytes, beside these candidates. In detail it is given what is noted."""
    answer = answer_read(body)
    if answer is None:
        return Case(f'{name}: refused', ['compare', *words], err=BAD + (REMEDY if '--detail' in words else ''), status=5, tables={**made, 'answer': body})
    out, status = comparison(candidates, limit, answer)
    return Case(name, ['compare', *words], out, noted if '--detail' in words else '', status, {**made, 'answer': body})


def drawn_compares(number, program, seed=1):
    """Cases over this number of random clouds: answers that are made from the candidates, and what the program itself writes, which has no difference."""
    chance = random.Random(seed)
    for n, (cloud, query, every, judged) in enumerate(drawn_clouds(number, chance)):
        found, others = ([assignment for assignment, rule in zip(every, judged) if bool(rule) == broken] for broken in (False, True))
        candidates = [(full(names(assignment)), full(compact(request(assignment, query)))) for assignment in found]
        text, made = full(query.text(chance)), tables('\n'.join(provider.text() for provider in cloud))
        later = any(group.any_of for group in query.groups.values())
        version = ['--microversion', '1.39'] if later or chance.random() < 0.3 else []
        noted = ''.join(line + '\n' for line in difference_lines(True, query, cloud))
        limits = [chance.choice((None, None, chance.randint(1, len(found) + 2))) for _ in range(3)]
        *words, own = [[text if limit is None else f'{text}&limit={limit}', *version] for limit in limits]
        for way, limit, some in zip(('one', 'other'), limits, words):
            body = draw_answer(chance, found, others, query)
            yield made_for(f'compare drawn {n}, {way}', [*some, *chance.choice(([], ['--detail']))], body, candidates, limit, noted, made)
        same = min(len(found), limits[2] or len(found))
        yield Case(f'compare drawn {n}: what candidates writes', ['sh', '-c', '"$0" candidates "$@" | "$0" compare "$@" /dev/stdin', program, *own],
                   f'the same: {same}\n', tables=made)


def compares(program):
    """All cases that are written by hand, and those by chance."""
    yield from [*SAME, *ONE_SIDE, *LIMITED, *GROUPED, *ORDERED, *TRIED, *NOTES]
    for name, answer in MALFORMED.items():
        yield from malformed(name, answer)
    yield compared('127 levels', CHILD, TWO, nested(127), 'the same: 2')
    yield from hosted(program)
    yield from drawn_compares(300, program)
