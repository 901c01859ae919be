"""A model of the faults of tables, queries and tokens, as docs/REFERENCE.md has them, and cases with random faults. It takes nothing from the program.
What has no fault must be accepted: `check` then counts the rows, and `tokens` over no providers finds nothing."""
from __future__ import annotations

import csv
import io
import random
import re
from urllib.parse import unquote_to_bytes

from cases import Case
from notation import HEADERS, full, tables

NUMBERS = 'total', 'reserved', 'min_unit', 'max_unit', 'step_size'
KINDS = {**dict.fromkeys(('uuid', 'root_provider_uuid', 'parent_provider_uuid', 'resource_provider'), 'BadUuid'),
         **dict.fromkeys((*NUMBERS, 'usage'), 'BadNumber'), 'resource_class': 'BadClass', 'name': 'BadTrait', 'allocation_ratio': 'BadRatio'}
GROUPED = 'resources', 'required', 'member_of', 'in_tree'
PLAIN = 'root_required', 'group_policy', 'same_subtree', 'limit'


# ---- what texts are

def number(text):
    return int(text) if re.fullmatch('[0-9]{1,10}', text, re.A) and int(text) <= 2147483647 else None


def is_ratio(text):
    parts = re.fullmatch(r'([0-9]{1,7})(?:\.([0-9]+))?', text)
    decimals = (parts[2] or '').rstrip('0') if parts else ''
    return bool(parts) and len(decimals) <= 6 and int(parts[1] + decimals.ljust(6, '0')) <= 10 ** 12


def uuid(text):
    groups = '-'.join(f'[0-9a-f]{{{size}}}' for size in (8, 4, 4, 4, 12))
    found = re.fullmatch(rf'({groups}|[0-9a-f]{{32}})|\{{({groups})\}}|urn:uuid:({groups})', text.lower())
    return (found[1] or found[2] or found[3]).replace('-', '') if found else None


def is_name(text):
    return bool(re.fullmatch('[A-Z0-9_]{1,255}', text))


def is_suffix(text):
    return bool(re.fullmatch('[A-Za-z0-9_-]{1,64}', text))


# ---- tables

def is_field(column, text):
    kind = KINDS[column]
    if column == 'parent_provider_uuid' and text in ('', 'None'):
        return True
    return {'BadUuid': uuid, 'BadNumber': lambda t: number(t) is not None, 'BadRatio': is_ratio}.get(kind, is_name)(text)


class Tables:
    """The five tables, read in their order up to the first fault. `fault` is the line of that fault, or None."""

    def __init__(self, texts):
        self.parents, self.roots, self.held, self.used, self.pairs = {}, {}, set(), set(), {'traits': set(), 'aggregates': set()}
        self.counts = []
        found = ((table, self.read(table, texts.get(table))) for table in HEADERS)
        self.fault = next((f'{table}: record {fault[0]}: {fault[1]}' for table, fault in found if fault), None)

    def read(self, table, text):
        columns = HEADERS[table].strip().split(',')
        records = [row for row in csv.reader(io.StringIO(HEADERS[table] if text is None else text, newline='')) if row]
        if not records:
            return 1, 'NoHeader'
        header, *rows = records
        for wrong, kind in ((lambda count: count == 0, 'MissingColumn'), (lambda count: count > 1, 'DoubleColumn')):
            if any(wrong(header.count(column)) for column in columns):
                return 1, kind
        for place, row in enumerate(rows, 2):
            kind = 'Width' if len(row) != len(header) else self.judge(table, {column: row[header.index(column)] for column in columns})
            if kind:
                return place, kind
        self.counts.append(len(self.pairs[table]) if table in self.pairs else len(rows))
        return self.judge_trees() if table == 'providers' else None

    def judge(self, table, row):
        for column, text in row.items():
            if not is_field(column, text):
                return KINDS[column]
        if table == 'providers':
            return self.add(uuid(row['uuid']), uuid(row['root_provider_uuid']), uuid(row['parent_provider_uuid']))
        of = uuid(row['resource_provider'])
        if table == 'inventories' and int(row['step_size']) == 0:
            return 'ZeroStep'
        if table == 'inventories' and int(row['reserved']) > int(row['total']):
            return 'ReservedOverTotal'
        known = {'inventories': self.held, 'usages': self.used}.get(table, set())
        key = (of, row.get('resource_class'))
        if key in known:
            return 'Duplicate'
        if of not in self.parents:
            return 'UnknownProvider'
        if table == 'usages' and key not in self.held:
            return 'NoInventory'
        known.add(key)
        if table in self.pairs:
            self.pairs[table].add((of, row.get('name') or uuid(row['uuid'])))
        return None

    def add(self, of, root, parent):
        if of in self.parents:
            return 'Duplicate'
        self.parents[of], self.roots[of] = parent, root
        return None

    def judge_trees(self):
        tops = {}
        for of in self.parents:
            above = [of]
            while self.parents.get(above[-1]) and len(above) <= len(self.parents):
                above.append(self.parents[above[-1]])
            tops[of] = None if len(above) > len(self.parents) else above[-1]
        for wrong, kind in ((lambda of: self.parents[of] and self.parents[of] not in self.parents, 'UnknownParent'),
                            (lambda of: tops[of] is None, 'ParentCycle'), (lambda of: tops[of] != self.roots[of], 'WrongRoot')):
            for place, of in enumerate(self.parents, 2):
                if wrong(of):
                    return place, kind
        return None


FIELDS = {
    'BadUuid': ('xyz', '', 'None', ' P1', 'P1', 'P2', '{P3}', 'urn:uuid:P2', 'URN:UUID:P9', 'P9'),
    'BadNumber': ('', '8.0', '-1', '0', '9', '2147483648', '0000000008'),
    'BadRatio': ('', '.5', '1.', '1e-05', '1.2345', '1.2345678', '0.0', '1.500000', '1.2345670', '1000000.000001'),
    'BadClass': ('vcpu', '', 'VCPU', 'MEMORY_MB'),
    'BadTrait': ('hw_x', '', 'A'),
}
CLOUD = tables('''P1 | | VCPU total 8, used 1; MEMORY_MB total 64 | A, B | A1
P2 | P1 | VCPU total 8, used 1 | A | A1, A2
P3 | P2 | MEMORY_MB total 64, used 2 | B
P4 | | VCPU total 4 | A | A2''')


def spoil(chance, rows):
    """Changes something in a table, in place. The first row is the header."""
    header, row = rows[0], chance.choice(rows[1:] or rows)
    at = chance.randrange(len(row)) if row else 0
    change = chance.random()
    if change < 0.6 and row is not header and at < len(header) and header[at] in KINDS:
        row[at] = full(chance.choice(FIELDS[KINDS[header[at]]]))
    elif change < 0.75:
        rows.insert(chance.randrange(1, len(rows) + 1), list(row))
    elif change < 0.8:
        row.append('')
    elif change < 0.85 and row:
        row.pop()
    elif change < 0.88 and header:
        header[chance.randrange(len(header))] = chance.choice((*KINDS, 'note'))
    elif change < 0.92 and header:
        name = chance.choice((*header, 'note', 'name'))
        for record in rows:
            record.append(name if record is header else 'x')
    elif change < 0.95:
        rows.remove(row)
    else:
        rows[1:] = chance.sample(rows[1:], max(0, len(rows) - 1))
        order = chance.sample(range(len(header)), len(header))
        for record in rows:
            record[:] = [record[place] for place in order if place < len(record)]


def drawn_tables(number_of, seed=1):
    chance = random.Random(seed)
    for n in range(number_of):
        texts = {}
        spoiled = chance.choices(list(HEADERS), k=chance.choice((0, 1, 1, 2, 3, 4)))
        for table, text in CLOUD.items():
            rows = [line.split(',') for line in text.splitlines()]
            for _ in range(spoiled.count(table)):
                if rows:
                    spoil(chance, rows)
            texts[table] = ''.join(','.join(row) + chance.choice(('\n', '\n', '\r\n', '\n\n')) for row in rows)
        if chance.random() < 0.2:
            texts.pop('usages')
        read = Tables(texts)
        counts = '' if read.fault else ''.join(f'{table} {count}\n' for table, count in zip(HEADERS, read.counts))
        yield Case(f'faults drawn {n}: check', ['check'], counts, read.fault + '\n' if read.fault else '', 3 if read.fault else 0, texts)


# ---- queries

def parameter(name):
    """The parameter that a name is, and its suffix, which may be empty; None if it is no parameter."""
    if name in PLAIN:
        return name, ''
    return next(((word, name[len(word):]) for word in GROUPED if name == word or name.startswith(word) and is_suffix(name[len(word):])), None)


def value(word, text, version):
    """The items of a parameter's value, or None if it is a bad value."""
    if word == 'required' and version == '1.39' and text.startswith('in:'):
        listed = text.removeprefix('in:').split(',')
        return listed if all(map(is_name, listed)) else None
    items = text.split(',')
    if word == 'resources':
        needs = [item.partition(':') for item in items]
        fine = all(is_name(name) and number(amount) for name, _, amount in needs) and len({need[0] for need in needs}) == len(needs)
        return [need[0] for need in needs] if fine else None
    if word in ('required', 'root_required'):
        return items if all(is_name(item.removeprefix('!')) for item in items) else None
    if word == 'member_of':
        listed = text.removeprefix('!')
        ids = listed.removeprefix('in:').split(',') if listed.startswith('in:') else [listed]
        return ids if all(uuid(id) for id in ids) else None
    if word == 'same_subtree':
        return items if all(map(is_suffix, items)) else None
    fine = {'in_tree': uuid, 'group_policy': lambda t: t in ('none', 'isolate'), 'limit': number}[word](text)
    return [text] if fine else None


def query_fault(text, version):
    """The first fault, as in its line, or None; and how many slots there are."""
    repeated = ('member_of', 'same_subtree', *(['required'] if version == '1.39' else []))
    if len(text.encode()) > 65536:
        return 'QueryTooLong', 0
    seen, groups, listed = set(), {}, set()
    for place, piece in enumerate(filter(None, text.split('&')), 1):
        name, said = (unquote_to_bytes(part.replace('+', ' ')).decode(errors='replace') for part in piece.partition('=')[::2])
        known = parameter(name)
        if not known:
            return f'pair {place}: UnknownParameter', 0
        word, suffix = known
        if name in seen and word not in repeated:
            return f'pair {place}: Repeated', 0
        seen.add(name)
        found = value(word, said, version)
        if found is None:
            return f'pair {place}: BadValue', 0
        if word in ('required', 'root_required') and any('!' + item in found for item in found):
            return f'pair {place}: Conflict', 0
        if word in GROUPED:
            groups.setdefault(suffix, [])
            groups[suffix] += found if word == 'resources' else []
        listed |= set(found) if word == 'same_subtree' else set()
    slots = len(groups.get('', ())) + len(set(groups) - {''})
    if not any(groups.values()):
        return 'NoResources', slots
    for suffix in sorted(groups):
        if not groups[suffix] and suffix not in listed:
            return f'group "{suffix}": GroupWithoutResources', slots
    for suffix in sorted(listed - set(groups)):
        return f'group "{suffix}": UnknownSuffix', slots
    if sum(bool(suffix and needs) for suffix, needs in groups.items()) > 1 and 'group_policy' not in seen:
        return 'PolicyMissing', slots
    return 'TooManySlots' if slots > 64 or sum(map(len, groups.values())) > 256 else None, slots


VALUES = {
    'resources': ('VCPU:1', 'VCPU:1,MEMORY_MB:2', 'VCPU%3A3', 'VCPU:2147483647', 'VCPU:0', 'VCPU:2147483648', 'VCPU:1,VCPU:2', 'vcpu:1', '',
                  'VCPU:1,', 'VCPU:+1', 'VCPU:1:1'),
    'required': ('A', 'in:A,B', 'A,!B', '!A', 'A,A', '%41', 'A,!A', 'a', 'A,', '!', '!!A', 'A+B', 'A,!A,a', 'in:B', 'in%3AA', 'in:', 'in:!A', '!in:A', 'in:A,',
                 'in:a', 'in:A,in:B', 'A,in:B', 'IN:A'),
    'member_of': ('A1', '!A1', 'in:A1,A1', '!in:A1,{A2}', 'A1,A1', 'in:', 'IN:A1', '!!A1', ''),
    'in_tree': ('P1', '{P1}', 'urn:uuid:P1', 'P1,P1', 'xyz'),
    'group_policy': ('none', 'isolate', 'None', ''),
    'same_subtree': ('1', '1,2', '1,1', '2,_A', '10,2', 'a', '1,', '.'),
    'limit': ('1', '0000000001', '0', '00000000001', 'x'),
    'root_required': ('A', '!A', 'A,!A', 'a', 'in:A'),
}
SUFFIXES = '', '', '1', '2', '10', '_A'
STRANGE = 'colour', 'limit1', 'root_required1', 'resources.', 'Resources', '', 'same_subtree_A', 'required' + 'a' * 65


def drawn_query(chance):
    pairs = []
    for _ in range(chance.choice((1, 2, 3, 4, 5, 6))):
        word = chance.choice(('resources', 'resources', 'resources', *VALUES))
        name = word + chance.choice(SUFFIXES if word in GROUPED else ('',))
        said = full(chance.choice(VALUES[word][:3] if chance.random() < 0.8 else VALUES[word]))
        if chance.random() < 0.05:
            name = chance.choice(STRANGE)
        if name and chance.random() < 0.05:
            name = f'%{ord(name[0]):02x}{name[1:]}'
        pairs.append(f'{name}={said}' if said or chance.random() < 0.5 else name)
    if chance.random() < 0.5:
        pairs.append('group_policy=none')
    return chance.choice(('', '', '', '&')) + chance.choice(('&', '&', '&&')).join(pairs)


def drawn_queries(number_of, seed=1):
    chance = random.Random(seed)
    none = {name: HEADERS[name] for name in ('providers', 'inventories')}
    for n in range(number_of):
        text = drawn_query(chance)
        said = chance.choice(((), ('--microversion', '1.36'), ('--microversion', '1.39'), ('--microversion=1.39',)))
        fault, slots = query_fault(text, '1.39' if '1.39' in ''.join(said) else '1.36')
        yield Case(f'faults drawn {n}: tokens {text[:60]} {" ".join(said)}', ['tokens', text, *said], '', f'query: {fault}\n' if fault else '', 4 if fault else 0, none)
        if not fault:
            parts = chance.choices(('P1', '{P2}', 'zz', ''), (8, 2, 1, 1), k=max(1, slots + chance.choice((-1, 0, 0, 0, 1))))
            line = 'BadToken' if {'zz', ''} & set(parts) else 'WrongLength' if len(parts) != slots else None
            yield Case(f'faults drawn {n}: verify', ['verify', text, full(','.join(parts)), *said], '' if line else 'unknown provider\n',
                       f'token: {line}\n' if line else '', 5 if line else 1, none)
