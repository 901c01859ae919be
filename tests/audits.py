"""A model of `audit`, as docs/REFERENCE.md has it, and cases over small random clouds in which much is amiss. It takes nothing from the program."""
from __future__ import annotations

import random
from collections import Counter

from cases import AUDIT_HEAD, GREATEST, Case, full, tables
from model import AGGREGATES, SHARES, Inventory, Provider, available, roots_of, some, written
from notation import HEADERS, shown
from notation import root as root_of

CLASSES = 'CUSTOM_1', 'CUSTOM_A', 'DISK_GB', 'MEMORY_MB', 'VCPU', 'VCPU9', 'VCPU_A'
DISABLED = 'COMPUTE_STATUS_DISABLED'
NAMES = (b'', b'', b'cmp-1', b'cmp-2', b'cmp-3', b'CMP-1', b'rack 1, "top"', b'two\nlines', b'two\rlines', b'<b>&amp;</b>', b'\xff', b'\xfe', 'Z\u00fcrich'.encode())
FORMS = str, str.upper, '{{{}}}'.format, 'urn:uuid:{}'.format, lambda zone: zone.replace('-', '')


# ---- what is amiss

def has_amount(has):
    """Whether an amount of an inventory can be asked for and placed."""
    amounts = range(max(1, has.min_unit), min(has.max_unit, has.capacity()) + 1)
    return any(amount % has.step_size == 0 for amount in amounts)


def tree_of(one, cloud):
    return [provider for provider in cloud if provider.root() is one.root()]


def of_inventories(cloud):
    """What is amiss with an inventory: its kind, its provider and the detail."""
    each = [(provider, name, provider.has[name]) for provider in cloud for name in sorted(provider.has)]
    for provider, name, has in each:
        if has.used > has.capacity():
            yield 'over capacity', provider, f'{name}: {has.used} used of {has.capacity()}'
    for provider, name, has in each:
        if not has_amount(has):
            units = f'min_unit {has.min_unit}, max_unit {has.max_unit}, step_size {has.step_size}'
            yield 'never fits', provider, f'{name}: {units}, capacity {has.capacity()}'


def of_sharing(cloud):
    """What is amiss with a provider that shares."""
    sharing = [provider for provider in cloud if SHARES in provider.traits]
    for provider in sharing:
        if not any(available(provider, root, cloud) for root in roots_of(cloud) if root is not provider.root()):
            yield 'shares with nobody', provider, 'in no aggregate of another tree' if provider.aggregates else 'in no aggregate'
    for provider in sharing:
        if not provider.has:
            yield 'shares nothing', provider, 'no inventory'


def of_roots(cloud):
    for root in roots_of(cloud):
        if not any(provider.has for provider in tree_of(root, cloud)):
            yield 'no inventory', root, 'no provider of its tree has one'
    for root in roots_of(cloud):
        disks = [provider for provider in cloud if 'DISK_GB' in provider.has and available(provider, root, cloud)]
        if not disks and any('VCPU' in provider.has for provider in tree_of(root, cloud)):
            yield 'no storage', root, 'VCPU in its tree, and no DISK_GB there, its own or shared'


def of_zone(cloud, zone):
    """Providers that share with members of a zone and are no members of it."""
    for provider in cloud:
        if SHARES in provider.traits and zone not in provider.aggregates:
            hosts = [root for root in roots_of(cloud) if zone in root.aggregates and available(provider, root, cloud)]
            if hosts:
                yield "outside its hosts' aggregates", provider, f'not in {zone}, where {len(hosts)} of its hosts are'


def of_names(cloud, names):
    """Names that several providers have, byte for byte."""
    counts = Counter(names.values())
    for provider in cloud:
        name = names.get(provider.name)
        if name and counts[name] > 1:
            yield 'name twice', provider, f'{counts[name]} providers have it'


def audit(cloud, zone=None, names=None, missing=0):
    """The rows of `audit`. The cloud is in the order of UUIDs, `names` are in bytes, by provider, and so many inventories have no row of usages."""
    names = names or {}
    found = [*of_inventories(cloud), *of_sharing(cloud), *of_roots(cloud), *(of_zone(cloud, zone) if zone else ()), *of_names(cloud, names)]
    if missing:
        found.append(('no usage', None, f'{missing} of {sum(len(provider.has) for provider in cloud)} inventories have no row'))
    found += [('disabled', provider, f'trait {DISABLED}') for provider in cloud if DISABLED in provider.traits]
    return [[kind, provider.name, shown(names.get(provider.name, b'')), detail] if provider else [kind, '', '', detail] for kind, provider, detail in found]


# ---- by chance

def draw_inventory(chance, odd):
    """An inventory; of an odd one no amount may fit, or too much be used."""
    total = chance.choice((0, 1, 4, 8, 10) if odd else (4, 8, 10))
    has = Inventory(total, min(total, chance.choice((0, 1, 8) if odd else (0, 0, 1))), chance.choice((0, 1, 1, 2, 5, 9) if odd else (0, 1, 1)),
                    chance.choice((total, 0, 3, 6, GREATEST) if odd else (total, 3, GREATEST)), chance.choice((1, 1, 2, 3, 7) if odd else (1, 1, 2)),
                    chance.choice((1000000, 1500000, 999999, 333333, 16000000, 0) if odd else (1000000, 1500000, 999999)), 0)
    has.used = chance.choice((0, 0, has.capacity(), max(has.capacity() - 1, 0), *((has.capacity() + 1,) if odd else ())))
    return has


def draw_cloud(chance, often):
    """Providers, each behind its parent, and not in the order of their UUIDs. The number says how often one is odd."""
    cloud = []
    for number in chance.sample(range(1, 5000), chance.randint(1, 8)):
        parent = chance.choice([None, None, *cloud])
        kinds = chance.sample(CLASSES, chance.choice((0, 1, 1, 2, 3))) if chance.random() < often else ['DISK_GB', chance.choice(CLASSES[:2] + CLASSES[3:])]
        has = {name: draw_inventory(chance, chance.random() < often / 2) for name in chance.sample(kinds, len(kinds))}
        traits = {trait for trait, part in ((SHARES, 0.6), (DISABLED, 0.2), ('CUSTOM_A', 1)) if chance.random() < often * part}
        aggregates = set(some(chance, (*AGGREGATES, 'A3'), 2)) | ({'A1'} if chance.random() > often else set())
        cloud.append(Provider(f'P{number}', parent, has, traits, aggregates))
    return cloud


def named(cloud, names, chance):
    """The table of providers with these names, in any order of its rows."""
    parents = {provider.name: provider.parent.name if provider.parent else '' for provider in cloud}
    rows = [full(f'{one},{root_of(parents, one)},{above},').encode() + b'"' + names[one].replace(b'"', b'""') + b'"\n' for one, above in parents.items()]
    return HEADERS['providers'].strip().encode() + b',name\n' + b''.join(chance.sample(rows, len(rows)))


def drawn_audits(number, seed=1):
    """Cases over this number of random clouds."""
    chance = random.Random(seed)
    for n in range(number):
        often = chance.choice((0, 0.3, 0.6, 0.9))
        cloud = draw_cloud(chance, often)
        made = tables('\n'.join(provider.text() for provider in cloud))
        names = {}
        if chance.random() < 0.6:
            names = {provider.name: chance.choice(NAMES) if often else b'cmp, ' + provider.name[1:].encode() for provider in cloud}
            made['providers'] = named(cloud, names, chance)
        used = [line for line in made.get('usages', '').splitlines()[1:] if not line.endswith(',0') or chance.random() < 0.95]
        missing = sum(len(provider.has) for provider in cloud) - len(used)
        made['usages'] = HEADERS['usages'] + ''.join(line + '\n' for line in chance.sample(used, len(used)))
        if not used and chance.random() < 0.5:
            del made['usages']
        zone = chance.choice((None, *AGGREGATES, 'A3', 'A4'))
        words = ['--zone', chance.choice(FORMS)(full(zone))] if zone else []
        rows = audit(sorted(cloud, key=lambda provider: int(provider.name[1:])), zone, names, missing)
        yield Case(f'audit drawn {n}', ['audit', *words], AUDIT_HEAD + full(written(rows)), status=1 if rows else 0, tables=made)
