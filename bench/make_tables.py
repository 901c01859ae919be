#!/usr/bin/env python3
"""make_tables.py FOLDER [--shape flat|chain|numa|disk|disks|sharing] [--providers N] [--classes K] [--traits T] [--aggregates A]
               [--disks D] [--full] [--groups G] [--order sorted|shuffled|reversed|made] [--seed S] [--quoted]
make_tables.py FOLDER --shape private [--hosts N] [--traits T] [--kinds KIND..] [--order ..] [--seed S] [--quoted]

Writes the five tables of a cloud of N providers into FOLDER. The same words make the same bytes. The shapes are:
flat: hosts without parents; chain: one tree, each provider the child of another; numa: hosts of nine providers, with two NUMA nodes and
three network functions under each; disk: hosts, and one disk that all of them share; disks: N hosts, and D disks beside them that all of them share
through one aggregate, with --full each used up; sharing: hosts that all share, in one aggregate together, and by turns in one of G others.
A provider that has resources has K classes (in numa, the classes of its kind), and a usage of each. Each provider has T traits and is in A
aggregates. --order is the order of rows in all tables: sorted and reversed go by UUID, shuffled mixes each table by itself, made is as the cloud grew,
with all rows of a provider together. With --quoted, texts are in quotes, as the client prints them. 65536 flat providers with 3 classes, 8 traits and 2
aggregates take about 70 MB.

private: an operator's cloud of N hosts (300) in three zones, with names and the client's columns (private.py makes it). Each host has the first T of
Nova's 53 traits. Kinds of hosts take turns: flat is one provider, numa has two NUMA nodes, nfv has functions of network cards under these, gpu has
GPUs there; 10 hosts are 34 providers. 18000 hosts fit into the limits of ac_cli, 19000 with `--traits 40`, 65533 with `--kinds flat --traits 16`."""
import argparse
import csv
import os
import random
import sys
import uuid

sys.dont_write_bytecode = True

import private

CLASSES = 'VCPU', 'MEMORY_MB', 'DISK_GB'
HEADERS = {
    'providers': ('uuid', 'root_provider_uuid', 'parent_provider_uuid'),
    'inventories': ('resource_provider', 'resource_class', 'total', 'reserved', 'min_unit', 'max_unit', 'step_size', 'allocation_ratio'),
    'usages': ('resource_provider', 'resource_class', 'usage'),
    'traits': ('resource_provider', 'name'),
    'aggregates': ('resource_provider', 'uuid'),
}
SHARES = 'MISC_SHARES_VIA_AGGREGATE'


def class_name(k):
    return CLASSES[k] if k < len(CLASSES) else f'CUSTOM_CLASS_{k}'


def new_ids(chance, number):
    return [str(uuid.UUID(int=chance.getrandbits(128), version=4)) for _ in range(number)]


def inventory(chance, name):
    """The numbers of one row. They are chosen so that a VCPU or two fit nearly everywhere."""
    if name == 'VCPU':
        total = chance.choice((4, 8, 16, 32, 64, 128))
        return total, chance.randrange(3), 1, total, 1, chance.choice((1.0, 1.5, 4.0, 16.0))
    if name == 'SRIOV_NET_VF':
        return 8, 0, 1, 8, 1, 1.0
    total = 512 * chance.randrange(2, 4096)
    return total, 512, 1, total, chance.choice((1, 1, 1, 512)), chance.choice((1.0, 1.0, 1.5))


class Cloud:
    def __init__(self, chance, words):
        self.chance = chance
        self.words = words
        self.rows = {name: [] for name in HEADERS}
        self.traits = [f'CUSTOM_TRAIT_{n}' for n in range(60)]
        self.aggregates = new_ids(chance, max(words.providers // 16, words.aggregates))

    def add(self, id, root, parent, classes, traits=(), aggregates=()):
        """Adds a provider, with these traits and aggregates beside the random ones."""
        self.rows['providers'].append((id, root, parent))
        for name in classes:
            numbers = inventory(self.chance, name)
            self.rows['inventories'].append((id, name, *numbers))
            self.rows['usages'].append((id, name, self.chance.randrange(numbers[0] // 2)))
        self.rows['traits'] += [(id, name) for name in (*traits, *self.chance.sample(self.traits, self.words.traits))]
        self.rows['aggregates'] += [(id, name) for name in (*aggregates, *self.chance.sample(self.aggregates, self.words.aggregates))]


def flat(cloud, ids, classes):
    for id in ids:
        cloud.add(id, id, '', classes)


def chain(cloud, ids, classes):
    for id, above in zip(ids, ['', *ids]):
        cloud.add(id, ids[0], above, classes)


def numa(cloud, ids, _classes):
    for start in range(0, len(ids) - 8, 9):
        host, *rest = ids[start:start + 9]
        cloud.add(host, host, '', ('DISK_GB',))
        for node, *functions in rest[:4], rest[4:]:
            cloud.add(node, host, host, ('VCPU', 'MEMORY_MB'), ('HW_NUMA_ROOT',))
            for function in functions:
                cloud.add(function, host, node, ('SRIOV_NET_VF',))


def disk(cloud, ids, classes):
    shared, *hosts = ids
    common = new_ids(cloud.chance, 1)
    cloud.add(shared, shared, '', ('DISK_GB',), (SHARES,), common)
    for id in hosts:
        cloud.add(id, id, '', [name for name in classes if name != 'DISK_GB'], (), common)


def disks(cloud, ids, classes):
    common = new_ids(cloud.chance, 1)
    for id in new_ids(cloud.chance, cloud.words.disks):
        cloud.add(id, id, '', (), (SHARES,), common)
        cloud.rows['inventories'].append((id, 'DISK_GB', 2048, 0, 1, 2048, 1, 1.0))
        cloud.rows['usages'].append((id, 'DISK_GB', 2048 if cloud.words.full else 0))
    for id in ids:
        cloud.add(id, id, '', [name for name in classes if name != 'DISK_GB'], (), common)


def sharing(cloud, ids, classes):
    common, *groups = new_ids(cloud.chance, 1 + cloud.words.groups)
    for place, id in enumerate(ids):
        cloud.add(id, id, '', classes, (SHARES,), (common, groups[place % len(groups)]))


SHAPES = {shape.__name__: shape for shape in (flat, chain, numa, disk, disks, sharing)}


def write(path, header, rows, quoting):
    with open(path, 'w', newline='', encoding='ascii') as file:
        table = csv.writer(file, lineterminator='\n', quoting=quoting)
        table.writerow(header)
        table.writerows(rows)


def generic(chance, words):
    """The rows of one of the six shapes above."""
    cloud = Cloud(chance, words)
    SHAPES[words.shape](cloud, new_ids(chance, words.providers), [class_name(k) for k in range(words.classes)])
    return cloud.rows


def main():
    words = argparse.ArgumentParser(description='\n\n'.join(__doc__.split('\n\n')[1:]), formatter_class=argparse.RawDescriptionHelpFormatter)
    words.add_argument('folder')
    words.add_argument('--shape', choices=[*SHAPES, 'private'], default='flat')
    words.add_argument('--providers', type=int, default=65536)
    words.add_argument('--hosts', type=int, default=300)
    words.add_argument('--kinds', nargs='+', choices=sorted({*private.KINDS}), default=private.KINDS)
    words.add_argument('--classes', type=int, default=3)
    words.add_argument('--traits', type=int)
    words.add_argument('--aggregates', type=int, default=2)
    words.add_argument('--disks', type=int, default=1)
    words.add_argument('--full', action='store_true')
    words.add_argument('--groups', type=int, default=2)
    words.add_argument('--order', choices=('sorted', 'shuffled', 'reversed', 'made'), default='shuffled')
    words.add_argument('--seed', type=int, default=1)
    words.add_argument('--quoted', action='store_true')
    words = words.parse_args()
    if words.traits is None:
        words.traits = private.MOST_TRAITS if words.shape == 'private' else 8

    chance = random.Random(words.seed)
    if words.shape == 'private':
        headers, made = private.HEADERS, private.tables(chance, words.hosts, words.kinds, words.traits)
    else:
        headers, made = HEADERS, generic(chance, words)
    quoting = csv.QUOTE_NONNUMERIC if words.quoted else csv.QUOTE_MINIMAL
    os.makedirs(words.folder, exist_ok=True)
    for name, rows in made.items():
        if words.order != 'made':
            rows.sort(reverse=words.order == 'reversed')
        if words.order == 'shuffled':
            chance.shuffle(rows)
        write(os.path.join(words.folder, name + '.csv'), headers[name], rows, quoting)


if __name__ == '__main__':
    main()
