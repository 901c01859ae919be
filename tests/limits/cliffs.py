"""Clouds on which a search tries many choices, unless it looks ahead; each answer follows from the rules. The program must answer each within two seconds of
processor time and 1 GiB of memory, and all questions of a session about it together, with the reading, within four."""
from __future__ import annotations

from cases import Case
from large import ids, star
from notation import HEADERS, provider

LIMITED = 'ulimit -v 1048576; ulimit -t {}; exec "$@"'


def inventories(rows):
    """Rows of a provider, a class and how much it has."""
    return HEADERS['inventories'] + ''.join(f'{id},{name},{total},0,1,{total},1,1.0\n' for id, name, total in rows)


def traits(rows):
    return HEADERS['traits'] + ''.join(f'{id},{name}\n' for id, name in rows)


def trees(number, size):
    """So many trees: for each the root and its children."""
    names = iter(ids(number * (size + 1)))
    return [[next(names) for _ in range(size + 1)] for _ in range(number)]


def providers(all_trees):
    return HEADERS['providers'] + ''.join(f'{id},{tree[0]},{tree[0] if id != tree[0] else ""}\n' for tree in all_trees for id in tree)


def groups(first, last, asked):
    return '&'.join(asked.format(n) for n in range(first, last + 1))


def parts(items, size):
    """The items, so many at a time, with commas between; without a rest."""
    return [','.join(items[at:at + size]) for at in range(0, len(items) - size + 1, size)]


# Ten hosts of 24 virtual functions, three of each host on the second network: four groups for that one fit nowhere.
NETWORKS = trees(10, 24)
FUNCTIONS = {
    'providers': lambda: providers(NETWORKS),
    'inventories': lambda: inventories((id, 'SRIOV_NET_VF', 8) for tree in NETWORKS for id in tree[1:]),
    'traits': lambda: traits((id, f'CUSTOM_NET{1 + (place < 3)}') for tree in NETWORKS for place, id in enumerate(tree[1:])),
}
ONE_NETWORK = 'resources{0}=SRIOV_NET_VF:1&required{0}=CUSTOM_NET1'
OTHER_NETWORK = 'resources{0}=SRIOV_NET_VF:1&required{0}=CUSTOM_NET2'
TOO_MANY = groups(10, 15, ONE_NETWORK) + '&' + groups(20, 23, OTHER_NETWORK) + '&group_policy=isolate'

# A node that has the first of five classes alone, with the required trait, before 64 that have all of them.
NODES = trees(1, 65)[0]
CLASSES = [f'CUSTOM_{letter}' for letter in 'ABCDE']
LONE_GIVER = {
    'providers': lambda: star(66),
    'inventories': lambda: inventories([*((id, name, 8) for id in NODES[1:-1] for name in CLASSES), (NODES[-1], CLASSES[0], 8)]),
    'traits': lambda: traits([(NODES[-1], 'CUSTOM_T')]),
}
ALL_CLASSES = 'resources=' + ','.join(f'{name}:1' for name in CLASSES) + '&required=CUSTOM_T&limit=1'

# One host of ten nodes; 300 hosts of 32 devices; 500 nodes of eight units each.
TEN = trees(1, 10)
DEVICES = trees(300, 32)
STAR = trees(1, 500)


def filled(all_trees, name, total):
    return {'providers': lambda: providers(all_trees),
            'inventories': lambda: inventories((id, name, total) for tree in all_trees for id in tree[1:])}


def shared(hosts, disks, zones):
    """Hosts and the disks that they share, in turn in one of so many aggregates."""
    return {
        'providers': lambda: HEADERS['providers'] + ''.join(f'{id},{id},\n' for id in hosts + disks),
        'inventories': lambda: inventories([*((id, 'CUSTOM_CPU', 8) for id in hosts), *((id, 'DISK_GB', 100) for id in disks)]),
        'traits': lambda: traits((id, 'MISC_SHARES_VIA_AGGREGATE') for id in disks),
        'aggregates': lambda: HEADERS['aggregates'] + ''.join(f'{id},{provider(0xa0000 + place % zones)}\n' for all_ids in (hosts, disks)
                                                              for place, id in enumerate(all_ids)),
    }


# Ten zones of 100 disks, each shared by the 400 hosts of its zone, and hosts before disks: each host with each disk of its zone.
HOSTS = ids(4000)
DISKS = [provider(n) for n in range(4001, 5001)]

# Disks of a hundred zones before their hosts.
ZONES = shared(ids(40000), [provider(n) for n in range(40001, 45001)], 100)

# Hosts and one disk behind them; hosts of 3000 racks with a disk each.
MANY = ids(32000)
RACKS = MANY[29000:]

# 2000 disks of a site, each in the aggregate of a rack too, with two of the hosts.
SITE = shared(ids(20000), [provider(n) for n in range(20001, 22001)], 1)
SITE_OF_RACKS = {**SITE, 'aggregates': lambda: SITE['aggregates']() + ''.join(
    f'{provider(id)},{provider(0xb0000 + place)}\n' for place in range(2000) for id in (20001 + place, 2 * place + 1, 2 * place + 2))}

# 8000 hosts that all share, each with all and, once more, with one other.
SHARING = ids(8000)
IN_PAIRS = shared([], SHARING, 1)
ALL_IN_PAIRS = {**IN_PAIRS, 'aggregates': lambda: IN_PAIRS['aggregates']() + ''.join(f'{id},{provider(0xb0000 + place // 2)}\n'
                                                                                     for place, id in enumerate(SHARING))}

# Ten hosts of 24 virtual functions, of which three, with one unit left each, are on the second network.
FEW_LEFT = {**FUNCTIONS, 'inventories': lambda: inventories((id, 'SRIOV_NET_VF', 1 if place < 3 else 8) for tree in NETWORKS for place, id in enumerate(tree[1:]))}

# Ten hosts of 20 network cards and three GPUs.
CARDS = {'providers': lambda: providers(trees(10, 23)),
         'inventories': lambda: inventories((id, 'PGPU' if place < 3 else 'NIC', 8) for tree in trees(10, 23) for place, id in enumerate(tree[1:]))}

# 5000 hosts of two NUMA nodes with three virtual functions each: what each provider of a host has, and where its parent stands.
NUMA = trees(5000, 8)
VF = ('SRIOV_NET_VF', 8)
OF_HOST = [(None, None), *[(('VCPU', 16), 0), (VF, 1), (VF, 1), (VF, 1)], *[(('VCPU', 16), 0), (VF, 5), (VF, 5), (VF, 5)]]
WITH_NODES = {
    'providers': lambda: HEADERS['providers'] + ''.join(f'{id},{tree[0]},{"" if above is None else tree[above]}\n'
                                                        for tree in NUMA for id, (_, above) in zip(tree, OF_HOST)),
    'inventories': lambda: inventories((id, *has) for tree in NUMA for id, (has, _) in zip(tree, OF_HOST) if has),
}
ON_ONE_NODE = groups(1, 2, 'resources{}=VCPU:9') + '&resources3=SRIOV_NET_VF:1&group_policy=none' + '&same_subtree=1,2' * 256

# A host of 512 nodes and as many virtual functions beside them; of the `same_subtree` the last alone can't be met.
BESIDE_NODES = {
    'providers': lambda: star(1025),
    'inventories': lambda: inventories((id, 'CUSTOM_TOP' if not place else 'VCPU' if place % 2 else 'SRIOV_NET_VF', 8) for place, id in enumerate(ids(1025))),
}
LAST_BITES = ('resources1=CUSTOM_TOP:1&' + groups(2, 3, 'resources{}=VCPU:1') + '&resources4=SRIOV_NET_VF:1&group_policy=none'
              + '&same_subtree=1,2' * 16 + '&same_subtree=2,4')

# A long list of traits, and one of aggregates.
NO_TRAITS = 'resources=CUSTOM_CPU:1&required=' + ','.join(f'CUSTOM_N{n}' for n in range(5000))
NO_AGGREGATES = 'resources=VCPU:1&member_of=in:' + ','.join(provider(0xc0000 + n) for n in range(1700))

# A node that has the class with the required trait, before 64 that have it without; all have the classes of four groups behind.
LAST_GIVES = {
    'providers': lambda: star(66),
    'inventories': lambda: inventories((id, name, 8) for id in NODES[1:] for name in CLASSES),
    'traits': lambda: traits([(NODES[-1], 'CUSTOM_T')]),
}
ONE_REQUIRED = 'resources=CUSTOM_A:1&required=CUSTOM_T&' + groups(1, 4, 'resources{}=CUSTOM_B:1') + '&group_policy=none&limit=1'

# 100 disks that 2000 hosts share, each host of two nodes with six left: three groups of four, four and three fit on none.
PAIRS = trees(2000, 2)
BESIDE = ids(6100)[-100:]
SHARED_BESIDE = {
    'providers': lambda: providers(PAIRS) + ''.join(f'{id},{id},\n' for id in BESIDE),
    'inventories': lambda: inventories([*((id, 'VCPU', 6) for tree in PAIRS for id in tree[1:]), *((id, 'DISK_GB', 9999) for id in BESIDE)]),
    'traits': lambda: traits((id, 'MISC_SHARES_VIA_AGGREGATE') for id in BESIDE),
    'aggregates': lambda: HEADERS['aggregates'] + ''.join(f'{id},{provider(0xa0000)}\n' for id in [*(tree[0] for tree in PAIRS), *BESIDE]),
}
FOUR_FOUR_THREE = 'resources=DISK_GB:1&resources1=VCPU:4&resources2=VCPU:4&resources3=VCPU:3&group_policy=none'

# Fifteen groups of five and three of six, where ten nodes have ten left each: two fives, or a six and nothing beside it.
FIVES_AND_SIXES = groups(1, 15, 'resourcesA{}=VCPU:5') + '&' + groups(1, 3, 'resourcesB{}=VCPU:6') + '&group_policy=none'

# 4000 disks and 4000 hosts in one aggregate.
BOTH = ids(8000)
ALL_SHARE = {
    'providers': lambda: HEADERS['providers'] + ''.join(f'{id},{id},\n' for id in BOTH),
    'inventories': lambda: inventories((id, name, 64) for name, some in (('DISK_GB', BOTH[::2]), ('VCPU', BOTH[1::2])) for id in some),
    'traits': lambda: traits((id, 'MISC_SHARES_VIA_AGGREGATE') for id in BOTH[::2]),
    'aggregates': lambda: HEADERS['aggregates'] + ''.join(f'{id},{provider(0xa0000)}\n' for id in BOTH),
}

# 2000 hosts of 60 classes, each in an aggregate of its own, of which a list names every other one.
SIXTY = [f'CUSTOM_{n:02}' for n in range(60)]
MEMBERS = ids(2000)
IN_AGGREGATES = {
    'providers': lambda: HEADERS['providers'] + ''.join(f'{id},{id},\n' for id in MEMBERS),
    'inventories': lambda: inventories((id, name, 8) for id in MEMBERS for name in SIXTY),
    'aggregates': lambda: HEADERS['aggregates'] + ''.join(f'{id},{provider(0xa0000 + place)}\n' for place, id in enumerate(MEMBERS)),
}
EVERY_OTHER = ('resources=' + ','.join(f'{name}:1' for name in SIXTY)
               + '&member_of=in:' + ','.join(provider(0xa0000 + place) for place in reversed(range(1, 2000, 2))))

FORBIDDEN = 'resources=' + ','.join(f'{name}:1' for name in SIXTY) + ''.join(f'&member_of=!{provider(0xa0000 + place)}' for place in range(1300))

# 4000 traits that one host of 20000 has.
ONE_HAS = {**shared(ids(20000), [], 1), 'traits': lambda: traits((provider(12000), f'CUSTOM_N{n}') for n in range(4000))}
OF_ONE = 'resources=CUSTOM_CPU:1&required=' + ','.join(f'CUSTOM_N{n}' for n in range(4000))

# 1000 hosts of eight NUMA nodes and eight GPUs, of which the last has the trait that is required of both.
NODES_AND_GPUS = trees(1000, 16)
LAST_GPU = {
    'providers': lambda: providers(NODES_AND_GPUS),
    'inventories': lambda: inventories((id, 'PGPU' if place < 8 else 'VCPU', 8) for tree in NODES_AND_GPUS for place, id in enumerate(tree[1:])),
    'traits': lambda: traits((tree[8], 'CUSTOM_T') for tree in NODES_AND_GPUS),
}

# Ten hosts of the most units that there are.
LARGE = ids(10)
UNITS = {
    'providers': lambda: HEADERS['providers'] + ''.join(f'{id},{id},\n' for id in LARGE),
    'inventories': lambda: inventories((id, 'CUSTOM_UNIT', 2147483647) for id in LARGE),
}

# A host of 4095 nodes; a chain of 64, and lists that name all of 64 groups.
WIDE = {'providers': lambda: star(4096), 'inventories': lambda: inventories((id, 'VCPU', 8) for id in ids(4096)[1:])}
CHAIN = {
    'providers': lambda: HEADERS['providers'] + ''.join(f'{id},{ids(1)[0]},{above}\n' for id, above in zip(ids(64), ['', *ids(63)])),
    'inventories': lambda: inventories((id, 'VCPU', 8) for id in ids(64)),
}
EACH_ONE = groups(1, 64, 'resources_{:02}=VCPU:1') + '&group_policy=none'
ALL_LISTED = EACH_ONE + 100 * ('&same_subtree=' + ','.join(f'_{n:02}' for n in range(1, 65)))
NONE_OF_MANY = 'resources1=VCPU:1&required1=' + ','.join(f'CUSTOM_LONG_NAME_{n}' for n in range(2700))

# 4000 disks that all share, and no root with the trait that is asked of it.
ALL_DISKS = shared([], ids(4000), 1)
NO_ROOT = groups(1, 64, 'resources{}=DISK_GB:1') + '&root_required=CUSTOM_X&group_policy=none'

# 16 hosts of twelve devices of one kind and four of another: five groups for those.
KINDS = trees(16, 16)
TWO_KINDS = {
    'providers': lambda: providers(KINDS),
    'inventories': lambda: inventories((id, 'CUSTOM_PCI', 8) for tree in KINDS for id in tree[1:]),
    'traits': lambda: traits((id, 'CUSTOM_B' if place < 4 else 'CUSTOM_A') for tree in KINDS for place, id in enumerate(tree[1:])),
}
FIVE_OF_FOUR = (groups(1, 4, 'resources_A{0}=CUSTOM_PCI:1&required_A{0}=CUSTOM_A') + '&'
                + groups(1, 5, 'resources_B{0}=CUSTOM_PCI:1&required_B{0}=CUSTOM_B') + '&group_policy=isolate')

# 80 hosts of eight NUMA nodes with two functions each.
FULL_HOSTS = trees(80, 24)
NUMA_HOSTS = {
    'providers': lambda: HEADERS['providers'] + ''.join(f'{id},{tree[0]},{"" if not place else tree[0] if place <= 8 else tree[1 + (place - 9) // 2]}\n'
                                                        for tree in FULL_HOSTS for place, id in enumerate(tree)),
    'inventories': lambda: inventories((id, name, total) for tree in FULL_HOSTS for place, id in enumerate(tree[1:])
                                       for name, total in ([('VCPU', 16), ('MEMORY_MB', 65536)] if place < 8 else [('SRIOV_NET_VF', 8)])),
}
WITH_FUNCTIONS = 'resources=VCPU:4,MEMORY_MB:8192&' + groups(1, 2, 'resources{}=SRIOV_NET_VF:1') + '&group_policy=none'

# What is asked of which cloud, and the lines, or the status alone.
ASKED = [
    ('more groups on a network than it has functions', FUNCTIONS, ['tokens', TOO_MANY], lambda: []),
    ('more groups on a network than it has functions, hosts', FUNCTIONS, ['hosts', TOO_MANY], 1),
    ('a trait that one node alone gives', LONE_GIVER, ['tokens', ALL_CLASSES], lambda: [','.join([NODES[-1], *[NODES[1]] * 4])]),
    ('a trait that one node alone gives, in one slot', LAST_GIVES, ['tokens', ONE_REQUIRED], lambda: [','.join([NODES[-1], *[NODES[1]] * 4])]),
    ('groups that two nodes can\'t bear together', SHARED_BESIDE, ['tokens', FOUR_FOUR_THREE], lambda: []),
    ('groups that two nodes can\'t bear together, hosts', SHARED_BESIDE, ['hosts', FOUR_FOUR_THREE], 1),
    ('disks of zones before their hosts', ZONES, ['hosts', 'resources1=DISK_GB:1&resources2=CUSTOM_CPU:1&group_policy=none'], 0),
    ('one disk behind all hosts', shared(MANY[:-1], MANY[-1:], 1), ['tokens', 'resources1=CUSTOM_CPU:1&resources2=DISK_GB:1&group_policy=none'],
     lambda: [f'{id},{MANY[-1]}' for id in MANY[:-1]]),
    ('a disk for each rack', shared(MANY[:29000], RACKS, 3000), ['tokens', 'resources=CUSTOM_CPU:1,DISK_GB:1'],
     lambda: [f'{id},{RACKS[place % 3000]}' for place, id in enumerate(MANY[:29000])]),
    ('disks of a site and of its racks', SITE_OF_RACKS, ['tokens', 'resources=CUSTOM_CPU:1,DISK_GB:1&limit=1000'],
     lambda: [f'{provider(1)},{provider(20001 + place)}' for place in range(1000)]),
    ('hosts that all share', ALL_IN_PAIRS, ['tokens', 'resources=DISK_GB:1'], lambda: SHARING),
    ('a network with few functions left', FEW_LEFT, ['tokens', TOO_MANY.replace('isolate', 'none')], lambda: []),
    ('cards, and more groups of GPUs than there are', CARDS,
     ['tokens', groups(10, 15, 'resources{}=NIC:1') + '&' + groups(20, 23, 'resources{}=PGPU:1') + '&group_policy=isolate'], lambda: []),
    ('256 equal same_subtree', WITH_NODES, ['explain', ON_ONE_NODE], 1),
    ('the last same_subtree of 17', BESIDE_NODES, ['tokens', LAST_BITES], lambda: []),
    ('traits that nobody has', shared(ids(20000), [], 1), ['explain', NO_TRAITS], 1),
    ('aggregates that nobody is in', {'providers': lambda: star(16000), 'inventories': lambda: inventories((id, 'VCPU', 8) for id in ids(16000))},
     ['hosts', NO_AGGREGATES], 1),
    ('fives and sixes', filled(TEN, 'VCPU', 10), ['tokens', FIVES_AND_SIXES], lambda: []),
    ('disks that all share', ALL_SHARE, ['hosts', groups(1, 64, 'resources{}=DISK_GB:1') + '&group_policy=none'], 0),
    ('aggregates of a long list', IN_AGGREGATES, ['tokens', EVERY_OTHER], lambda: [','.join([id] * 60) for id in MEMBERS[1::2]]),
    ('aggregates that are forbidden', IN_AGGREGATES, ['tokens', FORBIDDEN], lambda: [','.join([id] * 60) for id in MEMBERS[1300:]]),
    ('traits that one host has', ONE_HAS, ['tokens', OF_ONE], lambda: [provider(12000)]),
    ('a trait of the last GPU', LAST_GPU, ['tokens', 'resources=PGPU:1,VCPU:1&required=CUSTOM_T'],
     lambda: [f'{tree[8]},{node}' for tree in NODES_AND_GPUS for node in tree[9:]]),
    ('units that are placed one by one', UNITS, ['fill', '--sum', 'resources=CUSTOM_UNIT:5'], lambda: ['at least 4294967290, at most 4294967290: short of CUSTOM_UNIT at 10 hosts']),
    ('eight groups on ten nodes again and again', filled(TEN, 'VCPU', 8),
     ['fill', groups(1, 8, 'resources{}=VCPU:1') + '&group_policy=none'], lambda: [','.join([id] * 8) for id in TEN[0][1:]]),
    ('four devices of 300 hosts of 32', filled(DEVICES, 'CUSTOM_PCI', 1),
     ['fill', groups(1, 4, 'resources{}=CUSTOM_PCI:1') + '&group_policy=isolate'], lambda: [line for tree in DEVICES for line in parts(tree[1:], 4)]),
    ('three of 500 nodes', filled(STAR, 'VCPU', 8),
     ['fill', groups(1, 3, 'resources{}=VCPU:5') + '&group_policy=none'], lambda: parts(STAR[0][1:], 3)),
    ('64 groups on a host of many nodes', WIDE, ['tokens', EACH_ONE + '&limit=1'], lambda: [','.join(id for id in ids(9)[1:] for _ in range(8))]),
    ('traits that no node has, of one host', WIDE, ['why', NONE_OF_MANY, provider(1)], 1),
    ('100 lists of 64 groups on a chain', CHAIN, ['tokens', ALL_LISTED + '&limit=1'], lambda: [','.join(id for id in ids(8) for _ in range(8))]),
    ('disks that all share, and no root', ALL_DISKS, ['tokens', NO_ROOT], lambda: []),
    ('more groups of a kind than a host has devices', TWO_KINDS, ['tokens', FIVE_OF_FOUR], lambda: []),
    ('more groups of a kind than a host has devices, hosts', TWO_KINDS, ['hosts', FIVE_OF_FOUR], 1),
    ('NUMA nodes and functions until the hosts are full', NUMA_HOSTS, ['fill', '--sum', WITH_FUNCTIONS],
     lambda: ['at least 2560, at most 2560: short of VCPU at 80 hosts']),
    ('disks of zones behind their hosts', shared(HOSTS, DISKS, 10), ['tokens', 'resources=CUSTOM_CPU:1,DISK_GB:1&limit=20000'],
     lambda: [f'{host},{disk}' for place, host in enumerate(HOSTS[:200]) for disk in DISKS[place % 10::10]]),
]


def questions(cloud, query):
    """A line for each kind of question about a query. To fill disks that all share takes too long: a disk that is full is passed over in each group again."""
    few = query if 'limit=' in query else f'{query}&limit=1000'
    fill = [] if cloud is ALL_SHARE else [f'fill {few}']
    return ''.join(f'{question}\n' for question in (f'tokens {few}', f'candidates {few}', f'list {few}', f'explain {query}', f'hosts {query}',
                                                    f'why {query} {provider(1)}', *fill))


def cliffs(program):
    """The cases, each of which runs this program."""
    limited, limited_twice = (['sh', '-c', LIMITED.format(seconds), 'limited', program] for seconds in (2, 4))
    for name, cloud, words, made in ASKED:
        yield Case(f'all questions: {name}', [*limited_twice, 'session'], None, tables=cloud, given=questions(cloud, words[-1]).encode())
        if isinstance(made, int):
            yield Case(f'looked ahead: {name}', [*limited, *words], None, status=made, tables=cloud)
        else:
            yield Case(f'looked ahead: {name}', [*limited, *words], ''.join(f'{line}\n' for line in made()), tables=cloud)
