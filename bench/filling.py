#!/usr/bin/env python3
"""bench/filling.py [--runs N]

Times `fill` over 65536 hosts with room for sixteen instances each, which are 1048576 placements, and beside it `tokens` over 1024 hosts and 1024 disks that
they share, which are as many candidates. The times are processor time, the least of N runs (5, if not said), and include reading the tables, which `check`
shows alone. AC_CLI may name another program."""
from __future__ import annotations

import argparse
import os
import random
import sys
import tempfile
import uuid

sys.dont_write_bytecode = True

from searching import program, run, shown

ENDING = ',0,1,16,1,1.0\n'
INVENTORIES = 'resource_provider,resource_class,total,reserved,min_unit,max_unit,step_size,allocation_ratio\n'


def write(folder, name, *lines):
    with open(os.path.join(folder, f'{name}.csv'), 'w', encoding='utf-8') as file:
        file.writelines(lines)


def tables(folder, hosts, disks):
    """A cloud of hosts with sixteen cores each, and of disks that all of them share."""
    os.mkdir(folder)
    chance = random.Random(1)
    ids = [str(uuid.UUID(int=chance.getrandbits(128))) for _ in range(hosts + disks)]
    write(folder, 'providers', 'uuid,root_provider_uuid,parent_provider_uuid\n', *(f'{one},{one},\n' for one in ids))
    write(folder, 'inventories', INVENTORIES, *(f'{one},VCPU,16{ENDING}' for one in ids[:hosts]), *(f'{one},DISK_GB,16{ENDING}' for one in ids[hosts:]))
    write(folder, 'usages', 'resource_provider,resource_class,usage\n')
    write(folder, 'traits', 'resource_provider,name\n', *(f'{one},MISC_SHARES_VIA_AGGREGATE\n' for one in ids[hosts:]))
    write(folder, 'aggregates', 'resource_provider,uuid\n', *(f'{one},{uuid.UUID(int=1)}\n' for one in ids if disks))


def main():
    parser = argparse.ArgumentParser()
    parser.add_argument('--runs', type=int, default=5)
    given = parser.parse_args()
    with tempfile.TemporaryDirectory() as top:
        hosts, shared = os.path.join(top, 'hosts'), os.path.join(top, 'shared')
        tables(hosts, 65536, 0)
        tables(shared, 1024, 1024)
        one, two = 'resources=VCPU:1', 'resources=DISK_GB:1,VCPU:1'
        for words, folder in ((['check'], hosts), (['fill', one], hosts), (['fill', '--sum', one], hosts), (['check'], shared), (['tokens', two], shared)):
            least = min(run([program(), *words, '--tables', folder], os.devnull, False) for _ in range(given.runs))
            print(f'| `{" ".join(words)}`, {os.path.basename(folder)} | {shown(least)} |')


if __name__ == '__main__':
    main()
