#!/usr/bin/env python3
"""bench/changing.py [--runs N] [--hosts N]

Times `check` over 64512 hosts behind lines of `--change`: none, one, one that adds 1024 hosts, and a thousand, each of one host by its UUID or by its name,
or each of all hosts. The times are processor time, the least of N runs (3, if not said), and include reading the tables. AC_CLI may name another program."""
from __future__ import annotations

import argparse
import os
import random
import sys
import tempfile
import uuid

sys.dont_write_bytecode = True

from filling import ENDING, INVENTORIES, write
from searching import program, run, shown

LINES = 1000
ADDED = 1024


def tables(folder, hosts):
    """A cloud of hosts with sixteen cores each. Returns their UUIDs."""
    os.mkdir(folder)
    chance = random.Random(1)
    ids = [str(uuid.UUID(int=chance.getrandbits(127))) for _ in range(hosts)]
    write(folder, 'providers', 'uuid,name,root_provider_uuid,parent_provider_uuid\n', *(f'{one},compute-{at:05},{one},\n' for at, one in enumerate(ids)))
    write(folder, 'inventories', INVENTORIES, *(f'{one},VCPU,16{ENDING}' for one in ids))
    write(folder, 'usages', 'resource_provider,resource_class,usage\n')
    write(folder, 'traits', 'resource_provider,name\n')
    write(folder, 'aggregates', 'resource_provider,uuid\n')
    return ids


def main():
    parser = argparse.ArgumentParser()
    parser.add_argument('--runs', type=int, default=3)
    parser.add_argument('--hosts', type=int, default=65536 - ADDED)
    given = parser.parse_args()
    with tempfile.TemporaryDirectory() as top:
        folder, file = os.path.join(top, 'hosts'), os.path.join(top, 'change')
        ids = tables(folder, given.hosts)
        step = max(1, given.hosts // LINES)
        for what, lines in (('no line', []), ('one line', [f'disable {ids[0]}\n']), (f'`add {ADDED} like HOST`', [f'add {ADDED} like {ids[0]}\n']),
                            (f'{LINES} lines `disable UUID`', [f'disable {one}\n' for one in ids[::step][:LINES]]),
                            (f'{LINES} lines `disable NAME`', [f'disable compute-{at * step:05}\n' for at in range(LINES)]),
                            (f'{LINES} lines `trait * +NAME`', [f'trait * +CUSTOM_{at}\n' for at in range(10)] * (LINES // 10))):
            with open(file, 'w', encoding='utf-8') as out:
                out.writelines(lines)
            least = min(run([program(), 'check', '--tables', folder, *(['--change', file] if lines else [])], os.devnull, False) for _ in range(given.runs))
            print(f'| {what} | {shown(least)} |')


if __name__ == '__main__':
    main()
