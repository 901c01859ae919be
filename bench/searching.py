#!/usr/bin/env python3
"""bench/searching.py [--runs N] [--wall] [PROVIDERS..]: makes the table in the part "Searching" of docs/PERFORMANCE.md anew, in Markdown. It has a row
for each command and a column for each number of hosts (1024, 4096, 16384 and 65536, if none is named). Then come the two other clouds of that part.

Each figure is the least of N runs (7, if not said): the processor time of the program and of the system for it, or with --wall the wall time. Each
round of runs goes over all commands of a cloud. The time includes reading the tables, whose rows are shuffled. AC_CLI may name another program."""
from __future__ import annotations

import argparse
import os
import subprocess
import sys
import tempfile
import time

BENCH = os.path.dirname(os.path.abspath(__file__))
TABLES = 'providers', 'inventories', 'usages', 'traits', 'aggregates'
ONE = 'resources=VCPU:2'
PAGE = ONE + '&limit=1000'
THREE = 'resources=VCPU:2,MEMORY_MB:512,DISK_GB:512'
SUFFIX = 'resources1=VCPU:2,MEMORY_MB:512&required1=!CUSTOM_TRAIT_7&limit=1000'
GROUPS = 'resources1=VCPU:2&resources2=MEMORY_MB:512&group_policy=none&limit=1000'
NUMA = '&'.join(('resources_A=VCPU:1,MEMORY_MB:512', 'resources_B=VCPU:1,MEMORY_MB:512', 'resources_C=SRIOV_NET_VF:1', 'resources_D=SRIOV_NET_VF:1',
                 'same_subtree=_A,_C', 'same_subtree=_B,_D', 'group_policy=isolate'))
DISK = 'resources=VCPU:2,DISK_GB:512'
# What the table calls a command, and the words of that command. LAST stands for the last line of the answer to PAGE.
LAST = object()
FLAT = [
    ('`check`, which only reads the tables', ['check']),
    (f"`verify '{ONE}'`", ['verify', ONE, LAST]),
    (f"`tokens '{PAGE}'`", ['tokens', PAGE]),
    ('the same, after the last line of that page', ['tokens', PAGE, '--after', LAST]),
    (f"`candidates '{PAGE}'`", ['candidates', PAGE]),
    (f"`tokens '{ONE}'`, no limit", ['tokens', ONE]),
    (f"`candidates '{ONE}'`, no limit", ['candidates', ONE]),
    (f"`tokens '{THREE}'`, no limit", ['tokens', THREE]),
    ('`candidates`, the same query', ['candidates', THREE]),
    ('`explain`, the same query', ['explain', THREE]),
    (f"`tokens '{SUFFIX}'`", ['tokens', SUFFIX]),
    (f"`tokens '{GROUPS}'`", ['tokens', GROUPS]),
]
OTHERS = [
    ('numa', 65536, [('`check`', ['check']), ('`tokens`', ['tokens', NUMA]), ('`candidates`', ['candidates', NUMA])]),
    ('disk', 20001, [('`check`', ['check']), ('`tokens`', ['tokens', DISK]), ('`candidates`', ['candidates', DISK])]),
]


def program():
    """The program. It must be built already."""
    if 'AC_CLI' in os.environ:
        return os.environ['AC_CLI']
    top = os.path.dirname(BENCH)
    told = subprocess.run([os.path.join(top, 'ac_cli')], stdout=subprocess.DEVNULL, env={**os.environ, 'AC_CLI_NO_BUILD': 'yes'})
    if told.returncode:
        sys.exit(told.returncode)
    return os.path.join(top, 'out', 'ac_cli')


def cloud(room, providers, shape):
    """Makes the tables, and returns the options that name them."""
    subprocess.run([sys.executable, os.path.join(BENCH, 'make_tables.py'), room, '--providers', str(providers), '--shape', shape], check=True)
    return [word for name in TABLES for word in (f'--{name}', os.path.join(room, name + '.csv'))]


def run(words, out, wall):
    """Runs a command, and returns how long it takes, in seconds. A status of 1 is an answer too."""
    with open(out, 'wb') as file:
        began = time.monotonic()
        ran = subprocess.Popen(words, stdout=file)
        _, status, used = os.wait4(ran.pid, 0)
        took = time.monotonic() - began
    ran.returncode = os.waitstatus_to_exitcode(status)
    if ran.returncode not in (0, 1):
        sys.exit(f'bench/searching.py: {" ".join(words[:3])} ended with {ran.returncode}')
    return took if wall else used.ru_utime + used.ru_stime


def answer(out):
    """How much was written: lines, and bytes."""
    with open(out, 'rb') as file:
        said = file.read()
    return said.count(b'\n'), len(said)


def figures(binary, commands, tables, given):
    """For each command the least of its times, its lines and its bytes."""
    with tempfile.TemporaryDirectory() as room:
        out = os.path.join(room, 'out')
        run([binary, 'tokens', PAGE, *tables], out, given.wall)
        with open(out, encoding='utf-8') as file:
            last = (file.read().splitlines() or [''])[-1]
        found = [[float('inf'), 0, 0] for _ in commands]
        for _ in range(given.runs):
            for (_, words), best in zip(commands, found):
                took = run([binary, *(last if word is LAST else word for word in words), *tables], out, given.wall)
                best[:] = min(best[0], took), *answer(out)
    return found


def shown(seconds):
    return f'{seconds * 1000:.0f} ms' if seconds < 0.0995 else f'{seconds:.2f} s' if seconds < 0.995 else f'{seconds:.1f} s'


def main():
    parser = argparse.ArgumentParser(description=__doc__.split('\n\n')[1])
    parser.add_argument('--runs', type=int, default=7)
    parser.add_argument('--wall', action='store_true')
    parser.add_argument('providers', type=int, nargs='*')
    given = parser.parse_args()
    binary, sizes = program(), given.providers or [1024, 4096, 16384, 65536]
    columns = []
    for size in sizes:
        with tempfile.TemporaryDirectory() as room:
            columns.append(figures(binary, FLAT, cloud(room, size, 'flat'), given))
    print(f'| query and command | {" | ".join([f"{sizes[0]} hosts", *map(str, sizes[1:])])} |\n|---|{"---|" * len(sizes)}')
    for (name, words), *row in zip(FLAT, *columns):
        whole = words in (['tokens', ONE], ['tokens', THREE], ['candidates', ONE], ['candidates', THREE])
        size = f', {row[-1][1]} lines' if words[0] == 'tokens' else f', {row[-1][2] / 1e6:.0f} MB'
        print(f'| {name} | {" | ".join(shown(one[0]) for one in row)}{size if whole else ""} |')
    for shape, size, commands in OTHERS:
        with tempfile.TemporaryDirectory() as room:
            found = figures(binary, commands, cloud(room, size, shape), given)
        print(f'\n{shape}: ' + ', '.join(f'{name} {shown(one[0])} ({one[1]} lines, {one[2] / 1e6:.1f} MB)' for (name, _), one in zip(commands, found)))


if __name__ == '__main__':
    main()
