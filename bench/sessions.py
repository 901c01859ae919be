#!/usr/bin/env python3
"""bench/sessions.py [--runs N] [--many N] [--memory MIB]
bench/sessions.py --trace N [--seed S]

Times sessions beside processes that answer one question each, and writes two tables in Markdown. Their clouds are 65536 hosts (shape flat of
make_tables.py), and an operator's 1000 hosts (shape private). A session's time for a question is its processor time less that of a session without
questions, by the number of questions; that of a process is all of its processor time. Each is the least of N runs (3, if not said). Then come 10000
questions for the first choice in the smaller cloud, a trace that examples/scheduler.py places there (wall time), and as many questions as --many says
(1000000) within so much memory (`ulimit -v`, 64 MiB). AC_CLI may name another program.

With --trace it only writes a trace of N lines for examples/scheduler.py: instances of five flavors that come and go. The same words make the same
trace."""
from __future__ import annotations

import argparse
import os
import random
import subprocess
import sys
import tempfile
import time

sys.dont_write_bytecode = True

from searching import BENCH, program, shown

SCHEDULER = os.path.join(os.path.dirname(BENCH), 'examples', 'scheduler.py')
TWO = 'resources=VCPU:2'
FLAVOR = 'resources=DISK_GB:80,MEMORY_MB:32768,VCPU:8&root_required=!COMPUTE_STATUS_DISABLED'
SIZES = (1, 2048, 10), (2, 4096, 20), (4, 8192, 40), (8, 16384, 80), (16, 65536, 160)


def trace(number, seed):
    """The lines of a trace. Three of five place an instance, and the others remove one that was placed before."""
    chance, there = random.Random(seed), []
    for n in range(number):
        if there and chance.random() < 0.4:
            yield f'remove {there.pop(chance.randrange(len(there)))}'
        else:
            there.append(f'i{n}')
            cores, memory, disk = chance.choice(SIZES)
            yield f'place i{n} resources=VCPU:{cores},MEMORY_MB:{memory},DISK_GB:{disk}&root_required=!COMPUTE_STATUS_DISABLED'


def cloud(folder, *words):
    subprocess.run([sys.executable, os.path.join(BENCH, 'make_tables.py'), folder, *words], check=True)


def run(words, given=(), kept=False):
    """Runs a command with these lines on standard input, and returns its processor time, and what it wrote, if that is kept. A status of 1 is an answer
    too."""
    with tempfile.TemporaryFile() as questions, tempfile.TemporaryFile() as out:
        questions.writelines(line.encode() + b'\n' for line in given)
        questions.seek(0)
        ran = subprocess.Popen(words, stdin=questions, stdout=out if kept else subprocess.DEVNULL)
        _, status, used = os.wait4(ran.pid, 0)
        ran.returncode = os.waitstatus_to_exitcode(status)
        if ran.returncode not in (0, 1):
            sys.exit(f'bench/sessions.py: {" ".join(words[:4])} ended with {ran.returncode}')
        out.seek(0)
        return used.ru_utime + used.ru_stime, out.read().decode()


def least(runs, *command):
    return min(run(*command)[0] for _ in range(runs))


def each(binary, folder, runs, lines):
    """The processor time of a session for one of these lines, beside reading."""
    session = [binary, 'session', '--tables', folder]
    return (least(runs, session, lines) - least(runs, session)) / len(lines)


def fine(seconds):
    return f'{seconds * 1e6:.1f} µs' if seconds < 0.000995 else f'{seconds * 1000:.2f} ms' if seconds < 0.0995 else shown(seconds)


def compare(binary, folder, runs, query, name):
    """A table of one cloud."""
    first = run([binary, 'tokens', query + '&limit=1', '--tables', folder], kept=True)[1].strip()
    page = query + '&limit=1000'
    asked = [
        (f'tokens {query}&limit=1', 2000, ['tokens', query + '&limit=1']),
        (f'tokens {page}', 200, ['tokens', page]),
        (f'candidates {page}', 100, ['candidates', page]),
        (f'hosts {query}', 20, ['hosts', query]),
        (f'verify {query} {first}', 100000, ['verify', query, first]),
    ]
    print(f'| {name} | in a session | a process |\n|---|---|---|')
    print(f'| reading the tables | {fine(least(runs, [binary, "session", "--tables", folder]))} | |')
    for line, number, words in asked:
        alone = least(runs, [binary, *words, '--tables', folder])
        print(f'| `{line.replace(first, "TOKEN").replace(FLAVOR, "FLAVOR")}` | {fine(each(binary, folder, runs, [line] * number))} | {fine(alone)} |', flush=True)
    placed = each(binary, folder, runs, [f'claim {query} {first}', f'release {query} {first}'] * 50000)
    print(f'| `claim` or `release`, the same query | {fine(placed)} | |\n', flush=True)
    return first


def first_choices(binary, folder, runs, number=10000):
    line = f'tokens {FLAVOR}&limit=1'
    together = least(runs, [binary, 'session', '--tables', folder], [line] * number)
    alone = least(runs, [binary, 'tokens', FLAVOR + '&limit=1', '--tables', folder])
    print(f'{number} questions for the first choice: {shown(together)} in a session, {alone * number:.0f} s in {number} processes.')


def placed(binary, folder, number=10000):
    """Places a trace, and writes how long that took, the driver's own time included."""
    began = time.monotonic()
    said = subprocess.run([sys.executable, SCHEDULER, folder], input='\n'.join(trace(number, 1)) + '\n', capture_output=True, text=True, check=True,
                          env={**os.environ, 'AC_CLI': binary}).stdout
    took = time.monotonic() - began
    lines = [line for line in said.splitlines() if ': ' in line]
    none = sum(line.endswith('no place') for line in lines)
    print(f'A trace of {number} lines: {took:.1f} s with its driver; {len(lines) - none} instances placed, {none} without a place.')


def many(binary, folder, number, memory, token):
    """Asks so many questions within so much memory."""
    asked = [f'tokens {FLAVOR}&limit=1', f'claim {FLAVOR} {token}', f'verify {FLAVOR} {token}', f'release {FLAVOR} {token}']
    peak = os.path.join(folder, 'peak')
    limited = ['/usr/bin/time', '-q', '-f', '%M', '-o', peak, 'sh', '-c', f'ulimit -v {memory * 1024}; exec "$@"', 'limited', binary, 'session', '--tables', folder]
    for count in number // 1000, number:
        took, _ = run(limited, (asked[n % 4] for n in range(count)))
        with open(peak, encoding='ascii') as held:
            print(f'{count} questions and claims within {memory} MiB: {shown(took)}, {int(held.read()) / 1024:.1f} MiB held at most.')


def main():
    parser = argparse.ArgumentParser(description=__doc__.split('\n\n', 1)[1], formatter_class=argparse.RawDescriptionHelpFormatter)
    parser.add_argument('--runs', type=int, default=3)
    parser.add_argument('--many', type=int, default=1000000)
    parser.add_argument('--memory', type=int, default=64)
    parser.add_argument('--trace', type=int)
    parser.add_argument('--seed', type=int, default=1)
    given = parser.parse_args()
    if given.trace is not None:
        print('\n'.join(trace(given.trace, given.seed)))
        return
    binary = program()
    with tempfile.TemporaryDirectory() as folder:
        cloud(folder, '--providers', '65536')
        compare(binary, folder, given.runs, TWO, '65536 hosts')
    with tempfile.TemporaryDirectory() as folder:
        cloud(folder, '--shape', 'private', '--hosts', '1000')
        token = compare(binary, folder, given.runs, FLAVOR, '1000 hosts')
        first_choices(binary, folder, given.runs)
        placed(binary, folder)
        many(binary, folder, given.many, given.memory, token)


if __name__ == '__main__':
    main()
