#!/usr/bin/env python3
"""examples/trace.py FOLDER TRACE.csv FLAVORS.csv [--policy first|pack|spread] [--every N] [--change FILE]: plays a trace of instances that come and go on the
cloud of these tables, perhaps as changes leave it. It prints how much of each class is in use, in percent of its capacity, after each N events (100, if not
said) and at the end; and then of each flavor how many arrived, and how many of these were refused for want of room. AC_CLI may name the program to ask.

The columns of the trace are `time`, `what` (`arrive` or `depart`), `name` and `flavor`; those of the flavors `flavor` and `query`, as for `ac_cli capacity`.
Who was refused, or was never there, departs in vain. The policies are those of examples/scheduler.py.

With --make N [--seed S] it writes TRACE.csv: N events, of which three of five are arrivals of any of the flavors, and the others departures of any that is
there. The same words make the same trace."""
import argparse
import collections
import csv
import random
import sys

sys.dont_write_bytecode = True
from scheduler import POLICIES, Refused, Scheduler, open_session

COLUMNS = 'time', 'what', 'name', 'flavor'


def made(number, flavors, seed):
    """The events of a trace."""
    chance, time, there = random.Random(seed), 0, []
    for n in range(number):
        time += chance.randrange(60)
        if there and chance.random() < 0.4:
            yield time, 'depart', *there.pop(chance.randrange(len(there)))
        else:
            there.append((f'i{n}', chance.choice(flavors)))
            yield time, 'arrive', *there[-1]


def in_use(session):
    """How much of each class is in use, in percent of its capacity."""
    capacity, used = collections.Counter(), collections.Counter()
    for each in session.left():
        capacity[each.resource_class] += each.capacity
        used[each.resource_class] += each.used
    return {kind: f'{100 * used[kind] / capacity[kind]:.1f}' if capacity[kind] else '-' for kind in sorted(capacity)}


def played(scheduler, events, queries, every):
    """Prints what is in use while these events happen, and counts the arrivals of each flavor, and those that were refused."""
    arrived, refused, last = collections.Counter(), collections.Counter(), len(events)
    print('time', *in_use(scheduler.session), sep=',')
    for n, event in enumerate(events, 1):
        name, flavor = event['name'], event['flavor']
        if event['what'] == 'depart':
            scheduler.remove(name)
        elif event['what'] != 'arrive':
            sys.exit(f'event {n}: {name} neither arrives nor departs')
        elif name in scheduler.placed:
            sys.exit(f'event {n}: {name} is there')
        elif flavor not in queries:
            sys.exit(f'event {n}: no flavor {flavor}')
        else:
            arrived[flavor] += 1
            refused[flavor] += not scheduler.place(name, queries[flavor])
        if n % every == 0 or n == last:
            print(event['time'], *in_use(scheduler.session).values(), sep=',')
    return arrived, refused


def main():
    parser = argparse.ArgumentParser(description=__doc__, formatter_class=argparse.RawDescriptionHelpFormatter)
    for name in 'folder', 'trace', 'flavors':
        parser.add_argument(name, metavar=name.upper())
    parser.add_argument('--policy', choices=POLICIES, default='first')
    parser.add_argument('--every', type=int, default=100)
    parser.add_argument('--change')
    parser.add_argument('--make', type=int)
    parser.add_argument('--seed', type=int, default=1)
    given = parser.parse_args()
    with open(given.flavors, encoding='utf-8', newline='') as table:
        queries = {row['flavor']: row['query'] for row in csv.DictReader(table)}
    if given.make is not None:
        with open(given.trace, 'w', encoding='utf-8', newline='') as table:
            csv.writer(table, lineterminator='\n').writerows([COLUMNS, *made(given.make, list(queries), given.seed)])
        return
    with open(given.trace, encoding='utf-8', newline='') as table:
        events = list(csv.DictReader(table))
    with open_session(given.folder, given.change) as session:
        try:
            arrived, refused = played(Scheduler(session, given.policy), events, queries, given.every)
        except Refused as fault:
            sys.exit(f'a flavor is refused: {fault}')
    print('\nflavor,arrived,refused')
    csv.writer(sys.stdout, lineterminator='\n').writerows((flavor, arrived[flavor], refused[flavor]) for flavor in queries)


if __name__ == '__main__':
    main()
