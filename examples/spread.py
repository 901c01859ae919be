#!/usr/bin/env python3
"""examples/spread.py FOLDER TRACE.csv FLAVORS.csv --zones NAME=UUID,.. [--workers N]: plays a trace of instances that come and go, each zone on a worker of dask
(`distributed`, in Debian `python3-distributed`) with a session of its own; with --workers 0 one session plays all, without dask.

The columns of the trace are `what` (`arrive` or `depart`), `name`, `flavor` and `zone`, which names the aggregate that each query then asks for; those of the
flavors `flavor` and `query`. A row is printed for each arrival, in the order of the trace: its number, its name and its token, which is empty where there was no
place. Zones that share no provider take nothing from one another, so many sessions answer as one. AC_CLI may name the program to ask."""
import argparse
import csv
import sys

sys.dont_write_bytecode = True
from scheduler import Refused, Scheduler, open_session


def play(folder, events):
    """The token of each arrival, by its number, in a session of its own. An event is a number, what happens, a name and a query."""
    with open_session(folder) as session:
        scheduler, found = Scheduler(session, 'first'), {}
        for number, what, name, query in events:
            if what == 'depart':
                scheduler.remove(name)
            else:
                placed = scheduler.place(name, query)
                found[number] = placed.token if placed else ''
        return found


def spread(folder, parts, workers):
    """What is played of each part, on workers of dask that run beside one another."""
    from dask.distributed import Client, LocalCluster
    with LocalCluster(n_workers=workers, threads_per_worker=1, dashboard_address=None) as cluster, Client(cluster) as client:
        return client.gather([client.submit(play, folder, part) for part in parts])


def main():
    parser = argparse.ArgumentParser(description=__doc__, formatter_class=argparse.RawDescriptionHelpFormatter)
    for name in 'folder', 'trace', 'flavors':
        parser.add_argument(name, metavar=name.upper())
    parser.add_argument('--zones', required=True)
    parser.add_argument('--workers', type=int, default=2)
    given = parser.parse_args()
    zones = dict(each.split('=', 1) for each in given.zones.split(','))
    with open(given.flavors, encoding='utf-8', newline='') as table:
        queries = {row['flavor']: row['query'] for row in csv.DictReader(table)}
    with open(given.trace, encoding='utf-8', newline='') as table:
        trace = list(csv.DictReader(table))
    names, parts = {}, {zone: [] for zone in zones}
    for number, event in enumerate(trace, 1):
        if event['what'] not in ('arrive', 'depart'):
            sys.exit(f'event {number}: {event["name"]} neither arrives nor departs')
        for what, known in ('flavor', queries), ('zone', zones):
            if event[what] not in known:
                sys.exit(f'event {number}: no {what} {event[what]}')
        names[number] = event['name']
        parts[event['zone']].append((number, event['what'], event['name'], f'{queries[event["flavor"]]}&member_of={zones[event["zone"]]}'))
    try:
        if given.workers:
            played = spread(given.folder, list(parts.values()), given.workers)
        else:
            played = [play(given.folder, sorted(event for part in parts.values() for event in part))]
    except Refused as fault:
        sys.exit(f'a flavor is refused: {fault}')
    found = {number: token for part in played for number, token in part.items()}
    csv.writer(sys.stdout, lineterminator='\n').writerows([('number', 'name', 'token'), *((number, names[number], found[number]) for number in sorted(found))])


if __name__ == '__main__':
    main()
