#!/usr/bin/env python3
"""examples/scheduler.py FOLDER [--policy first|pack|spread] <TRACE: places instances on the cloud of these tables. A line of the trace is `place NAME QUERY` or
`remove NAME`. At the end it prints how much is left of each class. AC_CLI may name the program to ask.

A policy says where each instance goes:

first   to the first candidate, in the order of UUIDs
pack    to the host that has room for the fewest more
spread  to the host that has room for the most more

How many more a host has room for is measured by what is left in its tree: of each class that is asked and that its tree has, what is left of it by what is
asked of it, and of these the least; without such a class it is 0. Of equal hosts it is the first, and at the host the first candidate."""
import argparse
import collections
import os
import sys
import urllib.parse

TOP = os.path.join(os.path.dirname(os.path.abspath(__file__)), '..')
sys.path.insert(0, os.path.join(TOP, 'clients', 'python'))
sys.dont_write_bytecode = True
from ac_session import Refused, Session  # noqa: E402

# What is best, of the room at each host that fits. The first candidate asks for no host.
POLICIES = {'first': None, 'pack': min, 'spread': max}


def open_session(folder, change=None):
    """A session over these tables, as a file of changes leaves them, of the program that is named, else of this repository, else on the path."""
    program = os.path.join(TOP, 'ac_cli')
    changes = ['--change', change] if change else []
    return Session(folder, *changes, program=os.environ.get('AC_CLI') or (program if os.path.exists(program) else 'ac_cli'))


def asked_by(query):
    """How much a query asks of each class, all groups together."""
    amounts = collections.Counter()
    for name, value in urllib.parse.parse_qsl(query.rpartition('?')[2]):
        if name.startswith('resources'):
            for each in value.split(','):
                kind, _, amount = each.partition(':')
                amounts[kind] += int(amount)
    return amounts


class Scheduler:
    """Places instances by a policy. It keeps the providers of each instance, and how much of each class is left in the tree of each root that it has looked
    at."""

    def __init__(self, session, policy):
        self.session, self.best = session, POLICIES[policy]
        self.placed, self.left, self.roots = {}, {}, {}

    def place(self, name, query):
        """Places an instance, which is none yet; None where it has no place."""
        host = self.choose(query) if self.best else ''
        found = None if host is None else self.session.place(query, name, host)
        if found:
            self.placed[name] = found.providers
            self.look_again(found.providers)
        return found

    def remove(self, name):
        """Removes an instance, if it is there."""
        if name in self.placed:
            self.session.release(name)
            self.look_again(self.placed.pop(name))

    def choose(self, query):
        """The root with the best room of those that fit; None where none fits."""
        fit = [host.root for host in self.session.hosts(query, fits=True)]
        asked = asked_by(query) if fit else {}
        return self.best(fit, key=lambda root: self.room(root, asked), default=None)

    def room(self, root, asked):
        """How many more of what is asked a root has room for."""
        if root not in self.left:
            self.look(root)
        left = self.left[root]
        return min((left[kind] / amount for kind, amount in asked.items() if kind in left), default=0)

    def look(self, root):
        """Asks what is left in the tree of a root."""
        self.left[root] = collections.Counter()
        for each in self.session.left(root):
            self.left[root][each.resource_class] += each.left
            self.roots[each.provider] = root

    def look_again(self, providers):
        """The same of each root that it has looked at, and of which these providers are."""
        for root in {self.roots[provider] for provider in providers if provider in self.roots}:
            self.look(root)


def main():
    parser = argparse.ArgumentParser(description=__doc__, formatter_class=argparse.RawDescriptionHelpFormatter)
    parser.add_argument('folder', metavar='FOLDER')
    parser.add_argument('--policy', choices=POLICIES, default='first')
    given = parser.parse_args()
    with open_session(given.folder) as session:
        scheduler = Scheduler(session, given.policy)
        for what, name, *query in map(str.split, sys.stdin):
            if what == 'remove':
                scheduler.remove(name)
            elif what == 'place' and name in scheduler.placed:
                print(f'{name}: in use')
            elif what == 'place':
                try:
                    found = scheduler.place(name, query[0])
                    print(f'{name}: {found.token if found else "no place"}')
                except Refused as refused:
                    print(f'{name}: refused, {refused}')
        left = collections.Counter()
        for each in session.left():
            left[each.resource_class] += each.capacity - each.used
    print(*(f'{kind} {amount}' for kind, amount in sorted(left.items())), sep='\n')


if __name__ == '__main__':
    main()
