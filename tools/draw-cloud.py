#!/usr/bin/env python3
"""tools/draw-cloud.py --tables DIR [--token TOKEN] [--tree NAME].. [--query QUERY]
tools/draw-cloud.py --hosts HOSTS.csv --tables DIR [--by AGGREGATE[=NAME],..].. [--query QUERY]

Draws a cloud from its tables, as SVG on standard output. In the first form, each frame is a tree. An arrow leads from a parent to its child, and a
dashed arrow from a sharing provider to the root of each other tree that may use it. A box says how much is left of each class. With a token, as
`ac_cli tokens` writes it, only the trees of its providers are drawn, and these are marked with their slots, counted from 1. With --tree, the trees of
these providers are drawn. Without either, there may be at most 30 trees. Traits that all hosts have aren't in their boxes, but below the picture; those
that the query names are always shown.

With --hosts, the picture has a square for each row of `ac_cli hosts`, in rows by aggregate. Its colour says whether the query fits there, and else what
is lacking. Names are shown where the pointer is. The query is written above. The squares of a row stand in the order of names, and those without a name
behind. A host is in the aggregates of its root provider. If there are several, it stands in the first, so the rows of others are less than whole. Rows with
a name, by aggregate-names.csv in DIR, come first, in the order of names, then the others in that of UUIDs.

With --by, the rows are these aggregates, such as zones, by UUID or name, in this order, and each is whole: a host stands in every one that it is in. NAME is
the title of a row, and has no comma. How many hosts are in none of them is told below. The numbers beside the colours are of the others, each counted once."""
from __future__ import annotations

import argparse
import os
import re
import sys
from urllib.parse import parse_qsl

sys.dont_write_bytecode = True

from pictures import hosts, trees
from pictures.cloud import LONGEST, TABLES, UNREADABLE, NotDrawn, aggregate_named, cloud_of, fill, identity, named, names_of

MOST_TREES = 30


def words():
    usage, *told = __doc__.split('\n\n')
    parser = argparse.ArgumentParser(prog='tools/draw-cloud.py', usage=usage.replace('\n', '\n       '), description='\n\n'.join(told),
                                     formatter_class=argparse.RawDescriptionHelpFormatter)
    parser.add_argument('--tables', metavar='DIR', help='the folder of the five tables')
    for name in TABLES:
        parser.add_argument(f'--{name}', metavar='FILE', help='one of the tables, in place of --tables')
    parser.add_argument('--token', help='a candidate: its trees are drawn, and its providers marked')
    parser.add_argument('--tree', action='append', default=[], metavar='NAME', help='a provider whose tree is drawn: its UUID, or its name')
    parser.add_argument('--query', default='', help='the query, of which traits are always shown')
    parser.add_argument('--hosts', metavar='FILE', help='what `ac_cli hosts` wrote, or - for standard input: draws squares and no trees')
    parser.add_argument('--by', action='append', default=[], metavar='AGGREGATE[=NAME],..', help='with --hosts: the aggregates that are rows, and their titles')
    asked = parser.parse_args()
    paths = {name: vars(asked)[name] for name in TABLES}
    if asked.tables and any(paths.values()):
        parser.error('--tables names all tables')
    if asked.hosts and (asked.token or asked.tree):
        parser.error('--hosts draws no trees')
    if asked.by and not asked.hosts:
        parser.error('--by needs --hosts')
    if asked.tables:
        paths = {name: os.path.join(asked.tables, name + '.csv') for name in TABLES}
    if asked.by and not paths['aggregates']:
        parser.error('the aggregates are missing: --tables, or --aggregates')
    if not asked.hosts and not (paths['providers'] and paths['inventories']):
        parser.error('the tables are missing: --tables, or at least --providers and --inventories')
    return asked, paths


def traits_of(query):
    """The traits that a query requires or forbids, of a provider or of a root."""
    pairs = parse_qsl(query.rpartition('?')[2], keep_blank_values=True)
    return frozenset(trait for name, value in pairs if re.match('(root_)?required', name) for trait in re.findall('[A-Z0-9_]+', value))


def named_by(option, text, what):
    """The UUID that stands in a word of the command line."""
    try:
        return identity(text)
    except ValueError as fault:
        raise NotDrawn(f"--{option}: {text[:LONGEST]!r} isn't a UUID; {what}", 2) from fault


def rows_asked(words, names, titles):
    """The aggregates that are to be rows, and their titles."""
    for one in ','.join(words).split(','):
        text, _, title = one.partition('=')
        aggregate = aggregate_named(text, names)
        if aggregate is None:
            raise NotDrawn(f"--by: {text[:LONGEST]!r} isn't a UUID, nor the name of one aggregate; give some between commas, each alone or as UUID=NAME", 2)
        yield aggregate, title or titles.get(aggregate, aggregate)


def trees_asked(asked, paths):
    token = [named_by('token', one, 'a token is a line of `ac_cli tokens`') for one in asked.token.split(',')] if asked.token else []
    cloud = cloud_of(paths['providers'])
    for one in token:
        if one not in cloud:
            raise NotDrawn(f'there is no provider {one}')
    roots = {cloud[one].root for one in (*token, *(named(cloud, one) for one in asked.tree))}
    if not roots:
        roots = {one.root for one in cloud.values()}
        if len(roots) > MOST_TREES:
            raise NotDrawn(f'{len(roots)} trees are too many for a picture. Name some (--tree), or give a --token, or draw a square for each: '
                           'ac_cli hosts QUERY --tables DIR | tools/draw-cloud.py --hosts - --tables DIR', 2)
    providers = [one for one in cloud.values() if one.root in roots]
    fill(providers, paths)
    return trees.picture(providers, token, traits_of(asked.query))


def hosts_asked(asked, paths):
    names = names_of(asked.tables)
    titles = dict(reversed(names))
    by = list(rows_asked(asked.by, names, titles)) if asked.by else []
    found = hosts.hosts_of(asked.hosts)
    blocks = hosts.blocks_by(found, paths['aggregates'], by) if by else hosts.blocks_of(found, paths['aggregates'], titles)
    return hosts.picture(found, blocks, asked.query)


def main():
    asked, paths = words()
    try:
        lines = list(hosts_asked(asked, paths) if asked.hosts else trees_asked(asked, paths))
    except NotDrawn as fault:
        why, *status = fault.args
        print(f'draw-cloud: {why}', file=sys.stderr)
        sys.exit(*status or (1,))
    except UNREADABLE:
        sys.exit('draw-cloud: the tables can\'t be read; `ac_cli check` tells a fault of the tables')
    try:
        with open(1, 'wb', closefd=False) as out:
            out.writelines(line.encode() + b'\n' for line in lines)
    except OSError as fault:
        sys.exit(f'draw-cloud: the picture can\'t be written ({fault.strerror})')


if __name__ == '__main__':
    main()
