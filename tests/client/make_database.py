#!/usr/bin/env python3
"""tests/client/make_database.py FOLDER FILE [NOVA]: makes a SQLite file with the tables of Placement's database that the export reads, and puts into
them the cloud whose joined tables are in the folder. What is used is parted over two consumers. The aggregates in the table NOVA it puts into a file
like Nova's database, FILE.nova_api, and with them one of an old cloud, which has no UUID yet."""
import csv
import os
import sqlite3
import sys

SCHEMA = '''
CREATE TABLE resource_providers (id INTEGER PRIMARY KEY, uuid VARCHAR(36) NOT NULL UNIQUE, name VARCHAR(200), generation INTEGER,
    root_provider_id INTEGER, parent_provider_id INTEGER);
CREATE TABLE resource_classes (id INTEGER PRIMARY KEY, name VARCHAR(255) NOT NULL UNIQUE);
CREATE TABLE inventories (id INTEGER PRIMARY KEY, resource_provider_id INTEGER NOT NULL, resource_class_id INTEGER NOT NULL, total INTEGER NOT NULL,
    reserved INTEGER NOT NULL, min_unit INTEGER NOT NULL, max_unit INTEGER NOT NULL, step_size INTEGER NOT NULL, allocation_ratio FLOAT NOT NULL);
CREATE TABLE allocations (id INTEGER PRIMARY KEY, resource_provider_id INTEGER NOT NULL, consumer_id VARCHAR(36) NOT NULL,
    resource_class_id INTEGER NOT NULL, used INTEGER NOT NULL);
CREATE TABLE traits (id INTEGER PRIMARY KEY, name VARCHAR(255) NOT NULL UNIQUE);
CREATE TABLE resource_provider_traits (trait_id INTEGER NOT NULL, resource_provider_id INTEGER NOT NULL);
CREATE TABLE placement_aggregates (id INTEGER PRIMARY KEY, uuid VARCHAR(36) UNIQUE);
CREATE TABLE resource_provider_aggregates (resource_provider_id INTEGER NOT NULL, aggregate_id INTEGER NOT NULL);
'''
NOVA_SCHEMA = '''
CREATE TABLE aggregates (id INTEGER PRIMARY KEY, uuid VARCHAR(36), name VARCHAR(255));
CREATE TABLE aggregate_metadata (id INTEGER PRIMARY KEY, aggregate_id INTEGER NOT NULL, key VARCHAR(255) NOT NULL, value VARCHAR(255) NOT NULL);
'''
NUMBERS = 'total', 'reserved', 'min_unit', 'max_unit', 'step_size', 'allocation_ratio'


def rows(path):
    with open(path, encoding='utf-8', newline='') as file:
        return list(csv.DictReader(file))


def numbered(base, table, column, names):
    """Puts these names into a table, and says which number each has."""
    ids = {name: at for at, name in enumerate(dict.fromkeys(names), 1)}
    base.executemany(f'INSERT INTO {table} (id, {column}) VALUES (?, ?)', [(at, name) for name, at in ids.items()])
    return ids


def named(nova, path):
    """Makes Nova's database. Each aggregate has other metadata too."""
    base = sqlite3.connect(path)
    base.executescript(NOVA_SCHEMA)
    base.execute("INSERT INTO aggregates VALUES (1000, NULL, 'old')")
    for row in rows(nova):
        base.execute('INSERT INTO aggregates VALUES (?, ?, ?)', (row['id'], row['uuid'], row['name']))
        base.executemany('INSERT INTO aggregate_metadata VALUES (NULL, ?, ?, ?)', [
            (row['id'], key, value) for key, value in (('ssd', 'true'), ('availability_zone', row['zone'])) if value])
    base.commit()
    base.close()


def main(folder, path, nova=''):
    if nova:
        named(nova, path + '.nova_api')
    base = sqlite3.connect(path)
    base.executescript(SCHEMA)
    providers, inventories, usages, traits, aggregates = (rows(os.path.join(folder, name + '.csv')) for name in (
        'providers', 'inventories', 'usages', 'traits', 'aggregates'))
    ids = {row['uuid']: at for at, row in enumerate(providers, 1)}
    base.executemany('INSERT INTO resource_providers VALUES (?, ?, ?, ?, ?, ?)', [
        (ids[row['uuid']], row['uuid'], row['name'], row['generation'], ids[row['root_provider_uuid']], ids.get(row['parent_provider_uuid']))
        for row in providers])
    classes = numbered(base, 'resource_classes', 'name', [row['resource_class'] for row in inventories])
    for row in inventories:
        base.execute('INSERT INTO inventories VALUES (NULL, ?, ?, ?, ?, ?, ?, ?, ?)', (
            ids[row['resource_provider']], classes[row['resource_class']], *(float(row[name]) if 'ratio' in name else row[name] for name in NUMBERS)))
    for row in usages:
        used = int(row['usage'])
        base.executemany('INSERT INTO allocations VALUES (NULL, ?, ?, ?, ?)', [
            (ids[row['resource_provider']], consumer, classes[row['resource_class']], part)
            for consumer, part in (('one', used // 2), ('other', used - used // 2)) if part])
    names = numbered(base, 'traits', 'name', ['HW_NOBODY_HAS_IT', *(row['name'] for row in traits)])
    base.executemany('INSERT INTO resource_provider_traits VALUES (?, ?)', [(names[row['name']], ids[row['resource_provider']]) for row in traits])
    groups = numbered(base, 'placement_aggregates', 'uuid', [row['uuid'] for row in aggregates])
    base.executemany('INSERT INTO resource_provider_aggregates VALUES (?, ?)', [
        (ids[row['resource_provider']], groups[row['uuid']]) for row in aggregates])
    base.commit()
    base.close()


if __name__ == '__main__':
    main(*sys.argv[1:])
