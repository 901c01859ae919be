#!/usr/bin/env python3
"""tools/try_with_service.py URL PROGRAM NAME TRACES [CLIENT [ARG..]]: tries the exports and the program PROGRAM with the service at URL, whose database
CLIENT ARG.. opens. tools/try-with-service.sh starts that service and calls this script. NAME is the database's name in the output.

Each cloud is put into the service by its API and exported in both ways. Then service and program are asked the same queries. Next come the clouds
and queries of docs/DIFFERENCES.md, for which the service must answer as that page says, and the files of examples/gabbi, whose tests of a mistake
must fail. Last come TRACES traces: claims, moves and releases over a random cloud, which the service and a session of the program must answer alike,
with the same in use after each. The status is 0 only if all went as it should.

Without CLIENT the service is somebody else's: the exports aren't tried, and the program reads what the service's API tells of each cloud. NAME is
empty if its database isn't known. The service must have no resource providers; those that it gets from others in the meantime stay in it."""
from __future__ import annotations

import collections
import csv
import json
import os
import random
import re
import shutil
import subprocess
import sys
import tempfile
import threading
import time
import urllib.error
import urllib.parse
import urllib.request
import uuid

ROOT = os.path.dirname(os.path.dirname(os.path.abspath(__file__)))
sys.dont_write_bytecode = True
sys.path[:0] = os.path.join(ROOT, 'tests'), os.path.join(ROOT, 'clients', 'python')

import ac_session  # noqa: E402
import gabbi_files  # noqa: E402
from notation import HEADERS, full, tables as tables_of  # noqa: E402

TABLES = 'providers', 'inventories', 'usages', 'traits', 'aggregates'
VERSION = '1.36'
GREATEST = 2147483647
NUMBERS = 'total', 'reserved', 'min_unit', 'max_unit', 'step_size'
SLOWLY = """#!/bin/sh
while IFS= read -r line; do printf '%s\\n' "$line"; case $line in *';') sleep 0.3 ;; esac; done | """
PAGE = os.path.join(ROOT, 'docs', 'DIFFERENCES.md')


# What is asked of the client's list of candidates.
LISTED = ['VCPU=2'], ['VCPU=2', 'MEMORY_MB=512'], ['VCPU=2', 'MEMORY_MB=512', 'DISK_GB=20'], ['SRIOV_NET_VF=1']

# The steps of a trace, how many queries it has, and the amounts that they ask for.
STEPS, QUERIES = 30, 3
AMOUNTS = {'VCPU': (2, 4, 8, 16), 'MEMORY_MB': (512, 4096, 8192), 'DISK_GB': (10, 15, 200, 400), 'SRIOV_NET_VF': (1, 2, 4, 8)}

# What a session must answer to this question where the service answers with this status and code, and what that is called in the line of counts.
UNDEFINED, CONCURRENT = 'placement.undefined_code', 'placement.concurrent_update'
SAME = {('claim', 204, ''): ('claimed', 'claims'), ('claim', 409, UNDEFINED): ('no: rule 6 Sums', 'refused claims'),
        ('claim', 409, CONCURRENT): ('in use', 'claims by a name in use'),
        ('move', 204, ''): ('moved', 'moves'), ('move', 409, UNDEFINED): ('no: rule 6 Sums', 'refused moves'),
        ('move', 409, CONCURRENT): ('not in use', 'moves of a name not in use'),
        ('release', 204, ''): ('released', 'releases'), ('release', 404, UNDEFINED): ('not in use', 'releases sent twice')}
COUNTED = *(what for _, what in SAME.values()), 'comparisons of usages', 'comparisons of candidates', 'queries left out', 'bad'


class Refused(Exception):
    """The service refused what a cloud needs."""


class Differs(Exception):
    """Service and session differ in a step of a trace."""


class Service:
    """The service's API, without a client."""

    def __init__(self, url, token='admin'):
        self.url, self.token = url, token
        self.made = set()

    def ask(self, method, path, body=None, version=VERSION):
        """The status, and the body: what its JSON says, or else its text."""
        data = None if body is None else json.dumps(body).encode()
        headers = {'X-Auth-Token': self.token, 'OpenStack-API-Version': f'placement {version}', 'Accept': 'application/json',
                   'Content-Type': 'application/json'}
        request = urllib.request.Request(self.url + path, data, headers, method=method)
        try:
            with urllib.request.urlopen(request) as answer:
                status, text = answer.status, answer.read()
        except urllib.error.HTTPError as fault:
            status, text = fault.code, fault.read()
        try:
            return status, json.loads(text)
        except ValueError:
            return status, text.decode(errors='replace')

    def do(self, method, path, body=None):
        status, answer = self.ask(method, path, body)
        if status >= 300:
            raise Refused(f'{method} {path}: {status}: {answer}')
        return answer

    def candidates(self, query, version=VERSION):
        return self.ask('GET', '/allocation_candidates?' + query, version=version)

    def providers(self):
        return self.do('GET', '/resource_providers')['resource_providers']

    def clear(self):
        """Deletes all providers that were put in from here, and their allocations."""
        left = [provider for provider in self.providers() if provider['uuid'] in self.made]
        for provider in left:
            held = self.do('GET', f'/resource_providers/{provider["uuid"]}/allocations')
            for consumer in held['allocations']:
                self.do('DELETE', f'/allocations/{consumer}')
        while left:
            parents = {provider['parent_provider_uuid'] for provider in left}
            for provider in left:
                if provider['uuid'] not in parents:
                    self.do('DELETE', f'/resource_providers/{provider["uuid"]}')
            left = [provider for provider in left if provider['uuid'] in parents]

    def name(self, kind, name):
        """Creates a custom name, which the service has to know before it is used."""
        if name.startswith('CUSTOM_'):
            self.do('PUT', f'/{kind}/{name}')

    def fill(self, cloud):
        """Puts this cloud into the service, which then has no other provider."""
        self.clear()
        generations = {}
        for row in parents_first(cloud['providers']):
            body = {'uuid': row['uuid'], 'name': row.get('name') or row['uuid']}
            if row['parent_provider_uuid']:
                body['parent_provider_uuid'] = row['parent_provider_uuid']
            self.made.add(row['uuid'])
            generations[row['uuid']] = self.do('POST', '/resource_providers', body)['generation']
        for provider in generations:
            self.give(provider, generations[provider], {name: [row for row in cloud.get(name, ()) if row['resource_provider'] == provider]
                                                        for name in TABLES[1:]})

    def give(self, provider, generation, has):
        """Gives one provider its inventories, usages, traits and aggregates."""
        path = f'/resource_providers/{provider}'
        for row in has['inventories']:
            self.name('resource_classes', row['resource_class'])
        for row in has['traits']:
            self.name('traits', row['name'])
        generation = self.put(f'{path}/traits', generation, 'traits', [row['name'] for row in has['traits']])
        generation = self.put(f'{path}/aggregates', generation, 'aggregates', [row['uuid'] for row in has['aggregates']])
        # More may be used than there is room for. So it is allocated while the inventories are wide, and then they get their own numbers.
        wide = {'total': GREATEST, 'reserved': 0, 'min_unit': 1, 'max_unit': GREATEST, 'step_size': 1, 'allocation_ratio': 1.0}
        generation = self.put(f'{path}/inventories', generation, 'inventories', {row['resource_class']: wide for row in has['inventories']})
        for used in shares([(row['resource_class'], int(row['usage'])) for row in has['usages']]):
            self.do('PUT', f'/allocations/{uuid.uuid4()}', {'allocations': {provider: {'resources': used}}, 'project_id': 'try', 'user_id': 'try',
                                                           'consumer_generation': None})
        generation = self.do('GET', path)['generation']
        self.put(f'{path}/inventories', generation, 'inventories', {
            row['resource_class']: {**{name: int(row[name]) for name in NUMBERS}, 'allocation_ratio': float(row['allocation_ratio'])}
            for row in has['inventories']})

    def cloud(self):
        """The cloud that the service has, as its API tells it."""
        cloud = {name: [] for name in TABLES}
        for provider in self.providers():
            one, path = {'resource_provider': provider['uuid']}, f'/resource_providers/{provider["uuid"]}'
            inventories, used = self.do('GET', f'{path}/inventories')['inventories'], self.do('GET', f'{path}/usages')['usages']
            cloud['providers'].append(provider)
            cloud['inventories'] += [{**one, 'resource_class': name, **numbers} for name, numbers in inventories.items()]
            cloud['usages'] += [{**one, 'resource_class': name, 'usage': amount} for name, amount in used.items()]
            cloud['traits'] += [{**one, 'name': name} for name in self.do('GET', f'{path}/traits')['traits']]
            cloud['aggregates'] += [{**one, 'uuid': member} for member in self.do('GET', f'{path}/aggregates')['aggregates']]
        return cloud

    def put(self, path, generation, name, value):
        if not value:
            return generation
        return self.do('PUT', path, {'resource_provider_generation': generation, name: value})['resource_provider_generation']


def shares(used):
    """What is used, split between two consumers if possible."""
    for part in {name: amount // 2 for name, amount in used}, {name: amount - amount // 2 for name, amount in used}:
        part = {name: amount for name, amount in part.items() if amount}
        if part:
            yield part


def parents_first(providers):
    done, left = {''}, list(providers)
    while left:
        for row in left:
            if row['parent_provider_uuid'] in done:
                done.add(row['uuid'])
                yield row
        left = [row for row in left if row['uuid'] not in done]


def read(text):
    return list(csv.DictReader(text.splitlines(keepends=True)))


def of_folder(folder):
    cloud = {}
    for name in TABLES:
        with open(os.path.join(folder, name + '.csv'), encoding='utf-8', newline='') as file:
            cloud[name] = list(csv.DictReader(file))
    return cloud


def write(folder, cloud):
    """Writes the tables of a cloud into this folder, with the columns that the program needs."""
    for name, header in HEADERS.items():
        with open(os.path.join(folder, name + '.csv'), 'w', encoding='utf-8', newline='') as file:
            table = csv.DictWriter(file, header.strip().split(','), extrasaction='ignore', lineterminator='\n')
            table.writeheader()
            table.writerows(cloud[name])


def drawn(hosts=24, seed=24):
    """A random cloud of hosts, some with NUMA nodes and a network function, and of disks that some of them share. Some names and ratios are unusual."""
    chance = random.Random(seed)
    cloud = {name: [] for name in TABLES}
    aggregates = [str(uuid.UUID(int=chance.getrandbits(128), version=4)) for _ in range(4)]

    def put(name, parent, inventories, traits, member_of):
        one = str(uuid.UUID(int=chance.getrandbits(128), version=4))
        cloud['providers'].append({'uuid': one, 'name': name, 'parent_provider_uuid': parent})
        for kind, total, reserved, step, ratio in inventories:
            cloud['inventories'].append(dict(zip(('resource_provider', 'resource_class', *NUMBERS, 'allocation_ratio'),
                                                 (one, kind, total, reserved, step, total, step, ratio))))
            used = chance.randrange(0, int((total - reserved) * ratio) + 1, step) if chance.random() < 0.7 else 0
            cloud['usages'] += [{'resource_provider': one, 'resource_class': kind, 'usage': used}] * (used > 0)
        cloud['traits'] += [{'resource_provider': one, 'name': trait} for trait in traits]
        cloud['aggregates'] += [{'resource_provider': one, 'uuid': member} for member in member_of]
        return one

    def computing(host):
        return [('VCPU', chance.choice((4, 8, 16)), chance.choice((0, 2)), 1, chance.choice((1.0, 2.0, 4.0, 16.0, 1.5))),
                ('MEMORY_MB', 16384, 512, 256, 1.0)]

    for number in range(hosts):
        nested = chance.random() < 0.4
        name = chance.choice((f'host-{number}', f'host "{number}", rack é', f'two\nlines {number}'))
        disk = [('DISK_GB', 500, 20, 1, chance.choice((1.0, 1.5)))] if chance.random() < 0.5 else []
        root = put(name, '', disk + ([] if nested else computing(number)), ['COMPUTE_NODE', *chance.sample(['CUSTOM_GOLD', 'HW_CPU_X86_AVX2'], 1)],
                   chance.sample(aggregates, chance.randint(0, 2)))
        for node in range(2 if nested else 0):
            below = put(f'host-{number}_NUMA{node}', root, computing(number), ['HW_NUMA_ROOT'], [])
            if node == 0:
                put(f'host-{number}_PF', below, [('SRIOV_NET_VF', 8, 0, 1, 1.0)], ['CUSTOM_PHYSNET_PUBLIC'], [])
    for number, member in enumerate(aggregates[:3]):
        put(f'disk-{number}', '', [('DISK_GB', 20000, 1000, 10, 1.5)], ['MISC_SHARES_VIA_AGGREGATE'], [member])
    return cloud


def odd_ratios():
    """The cloud of tests/client with more ratios: floats of every kind."""
    cloud = of_folder(os.path.join(ROOT, 'tests', 'client', 'cloud'))
    chance = random.Random(24)
    ratios = ['1.1', '0.1', '0.7', '1.15', '8.2', '0.333333', '1234567.25', '1000000.0', '2000000.0', '0.0001', '0.00012345678', '2.5e-05',
              '9.87654e-05', '1e-07', '1e-30', '123456.789', '1.9999999999999998', '16777217.0', '1e15', '1e17', '3.3e38',
              *(repr(chance.random() * 10 ** chance.randint(-6, 18)) for _ in range(60))]
    like = cloud['inventories'][-1]
    cloud['inventories'] += [{**like, 'resource_class': f'CUSTOM_R{at}', 'allocation_ratio': ratio} for at, ratio in enumerate(ratios)]
    return cloud


def asked(cloud):
    """Queries over a cloud, with every parameter. None is of a kind that docs/DIFFERENCES.md names."""
    member, other = sorted({row['uuid'] for row in cloud['aggregates']} | {str(uuid.uuid4())})[:2]
    inner = next((row['uuid'] for row in cloud['providers'] if row['parent_provider_uuid']), cloud['providers'][0]['uuid'])
    numa = 'resources_CPU=VCPU:2,MEMORY_MB:1024&required_CPU=HW_NUMA_ROOT'
    return ['resources=VCPU:1', 'resources=VCPU:2,MEMORY_MB:512', 'resources=VCPU:2,MEMORY_MB:512,DISK_GB:20', 'resources=DISK_GB:20',
            'resources=VCPU:4&required=COMPUTE_NODE', 'resources=VCPU:1,DISK_GB:20&required=COMPUTE_NODE', 'resources=VCPU:1&required=!COMPUTE_NODE',
            'resources=VCPU:1,DISK_GB:20&required=MISC_SHARES_VIA_AGGREGATE', 'resources=VCPU:1,DISK_GB:20&required=!MISC_SHARES_VIA_AGGREGATE',
            f'resources=VCPU:1&member_of={member}', f'resources=VCPU:1&member_of=in:{member},{other}', f'resources=VCPU:1&member_of=!{member}',
            f'resources1=VCPU:1&member_of1={member}', f'resources=VCPU:1&member_of=!in:{member},{other}', f'resources=VCPU:1&in_tree={inner}',
            f'resources1=VCPU:1,MEMORY_MB:256&in_tree1={inner}', 'resources=VCPU:1&root_required=COMPUTE_NODE',
            'resources=VCPU:1&root_required=!COMPUTE_NODE', 'resources=SRIOV_NET_VF:1', numa, f'{numa}&resources_DISK=DISK_GB:20&group_policy=none',
            'resources1=VCPU:2&resources2=VCPU:2&group_policy=none', 'resources1=VCPU:2&resources2=VCPU:2&group_policy=isolate',
            'resources1=DISK_GB:20&resources2=VCPU:1&resources3=VCPU:1&group_policy=isolate',
            f'{numa}&resources_NET=SRIOV_NET_VF:1&same_subtree=_CPU,_NET&group_policy=none',
            f'{numa}&resources_NET=SRIOV_NET_VF:1&group_policy=isolate',
            'resources_NET=SRIOV_NET_VF:1&required_NUMA=HW_NUMA_ROOT&same_subtree=_NET,_NUMA&group_policy=none',
            'resources1=DISK_GB:20&resources2=VCPU:1&group_policy=none', 'resources=VCPU:100000']


def canonical(body):
    """The candidates in an order of ours, and the summaries."""
    found = sorted((sorted((provider, sorted(taken['resources'].items())) for provider, taken in one['allocations'].items()),
                    sorted((suffix, sorted(set(providers))) for suffix, providers in one['mappings'].items()))
                   for one in body['allocation_requests'])
    return found, {provider: {**summary, 'traits': sorted(summary['traits'])} for provider, summary in body['provider_summaries'].items()}


def as_listed(text):
    """The candidates in such a list: of each its rows, without their number and the provider's name. Neither their order counts nor that within a cell."""
    found = {}
    for row in read(text):
        cells = (row['allocation'], row['inventory used/capacity'], row['traits'])
        found.setdefault(row['#'], []).append((row['resource provider'], *(tuple(sorted(filter(None, cell.split(',')))) for cell in cells)))
    return sorted(sorted(rows) for rows in found.values())


def names(query):
    """The custom names that a query asks for, each with its kind."""
    for name, value in urllib.parse.parse_qsl(query):
        kind = 'resource_classes' if name.startswith('resources') else 'traits'
        yield from ((kind, word) for word in re.findall(r'CUSTOM_\w+', value))


def bare(query):
    """The suffixes of groups that ask for no resources."""
    pairs = dict(urllib.parse.parse_qsl(query))
    every = {re.sub('^(required|member_of|in_tree)', '', name) for name in pairs if re.match('(required|member_of|in_tree).', name)}
    return {suffix for suffix in every if 'resources' + suffix not in pairs}


def short(text):
    """A text with short names in place of the UUIDs that notation.full writes out."""
    return re.sub('00000000-0000-0000-0000-0000000000([0a])([0-9a-f])', lambda found: ('P' if found[1] == '0' else 'A') + found[2], text)


def told(status, body, query):
    """What the service answers, as docs/DIFFERENCES.md writes it: a text for each candidate, in ascending order."""
    if status != 200:
        return [f'status {status}']
    places = bare(query)
    return sorted(short(', '.join([
        *(f'{provider} {name}:{amount}' for provider, taken in sorted(one['allocations'].items())
          for name, amount in sorted(taken['resources'].items())),
        *(f'{suffix} at {provider}' for suffix, providers in sorted(one['mappings'].items()) if suffix in places for provider in providers)]))
        for one in body['allocation_requests'])


def answers(said):
    """The answers that such a text of the page allows."""
    spans = re.findall('`([^`]*)`', said)
    if said.startswith('one of '):
        return [*([span] for span in spans), *([[]] if said.endswith('nothing') else [])]
    return [sorted(spans) or ([] if said == 'nothing' else [said])]


def differences(database):
    """The examples of docs/DIFFERENCES.md: the heading, the cloud, a query, what the service must answer over this database, which providers must be
    missing from its summaries, what `explain` names beside the heading, and the microversion."""
    with open(PAGE, encoding='utf-8') as file:
        page = file.read()
    for part in re.split('^##+ ', page, flags=re.M)[1:]:
        for table in re.finditer(r'^\| provider \|.*\n\|[-|]+\n((?:\|.*\n)+)\n((?:- `.*\n(?:  .*\n)+)+)', part, re.M):
            cloud = tables_of('\n'.join(row.strip('|') for row in table[1].splitlines()))
            for one in re.finditer(r'^- `([^`]*)`( by 1.39)?.*\n((?:  .*\n)+)', table[2], re.M):
                said = dict(re.findall(r'^  - ([^:]*): (.*)$', one[3], re.M))
                lacks, others = (re.findall('`(.*?)`', said.get(key, '')) for key in ('missing in its summaries', '`explain` also names'))
                version = '1.39' if one[2] else VERSION
                yield part.splitlines()[0], cloud, full(one[1]), said.get(f'the service over {database}', said['the service']), lacks, others, version


def mistakes():
    """The headings of docs/DIFFERENCES.md that are mistakes of the service."""
    with open(PAGE, encoding='utf-8') as file:
        part = re.search(r'^## Mistakes of the service\n(.*?)^## ', file.read(), re.M | re.S)
    return re.findall('^### (.*)$', part[1], re.M)


def wished(chance, cloud):
    """One of the queries over a cloud, with amounts drawn anew."""
    return re.sub('([A-Z_]+):[0-9]+', lambda found: f'{found[1]}:{chance.choice(AMOUNTS[found[1]])}', chance.choice(asked(cloud)[:-1]))


class Trace:
    """Random claims, moves and releases, sent to the service and to a session beside it. A consumer's UUID is the name of its claim. The first step in which
    the two differ raises `Differs`. The counts are of all traces together."""

    def __init__(self, service, session, cloud, chance, counts):
        self.service, self.session, self.chance, self.counts = service, session, chance, counts
        self.every = [row['uuid'] for row in cloud['providers']]
        self.queries = [wished(chance, cloud) for _ in range(QUERIES)]
        self.seen = {}  # of each query all its candidates so far, by their tokens
        self.held = {}  # of each name in use its query and token
        self.free = []  # names that were released, or refused
        self.used = {}  # what was in use of each provider, when the service was last asked

    def run(self):
        self.look(self.every)
        for _ in range(STEPS):
            step = self.chance.choices((self.claim, self.move, self.release), (5, 4, 2))[0] if self.held else self.claim
            step()
        self.look(self.every)

    def claim(self):
        """Claims a candidate. Sometimes the name is in use, so both must refuse."""
        query = self.chance.choice(self.queries)
        token = self.pick(query)
        if token:
            name = self.name(0.05)
            self.put(('claim', query, token, name), name, query, token, None)

    def move(self):
        """Moves a claim to a candidate of its query. Sometimes the name isn't in use, so both must refuse."""
        name = self.name(0.95)
        query, own = self.held[name] if name in self.held else (self.chance.choice(list(self.seen)), None)
        token = self.pick(query, own)
        generation = self.service.do('GET', f'/allocations/{name}').get('consumer_generation', 1)
        self.put(('move', name, token), name, query, token, generation)

    def release(self):
        """Releases a claim. Sometimes it is sent twice, so both must refuse the second."""
        name = self.name(1)
        for _ in range(self.chance.choice((1, 1, 1, 2))):
            self.send(('release', name), 'DELETE', name, self.held[name][1].split(','))
        del self.held[name]
        self.free.append(name)

    def name(self, share):
        """A name in use, in this share of all cases, and of each query as often; or else one that isn't: a new one, or one that was released or refused."""
        if self.held and self.chance.random() < share:
            wanted = self.chance.choice(sorted({query for query, _ in self.held.values()}))
            return self.chance.choice([name for name, (query, _) in self.held.items() if query == wanted])
        return self.free.pop() if self.free and self.chance.random() < 0.3 else str(uuid.UUID(int=self.chance.getrandbits(128), version=4))

    def pick(self, query, own=None):
        """The token of a candidate of now, or often of another one of before, which may not fit any more; `own` if there is neither."""
        now = self.candidates(query)
        before = [token for token in self.seen.get(query, ()) if token not in now and token != own]
        some = before if before and (not now or self.chance.random() < 0.7) else now
        return self.chance.choice(some or [own])

    def candidates(self, query):
        """The tokens of the candidates of now, which must be those of the service; none if `explain` says that they may differ."""
        if any(line.startswith('differs: ') for line in self.session.explain(query)):
            self.counts['queries left out'] += 1
            return []
        status, body = self.service.candidates(query)
        mine, tokens = self.session.candidates(query), self.session.tokens(query)
        if status != 200 or canonical(mine) != canonical(body):
            raise Differs(f'{query}: the service {status} {body}, the session {mine}')
        self.counts['comparisons of candidates'] += 1
        if tokens:
            self.seen.setdefault(query, {}).update(zip(tokens, mine['allocation_requests']))
        return tokens

    def put(self, words, name, query, token, generation):
        """Gives a consumer the allocations of this candidate, in place of those that it has."""
        before = self.held[name][1].split(',') if name in self.held else []
        request = {**self.seen[query][token], 'project_id': 'try', 'user_id': 'try', 'consumer_generation': generation}
        if self.send(words, 'PUT', name, {*before, *token.split(',')}, request):
            self.held[name] = query, token
        elif name not in self.held:
            self.free.append(name)

    def send(self, words, method, name, providers, request=None):
        """Sends this request for a consumer to the service, and these words to the session. Afterwards the same must be in use, of these providers too.
        Whether the request was done."""
        status, body = self.service.ask(method, f'/allocations/{name}', request)
        answer = self.session.answer(*words)
        line, what = SAME.get((words[0], status, body['errors'][0]['code'] if isinstance(body, dict) else ''), (None, None))
        if answer != ([line], int(status != 204), ''):
            raise Differs(f'{" ".join(words)}: the service {status} {body}, the session {answer}')
        self.counts[what] += 1
        self.look(providers)
        return status == 204

    def look(self, providers):
        """Compares what is in use. The service is asked of these providers; of the others it must be what was in use when they were asked last."""
        for provider in providers:
            self.used[provider] = self.service.do('GET', f'/resource_providers/{provider}/usages')['usages']
        its = {(provider, name): amount for provider, used in self.used.items() for name, amount in used.items() if amount}
        mine = self.session.usages()
        if mine != its:
            raise Differs(f'in use: only at the service {sorted(its.items() - mine.items())}, only in the session {sorted(mine.items() - its.items())}')
        self.counts['comparisons of usages'] += 1


class Trial:
    """What is tried over one service, and how it went."""

    def __init__(self, url, program, name, client):
        token = 'admin' if client else os.environ.get('OS_TOKEN') or 'admin'
        self.service, self.program, self.name, self.client = Service(url, token), program, name or 'service', client
        self.url, self.passed, self.failed = url, 0, 0

    def say(self, well, what, otherwise=''):
        """Counts and prints one check, and what else there is to say if it failed."""
        self.passed, self.failed = self.passed + well, self.failed + (not well)
        print(f'{"ok    " if well else "FAILED"} {self.name}: {what}', flush=True)
        print('' if well else otherwise, end='')

    def run(self, words, **settings):
        """Runs a command without the caller's OS_* variables, which may name another cloud."""
        known = {name: value for name, value in os.environ.items() if not name.startswith('OS_')}
        ran = subprocess.run(words, env={**known, **settings}, cwd=ROOT, stdout=subprocess.PIPE, stderr=subprocess.PIPE, check=False)
        return ran.returncode, ran.stdout.decode(errors='replace'), ran.stderr.decode(errors='replace')

    def ask(self, command, folder, *words):
        return self.run([self.program, command, *words, *(f'--{name}={folder}/{name}.csv' for name in TABLES)])

    def export(self, what, folder, rounds):
        """Tries whether both exports give the same tables, which are left in the folder."""
        other = os.path.join(folder, 'client')
        first = self.run(['tools/export-tables-from-database.sh', *rounds, folder, *self.client])
        second = self.run(['tools/export-tables.sh', *rounds, other], OS_AUTH_TYPE='admin_token', OS_ENDPOINT=self.url, OS_TOKEN='admin')
        if first[0] or second[0]:
            self.say(False, f'{what}: an export failed:\n{first[2]}{second[2]}')
            return
        left, right = of_folder(folder), of_folder(other)
        for name in TABLES:
            rows, others = ([sorted(row.items()) for row in cloud[name]] for cloud in (left, right))
            self.say(sorted(rows) == sorted(others), f'{what}: {name}: {len(rows)} rows by the database, the same by the client')
            for row in [row for row in rows if row not in others][:3]:
                print('       only by the database:', dict(row))
            for row in [row for row in others if row not in rows][:3]:
                print('       only by the client:', dict(row))
        lines = [sorted(line.partition(': ')[2] for line in text.splitlines()) for text in (first[2], second[2])]
        nameless = [[line for line in each if line.startswith('no aggregate-names.csv: ')] for each in lines]
        lines = [[line for line in each if line not in nameless[0] + nameless[1]] for each in lines]
        self.say(lines[0] == lines[1] and [len(each) for each in nameless] == [1, 1],
                 f'{what}: {len(lines[0])} lines of rounded ratios, the same by both, and one that there are no names of aggregates', f'{nameless}\n')

    def compare(self, what, folder, queries):
        """Tries whether the program over exported tables answers as the service does."""
        same, total = 0, 0
        for query in queries:
            status, body = self.service.candidates(query)
            code, out, err = self.ask('candidates', folder, query)
            if status != 200 or code:
                self.say(False, f'{what}: {query}: the service {status}, the program {code} {err}')
                continue
            mine, its = canonical(json.loads(out)), canonical(body)
            total += len(mine[0])
            same += mine == its
            if mine != its:
                self.say(False, f'{what}: {query}: {len(its[0])} candidates of the service, {len(mine[0])} of the program, or other summaries')
        self.say(same == len(queries), f'{what}: {same} of {len(queries)} queries have the same candidates and summaries, {total} candidates in all')

    def lists(self, what, folder):
        """Tries whether `list` writes the rows that the client prints. The client can ask for classes, traits and aggregates alone."""
        for classes in LISTED:
            asks = [word for item in classes for word in ('--resource', item)]
            status, its, told = self.run(['openstack', '--os-placement-api-version', '1.29', 'allocation', 'candidate', 'list', '-f', 'csv', *asks],
                                         OS_AUTH_TYPE='admin_token', OS_ENDPOINT=self.url, OS_TOKEN='admin')
            code, out, err = self.ask('list', folder, 'resources=' + ','.join(classes).replace('=', ':'))
            same = status == code == 0 and as_listed(out) == as_listed(its)
            self.say(same, f'{what}: list of {",".join(classes)}: {len(as_listed(out)) if code == 0 else err} candidates, with the rows of the client{told}')

    def cloud(self, what, cloud, *rounds):
        """Puts this cloud into the service, exports it, and asks both the same queries."""
        self.service.fill(cloud)
        with tempfile.TemporaryDirectory() as folder:
            if self.client:
                self.export(what, folder, rounds)
            else:
                write(folder, self.service.cloud())
            code, out, err = self.ask('check', folder)
            self.say(code == 0, f'{what}: the tables are accepted: {", ".join(out.splitlines())}{err}')
            self.compare(what, folder, asked(cloud))
            if self.client:
                self.lists(what, folder)

    def odd(self, what, cloud):
        """Tries whether ratios that the program doesn't read are exported all the same, as they are and rounded."""
        self.service.fill(cloud)
        for rounds in (), ('--round-ratios',):
            with tempfile.TemporaryDirectory() as folder:
                self.export(' '.join((what, *rounds)), folder, rounds)


    def moving(self, exports=10):
        """Tries whether each export from the database is of one moment, while the service moves an allocation from one provider to another and back.
        The column `used` of the inventories must agree with the usages, which another query reads. The client gets its queries slowly, with moves
        between them."""
        self.service.fill({name: read(text) for name, text in tables_of('P1 | | VCPU total 8\nP2 | | VCPU total 8').items()})
        ended = threading.Event()
        moves = []
        writer = threading.Thread(target=self.move, args=(ended, moves))
        writer.start()
        with tempfile.TemporaryDirectory() as folder:
            slow = os.path.join(folder, self.client[0])
            with open(slow, 'w', encoding='utf-8') as file:
                file.write(SLOWLY + f'exec {shutil.which(self.client[0])} "$@"\n')
            os.chmod(slow, 0o700)
            states = [self.state(slow) for _ in range(exports)]
        ended.set()
        writer.join()
        torn = [one for one in states if one not in ((5, 0, 5, 0), (0, 5, 0, 5))]
        self.say(not torn and len(moves) > exports, f'{exports} exports while {len(moves)} moves went on, {len(torn)} of them torn')
        for one in torn[:2]:
            print('       torn:', one)

    def state(self, client):
        """What is used of the two providers, by the inventories and by the usages of one export; or the client's error."""
        with tempfile.TemporaryDirectory() as folder:
            code, _, err = self.run(['tools/export-tables-from-database.sh', folder, client, *self.client[1:]])
            if code:
                return err
            cloud = of_folder(folder)
            return tuple(int(row[name]) for table, name in (('inventories', 'used'), ('usages', 'usage')) for row in cloud[table])

    def move(self, ended, moves):
        """Moves one consumer's five processors from one provider to the other and back, until it is told to end."""
        consumer = str(uuid.uuid4())
        generation = None
        while not ended.is_set():
            body = {'allocations': {full('P1' if len(moves) % 2 else 'P2'): {'resources': {'VCPU': 5}}}, 'project_id': 'try', 'user_id': 'try',
                    'consumer_generation': generation}
            if self.service.ask('PUT', f'/allocations/{consumer}', body)[0] < 300:
                moves.append(generation)
            generation = self.service.do('GET', f'/allocations/{consumer}').get('consumer_generation')

    def differ(self):
        """Tries whether the service answers as docs/DIFFERENCES.md says."""
        filled = None
        for heading, cloud, query, said, lacks, _, version in differences(self.name):
            if cloud != filled:
                self.service.fill({name: read(text) for name, text in cloud.items()})
                filled = cloud
            for kind, name in names(query):
                self.service.name(kind, name)
            status, body = self.service.candidates(query, version)
            its = told(status, body, query)
            still = its in answers(said) and not any(full(provider) in body['provider_summaries'] for provider in lacks)
            self.say(still, f'{heading}: {short(query)}: ' + (
                f'still so, {said}' if still else f'now {", ".join(f"`{one}`" for one in its) or "nothing"}, and not {said}'))

    def gabbi(self):
        """Tries the files of examples/gabbi, one for each mistake. On the service those tests must fail that are named after it, and no other. If the
        program answers in the service's place, all must pass: so they ask for what the rules say."""
        headings = mistakes()
        asks = {gabbi_files.file_of(heading): [] for heading in headings}
        for heading, _, query, *_ in differences(self.name):
            if heading in headings:
                asks[gabbi_files.file_of(heading)].append(query)
        same = gabbi_files.every() == sorted(asks) and all(gabbi_files.queries(name) == queries for name, queries in asks.items())
        self.say(same, f'examples/gabbi: a file for each of {len(asks)} mistakes, with its queries, {sum(map(len, asks.values()))} in all')
        if not gabbi_files.can_run():
            print(f'       {self.name}: there is no {gabbi_files.RUNNER}, so these files were not tried')
            return
        with gabbi_files.stand_in(self.service, self.by_program) as stand:
            for name in gabbi_files.every():
                # A file deletes what it creates, unless it is broken.
                self.service.made.update(gabbi_files.providers(name))
                self.service.clear()
                tests, said = gabbi_files.run(name, self.url, self.service.token)
                failed = [test for test, passed in tests.items() if not passed]
                self.say(failed == gabbi_files.of_mistake(tests) != [],
                         f'examples/gabbi/{name}: {len(failed)} of {len(tests)} tests fail: {", ".join(failed) or "none"}', said)
                self.service.clear()
                tests, said = gabbi_files.run(name, stand, self.service.token)
                passed = sum(tests.values())
                self.say(0 < passed == len(tests), f'examples/gabbi/{name}: {passed} of {len(tests)} tests pass if the program answers', said)

    def by_program(self, query):
        """The status and the body by which the program answers this query over the cloud that the service has."""
        with tempfile.TemporaryDirectory() as folder:
            write(folder, self.service.cloud())
            code, out, err = self.ask('candidates', folder, query)
            return (200, json.loads(out)) if code in (0, 1) else (400, err)

    def traces(self, number):
        """Tries traces, each over a random cloud, in a session over the tables of what the service then has."""
        counts = collections.Counter()
        for seed in range(number):
            chance = random.Random(seed)
            cloud = drawn(chance.randint(3, 6), seed)
            self.service.fill(cloud)
            with tempfile.TemporaryDirectory() as folder:
                write(folder, self.service.cloud())
                try:
                    with ac_session.Session(folder, program=self.program) as session:
                        Trace(self.service, session, cloud, chance, counts).run()
                except (Differs, Refused, ac_session.Refused, ac_session.Ended) as fault:
                    counts['bad'] += 1
                    print(f'       trace {seed}: {fault}')
        self.say(not counts['bad'], f'{number} traces: {", ".join(f"{counts[what]} {what}" for what in COUNTED)}')


def main(url, program, name, traces, *client):
    trial = Trial(url, program, name, client)
    try:
        status, first = trial.service.ask('GET', '/')
        there = trial.service.providers()
    except (Refused, OSError) as fault:
        sys.exit(f'try-with-service: {url}: {fault}')
    if there:
        sys.exit(f'try-with-service: {url} has resource providers already, {len(there)} of them: it must have none')
    if not client and status == 200:
        print(f'{url} has the microversions', ', '.join(f'{one["min_version"]} to {one["max_version"]}' for one in first['versions']))
    try:
        trial.cloud('the example cloud', of_folder(os.path.join(ROOT, 'examples', 'cloud')))
        if client:
            trial.odd('odd ratios', odd_ratios())
        trial.cloud('a drawn cloud', drawn())
        if client:
            trial.moving()
        trial.differ()
        trial.gabbi()
        if int(traces):
            trial.traces(int(traces))
    finally:
        trial.service.clear()
    print(f'{trial.passed} passed, {trial.failed} failed')
    return 1 if trial.failed else 0


if __name__ == '__main__':
    sys.exit(main(*sys.argv[1:]))
