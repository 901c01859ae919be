"""Cases for tools/flavors.py: queries.txt has small flavors with their queries, and each is said to the script in every form that the client prints.
`flavor_queries` gives them."""
from __future__ import annotations

import csv
import io
import json
import os
import re
from typing import NamedTuple

from cases import ONE, SOME, Case, tables

HERE = os.path.dirname(os.path.abspath(__file__))
EXAMPLES = os.path.join(os.path.dirname(os.path.dirname(HERE)), 'examples')
TOOL = ['sh', '-c', 'exec python3 -B tools/flavors.py "$0"']
ENABLED = 'root_required=!COMPUTE_STATUS_DISABLED'
HEADER = 'flavor,query\n'
LAST = ('flavors: not known of a flavor alone: ports that ask for bandwidth or packets, properties of the image and their traits, a boot from a volume (it asks '
        'no root disk), PCI devices in Placement, and aggregates that are isolated or belong to a tenant or a zone\n')
# What the program says of a query that Placement refuses, by what the script says.
REFUSED = {'several groups have suffixes': 'PolicyMissing', 'it asks no resources': 'NoResources', '"CUSTOM_A B" is no name': 'pair 1: BadValue',
           'a group has traits and no resources: "_X"': 'group "_X": GroupWithoutResources'}


class Flavor(NamedTuple):
    """A flavor, its query, and what is said of it."""
    name: str
    amounts: list  # vcpus, ram, disk, ephemeral, swap
    specs: dict
    query: str
    said: list

    def listed(self, properties):
        """As `openstack flavor list --long` prints it."""
        vcpus, ram, disk, ephemeral, swap = self.amounts
        return {'ID': '1', 'Name': self.name, 'RAM': ram, 'Disk': disk, 'Ephemeral': ephemeral, 'VCPUs': vcpus, 'Is Public': True, 'Swap': swap,
                'RXTX Factor': 1.0, 'Properties': properties}

    def alone(self, properties):
        """As `openstack flavor show` prints it."""
        vcpus, ram, disk, ephemeral, swap = self.amounts
        return {'OS-FLV-DISABLED:disabled': False, 'OS-FLV-EXT-DATA:ephemeral': ephemeral, 'access_project_ids': None, 'description': None, 'disk': disk,
                'id': '1', 'name': self.name, 'os-flavor-access:is_public': True, 'properties': properties, 'ram': ram, 'rxtx_factor': 1.0,
                'swap': swap or '', 'vcpus': vcpus}

    def pairs(self):
        """The extra specs in the words of older clients."""
        return ', '.join(f"{key}='{value}'" for key, value in self.specs.items())


def made(told):
    """A flavor of queries.txt."""
    words, query, *said = told.splitlines()
    own, *specs = words.split('; ')
    name, amounts = own.rsplit(': ', 1)
    numbers = [*map(int, amounts.split()), 0, 0][:5]
    whole = query if 'root_required=' in query else f'{query}&{ENABLED}'
    return Flavor(name, numbers, dict(spec.split('=', 1) for spec in specs), whole, [line.removeprefix('! ') for line in said])


def flavors():
    with open(os.path.join(HERE, 'queries.txt'), encoding='utf-8') as file:
        return [made(told) for told in re.findall(r'^[^#\n].*\n(?:.+\n)+', file.read(), re.M)]


def table(rows):
    return csv_text([('flavor', 'query'), *rows])


def csv_text(rows, **form):
    with io.StringIO(newline='') as out:
        csv.writer(out, lineterminator='\n', **form).writerows(rows)
        return out.getvalue()


def case(name, given, rows, *said):
    """A case of the script with this text on standard input, and with what it says of flavors."""
    return Case(f'flavors: {name}', [*TOOL, '-'], table(rows), ''.join(f'flavors: "{one}": {words}\n' for one, words in said) + LAST, given=given.encode())


def unusable(name, given, says, status=1):
    return Case(f'flavors: can\'t be used: {name}', [*TOOL, '-'], '', f'flavors: {says}\n', status, given=given if isinstance(given, bytes) else given.encode())


def listed_csv(all_of, properties, **form):
    rows = [one.listed(properties(one)) for one in all_of]
    return csv_text([rows[0], *(row.values() for row in rows)], **form)


def forms(all_of):
    """The same flavors in each form that the client prints."""
    yield 'a list', json.dumps([one.listed(one.specs) for one in all_of])
    yield 'a list of an older client', json.dumps([one.listed(one.pairs()) for one in all_of], indent=2)
    yield 'a list with other letters in its keys', json.dumps([{key.upper(): value for key, value in one.listed(one.specs).items()} for one in all_of])
    yield 'a list of flavors shown', json.dumps([one.alone(one.specs) for one in all_of])
    yield 'a list of flavors shown, of an older client', json.dumps([one.alone(one.pairs()) for one in all_of])
    yield 'CSV', listed_csv(all_of, lambda one: one.specs, quoting=csv.QUOTE_NONNUMERIC)
    yield 'CSV of an older client', listed_csv(all_of, Flavor.pairs, quoting=csv.QUOTE_NONNUMERIC)
    yield 'CSV with objects of JSON', listed_csv(all_of, lambda one: json.dumps(one.specs))
    yield 'CSV with CR LF and a byte order mark', '\ufeff' + listed_csv(all_of, Flavor.pairs).replace('\n', '\r\n')


def refusal(one):
    """What the program says of the flavor's query."""
    errors = [error for words, error in REFUSED.items() for line in one.said if line.startswith(f'Placement refuses the query: {words}')]
    return f'query: {errors[0]}\n' if errors else ''


def names():
    """Names that CSV must quote, and names that a terminal could obey."""
    given = ['a,b', 'say "hi"', 'two\nlines', 'größe 日本', "it's", 'back\\slash', '\x1b[31mred', ' blank ', '=1+1', '']
    rows = '''"a,b",Q
"say ""hi""",Q
"two
lines",Q
größe 日本,Q
it's,Q
back\\slash,Q
\x1b[31mred,Q
 blank ,Q
=1+1,Q
,Q
'''
    all_of = [Flavor(name, [1, 512, 0, 0, 0], {'hw:numa_nodes': '1'}, '', []) for name in given]
    shown = ['a,b', 'say "hi"', 'two\\nlines', 'größe 日本', "it's", 'back\\slash', '\\x1b[31mred', ' blank ', '=1+1', '']
    said = ''.join(f'flavors: "{name}": checked later by Nova itself, and not by Placement: "hw:numa_nodes"\n' for name in shown) + LAST
    for form, text in forms(all_of):
        if 'CR LF' not in form:
            yield Case(f'flavors: names of all kinds, {form}', [*TOOL, '-'], HEADER + rows.replace(',Q', f',"resources=MEMORY_MB:512,VCPU:1&{ENABLED}"'), said,
                       given=text.encode())


def properties():
    """Values of extra specs that are hard to read in a text."""
    one = Flavor('x', [2, 512, 0, 0, 0], {'quota:a': "it's, 'b', c", 'quota:b': '', 'hw:cpu_dedicated_mask': '0,1', 'quota:c': 'd=e', 'quota:d': 'e\nf',
                                           'trait:CUSTOM_A': 'required'}, '', [])
    rows = [('x', f'resources=MEMORY_MB:512,VCPU:2&required=CUSTOM_A&{ENABLED}')]
    yield from (case(f'extra specs with quotes and commas, {form}', text, rows) for form, text in forms([one]))
    plain = [('x', f'resources=MEMORY_MB:512,VCPU:2&{ENABLED}')]
    for held in None, '', {}, ' ', 'quota:a=', 'quota:a=, quota:b=\'1\'':
        yield case(f'extra specs: {held!r}', json.dumps([one.listed(held)]), plain)
    yield case('a single flavor of a list', json.dumps(one.listed({})), plain)
    yield case('numbers in quotes', json.dumps([{**one.listed({}), 'RAM': '512', 'VCPUs': '2', 'Swap': ''}]), plain)
    yield case('a byte order mark before JSON', '\ufeff' + json.dumps([one.listed({})]), plain)
    yield case('no flavors', '[]', [])
    yield case('no flavors in CSV', 'Name,RAM,Disk,Ephemeral,VCPUs,Swap,Properties\n', [])


def faults():
    good = Flavor('x', [2, 512, 0, 0, 0], {}, '', []).listed({})
    yield Case('flavors: can\'t be used: no file', ['sh', '-c', 'exec python3 -B tools/flavors.py nowhere/flavors.json'], '',
               'flavors: "nowhere/flavors.json" can\'t be read (No such file or directory)\n', 1)
    yield Case('flavors: can\'t be used: a folder', ['sh', '-c', 'exec python3 -B tools/flavors.py examples'], '',
               'flavors: "examples" can\'t be read (Is a directory)\n', 1)
    yield Case('flavors: no file is named', ['sh', '-c', 'exec python3 -B tools/flavors.py'], '', SOME, 2, has=('usage: tools/flavors.py FILE', 'required: FILE'))
    yield Case('flavors: a full device', ['sh', '-c', 'exec python3 -B tools/flavors.py examples/flavors.json >/dev/full'], '',
               "flavors: the table can't be written (No space left on device)\n", 1)
    yield unusable('nothing', ' \n', 'there is nothing to read; did the client fail?')
    yield unusable('no UTF-8', b'[{"Name": "\xff"}]', 'the flavors are no UTF-8')
    yield unusable('no JSON', '[{"Name": ', 'the flavors are no JSON (Expecting value: line 1 column 11 (char 10))')
    yield unusable('words', 'Unauthorized', 'the flavors are no JSON, and as CSV they have no name; list flavors with --long')
    yield unusable('a quote that stays open', 'Name,RAM\n"x,1\n', 'the flavors are no CSV (unexpected end of data)')
    yield unusable('names alone', '["x"]', 'the JSON is no list of objects')
    for column in 'Name', 'RAM', 'Disk', 'Ephemeral', 'VCPUs', 'Swap', 'Properties':
        rest = {key: value for key, value in good.items() if key != column}
        yield unusable(f'JSON without {column}', json.dumps([good, rest]), f'flavor 2 has no {column.lower()}; list flavors with --long')
        yield unusable(f'CSV without {column}', csv_text([rest]), f'the flavors are no JSON, and as CSV they have no {column.lower()}; list flavors with --long')
    yield unusable('a record with a field too few', csv_text([good, list(good.values())[1:]]), 'record 2 of the CSV has 9 fields, and the header 10')
    for value, shown in ('many', 'many'), (-1, '-1'), (1.5, '1.5'), (True, 'True'), (None, 'None'), ('', ''), ('９', '９'), ('9' * 19, '9' * 19):
        yield unusable(f'{value!r} for RAM', json.dumps([{**good, 'RAM': value}]), f'"x": ram is "{shown}", and no number')
    for value in 'none', '{"a": ', "{'a'}", ['ab'], 7, "a='1', b":
        yield unusable(f'{value!r} for Properties', json.dumps([{**good, 'Properties': value}]), f'"x": the properties can\'t be read: "{value}"')
    for specs, says in (
            ({'hw:cpu_policy': 'pinned'}, 'hw:cpu_policy is "pinned", and not dedicated or mixed or shared'),
            ({'hw:cpu_thread_policy': 'none'}, 'hw:cpu_thread_policy is "none", and not prefer or isolate or require'),
            ({'hw:emulator_threads_policy': 'yes'}, 'hw:emulator_threads_policy is "yes", and not share or isolate'),
            ({'hw:tpm_version': '2'}, 'hw:tpm_version is "2", and not 1.2 or 2.0'),
            ({'hw:cpu_policy': 'mixed', 'hw:cpu_dedicated_mask': '1-0'}, 'hw:cpu_dedicated_mask is "1-0", and "1-0" is no CPU and no range'),
            ({'hw:cpu_policy': 'mixed', 'hw:cpu_dedicated_mask': '0,x'}, 'hw:cpu_dedicated_mask is "0,x", and "x" is no CPU and no range')):
        yield unusable(f'{specs}', json.dumps([{**good, 'Properties': specs}]), f'"x": {says}')
    for mask in '', '0-1', '^2', '^0-1', '0,999999999', '2':
        yield unusable(f'a mask for mixed: {mask}', json.dumps([{**good, 'Properties': {'hw:cpu_policy': 'mixed', 'hw:cpu_dedicated_mask': mask}}]),
                       f'"x": hw:cpu_dedicated_mask is "{mask}", and must name some CPUs of 2, and leave others for hw:cpu_policy=mixed')


def example():
    """examples/flavors.csv is the table of examples/flavors.json, with one more column."""
    with open(os.path.join(EXAMPLES, 'flavors.csv'), encoding='utf-8', newline='') as file:
        rows = [row[:2] for row in csv.reader(file)]
    return Case('flavors: the example', ['sh', '-c', 'exec python3 -B tools/flavors.py examples/flavors.json'], csv_text(rows), SOME)


def flavor_queries():
    all_of = flavors()
    for one in all_of:
        yield case(one.name, json.dumps(one.alone(one.specs)), [(one.name, one.query)], *((one.name, words) for words in one.said))
        yield Case(f'flavors: the program reads the query of {one.name}', ['tokens', one.query], err=refusal(one), status=4 if refusal(one) else 0, tables=tables(ONE))
    for form, text in forms(all_of):
        yield case(f'all, {form}', text, [(one.name, one.query) for one in all_of], *((one.name, words) for one in all_of for words in one.said))
    yield from names()
    yield from properties()
    yield from faults()
    yield example()
