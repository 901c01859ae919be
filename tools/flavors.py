#!/usr/bin/env python3
"""tools/flavors.py FILE

Turns Nova flavors into the table that `ac_cli capacity` reads: a row for each flavor, in their order, with its name and with the query by which Nova asks
Placement for a server of it. The table is CSV on standard output, with the columns flavor and query.

FILE, or standard input for -, has what the client prints: `openstack flavor list --long -f json`, or with -f csv, or `openstack flavor show NAME -f json`, or
a JSON list of such flavors. Standard error says of each flavor what isn't in its query: what Nova checks later by itself, what Nova leaves out, and why
Placement refuses a query. The status is 1, and there is no table, if the input can't be used; a message says why."""
from __future__ import annotations

import argparse
import ast
import csv
import io
import json
import re
import sys
from dataclasses import dataclass, field
from urllib.parse import quote

COLUMNS = 'name', 'vcpus', 'ram', 'disk', 'ephemeral', 'swap', 'properties'
OTHER_NAMES = {'os-flv-ext-data:ephemeral': 'ephemeral'}  # as `openstack flavor show` names it
KEY = r'[\w:. -]+'
PAIR = re.compile(rf"({KEY})=(?:'(.*?)')?(?:, (?={KEY}=)|$)", re.ASCII | re.DOTALL)

# Nova's names of groups, and its boolean words:
# https://docs.openstack.org/nova/latest/configuration/extra-specs.html
GROUPED = re.compile('(resources|trait)([a-zA-Z0-9_-]{1,64})?:(.*)')
YES = '1', 't', 'true', 'on', 'y', 'yes'

# The classes that are no custom ones: https://docs.openstack.org/os-resource-classes/latest/reference/index.html
CLASSES = set('''VCPU MEMORY_MB DISK_GB PCI_DEVICE SRIOV_NET_VF NUMA_SOCKET NUMA_CORE NUMA_THREAD NUMA_MEMORY_MB IPV4_ADDRESS VGPU VGPU_DISPLAY_HEAD
    NET_BW_EGR_KILOBIT_PER_SEC NET_BW_IGR_KILOBIT_PER_SEC PCPU MEM_ENCRYPTION_CONTEXT FPGA PGPU NET_PACKET_RATE_KILOPACKET_PER_SEC
    NET_PACKET_RATE_EGR_KILOPACKET_PER_SEC NET_PACKET_RATE_IGR_KILOPACKET_PER_SEC'''.split())

# Values of extra specs that require a trait: https://docs.openstack.org/nova/latest/configuration/extra-specs.html
TRAITS = {
    # https://docs.openstack.org/nova/latest/admin/emulated-tpm.html
    'hw:tpm_version': {'1.2': 'COMPUTE_SECURITY_TPM_1_2', '2.0': 'COMPUTE_SECURITY_TPM_2_0'},
    # https://docs.openstack.org/nova/latest/admin/pci-passthrough.html
    'hw:pci_numa_affinity_policy': {'required': '', 'legacy': '', 'preferred': '', 'socket': 'COMPUTE_SOCKET_PCI_NUMA_AFFINITY'},
    # https://docs.openstack.org/nova/latest/admin/secure-boot.html
    'os:secure_boot': {'required': 'COMPUTE_SECURITY_UEFI_SECURE_BOOT', 'disabled': '', 'optional': ''},
    # https://docs.openstack.org/nova/latest/configuration/extra-specs.html#hw:maxphysaddr_mode
    'hw:maxphysaddr_mode': {'passthrough': 'COMPUTE_ADDRESS_SPACE_PASSTHROUGH', 'emulate': 'COMPUTE_ADDRESS_SPACE_EMULATED'},
}

# What the filters of Nova's scheduler and its computes look at, after Placement has answered. A key without a colon is read by filters too:
# https://docs.openstack.org/nova/latest/admin/scheduling.html
LATER = re.compile(r'hw:numa_nodes|hw:numa_(?:cpus|mem)\.\d+|hw:mem_page_size|pci_passthrough:alias|(?:aggregate_instance_extra_specs|capabilities):.*|'
                   r'(?!group_policy$)[^:]*', re.DOTALL)
UNKNOWN = ('not known of a flavor alone: ports that ask for bandwidth or packets, properties of the image and their traits, a boot from a volume (it asks no '
           'root disk), PCI devices in Placement, and aggregates that are isolated or belong to a tenant or a zone')


class Unusable(Exception):
    """Input of which no table can be made, in words."""


@dataclass
class Flavor:
    """A flavor, with its amounts in the units of Nova: ram and swap in MiB, disks in GiB."""
    name: str
    vcpus: int
    ram: int
    disk: int
    ephemeral: int
    swap: int
    properties: dict[str, str]

    def chosen(self, key: str, *allowed: str) -> str:
        """What an extra spec says, which must be one of these; nothing if the flavor doesn't have it."""
        value = self.properties.get(key, '')
        if value and value not in allowed:
            raise Unusable(f'{shown(self.name)}: {key} is {shown(value)}, and not {" or ".join(allowed)}')
        return value

    def says_yes(self, key: str) -> bool:
        return self.properties.get(key, '').strip().lower() in YES


@dataclass
class Group:
    """What is asked of one provider, or, without a suffix, of a tree."""
    resources: dict[str, int] = field(default_factory=dict)
    required: set[str] = field(default_factory=set)
    forbidden: set[str] = field(default_factory=set)


@dataclass
class Request:
    """What Nova asks for a flavor, and what there is to say about it."""
    groups: dict[str, Group] = field(default_factory=dict)
    policy: str = ''
    root_required: set[str] = field(default_factory=set)
    notes: list[str] = field(default_factory=list)

    def group(self, suffix: str = '') -> Group:
        return self.groups.setdefault(suffix, Group())

    def classes(self) -> set[str]:
        return {name for group in self.groups.values() for name in group.resources}


def shown(text: object) -> str:
    """A text as a message has it: in quotes, and without what a terminal could obey."""
    return '"' + ''.join(letter if letter.isprintable() else letter.encode('unicode_escape').decode() for letter in str(text)) + '"'


# ---- what the client printed

def text_of(path: str) -> str:
    try:
        with open(0 if path == '-' else path, 'rb', closefd=path != '-') as file:
            return file.read().decode('utf-8-sig')
    except OSError as fault:
        raise Unusable(f"{shown(path)} can't be read ({fault.strerror})") from fault
    except UnicodeDecodeError as fault:
        raise Unusable('the flavors are no UTF-8') from fault


def with_columns(names: list[str], what: str) -> list[str]:
    """The names of columns, as this script has them."""
    known = [OTHER_NAMES.get(name.strip().lower(), name.strip().lower()) for name in names]
    for name in COLUMNS:
        if name not in known:
            raise Unusable(f'{what} no {name}; list flavors with --long')
    return known


def json_rows(text: str) -> list[dict[str, object]]:
    try:
        held = json.loads(text)
    except (ValueError, RecursionError) as fault:
        raise Unusable(f'the flavors are no JSON ({fault})') from fault
    rows = held if isinstance(held, list) else [held]
    if not all(isinstance(row, dict) for row in rows):
        raise Unusable('the JSON is no list of objects')
    return [dict(zip(with_columns(list(row), f'flavor {at} has'), row.values())) for at, row in enumerate(rows, 1)]


def csv_rows(text: str) -> list[dict[str, object]]:
    try:
        header, *rows = (row for row in csv.reader(io.StringIO(text, newline=''), strict=True) if row)
    except csv.Error as fault:
        raise Unusable(f'the flavors are no CSV ({fault})') from fault
    columns = with_columns(header, 'the flavors are no JSON, and as CSV they have')
    for at, row in enumerate(rows, 2):
        if len(row) != len(columns):
            raise Unusable(f'record {at} of the CSV has {len(row)} fields, and the header {len(columns)}')
    return [dict(zip(columns, row)) for row in rows]


def specs_in(text: str) -> dict[object, object]:
    """The extra specs in a text: an object of JSON or of Python, as the client writes it in CSV, or pairs, as older clients wrote it."""
    if text.lstrip().startswith('{'):
        return dict(ast.literal_eval(text.strip()))
    found, at = {}, 0
    while at < len(text):
        pair = PAIR.match(text, at)
        if not pair:
            raise ValueError(text)
        found[pair[1]], at = pair[2], pair.end()
    return found


def specs_of(name: str, held: object) -> dict[str, str]:
    try:
        specs = specs_in(held.strip()) if isinstance(held, str) else {**(held or {})}
    except (TypeError, ValueError, SyntaxError, MemoryError, RecursionError) as fault:
        raise Unusable(f"{shown(name)}: the properties can't be read: {shown(held)}") from fault
    return {str(key): '' if value is None else str(value) for key, value in specs.items()}


def amount(row: dict[str, object], column: str) -> int:
    """A number of a flavor. The client leaves swap empty where there is none."""
    value = row[column]
    if column == 'swap' and value in ('', None):
        return 0
    digits = str(value) if isinstance(value, (int, str)) else ''
    if not re.fullmatch('[0-9]{1,18}', digits):
        raise Unusable(f'{shown(row["name"])}: {column} is {shown(value)}, and no number')
    return int(digits)


def flavors_of(text: str) -> list[Flavor]:
    if not text.strip():
        raise Unusable('there is nothing to read; did the client fail?')
    rows = json_rows(text) if text.lstrip()[0] in '[{' else csv_rows(text)
    return [Flavor(str(row['name']), *(amount(row, column) for column in COLUMNS[1:-1]), specs_of(str(row['name']), row['properties'])) for row in rows]


# ---- what Nova asks

def add_resource(request: Request, key: str, name: str, value: object, suffix: str = '') -> None:
    """Nova leaves out, with a warning, a class that isn't known and an amount that is none. The last amount counts."""
    group = request.group(suffix)
    if not (name.startswith('CUSTOM_') or name in CLASSES):
        request.notes.append(f'Nova leaves out {shown(key)}: there is no such class')
        return
    try:
        number = int(str(value))
    except ValueError:
        number = -1
    if number < 0:
        request.notes.append(f'Nova leaves out {shown(key)}: {shown(value)} is no amount')
        return
    group.resources[name] = number


def add_trait(request: Request, key: str, name: str, value: str, suffix: str = '') -> None:
    group = request.group(suffix)
    if value == 'required':
        group.required.add(name)
    elif value == 'forbidden':
        group.forbidden.add(name)
    else:
        request.notes.append(f'Nova leaves out {shown(key)}: {shown(value)} is neither required nor forbidden')


def add_extra_specs(request: Request, flavor: Flavor) -> None:
    """resources[S]:CLASS, trait[S]:NAME and group_policy: https://docs.openstack.org/nova/latest/configuration/extra-specs.html#placement"""
    for key, value in flavor.properties.items():
        if key == 'group_policy' and value in ('none', 'isolate'):
            request.policy = value
        elif key == 'group_policy':
            request.notes.append(f'Nova leaves out "group_policy": {shown(value)} is neither none nor isolate')
        elif found := GROUPED.match(key):
            kind, suffix, name = found.groups()
            (add_resource if kind == 'resources' else add_trait)(request, key, name, value, suffix or '')


def cpus_in(flavor: Flavor, key: str, mask: str) -> set[int]:
    """The CPUs that a mask like 0-3,^2 names; one that begins with ^ leaves out of all: https://docs.openstack.org/nova/latest/admin/cpu-topologies.html"""
    named: dict[bool, set[int]] = {True: set(range(flavor.vcpus)) if mask.strip().startswith('^') else set(), False: set()}
    for rule in filter(None, map(str.strip, mask.split(','))):
        found = re.fullmatch(r'(\^?)\s*([0-9]{1,9})(?:\s*-\s*([0-9]{1,9}))?', rule)
        first, last = (int(found[2]), int(found[3] or found[2])) if found else (1, 0)
        if first > last:
            raise Unusable(f'{shown(flavor.name)}: {key} is {shown(mask)}, and {shown(rule)} is no CPU and no range')
        named[not found[1]].update(range(first, min(last, flavor.vcpus) + 1), (last,))
    return named[True] - named[False]


def dedicated(flavor: Flavor) -> int:
    """How many CPUs of a mixed flavor are dedicated: those of one mask or of the other.
    https://docs.openstack.org/nova/latest/configuration/extra-specs.html#hw:cpu_dedicated_mask"""
    key, most = 'hw:cpu_dedicated_mask', flavor.vcpus - 1
    if not flavor.properties.get(key) and flavor.says_yes('hw:cpu_realtime'):
        key, most = 'hw:cpu_realtime_mask', most + bool(flavor.properties.get('hw:emulator_threads_policy'))
    mask = flavor.properties.get(key) or (f'0-{flavor.vcpus - 1}' if key == 'hw:cpu_realtime_mask' else '')
    cpus = cpus_in(flavor, key, mask)
    if not 0 < len(cpus) <= most or max(cpus) >= flavor.vcpus:
        raise Unusable(f'{shown(flavor.name)}: {key} is {shown(mask)}, and must name some CPUs of {flavor.vcpus}, and leave others for hw:cpu_policy=mixed')
    return len(cpus)


def add_cpu_policies(request: Request, flavor: Flavor) -> None:
    """PCPU in place of VCPU, or beside it: https://docs.openstack.org/nova/latest/admin/cpu-topologies.html
    For a dedicated flavor Nova asks a second time without this, for hosts that have no PCPU yet, unless disable_fallback_pcpu_query is set; that isn't told.
    https://docs.openstack.org/nova/latest/configuration/config.html#workarounds.disable_fallback_pcpu_query"""
    policy = flavor.chosen('hw:cpu_policy', 'dedicated', 'mixed', 'shared')
    # https://docs.openstack.org/nova/latest/configuration/extra-specs.html#hw:cpu_thread_policy
    threads = flavor.chosen('hw:cpu_thread_policy', 'prefer', 'isolate', 'require')
    # https://docs.openstack.org/nova/latest/configuration/extra-specs.html#hw:emulator_threads_policy
    emulator = flavor.chosen('hw:emulator_threads_policy', 'share', 'isolate')
    if policy in ('dedicated', 'mixed'):
        pinned = flavor.vcpus if policy == 'dedicated' else dedicated(flavor)
        if policy == 'mixed':
            request.group().resources['VCPU'] = flavor.vcpus - pinned
        request.group().resources['PCPU'] = pinned + (emulator == 'isolate')
    if threads in ('isolate', 'require'):
        add_trait(request, '', 'HW_CPU_HYPERTHREADING', 'forbidden' if threads == 'isolate' else 'required')


def add_own_amounts(request: Request, flavor: Flavor) -> None:
    """A flavor's own amount counts where no group has the class, also with 0; VCPU, where none has PCPU either. Swap is rounded up.
    https://docs.openstack.org/nova/latest/user/flavors.html"""
    had = request.classes()
    disk = flavor.disk + flavor.ephemeral - -flavor.swap // 1024
    for name, number, others in ('VCPU', flavor.vcpus, {'VCPU', 'PCPU'}), ('MEMORY_MB', flavor.ram, {'MEMORY_MB'}), ('DISK_GB', disk, {'DISK_GB'}):
        if not had & others:
            request.group().resources[name] = number


def add_features(request: Request, flavor: Flavor) -> None:
    """What extra specs ask besides, all in the group without a suffix."""
    # https://docs.openstack.org/nova/latest/admin/sev.html
    if flavor.says_yes('hw:mem_encryption'):
        request.group().resources['MEM_ENCRYPTION_CONTEXT'] = 1
    # https://docs.openstack.org/nova/latest/admin/virtual-persistent-memory.html
    labels = [label.strip() for label in flavor.properties.get('hw:pmem', '').split(',') if label.strip()]
    classes = ['CUSTOM_PMEM_NAMESPACE_' + re.sub('[^0-9A-Za-z]+', '_', label).upper() for label in labels]
    request.group().resources.update({name: classes.count(name) for name in classes})
    for key, traits in TRAITS.items():
        if trait := traits.get(flavor.chosen(key, *traits), ''):
            request.group().required.add(trait)


def add_root_traits(request: Request, flavor: Flavor) -> None:
    """What Nova's request filters require of the root: https://docs.openstack.org/nova/latest/admin/scheduling.html#prefilters
    All forbid computes that are disabled."""
    # https://docs.openstack.org/nova/latest/configuration/extra-specs.html#accel:device_profile
    if profile := flavor.properties.get('accel:device_profile'):
        request.root_required.add('COMPUTE_ACCELERATORS')
        request.notes.append(f'what the device profile {shown(profile)} asks is known to Cyborg alone')
    # https://docs.openstack.org/nova/latest/configuration/extra-specs.html#hw:ephemeral_encryption
    if flavor.says_yes('hw:ephemeral_encryption'):
        form = flavor.chosen('hw:ephemeral_encryption_format', 'plain', 'luks', 'luksv2')
        request.root_required |= {'COMPUTE_EPHEMERAL_ENCRYPTION', *({f'COMPUTE_EPHEMERAL_ENCRYPTION_{form.upper()}'} if form else ())}
    # https://docs.openstack.org/nova/latest/configuration/extra-specs.html#hw:virtio_packed_ring
    if flavor.says_yes('hw:virtio_packed_ring'):
        request.root_required.add('COMPUTE_NET_VIRTIO_PACKED')


def leave_out_zeros(request: Request) -> None:
    for group in request.groups.values():
        group.resources = {name: number for name, number in group.resources.items() if number}
    request.groups = {suffix: group for suffix, group in request.groups.items() if group.resources or group.required or group.forbidden}


def refusals(request: Request) -> list[str]:
    """Why Placement refuses the query that Nova sends. A policy that isn't said is added by Nova only where the flavor has at most one group with a suffix:
    https://docs.openstack.org/nova/latest/configuration/extra-specs.html#group_policy"""
    groups = sorted(request.groups.items())
    names = sorted({name for _, group in groups for name in {*group.resources, *group.required, *group.forbidden}})
    found = [f'{shown(name)} is no name of a class or a trait' for name in names if not re.fullmatch('[A-Z0-9_]{1,255}', name)]
    found += [f'a group has traits and no resources: {shown(suffix)}' for suffix, group in groups if not group.resources]
    found += [f'{shown(name)} is required and forbidden' for _, group in groups for name in sorted(group.required & group.forbidden)]
    if not groups:
        found.append('it asks no resources')
    if sum(bool(suffix) for suffix, _ in groups) > 1 and not request.policy:
        found.append('several groups have suffixes, and there is no group_policy')
    return ['Placement refuses the query: ' + why for why in found]


def asked(flavor: Flavor) -> Request:
    """The steps of Nova, in its order: a later one counts before an earlier one, except a flavor's own amounts."""
    request = Request()
    for add in add_extra_specs, add_cpu_policies, add_own_amounts, add_features, add_root_traits:
        add(request, flavor)
    leave_out_zeros(request)
    request.notes += refusals(request)
    if later := sorted(key for key in flavor.properties if LATER.fullmatch(key)):
        request.notes.append('checked later by Nova itself, and not by Placement: ' + ', '.join(map(shown, later)))
    return request


# ---- what is written

def traits_in(required: set[str], forbidden: set[str]) -> str:
    return ','.join([*sorted(required), *('!' + name for name in sorted(forbidden))])


def query(request: Request) -> str:
    pairs = []
    for suffix, group in sorted(request.groups.items()):
        pairs.append((f'resources{suffix}', ','.join(f'{name}:{number}' for name, number in sorted(group.resources.items()))))
        pairs.append((f'required{suffix}', traits_in(group.required, group.forbidden)))
    pairs.append(('group_policy', request.policy))
    pairs.append(('root_required', traits_in(request.root_required, {'COMPUTE_STATUS_DISABLED'})))
    return '&'.join(f'{name}={quote(value, safe=",:!")}' for name, value in pairs if value)


def main() -> None:
    usage, told = __doc__.split('\n\n', 1)
    parser = argparse.ArgumentParser(prog='tools/flavors.py', usage=usage, description=told, formatter_class=argparse.RawDescriptionHelpFormatter)
    parser.add_argument('file', metavar='FILE', help='what the client printed, or - for standard input')
    try:
        made = [(flavor.name, asked(flavor)) for flavor in flavors_of(text_of(parser.parse_args().file))]
    except Unusable as fault:
        sys.exit(f'flavors: {fault}')
    table = io.StringIO(newline='')
    csv.writer(table, lineterminator='\n').writerows([('flavor', 'query'), *((name, query(request)) for name, request in made)])
    try:
        with open(1, 'wb', closefd=False) as out:
            out.write(table.getvalue().encode(errors='replace'))
    except OSError as fault:
        sys.exit(f"flavors: the table can't be written ({fault.strerror})")
    for name, request in made:
        for note in request.notes:
            print(f'flavors: {shown(name)}: {note}', file=sys.stderr)
    print(f'flavors: {UNKNOWN}', file=sys.stderr)


if __name__ == '__main__':
    main()
