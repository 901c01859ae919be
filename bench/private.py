"""The shape `private` of make_tables.py: an operator's cloud. Each of three zones has hosts with NUMA nodes, functions of network cards and GPUs, and
a Ceph for their disks. Columns, names and traits look as the client would print them. About three quarters of everything are used."""
import uuid
from itertools import zip_longest
from typing import NamedTuple

HEADERS = {
    'providers': ('uuid', 'name', 'generation', 'root_provider_uuid', 'parent_provider_uuid'),
    'inventories': ('resource_provider', 'resource_class', 'allocation_ratio', 'min_unit', 'max_unit', 'reserved', 'step_size', 'total', 'used'),
    'usages': ('resource_provider', 'resource_class', 'usage'),
    'traits': ('resource_provider', 'name'),
    'aggregates': ('resource_provider', 'uuid'),
    'aggregate-names': ('uuid', 'name'),
}
KINDS = 'flat', 'numa', 'nfv', 'gpu', 'numa', 'flat', 'numa', 'nfv', 'numa', 'flat'
ZONES = 'az1', 'az2', 'az3'
PERCENT_USED = 50, 60, 65, 70, 75, 75, 80, 85, 90, 100
DISABLED = 'COMPUTE_STATUS_DISABLED'
SHARES = 'MISC_SHARES_VIA_AGGREGATE'
COMPUTE = ['COMPUTE_' + name for name in (
    'NODE IMAGE_TYPE_QCOW2 IMAGE_TYPE_RAW VOLUME_MULTI_ATTACH NET_VIF_MODEL_VIRTIO STORAGE_BUS_VIRTIO DEVICE_TAGGING TRUSTED_CERTS VOLUME_EXTEND '
    'VOLUME_ATTACH_WITH_TAG NET_ATTACH_INTERFACE NET_ATTACH_INTERFACE_WITH_TAG RESCUE_BFV SECURITY_UEFI_SECURE_BOOT SOCKET_PCI_NUMA_AFFINITY '
    'ACCELERATORS IMAGE_TYPE_AKI IMAGE_TYPE_AMI IMAGE_TYPE_ARI IMAGE_TYPE_ISO NET_VIF_MODEL_E1000 NET_VIF_MODEL_E1000E NET_VIF_MODEL_NE2K_PCI NET_VIF_MODEL_PCNET '
    'NET_VIF_MODEL_RTL8139 NET_VIF_MODEL_VMXNET3 STORAGE_BUS_FDC STORAGE_BUS_IDE STORAGE_BUS_SATA STORAGE_BUS_SCSI STORAGE_BUS_USB '
    'GRAPHICS_MODEL_BOCHS GRAPHICS_MODEL_CIRRUS GRAPHICS_MODEL_NONE GRAPHICS_MODEL_VGA GRAPHICS_MODEL_VIRTIO').split()]
INTEL, AMD = (['HW_CPU_X86_' + name for name in names.split()] for names in (
    'VMX AVX512F AVX2 AVX AVX512BW AVX512CD AVX512DQ AVX512VL AESNI BMI BMI2 F16C FMA3 SSE2 SSE41 SSE42 SSSE3',
    'SVM SHA AVX2 AVX ABM CLMUL SSE4A SSE AESNI BMI BMI2 F16C FMA3 SSE2 SSE41 SSE42 SSSE3'))
MOST_TRAITS = len(COMPUTE) + len(INTEL)


class Provider(NamedTuple):
    id: str
    root: str


class Private:
    """The rows of the five tables, as the cloud grows provider by provider."""

    def __init__(self, chance, traits):
        self.chance = chance
        self.traits = traits
        self.rows = {name: [] for name in HEADERS}
        self.gpu_hosts = 0

    def new_id(self):
        return str(uuid.UUID(int=self.chance.getrandbits(128), version=4))

    def add(self, name, parent=None, traits=(), aggregates=()):
        id = self.new_id()
        root = parent.root if parent else id
        self.rows['providers'].append((id, name, self.chance.randrange(1, 1000), root, parent.id if parent else ''))
        self.rows['traits'] += [(id, trait) for trait in traits]
        self.rows['aggregates'] += [(id, aggregate) for aggregate in aggregates]
        return Provider(id, root)

    def offer(self, provider, name, total, reserved=0, ratio=1, step=1, percent=None):
        """Gives a provider an inventory, of whose capacity this percentage is used, in whole steps; chance rounds it up or down."""
        percent = self.chance.choice(PERCENT_USED) if percent is None else percent
        used = ((total - reserved) * ratio // step * percent + self.chance.randrange(100)) // 100 * step
        self.rows['inventories'].append((provider.id, name, float(ratio), 1, total, reserved, 1, total, used))
        self.rows['usages'].append((provider.id, name, used))

    def ceph(self, name, hosts, aggregate):
        """Adds the storage for this number of hosts."""
        self.offer(self.add(name, None, (SHARES,), (aggregate,)), 'DISK_GB', 4000 * max(hosts, 1), reserved=100, percent=75)

    def host(self, name, kind, aggregates, disabled):
        processor = self.chance.choice((INTEL, INTEL, AMD))
        traits = [trait for both in zip_longest(COMPUTE, processor) for trait in both if trait][:self.traits]
        host = self.add(name, None, [*traits, *[DISABLED] * disabled], aggregates)
        threads = self.chance.choice((32, 48, 64))
        if kind == 'flat':
            self.processors(host, threads, 16)
            return
        for number in range(2):
            node = self.add(f'{name}_NUMA{number}', host, ('HW_NUMA_ROOT',))
            self.processors(node, threads, 4, dedicated=threads - 8 if kind == 'nfv' else 0)
            if kind == 'nfv':
                self.functions(name, node, number)
            if kind == 'gpu':
                self.gpu(name, node, number)
        self.gpu_hosts += kind == 'gpu'

    def processors(self, provider, threads, ratio, dedicated=0):
        """Gives a provider processors that instances share, processors for one instance each, and memory."""
        self.offer(provider, 'VCPU', threads - dedicated, ratio=ratio)
        if dedicated:
            self.offer(provider, 'PCPU', dedicated)
        self.offer(provider, 'MEMORY_MB', 4096 * threads, reserved=4096, step=512)

    def functions(self, host, node, number):
        """Adds a network card with two ports, each with functions of its own."""
        total = self.chance.choice((8, 16, 32))
        for port, network in enumerate(('DATA', ('PUBLIC', 'STORAGE')[number])):
            made = self.add(f'{host}_0000:{("3b", "af")[number]}:00.{port}', node, ('HW_NIC_SRIOV', f'CUSTOM_PHYSNET_{network}'))
            self.offer(made, 'SRIOV_NET_VF', total)

    def gpu(self, host, node, number):
        """Adds a GPU that instances share or, in every other host with GPUs, one for a single instance."""
        bus = ('5e', 'd8')[number]
        if self.gpu_hosts % 2:
            self.offer(self.add(f'{host}_0000:{bus}:00.0', node, ('CUSTOM_GPU_A100',)), 'PGPU', 1)
        else:
            self.offer(self.add(f'{host}_pci_0000_{bus}_00_0', node, ('CUSTOM_GPU_T4',)), 'VGPU', 16)


def tables(chance, hosts, kinds, traits):
    """The rows of the five tables, and the names of the zones' aggregates, zone by zone. The last zone's storage isn't in the zone's aggregate, but in one
    for storage, with the hosts. One host of fifty is disabled, and at least one."""
    cloud = Private(chance, traits)
    disabled = set(chance.sample(range(hosts), max(hosts // 50, min(hosts, 1))))
    for zone, name in enumerate(ZONES):
        aggregates = [cloud.new_id() for _ in range(2 if name == ZONES[-1] else 1)]
        cloud.rows['aggregate-names'].append((aggregates[0], name))
        numbers = range(hosts * zone // 3, hosts * (zone + 1) // 3)
        cloud.ceph(f'ceph-{name}', len(numbers), aggregates[-1])
        for place, number in enumerate(numbers):
            cloud.host(f'cmp-{name}-{place:03}', kinds[place % len(kinds)], aggregates, number in disabled)
    return cloud.rows
