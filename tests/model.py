"""A model of the rules, as docs/RULES.md has them, and cases over small random clouds and queries. It tries every list of providers, and takes nothing
from the program. Ratios are in millionths."""
from __future__ import annotations

import collections
import csv
import io
import itertools
import json
import os
import random
import re
import struct
from dataclasses import dataclass, field, replace

from cases import GREATEST, Case, full, lines, tables
from metrics import metrics_of
from notation import HEADERS

RULES = 'Units', 'SlotTraits', 'Aggregates', 'Tree', 'Collective', 'Sums', 'Isolate', 'Subtree', 'Anchor'
CLASSES = 'DISK_GB', 'MEMORY_MB', 'VCPU'
TRAITS = 'CUSTOM_A', 'CUSTOM_B'
AGGREGATES = 'A1', 'A2'
SHARES = 'MISC_SHARES_VIA_AGGREGATE'
LIST_COLUMNS = '#', 'allocation', 'resource provider', 'inventory used/capacity', 'traits', 'name'
LEFT_HEADER = 'resource_provider,name,resource_class,capacity,used,left\n'
LIST_HEADER = ','.join(LIST_COLUMNS) + '\n'
SUFFIXES = '1', '10', '2', '_NET', 'a'
DIFFERENCES = os.path.join(os.path.dirname(os.path.dirname(os.path.abspath(__file__))), 'docs', 'DIFFERENCES.md')


@dataclass
class Inventory:
    total: int
    reserved: int
    min_unit: int
    max_unit: int
    step_size: int
    ratio: int
    used: int

    def capacity(self):
        return (self.total - self.reserved) * self.ratio // 1000000

    def text(self, name):
        return (f'{name} total {self.total}, reserved {self.reserved}, min_unit {self.min_unit}, max_unit {self.max_unit}, step_size {self.step_size}, '
                f'allocation_ratio {self.ratio // 1000000}.{self.ratio % 1000000:06}, used {self.used}')


@dataclass
class Provider:
    name: str
    parent: Provider | None
    has: dict
    traits: set
    aggregates: set

    def above(self):
        """The provider itself, its parent, and so on up to its root."""
        return [self, *(self.parent.above() if self.parent else ())]

    def root(self):
        return self.above()[-1]

    def text(self):
        cells = [self.name, self.parent.name if self.parent else '', '; '.join(inventory.text(name) for name, inventory in self.has.items()),
                 ', '.join(self.traits), ', '.join(self.aggregates)]
        return ' | '.join(cells)


@dataclass
class Group:
    needs: dict
    required: set
    forbidden: set
    any_of: list  # lists of traits, of which one trait each is asked for; only with 1.39
    rules: list  # for each `member_of`, whether it forbids, and its aggregates
    tree: str | None

    def pairs(self, suffix):
        if self.needs:
            yield f'resources{suffix}', ','.join(f'{name}:{amount}' for name, amount in self.needs.items())
        traits = traits_text(self.required, self.forbidden)
        for value in traits.split(',') if self.any_of and traits else [traits] if traits else []:
            yield f'required{suffix}', value
        for listed in self.any_of:
            yield f'required{suffix}', 'in:' + ','.join(listed)
        for forbids, aggregates in self.rules:
            yield f'member_of{suffix}', '!' * forbids + 'in:' + ','.join(aggregates)
        if self.tree:
            yield f'in_tree{suffix}', self.tree


@dataclass
class Query:
    groups: dict  # groups by their suffixes; the one without a suffix is under the empty text
    isolate: bool = False
    told: bool = True  # whether the policy is told
    subtrees: list = field(default_factory=list)
    root_required: set = field(default_factory=set)
    root_forbidden: set = field(default_factory=set)

    def slots(self):
        for suffix in sorted(self.groups):
            needs = self.groups[suffix].needs
            yield from [(suffix, {name: needs[name]}) for name in sorted(needs)] if suffix == '' else [(suffix, needs)]

    def text(self, chance):
        pairs = [pair for suffix, group in self.groups.items() for pair in group.pairs(suffix)]
        pairs += [('same_subtree', ','.join(listed)) for listed in self.subtrees]
        if self.root_required or self.root_forbidden:
            pairs.append(('root_required', traits_text(self.root_required, self.root_forbidden)))
        if self.told:
            pairs.append(('group_policy', 'isolate' if self.isolate else 'none'))
        drawn_pairs = chance.sample(pairs, len(pairs))
        for suffix, group in self.groups.items():  # lists of traits and rules stay in the order of their pairs
            group.any_of.sort(key=lambda listed: drawn_pairs.index((f'required{suffix}', 'in:' + ','.join(listed))))
            group.rules.sort(key=lambda rule: drawn_pairs.index((f'member_of{suffix}', '!' * rule[0] + 'in:' + ','.join(rule[1]))))
        return '&'.join(f'{name}={value}' for name, value in drawn_pairs)


def traits_text(required, forbidden):
    return ','.join([*sorted(required), *('!' + name for name in sorted(forbidden))])


def meets(group, traits):
    """Whether each required trait of a group is among these traits, and at least one trait of each of its lists."""
    return group.required <= traits and all(traits & set(listed) for listed in group.any_of)


def available(provider, root, cloud):
    return provider.root() is root or SHARES in provider.traits and any(
        other.root() is root and other.aggregates & provider.aggregates for other in cloud)


def at_root(found, root, query, cloud):
    """Those of some candidates that stand at a root: the query takes it, and each of their providers is available there."""
    return [one for one in found if takes(root, query) and all(available(provider, root, cloud) for provider in one)]


def broken_by_one(provider, suffix, needs, query, cloud):
    """Which of the first four rules a provider breaks in its slot."""
    group = query.groups[suffix]
    for name, amount in needs.items():
        has = provider.has.get(name)
        if not has or not has.min_unit <= amount <= has.max_unit or amount % has.step_size:
            yield 'Units'
    if group.forbidden & provider.traits or suffix and not meets(group, provider.traits):
        yield 'SlotTraits'
    member = provider.aggregates | (set() if suffix else provider.root().aggregates)
    if any(bool(member & set(aggregates)) == forbids for forbids, aggregates in group.rules):
        yield 'Aggregates'
    if group.tree and not any(other.name == group.tree and other.root() is provider.root() for other in cloud):
        yield 'Tree'


def has_room(provider, needs):
    """Whether a provider, which has these classes, has room for them if nothing else is placed."""
    return all(amount <= has.max_unit and has.used + amount <= has.capacity() for name, amount in needs.items() for has in [provider.has[name]])


def takes(root, query):
    """Whether a root has what the query asks of it."""
    return query.root_required <= root.traits and not query.root_forbidden & root.traits


def broken_by_all(placed, query, cloud):
    """Which of the other rules an assignment breaks. It is given as a list of providers, each with the suffix and the amounts of its slot."""
    together = set().union(*(provider.traits for provider, suffix, _ in placed if not suffix))
    if '' in query.groups and not meets(query.groups[''], together):
        yield 'Collective'
    for name in CLASSES:
        for provider in cloud:
            taken = sum(needs.get(name, 0) for other, _, needs in placed if other is provider)
            has = provider.has.get(name)
            if taken and not (has and taken <= has.max_unit and has.used + taken <= has.capacity()):
                yield 'Sums'
    apart = [provider.name for provider, suffix, needs in placed if suffix and needs]
    if query.isolate and len(set(apart)) < len(apart):
        yield 'Isolate'
    for listed in query.subtrees:
        near = [provider for provider, suffix, _ in placed if suffix in listed]
        if not any(all(any(top is step for step in other.above()) for other in near) for top in near):
            yield 'Subtree'
    if not any(root.root() is root and takes(root, query) and all(available(provider, root, cloud) for provider, _, _ in placed) for root in cloud):
        yield 'Anchor'


def judgement(assignment, query, cloud):
    """The lowest number of a broken rule, or 0."""
    placed = [(provider, suffix, needs) for provider, (suffix, needs) in zip(assignment, query.slots())]
    broken = [*(rule for one in placed for rule in broken_by_one(*one, query, cloud)), *broken_by_all(placed, query, cloud)]
    return min((RULES.index(rule) + 1 for rule in broken), default=0)


def serving(suffix, needs, query, cloud):
    """Which providers are left for a slot after each of the first four rules, and then which of them have room for it alone."""
    left = cloud
    for rule in RULES[:4]:
        left = [provider for provider in left if rule not in broken_by_one(provider, suffix, needs, query, cloud)]
        yield left
    yield [provider for provider in left if has_room(provider, needs)]


def class_told(name, needs, fitting, room):
    """What is told of a class of a slot, by the providers that meet its rules and how many of them have room for all that it asks."""
    if len(needs) > 1 and room < len(fitting):
        yield f'{name} {sum(has_room(provider, {name: needs[name]}) for provider in fitting)}'
    if fitting and not room:
        yield f'largest left {max(left_of(provider.has[name]) for provider in fitting)}'


def left_of(has):
    return max(has.capacity() - has.used, 0)


def explanation(found, query, cloud):
    told, served = [], []
    for number, (suffix, needs) in enumerate(query.slots(), 1):
        *_, last = left = list(serving(suffix, needs, query, cloud))
        served.append((suffix, last))
        units, traits, aggregates, tree, room = map(len, left)
        fitting = left[3]
        by_class = [name_told for name in sorted(needs) for name_told in class_told(name, needs, fitting, room)]
        told.append(f'{slot_named(number, suffix, needs)}: units {units} of {len(cloud)}, traits {traits}, aggregates {aggregates}, '
                    f'tree {tree}, room {room}' + (f' ({", ".join(by_class)})' if by_class else ''))
    roots = [root for root in cloud if root.root() is root]
    taken = [root for root in roots if takes(root, query)]
    whole = [root for root in taken if all(any(available(provider, root, cloud) for provider in last) for _, last in served)]
    held = [root for root in whole if '' not in query.groups or meets(query.groups[''], set().union(
        *(provider.traits for suffix, last in served if not suffix for provider in last if available(provider, root, cloud))))]
    told.append(f'trees {len(roots)}: root traits {len(taken)}, each slot {len(whole)}, required traits {len(held)}')
    told += nobody(query, cloud)
    told.append(f'candidates: {"some" if found else "none"}')
    if not found:
        kept = [(name, has_candidate(other, cloud)) for name, other in without(query)]
        told += [f'{name}: {"some" if some else "none"}' for name, some in kept]
        told.append(f'because {reason(query, cloud, taken, whole, (held, kept))}')
    told += difference_lines(found, query, cloud)
    return ''.join(line + '\n' for line in told)


def more_of(names):
    return f' and {len(names) - 8} more' if len(names) > 8 else ''


def some_of(names):
    """A list, of which eight are told."""
    return ','.join(names[:8]) + more_of(names)


def trait_rules(suffix, group):
    """What a group asks of the traits of a slot's provider."""
    if suffix and group.required:
        yield f'required={some_of(sorted(group.required))}'
    if suffix:
        yield from (f'required=in:{some_of(sorted(listed))}' for listed in group.any_of)
    if group.forbidden:
        yield ' '.join(f'required=!{name}' for name in sorted(group.forbidden)[:8]) + more_of(group.forbidden)


def aggregate_rules(_, group):
    for forbids, aggregates in group.rules:
        yield f'member_of={"!" * forbids}{"in:" * (len(aggregates) > 1)}{some_of(aggregates)}'


def tree_rule(_, group):
    yield f'in_tree={group.tree}'


def meeting(rules):
    return lambda suffix, group: ' '.join(['meets', *rules(suffix, group)])


FAILING = (lambda *_: 'gives it'), meeting(trait_rules), meeting(aggregate_rules), meeting(tree_rule), (lambda *_: 'has room for it')


def slot_named(number, suffix, needs):
    return f'slot {number} "{suffix}"{" " * bool(needs)}{asks(needs)}'


def reason(query, cloud, taken, whole, ways):
    """Why there is no candidate: the first slot that no provider serves, and by which condition; else which roots are none; else what alone keeps them apart."""
    held, kept = ways
    slots, roots = [], []
    for number, (suffix, needs) in enumerate(query.slots(), 1):
        name, before = slot_named(number, suffix, needs), cloud
        for left, failing in zip(serving(suffix, needs, query, cloud), FAILING, strict=True):
            if not left:
                return f'{name}: none of {len(before)} {failing(suffix, query.groups[suffix])}'
            before = left
        slots.append(name)
        roots.append([root for root in taken if any(available(provider, root, cloud) for provider in left)])
    if not taken:
        return 'no root has the traits that are asked of it'
    if not whole:
        for later, near in enumerate(roots):
            if not near:
                return f'no root has a provider for {slots[later]}'
            for earlier, others in enumerate(roots[:later]):
                if not any(root in others for root in near):
                    return f'no root has a provider for {slots[earlier]} and {slots[later]}'
        return 'no root has a provider for each slot'
    if not held:
        return 'no root has all required traits'
    return 'no providers for the slots go together' + next((KEPT.get(name, name.replace('without', ' with', 1)) for name, some in kept if some), '')


KEPT = {'with group_policy=none': ' with group_policy=isolate', 'without required': ' with all required traits'}


def has_candidate(query, cloud):
    return any(not judgement(assignment, query, cloud) for assignment in itertools.product(cloud, repeat=len(list(query.slots()))))


def without(query):
    """The query without each thing that it asks of several slots together, behind the name of that."""
    for place, listed in enumerate(query.subtrees):
        yield f'without same_subtree={",".join(sorted(listed))}', replace(query, subtrees=query.subtrees[:place] + query.subtrees[place + 1:])
    if query.isolate:
        yield 'with group_policy=none', replace(query, isolate=False)
    plain = query.groups.get('')
    if plain and (plain.required or plain.any_of):
        yield 'without required', replace(query, groups={**query.groups, '': replace(plain, required=set(), any_of=[])})


def nobody(query, cloud):
    """A line for each thing that a query asks for and nobody has, or no root."""
    for _, group in sorted(query.groups.items()):
        for name in sorted(group.needs):
            if not any(name in provider.has for provider in cloud):
                yield f'nobody has {name}'
        for name in sorted(group.required):
            if not any(name in provider.traits for provider in cloud):
                yield f'nobody has {name}'
        for listed in group.any_of:
            if not any(set(listed) & provider.traits for provider in cloud):
                yield f'nobody has one of {",".join(sorted(listed))}'
        for forbids, aggregates in group.rules:
            if not forbids and not any(set(aggregates) & provider.aggregates for provider in cloud):
                yield f'nobody is in member_of={"in:" * (len(aggregates) > 1)}{",".join(aggregates)}'
        if group.tree and not any(provider.name == group.tree for provider in cloud):
            yield f'nobody has in_tree={group.tree}'
    for name in sorted(query.root_required):
        if not any(name in root.traits for root in cloud if root.root() is root):
            yield f'no root has {name}'


def words_of(heading):
    """What `explain` calls a difference that stands under this heading."""
    plain = heading.replace('`', '')
    return plain[0].lower() + plain[1:]


def headings():
    """What it calls those of the first two parts of docs/DIFFERENCES.md, in their order."""
    with open(DIFFERENCES, encoding='utf-8') as page:
        parts = re.split('^## ', page.read(), flags=re.M)[1:3]
    return [words_of(heading) for part in parts for heading in re.findall('^### (.*)$', part, re.M)]


# What adds candidates, refuses the query or fails; all else takes candidates away, and shows nowhere where there is none.
ADDING = ('status 500 if the sharing provider has a parent', 'the tree of a group without resources', 'when a policy is needed',
          'a trait that is required and forbidden')

# What the service does, and what to do, in the order of the headings.
ADVICE = (
    'the service gives wrong amounts and loses candidates; ask with group_policy=none, or for each class in one group',
    'the service looks for the granular groups in one tree alone; ask for what is shared in a granular group, too',
    'the service fails with status 500; let the sharing provider be a root',
    'the service finds no provider for it; require a trait in it, or leave it out',
    'the service ignores its in_tree; name the tree in a group with resources',
    'the service refuses the query with status 400; add group_policy',
    'the service refuses the query with status 400; leave one of them out',
    'the service wants a provider of its own for each group; ask with group_policy=none',
    'the service wants one of them to meet both; add the provider to both aggregates',
    'the service looks at the root of the tree that uses the provider; forbid it in a granular group',
    'the service wants the sharing provider itself in the aggregate; add it there',
    'the service lets the provider serve only its own tree; name the tree in a granular group',
    'the service computes another capacity; choose a ratio in quarters, as 8.25',
    'the service leaves that tree out of provider_summaries; look it up in /resource_providers',
)


def difference_line(words):
    return f'differs: {words}: {ADVICE[headings().index(words)]} (docs/DIFFERENCES.md)'


def difference_lines(found, query, cloud):
    """Those that may show, by whether there is a candidate."""
    return [difference_line(words) for words, concerns in zip(headings(), concerned(query, cloud), strict=True) if concerns and (found or words in ADDING)]


def meets_rules(aggregates, group):
    return all(bool(aggregates & set(listed)) != forbids for forbids, listed in group.rules)


def single(value):
    """The number of single precision that is nearest."""
    return struct.unpack('f', struct.pack('f', value))[0]


def ratio_of(has):
    return float(f'{has.ratio // 1000000}.{has.ratio % 1000000:06}')


def is_other(has):
    """Whether an inventory has another capacity as a double."""
    return int((has.total - has.reserved) * ratio_of(has)) != has.capacity()


def counts_otherwise(provider, needs, query):
    """Whether a provider has another capacity as a double for one of these classes; or a smaller one by a ratio in single precision, and room for what is
    asked, while the query asks for more than is left then."""
    for name, amount in needs.items():
        has = provider.has[name]
        asked = sum(group.needs.get(name, 0) for group in query.groups.values())
        smaller = int((has.total - has.reserved) * single(ratio_of(has)))
        if is_other(has) or smaller < has.capacity() and amount + has.used <= has.capacity() and asked > max(smaller - has.used, 0):
            return True
    return False


def concerned(query, cloud):
    """Whether the service may answer otherwise, for each of these headings."""
    fitting = [(suffix, needs, query.groups[suffix], [provider for provider in cloud if not list(broken_by_one(provider, suffix, needs, query, cloud))])
               for suffix, needs in query.slots()]
    plain = [(needs, group, some) for suffix, needs, group, some in fitting if not suffix]
    free = [(needs, group, some) for needs, group, some in plain if not group.tree]
    suffixes = [suffix for suffix in query.groups if suffix]
    bare = [group for group in query.groups.values() if not group.needs]
    asking = [group for group in bare if group.required or group.any_of or not all(forbids for forbids, _ in group.rules)]

    serving = [[provider for provider in some if has_room(provider, needs)] for _, needs, _, some in fitting]
    numbers = range(len(fitting))

    def several(provider):
        return sum(root.root() is root and available(provider, root, cloud) for root in cloud) > 1

    def lent(needs, some):
        return [provider for provider in some if several(provider) and has_room(provider, needs)]

    def gives(provider, needs):
        """Whether it gives an unsuffixed slot what this asks, whatever its traits."""
        return not {'Units', 'Aggregates'} & set(broken_by_one(provider, '', needs, query, cloud)) and has_room(provider, needs)

    def below(needs, group, provider):
        """Whether a sharing provider below a parent gives a slot what this asks, and neither it nor its root another slot."""
        return (provider.parent and several(provider) and gives(provider, needs) and meets_rules(provider.aggregates, group)
                and any(not gives(provider, other) and not gives(provider.root(), other) for other, _, _ in plain))

    def outside(group):
        """Whether a provider outside the tree that a group without resources names meets its other rules."""
        suffix = next(suffix for suffix, other in query.groups.items() if other is group)
        return any(list(broken_by_one(provider, suffix, {}, query, cloud)) == ['Tree'] for provider in cloud)

    def beside(needs, aggregates):
        """Whether a sharing provider outside these aggregates has what a slot asks for, and a root is in them."""
        return any(root.root() is root and root.aggregates & aggregates for root in cloud) and any(
            several(provider) and not provider.aggregates & aggregates and not {'Units', 'SlotTraits'} & set(broken_by_one(provider, '', needs, query, cloud))
            and has_room(provider, needs) for provider in cloud)

    yield not (query.told and not query.isolate) and any(
        not fitting[s][0] and fitting[t][0] and set(fitting[s][1]) & set(fitting[t][1]) and any(provider in serving[t] for provider in serving[s])
        for s in numbers for t in numbers) and any(provider.parent or several(provider) for some in serving for provider in some)
    yield bool(suffixes and plain) and len(free) == len(plain) and all(lent(needs, some) for needs, _, some in plain)
    yield any(below(needs, group, provider) for needs, group, _ in free for provider in cloud) and all(
        any(gives(provider, needs) for provider in cloud) for needs, _, _ in plain)
    yield any(group not in asking for group in bare)
    yield any(group.tree and outside(group) for group in asking) and all(some for _, needs, _, some in fitting if needs)
    yield not query.told and len(suffixes) > 1
    yield any(group.required & group.forbidden or any(set(listed) <= group.forbidden for listed in group.any_of) for group in query.groups.values())
    yield query.isolate and bool(bare) and len(suffixes) > 1
    yield any(not meets_rules(provider.aggregates, group) and not meets_rules(provider.root().aggregates, group)
              for _, group, some in plain for provider in some)
    yield any(forbids and beside(needs, set(listed)) for needs, group, _ in free for forbids, listed in group.rules)
    yield any(not meets_rules(provider.aggregates, group) for needs, group, some in free for provider in lent(needs, some))
    yield any(group.tree and lent(needs, some) for needs, group, some in plain)
    others = [provider.root() for provider in cloud if any(is_other(has) for has in provider.has.values())]
    yield any(counts_otherwise(provider, needs, query) or provider.root() in others for _, needs, _, some in fitting for provider in some)
    yield bool(bare) and (any(lent(needs, some) for _, needs, _, some in fitting if not needs)
                          or all(lent(needs, some) for _, needs, _, some in fitting if needs))


STAGES = 'no inventory', 'units', 'traits', 'aggregates', 'tree', 'room'


def passing(suffix, needs, query, cloud):
    """Which providers are left for a slot after each test of `lacks`: those with an inventory of each class, and then as `serving` has them."""
    return [[provider for provider in cloud if set(needs) <= set(provider.has)], *serving(suffix, needs, query, cloud)]


def held_at(root, query, cloud):
    """The traits of the providers available at a root that pass all tests of a slot of the group without a suffix."""
    left = [provider for suffix, needs in query.slots() if not suffix for provider in passing(suffix, needs, query, cloud)[-1]]
    return {name for provider in left if available(provider, root, cloud) for name in provider.traits}


def lacks(root, found, query, cloud):
    """What a root lacks: the number of a slot, if one slot asks for what is missing, and the name of what is missing. Both are empty if it fits."""
    if not takes(root, query):
        return '', 'root traits'
    hosts = [provider for provider in cloud if available(provider, root, cloud)]
    for number, (suffix, needs) in enumerate(query.slots(), 1):
        left = [[provider for provider in some if provider in hosts] for some in passing(suffix, needs, query, cloud)]
        for stage, some in zip(STAGES, left):
            if not some:
                return number, stage
    if '' in query.groups and not meets(query.groups[''], held_at(root, query, cloud)):
        return '', 'required traits'
    if not any(all(provider in hosts for provider in assignment) for assignment in found):
        return '', 'together'
    return '', ''


def asks(needs):
    return ','.join(f'{name}:{needs[name]}' for name in sorted(needs))


def unmet(traits, suffix, text, query):
    """What a group requires and isn't among these traits; lists of traits are in the order of the query's text."""
    front = f'required{suffix}=in:'
    lists = [sorted(set(pair[len(front):].split(','))) for pair in text.split('&') if pair.startswith(front)]
    missing = [name + ' missing' for name in sorted(query.groups[suffix].required - traits)]
    return missing + ['none of ' + ','.join(listed) for listed in lists if not traits & set(listed)]


def unmet_by_root(root, query):
    missing = [name + ' missing' for name in sorted(query.root_required - root.traits)]
    return missing + [name + ' forbidden' for name in sorted(query.root_forbidden & root.traits)]


def detail(provider, suffix, needs, stage, text, query):
    """Of what a provider fails this test of a slot."""
    group = query.groups[suffix]
    if stage == 'no inventory':
        return f'{min(set(needs) - set(provider.has))}: no inventory'
    if stage == 'units':
        for name in sorted(needs):
            has = provider.has.get(name)
            if not has:
                return f'{name}: no inventory'
            if not has.min_unit <= needs[name] <= has.max_unit or needs[name] % has.step_size:
                return f'{name}:{needs[name]} not within min_unit {has.min_unit}, max_unit {has.max_unit}, step_size {has.step_size}'
    if stage == 'traits':
        had = [name + ' forbidden' for name in sorted(group.forbidden & provider.traits)]
        return [*(unmet(provider.traits, suffix, text, query) if suffix else ()), *had][0]
    if stage == 'aggregates':
        forbids, aggregates = group.rules[0]
        return f'member_of={"!" * forbids}{"in:" * (len(aggregates) > 1)}{",".join(aggregates)}'
    if stage == 'tree':
        return f'in_tree={group.tree}'
    if stage == 'room':
        name = next(name for name in sorted(needs) if not has_room(provider, {name: needs[name]}))
        has = provider.has[name]
        return f'{name}: {left_of(has)} of {has.capacity()} left'
    return ''


def written(rows):
    """Rows as `csv` writes them."""
    text = io.StringIO()
    csv.writer(text, lineterminator='\n').writerows(rows)
    return text.getvalue()


def slot_detail(root, suffix, needs, text, query, cloud):
    """What is wanting in a slot at a root that lacks a provider for it: a class that nobody has, else what the one fails that comes furthest."""
    hosts = [provider for provider in cloud if available(provider, root, cloud)]
    nobodys = [name for name in sorted(needs) if not any(name in provider.has for provider in hosts)]
    left = passing(suffix, needs, query, cloud)

    def far(provider):
        met = sum(provider in some for some in left)
        short = [left_of(provider.has[name]) for name in sorted(needs) if not has_room(provider, {name: needs[name]})] if STAGES[met:] == ('room',) else []
        return met, short[:1]

    furthest = max(hosts, key=far)
    return f'{nobodys[0]}: nobody here' if nobodys else detail(furthest, suffix, needs, STAGES[far(furthest)[0]], text, query)


CAPACITY = ['flavor', 'hosts', 'at_least', 'at_most', 'wanted', 'short_of', 'short_at']


def roots_of(cloud, within=None):
    """All roots, or those of an aggregate: it is theirs or that of a provider of their tree."""
    return [root for root in cloud if root.root() is root and (within is None or any(within in provider.aggregates for provider in cloud if provider.root() is root))]


def host_rows(found, text, query, cloud, within=None, fitting=False):
    """Which roots fit, and what the others lack, with what the slot asks and what is wanting there; or those alone that fit."""
    rows = [['root', 'name', 'fits', 'slot', 'lacks', 'asks', 'detail']]
    for root in roots_of(cloud, within):
        slot, lack = lacks(root, found, query, cloud)
        if fitting and lack:
            continue
        suffix, needs = [*query.slots()][slot - 1] if slot else ('', {})
        wanting = slot_detail(root, suffix, needs, text, query, cloud) if slot else ''
        if lack == 'root traits':
            wanting = unmet_by_root(root, query)[0]
        if lack == 'required traits':
            wanting = unmet(held_at(root, query, cloud), '', text, query)[0]
        rows.append([root.name, '', 'no' if lack else 'yes', slot, lack, asks(needs), wanting])
    return written(rows)


def lacking(found, query, cloud, within=None):
    """At how many roots a query fits, and how many lack what, by falling number, without a slot first, then slot by slot and test by test."""
    counts = collections.Counter(lacks(root, found, query, cloud) for root in roots_of(cloud, within))
    fit = counts.pop(('', ''), 0)
    order = 'root traits', 'required traits', 'together', *STAGES
    rows = sorted(counts.items(), key=lambda one: (-one[1], one[0][0] or 0, order.index(one[0][1])))
    return fit, [[count, slot, lack, asks([*query.slots()][slot - 1][1]) if slot else ''] for (slot, lack), count in rows]


def host_sums(found, query, cloud, within=None):
    fit, told = lacking(found, query, cloud, within)
    return written([['hosts', 'slot', 'lacks', 'asks'], [fit, '', 'fits', ''], *told])


def capacity_row(name, wanted, found, placed, most, short, query, cloud):
    """How many of a flavor fit, at how many roots, and what most of these are short of; where it fits at none, what most roots lack."""
    fit, told = lacking(found, query, cloud)
    counts = list(short.items()) if fit else [(f'{lack} {some}'.strip(), count) for count, _, lack, some in told]
    return [name, fit, len(placed), most, wanted, *max(counts, key=lambda one: one[1], default=('', ''))]


def why_rows(root, found, text, query, cloud):
    """How far the query of this text comes in the tree of a root."""
    rows = [['slot', 'suffix', 'asks', 'provider', 'name', 'lacks', 'detail']]
    hosts = [provider for provider in cloud if available(provider, root, cloud)]
    for number, (suffix, needs) in enumerate(query.slots(), 1):
        front = [number, suffix, asks(needs)]
        rows += [[*front, '', '', 'no inventory', f'{name}: nobody here'] for name in sorted(needs) if not any(name in provider.has for provider in hosts)]
        left = passing(suffix, needs, query, cloud)
        for provider in hosts:
            if not needs or set(needs) & set(provider.has):
                stage = next((stage for stage, some in zip(STAGES, left) if provider not in some), '')
                rows.append([*front, provider.name, '', stage, detail(provider, suffix, needs, stage, text, query)])
    rows.append(['root', '', '', root.name, '', '' if takes(root, query) else 'root traits', [*unmet_by_root(root, query), ''][0]])
    slot, lack = lacks(root, found, query, cloud)
    verdict = unmet(held_at(root, query, cloud), '', text, query)[0] if lack == 'required traits' else 'does not fit' if lack else 'fits'
    rows.append(['verdict', '', '', root.name, '', lack, f'slot {slot}: {verdict}' if slot else verdict])
    return written(rows)


def broken_detail(assignment, rule, text, query, cloud):
    """The first thing by which an assignment breaks this rule, which it does break."""
    placed = [(number, provider, suffix, needs) for number, (provider, (suffix, needs)) in enumerate(zip(assignment, query.slots()), 1)]
    if rule in RULES[:4]:
        number, *one = next(one for one in placed if rule in broken_by_one(*one[1:], query, cloud))
        return f'slot {number} on {one[0].name}, {detail(*one, STAGES[1 + RULES.index(rule)], text, query)}'
    if rule == 'Collective':
        return unmet(set().union(*(provider.traits for _, provider, suffix, _ in placed if not suffix)), '', text, query)[0]
    if rule == 'Sums':
        for _, provider, _, needs in placed:
            for name in sorted(needs):
                has = provider.has[name]
                taken = sum(more.get(name, 0) for _, other, _, more in placed if other is provider)
                if taken > has.max_unit or has.used + taken > has.capacity():
                    return f'{name} on {provider.name}, {left_of(has)} of {has.capacity()} left, max_unit {has.max_unit}, {taken} asked'
    if rule == 'Isolate':
        apart = [(number, provider) for number, provider, suffix, needs in placed if suffix and needs]
        return next(f'slots {one} and {other} on {provider.name}' for (one, provider), (other, same) in itertools.combinations(apart, 2) if same is provider)
    if rule == 'Subtree':
        for listed in query.subtrees:
            near = [provider for _, provider, suffix, _ in placed if suffix in listed]
            if not any(all(any(top is step for step in other.above()) for other in near) for top in near):
                return f'same_subtree={",".join(sorted(listed))}'
    hosts = [root for root in cloud if root.root() is root and all(available(provider, root, cloud) for _, provider, _, _ in placed)]
    return f'on {hosts[0].name}, {unmet_by_root(hosts[0], query)[0]}' if hosts else 'no root gives all of them'


def taken_by(assignment, query):
    """What an assignment takes: providers, by their names, and of each how much of each class."""
    taken = {}
    for provider, (_, needs) in zip(assignment, query.slots()):
        amounts = taken.setdefault(provider.name, {})
        for name, amount in needs.items():
            amounts[name] = amounts.get(name, 0) + amount
    return taken


def change(assignment, query, cloud, sign):
    """Adds what an assignment takes to what is used, or with -1 takes it off."""
    for name, amounts in taken_by(assignment, query).items():
        has = next(provider.has for provider in cloud if provider.name == name)
        for kind, amount in amounts.items():
            has[kind].used += sign * amount


def claim(assignment, query, cloud):
    """What a session answers to a claim, and its status. What is claimed is used afterwards."""
    rule = judgement(assignment, query, cloud)
    if rule:
        return f'no: rule {rule} {RULES[rule - 1]}\n', 1
    change(assignment, query, cloud, 1)
    return 'claimed\n', 0


def release(assignment, query, cloud):
    """The same of a release. No rule is asked."""
    had = {provider.name: {name: has.used for name, has in provider.has.items()} for provider in cloud}
    if any(had[name].get(kind, 0) < amount for name, amounts in taken_by(assignment, query).items() for kind, amount in amounts.items()):
        return 'not in use\n', 1
    change(assignment, query, cloud, -1)
    return 'released\n', 0


def claim_as(name, assignment, query, named, cloud):
    """The same of a claim by name. `named` has what each name stands for: an assignment and its query."""
    if name in named:
        return 'in use\n', 1
    said = claim(assignment, query, cloud)
    if said == ('claimed\n', 0):
        named[name] = assignment, query
    return said


def release_name(name, named, cloud):
    """The same of a release by name. What is released has no name afterwards."""
    if name not in named:
        return 'not in use\n', 1
    said = release(*named[name], cloud)
    if said == ('released\n', 0):
        del named[name]
    return said


def move(name, assignment, named, cloud):
    """The same of a move to an assignment, which is judged where the name's own is released. If that is no candidate then, all is as it was."""
    if name not in named:
        return 'not in use\n', 1
    former, query = named[name]
    if release(former, query, cloud) != ('released\n', 0):
        return 'not in use\n', 1
    said = claim(assignment, query, cloud)
    if said != ('claimed\n', 0):
        change(former, query, cloud, 1)
        return said
    named[name] = assignment, query
    return 'moved\n', 0


def place(query, cloud, host=None):
    """Claims the first candidate, of those at the root of a host where one is named. The assignment that was claimed, or None where there is no candidate."""
    found = (assignment for assignment in itertools.product(cloud, repeat=len(list(query.slots()))) if not judgement(assignment, query, cloud))
    first = next(iter(at_root(found, host.root(), query, cloud) if host else found), None)
    if first is not None:
        change(first, query, cloud, 1)
    return first


def place_as(name, query, host, named, cloud):
    """What a session answers to a placement by name, and its status."""
    if name in named:
        return 'in use\n', 1
    placed = place(query, cloud, host)
    if placed is None:
        return '', 1
    named[name] = placed, query
    return lines(names(placed)), 0


def mark(named, cloud):
    """What a session keeps where it is marked: how much is used of each inventory, and what each name stands for."""
    return [has.used for provider in cloud for has in provider.has.values()], dict(named)


def back(marks, named, cloud):
    """What it answers to `back`, and its status. All is as it was at the last mark, which is gone then."""
    if not marks:
        return 'nothing marked\n', 1
    used, named_then = marks.pop()
    for has, amount in zip((has for provider in cloud for has in provider.has.values()), used, strict=True):
        has.used = amount
    named.clear()
    named.update(named_then)
    return 'undone\n', 0


def place_all(query, cloud, limit=None):
    """Claims the first candidate, again and again, until there is none or there are as many as the limit says. The assignments that were claimed."""
    placed = []
    while limit is None or len(placed) < limit:
        first = place(query, cloud)
        if first is None:
            break
        placed.append(first)
    return placed


def filled(query, cloud, limit=None):
    """The same, and the cloud is as it was before."""
    placed = place_all(query, cloud, limit)
    for assignment in placed:
        change(assignment, query, cloud, -1)
    return placed


def times_found(kind, suffix, needs, some, query, cloud):
    """How often some providers that a slot's own rules take have together what it asks of a class."""
    return sum(max(provider.has[kind].capacity() - provider.has[kind].used, 0) // needs[kind]
               for provider in some if not any(broken_by_one(provider, suffix, needs, query, cloud)))


def bound(found, query, cloud):
    """More placements than that there can't be: neither more than all providers have what is asked, nor more than those of each root at which a candidate
    stands, added up. And of how many roots which class is the first that is had least often there."""
    wanted = [(kind, suffix, needs) for suffix, needs in query.slots() for kind in sorted(needs)]
    by_root, short = 0, dict.fromkeys((kind for kind, _, _ in wanted), 0)
    for root in cloud:
        if root.root() is root and takes(root, query) and any(all(available(provider, root, cloud) for provider in assignment) for assignment in found):
            hosts = [provider for provider in cloud if available(provider, root, cloud)]
            times = [times_found(*want, hosts, query, cloud) for want in wanted]
            by_root += min(times)
            short[wanted[times.index(min(times))][0]] += 1
    return min(by_root, *(times_found(*want, cloud, query, cloud) for want in wanted)), {kind: count for kind, count in short.items() if count}


def sum_text(count, most, short):
    told = [f'{kind} at {number}' for kind, number in short.items()]
    if told:
        told[0] = f': short of {told[0]} host{"s" if [*short.values()][0] > 1 else ""}'
    return f'at least {count}, at most {most}{", ".join(told)}\n'


def longest(query, cloud, known):
    """The length of the longest list of placements, by trying every order. What is known of used amounts is kept."""
    used = tuple(has.used for provider in cloud for has in provider.has.values())
    if used not in known:
        best = 0
        for assignment in itertools.product(cloud, repeat=len(list(query.slots()))):
            if not judgement(assignment, query, cloud):
                change(assignment, query, cloud, 1)
                best = max(best, 1 + longest(query, cloud, known))
                change(assignment, query, cloud, -1)
        known[used] = best
    return known[used]


def usage_rows(cloud):
    """The table of usages, and the status."""
    rows = [(provider.name, name, provider.has[name].used) for provider in cloud for name in sorted(provider.has) if provider.has[name].used]
    if any(used > GREATEST for *_, used in rows):
        return 'too much in use to be written\n', 1
    return HEADERS['usages'] + ''.join(f'{name},{kind},{used}\n' for name, kind, used in rows), 0


def left_rows(cloud, host=None):
    """What is left of each inventory, or of those of a host's tree. No provider has a name."""
    rows = [(provider.name, name, has.capacity(), has.used, max(has.capacity() - has.used, 0)) for provider in cloud if host is None or provider.root() is host.root()
            for name, has in sorted(provider.has.items())]
    return LEFT_HEADER + ''.join(f'{provider},,{name},{capacity},{used},{left}\n' for provider, name, capacity, used, left in rows)


def request(assignment, query):
    mappings = {}
    for provider, (suffix, _) in zip(assignment, query.slots()):
        mappings.setdefault(suffix, set()).add(provider.name)
    taken = {name: {'resources': amounts} for name, amounts in taken_by(assignment, query).items() if amounts}
    return {'allocations': taken, 'mappings': {suffix: sorted(names) for suffix, names in mappings.items()}}


def list_rows(found, query, cloud, traits=True):
    """What `list` writes of these candidates: a row for each provider of which something is taken. No provider has a name."""
    rows = []
    for number, assignment in enumerate(found, 1):
        taken = taken_by(assignment, query)
        for provider in cloud:
            amounts = taken.get(provider.name)
            if amounts:
                rows.append((number, ','.join(f'{name}={amounts[name]}' for name in sorted(amounts)), provider.name,
                             ','.join(f'{name}={provider.has[name].used}/{provider.has[name].capacity()}' for name in sorted(provider.has)),
                             ','.join(sorted(provider.traits)) if traits else '', ''))
    out = io.StringIO()
    csv.writer(out, lineterminator='\n').writerows([LIST_COLUMNS, *rows])
    return out.getvalue()


def summary(provider, traits=True):
    return {'parent_provider_uuid': provider.parent.name if provider.parent else None,
            'resources': {name: {'capacity': has.capacity(), 'used': has.used} for name, has in provider.has.items()},
            'root_provider_uuid': provider.root().name, 'traits': sorted(provider.traits) if traits else []}


def body(found, query, cloud, traits=True):
    roots = {provider.root().name for assignment in found for provider in assignment}
    whole = {'allocation_requests': [request(assignment, query) for assignment in found],
             'provider_summaries': {provider.name: summary(provider, traits) for provider in cloud if provider.root().name in roots}}
    return json.dumps(whole, sort_keys=True, separators=(',', ':')) + '\n'


def some(chance, values, most):
    return chance.sample(values, chance.randint(0, most))


def draw_inventory(chance):
    total = chance.choice((2, 4, 5, 8))
    return Inventory(total, chance.choice((0, 0, 1)), chance.choice((1, 1, 1, 1, 2)), chance.choice((total, total, 3)),
                     chance.choice((1, 1, 1, 1, 2)), chance.choice((1000000, 1500000, 1200000, 999999, 2000000)), chance.choice((0, 0, 1, 2)))


def fill(inventory, chance):
    """Makes all of an inventory used, or all but one."""
    inventory.used = max(inventory.capacity() - chance.choice((0, 0, 1)), 0)


def draw_cloud(chance):
    cloud = []
    for number in range(1, chance.randint(3, 5) + 1):
        parent = chance.choice([None, *cloud, *cloud])
        has = {name: draw_inventory(chance) for name in sorted(chance.sample(CLASSES, chance.choice((0, 2, 3, 3))))}
        traits = set(some(chance, TRAITS, 1)) | ({SHARES} if chance.random() < 0.25 else set())
        cloud.append(Provider(f'P{number}', parent, has, traits, set(some(chance, AGGREGATES, 1))))
        if SHARES in traits and chance.random() < 0.4:
            for inventory in has.values():
                fill(inventory, chance)
    return cloud


def draw_group(chance, needs):
    required = set(some(chance, TRAITS, 2)) if chance.random() < 0.2 else set()
    forbidden = set(some(chance, TRAITS, 1)) - required if chance.random() < 0.3 else set()
    rules = [(chance.random() < 0.5, some(chance, AGGREGATES, 1) or ['A2'])] if chance.random() < 0.15 else []
    any_of = [chance.sample(TRAITS, chance.randint(1, 2)) for _ in range(chance.randint(1, 2))] if chance.random() < 0.2 else []
    return Group(needs, required, forbidden, any_of, rules, chance.choice(('P1', 'P2', 'P7')) if chance.random() < 0.1 else None)


def draw_needs(chance, most):
    return {name: chance.choice((1, 1, 2)) for name in chance.sample(CLASSES, chance.randint(1, most))}


def draw_query(chance):
    groups = {'': draw_group(chance, draw_needs(chance, 2))} if chance.random() < 0.6 else {}
    suffixes = chance.sample(SUFFIXES, chance.randint(0 if groups else 1, 2))
    groups.update({suffix: draw_group(chance, draw_needs(chance, 2)) for suffix in suffixes})
    subtrees = []
    if suffixes and chance.random() < 0.4:
        group = draw_group(chance, {})
        if group.required or group.forbidden or group.any_of:
            groups['_NUMA'] = group
            subtrees.append([*suffixes, '_NUMA'])
        else:
            subtrees.append(suffixes)
    root = set(some(chance, TRAITS, 1)) if chance.random() < 0.2 else set()
    isolate = chance.random() < 0.4
    told = isolate or sum(bool(groups[suffix].needs) for suffix in suffixes) > 1 or chance.random() < 0.6
    return Query(groups, isolate, told, subtrees, root, set(some(chance, TRAITS, 1)) - root if chance.random() < 0.2 else set())


def names(assignment):
    return ','.join(provider.name for provider in assignment)


def drawn(number, seed=1):
    """Cases over this number of random clouds, each with a query. At least two of three queries have a candidate."""
    chance = random.Random(seed)
    n = 0
    while n < number:
        cloud, query = draw_cloud(chance), draw_query(chance)
        every = list(itertools.product(cloud, repeat=len(list(query.slots()))))
        judged = [judgement(assignment, query, cloud) for assignment in every]
        if n % 3 == 0 or 0 in judged:
            yield from asked(f'drawn {n}', chance, cloud, query, every, judged)
            n += 1


def asked(name, chance, cloud, query, every, judged):
    """Cases for each command over a cloud and a query, by the judgement of every assignment. One assignment is verified: rather one that doesn't break
    rule 1."""
    found = [assignment for assignment, rule in zip(every, judged) if not rule]
    at = chance.randrange(len(every))
    later = [assignment for assignment, rule in zip(every[at + 1:], judged[at + 1:]) if not rule][:2]
    rule = chance.choice(sorted(set(judged) - {1}) or [1])
    one = chance.choice([place for place, other in enumerate(judged) if other == rule])
    line = f'no: rule {rule} {RULES[rule - 1]}\n' if rule else 'candidate\n'
    drawn_text = query.text(chance)
    host = cloud[at % len(cloud)]
    why = why_rows(host.root(), found, drawn_text, query, cloud)
    text, made = full(drawn_text), tables('\n'.join(provider.text() for provider in cloud))
    after = ['--after', full(names(every[at]))]
    older = [] if any(group.any_of for group in query.groups.values()) else [[], ['--microversion', '1.36']]
    version = chance.choice([*older, ['--microversion', '1.39']])
    yield Case(f'{name}: tokens', ['tokens', text, *version], lines(*map(names, found)), tables=made)
    yield Case(f'{name}: candidates', ['candidates', text, *version], full(body(found, query, cloud)), tables=made)
    yield Case(f'{name}: candidates after a token', ['candidates', text + '&limit=2', *after, *version], full(body(later, query, cloud)), tables=made)
    yield Case(f'{name}: candidates without traits', ['candidates', '--no-traits', text, *version], full(body(found, query, cloud, False)), tables=made)
    yield Case(f'{name}: list', ['list', text, *version], full(list_rows(found, query, cloud)), tables=made)
    yield Case(f'{name}: list after a token, without traits', ['list', text + '&limit=2', *after, '--no-traits', *version],
               full(list_rows(later, query, cloud, False)), tables=made)
    own, here = ['--at', full(host.name)], at_root(found, host.root(), query, cloud)
    first = at_root([assignment for assignment, rule in zip(every[at + 1:], judged[at + 1:]) if not rule], host.root(), query, cloud)[:1]
    yield Case(f'{name}: tokens at a host', ['tokens', text, *own, *version], lines(*map(names, here)), tables=made)
    yield Case(f'{name}: candidates at a host', ['candidates', text, *own, *version], full(body(here, query, cloud)), tables=made)
    yield Case(f'{name}: list at a host, after a token', ['list', text + '&limit=1', *own, *after, *version], full(list_rows(first, query, cloud)), tables=made)
    placed, (most, short) = filled(query, cloud), bound(found, query, cloud)
    if len(every) <= 30 and not len(placed) <= longest(query, cloud, {}) <= most:
        raise ValueError(f'{name}: {len(placed)} placements by first fit, and at most {most}, are no bounds')
    yield Case(f'{name}: fill', ['fill', text, *version], lines(*map(names, placed)), status=0 if placed else 1, tables=made)
    yield Case(f'{name}: fill up to a limit', ['fill', text + '&limit=2', *version], lines(*map(names, placed[:2])), status=0 if len(placed) > 1 else 1, tables=made)
    limit = chance.choice(['', '&limit=1'])
    yield Case(f'{name}: fill, in sum', ['fill', '--sum', text + limit, *version], sum_text(len(placed), most, short), status=0 if placed else 1, tables=made)
    wanted = chance.randrange(3)
    rows = [capacity_row(flavor, count, found, placed, most, short, query, cloud) for flavor, count in (('one', 1), ('some, "quoted"', wanted))]
    flavors = written([['query', 'wanted', 'flavor'], [text, '', 'one'], [text, wanted, 'some, "quoted"']])
    yield Case(f'{name}: capacity', ['capacity', *version], written([CAPACITY, *rows]), status=0 if len(placed) >= max(1, wanted) else 1,
               tables={**made, 'flavors': flavors})
    yield Case(f'{name}: capacity, as metrics', ['capacity', '--prometheus', *version], metrics_of(rows), status=0 if len(placed) >= max(1, wanted) else 1,
               tables={**made, 'flavors': flavors})
    yield Case(f'{name}: explain', ['explain', text, *version], full(explanation(found, query, cloud)), status=0 if found else 1, tables=made)
    yield Case(f'{name}: hosts', ['hosts', text, *version], full(host_rows(found, drawn_text, query, cloud)), status=0 if found else 1, tables=made)
    noted = ''.join(line + '\n' for line in difference_lines(True, query, cloud))
    yield Case(f'{name}: tokens, in detail', ['tokens', '--detail', text, *version], lines(*map(names, found)), noted, tables=made)
    yield Case(f'{name}: hosts, in detail', ['hosts', '--detail', text, *version], full(host_rows(found, drawn_text, query, cloud)), noted, 0 if found else 1, made)
    yield Case(f'{name}: fill, in detail', ['fill', '--detail', '--sum', text, *version], sum_text(len(placed), most, short), noted, 0 if placed else 1, made)
    within = chance.choice(AGGREGATES)
    fit = any(lacks(root, found, query, cloud) == ('', '') for root in roots_of(cloud, within))
    yield Case(f'{name}: hosts of an aggregate', ['hosts', '--in', full(within), text, *version], full(host_rows(found, drawn_text, query, cloud, within)),
               status=0 if fit else 1, tables=made)
    yield Case(f'{name}: hosts of an aggregate, in sum', ['hosts', '--sum', '--in', full(within), text, *version], host_sums(found, query, cloud, within),
               status=0 if fit else 1, tables=made)
    yield Case(f'{name}: hosts, in sum', ['hosts', '--sum', text, *version], host_sums(found, query, cloud), status=0 if found else 1, tables=made)
    yield Case(f'{name}: hosts that fit', ['hosts', '--fits', text, *version], full(host_rows(found, drawn_text, query, cloud, fitting=True)),
               status=0 if found else 1, tables=made)
    yield Case(f'{name}: hosts of an aggregate that fit', ['hosts', text, '--in', full(within), '--fits', *version],
               full(host_rows(found, drawn_text, query, cloud, within, True)), status=0 if fit else 1, tables=made)
    yield Case(f'{name}: hosts that fit, in sum', ['hosts', '--fits', '--sum', text, *version],
               written([['hosts', 'slot', 'lacks', 'asks'], [lacking(found, query, cloud)[0], '', 'fits', '']]), status=0 if found else 1, tables=made)
    yield Case(f'{name}: why', ['why', text, full(host.name), *version], full(why), status=0 if why.endswith(',fits\n') else 1, tables=made)
    yield Case(f'{name}: verify', ['verify', text, full(names(every[one])), *version], line, status=1 if rule else 0, tables=made)
    told = f'{line[:-1]}: {broken_detail(every[one], RULES[rule - 1], drawn_text, query, cloud)}\n' if rule else line
    yield Case(f'{name}: verify, in detail', ['verify', '--detail', text, full(names(every[one])), *version], full(told), status=1 if rule else 0, tables=made)
