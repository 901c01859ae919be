"""What a bound on tries cuts off. How often a search tries is counted by hand: once for each choice that it looks at, slot by slot."""
from __future__ import annotations

from cases import CHILD, FIVE_AND_FIVE, Case, lines, tables
from cliffs import FUNCTIONS, OTHER_NETWORK, groups
from hostile import LIMITED
from notation import HEADERS, full

STOPPED = 'search: TooManyTries\n'
FIVE = 'resources=VCPU:5'
BODY = ('{"allocation_requests":[{"allocations":{"P1":{"resources":{"VCPU":5}},"P2":{"resources":{"VCPU":5}}},'
        '"mappings":{"1":["P1"],"2":["P2"]}}')
HEADER = '#,allocation,resource provider,inventory used/capacity,traits,name\n'

# Five groups for any function of a host, which take those of the second network first, and then as many for that one as it has functions.
ANY_THEN_ONE = groups(10, 14, 'resources{0}=SRIOV_NET_VF:1') + '&' + groups(20, 22, OTHER_NETWORK) + '&group_policy=isolate'


def within(tries, words, out='', stops=True):
    """A command over two providers that five and five fit in two ways, with so many tries."""
    name = ' '.join(words[:1] + words[2:])
    return Case(f'with {tries} tries: {name}, {words[1][9:18]}', [*words[:1], *map(full, words[1:]), '--tries', str(tries)], out, STOPPED if stops else '',
                8 if stops else 0, tables(CHILD))


# The root and a node: 1 beside 1 has no room, 1 beside 2 has, then 2 beside 1, and 2 beside 2 has none.
TOKENS = lines('P1,P2', 'P2,P1')


def tries(program):
    """The cases, of which the last runs this program within limits."""
    for number, found in enumerate((0, 0, 0, 1, 1, 2)):
        yield within(number, ['tokens', FIVE_AND_FIVE], ''.join(TOKENS.splitlines(True)[:found]))
    yield within(6, ['tokens', FIVE_AND_FIVE], TOKENS, stops=False)
    yield within(2147483647, ['tokens', FIVE_AND_FIVE], TOKENS, stops=False)
    yield within(3, ['tokens', FIVE_AND_FIVE + '&limit=1'], lines('P1,P2'), stops=False)
    yield within(3, ['tokens', FIVE_AND_FIVE, '--after', 'P1,P2'], lines('P2,P1'))
    yield within(4, ['tokens', FIVE_AND_FIVE, '--after', 'P1,P2'], lines('P2,P1'), stops=False)
    yield within(2, ['candidates', FIVE_AND_FIVE], BODY[:24])
    yield within(4, ['candidates', FIVE_AND_FIVE], full(BODY))
    yield within(2, ['list', FIVE_AND_FIVE], HEADER)
    # Each provider has room for one: a try places it, and there is no third.
    yield within(0, ['fill', FIVE])
    yield within(1, ['fill', FIVE], lines('P1'))
    yield within(2, ['fill', FIVE], lines('P1', 'P2'), stops=False)
    yield within(1, ['fill', FIVE, '--sum'])
    yield within(0, ['hosts', FIVE])
    yield within(0, ['explain', FIVE])
    yield within(0, ['why', FIVE, 'P1'])
    # A session goes on behind a search that stopped, and nothing was taken: then a claim takes one, and for the other a try is enough.
    asked = (('4', f'tokens {FIVE_AND_FIVE}', 'P1,P2\n= 8 ' + STOPPED), ('4', f'tokens {FIVE_AND_FIVE}&limit=1', 'P1,P2\n= 0\n'),
             ('1', f'fill {FIVE}', 'P1\n= 8 ' + STOPPED), ('1', 'usages', HEADERS['usages'] + '= 0\n'), ('1', f'claim {FIVE} P1', 'claimed\n= 0\n'),
             ('1', f'fill {FIVE}', 'P2\n= 0\n'))
    for number in '4', '1':
        some = [(question, answer) for of, question, answer in asked if of == number]
        yield Case(f'with {number} tries: a session', ['session', '--tries', number], full(''.join(answer for _, answer in some)), tables=tables(CHILD),
                   given=full(''.join(f'{question}\n' for question, _ in some)).encode())
    # What is refused is told first.
    yield Case('with 0 tries: a refused query', ['tokens', 'resources=', '--tries', '0'], '', 'query: pair 1: BadValue\n', 4, tables(CHILD))
    for command in 'tokens', 'hosts', 'explain', 'fill':
        yield Case(f'with 100000 tries: {command}, any function before those of a network', ['sh', '-c', LIMITED.format(1), 'limited', program, command, ANY_THEN_ONE,
                                                                                          '--tries', '100000'], '', STOPPED, 8, FUNCTIONS)
