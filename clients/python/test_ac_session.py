"""What the examples in ac_session.py don't show. `python3 clients/python/test_ac_session.py PROGRAM`, at the top of the repository, says nothing if all is well."""
import os
import sys
import tempfile

sys.dont_write_bytecode = True
from ac_session import Count, Ended, Placement, Refused, Session  # noqa: E402

PROGRAM = sys.argv[1]
CLOUD = 'examples/cloud'
VCPU = 'resources=VCPU:2'


def refused_by(fault, call):
    try:
        call()
    except fault as found:
        return found
    raise AssertionError(f'{fault.__name__} was not raised')


def faked(answer):
    """A program that answers each question so."""
    with tempfile.NamedTemporaryFile('w', suffix='.sh', delete=False) as script:
        script.write(f"#!/bin/sh\nwhile read -r line; do\ncat <<'END'\n{answer}\nEND\ndone\n")
    os.chmod(script.name, 0o755)
    return script.name


# Placed until it is full, as many as `count` says; released, everything is as before.
with Session(CLOUD, program=PROGRAM) as session:
    before, most = session.usages(), session.count(VCPU)
    placed = list(iter(lambda: session.place(VCPU + '&limit=7'), None))
    assert most == Count(len(placed), len(placed), {'VCPU': 2}), most
    assert session.tokens(VCPU) == [] and not any(host.fits for host in session.hosts(VCPU)) and session.hosts(VCPU, fits=True) == []
    assert session.explain(VCPU)[-1].endswith('has room for it') and session.why(VCPU, 'compute-02')[-1]['slot'] == 'verdict'
    assert session.claim(VCPU, placed[0].token) is None
    assert all(session.release(one) for one in placed) and session.usages() == before
    assert not session.release(placed[0]._replace(query='resources=VCPU:1000'))
    assert len(session.fill(VCPU + '&limit=4')) == 4 and session.count(VCPU).at_most == len(placed) - 4
    found = session.tokens('resources=VCPU:1')
    assert session.tokens('resources=VCPU:1', after=found[0]) == found[1:]
    assert len(session.candidates('resources=VCPU:1')['allocation_requests']) == len(found)

# What is changed is changed before the first question; a fault ends the session.
with Session(CLOUD, program=PROGRAM, change=['remove compute-02', 'set * VCPU max_unit 1']) as session:
    assert session.tokens(VCPU) == [] and len(session.tokens('resources=VCPU:1')) == 2
with Session(CLOUD, program=PROGRAM, change=['disable nobody']) as session:
    assert str(refused_by(Ended, lambda: session.tokens(VCPU))) == 'change: line 1: UnknownHost'

# Claims by name: each is placed, moved and given back by it; what fails changes nothing.
ONE, OTHER, FULL = '6a90b2f4-c71d-4e05-a5c8-20f3e8d71b03', '3c5e81d7-02a9-4f6b-8e34-b19d6a7f0c02', 'b48d0f61-9e2c-4c7a-83d5-e6047b15ac05'
SIX = 'resources=VCPU:6'
with Session(CLOUD, program=PROGRAM) as session:
    before = session.usages()
    assert session.claim(SIX, ONE, 'one') == (SIX, ONE) and session.claim(VCPU, OTHER, 'one') is None and session.claim('x', 'y', 'one') is None
    assert session.place(SIX + '&limit=7', 'two') == (SIX + '&limit=7', OTHER) and session.place(VCPU, 'two') is None and session.place(SIX, 'three') is None
    assert {place: used - before[place] for place, used in session.usages().items() if used != before[place]} == {(ONE, 'VCPU'): 6, (OTHER, 'VCPU'): 6}
    then = session.usages()
    assert not any(session.move(name, token) for name, token in (('one', OTHER), ('one', FULL), ('one', ONE[:-1] + '4'), ('three', ONE), ('three', 'x')))
    assert refused_by(Refused, lambda: session.move('one', 'x')).line == 'token: BadToken' and session.usages() == then
    assert session.release('two') and not session.release('two') and session.move('one', OTHER) and session.claim(SIX, ONE, 'two')
    assert session.usages() == then
    assert session.release(Placement(SIX, ONE)) and not session.release('two') and not session.move('two', ONE) and session.claim(SIX, ONE, 'two') is None
    assert session.claim(SIX, ONE) and session.release('one') and session.release('two') and session.usages() == before
    for odd in '=', '#', '"', 'x' * 65536:
        assert session.place(VCPU, odd) and session.place(VCPU, odd) is None and session.move(odd, ONE) and session.release(odd), odd[:9]
    for call in (lambda: session.claim(VCPU, ONE, ''), lambda: session.place(VCPU, 'a b'), lambda: session.place(VCPU, ''),
                 lambda: session.place(VCPU, at='a b'), lambda: session.release(''), lambda: session.move('', ONE)):
        refused_by(ValueError, call)
    assert session.usages() == before

# Placements at a host, and by one question each: what is placed is what is given back, whatever the limit, and behind the path of a URL.
with Session(CLOUD, program=PROGRAM) as session:
    before = session.usages()
    assert session.place(VCPU, at='compute-02') == (VCPU, FULL) and session.place(VCPU, at='compute-02') is None
    assert session.place(VCPU, 'at', at=OTHER) == (VCPU, OTHER) and session.place(VCPU, 'at', at='nowhere') is None
    assert session.place(VCPU, 'two', at='storage-01') is None
    assert refused_by(Refused, lambda: session.place(VCPU, at='nowhere')).line == 'host: Unknown'
    assert refused_by(Refused, lambda: session.place('resources=VCPU:two', 'two', at='nowhere')).line == 'query: pair 1: BadValue'
    assert not session.release('two') and session.release('at') and not session.release('at') and session.release(Placement(VCPU, FULL))
    for query in VCPU + '&limit=7', 'limit=3&' + VCPU, 'http://controller:8778/allocation_candidates?' + VCPU:
        assert session.release(session.place(query)) and session.release(session.place(query, at='compute-01')), query
        assert session.place(query, 'one') and session.release('one'), query
    assert session.usages() == before
    asked, session._write = [], lambda words, write=session._write: (asked.append(words), write(words))
    placed = session.place(VCPU, 'one', at='compute-01')
    assert asked == [('place', VCPU, 'one', 'at', 'compute-01')] and placed == (VCPU, OTHER), asked

# Marks: all since the last one is undone, with names, also where what is tried fails; one trial may stand in another.
with Session(CLOUD, program=PROGRAM) as session:
    before, most = session.usages(), session.count(VCPU).at_most
    assert not session.back() and session.place(SIX, 'one').token == OTHER and session.mark() is None
    then = session.usages()
    assert session.release('one') and session.place(VCPU, 'one', at='compute-02') and session.fill(VCPU) and session.usages() != then
    assert session.back() and not session.back() and session.usages() == then and session.place(VCPU, 'one') is None
    with session.trial():
        assert session.release('one') and session.usages() == before and len(session.fill(VCPU)) == most
        full = session.usages()
        with session.trial():
            assert session.release(Placement(VCPU, FULL)) and session.usages() != full
        assert session.usages() == full and not session.release('one')
    assert session.usages() == then and session.move('one', ONE)

    def fails():
        with session.trial():
            assert session.place(VCPU, 'two')
            session.tokens('resources=VCPU:two')

    assert refused_by(Refused, fails).status == 4 and not session.release('two') and not session.back()
    assert session.release('one') and session.usages() == before

# A question that is refused changes nothing; one with blanks isn't asked.
with Session(CLOUD, '--tries', '1', program=PROGRAM) as session:
    assert refused_by(Refused, lambda: session.tokens('resources=VCPU:1&resources1=VCPU:1&group_policy=none')).status == 8
    assert refused_by(Refused, lambda: session.place('resources=VCPU:1&resources1=VCPU:1&group_policy=none', 'one')).status == 8 and not session.release('one')
    assert refused_by(Refused, lambda: session.ask('nothing')).line == 'session: unknown command'
    refused_by(ValueError, lambda: session.tokens('resources=VCPU:1 '))
    refused_by(ValueError, lambda: session.ask('check\ncheck'))
    assert session.ask('check').status == 0

# Answers that are larger than what a pipe holds, while questions are still written; and a question that can't be asked among them.
with Session('examples/private', program=PROGRAM) as session:
    answers = [answer for answer in session.many(('candidates', f'resources=VCPU:{n % 8 + 1}') for n in range(2000))]
    assert len(answers) == 2000 and all(answer.status == 0 and answer.lines for answer in answers)
    refused_by(ValueError, lambda: list(session.many([('check',), ('tokens', 'a b')])))

# The blank before a line of an answer is taken off; a session that ends says with what.
fake = faked(' = 0\n  two blanks\nplain\n= 0')
with Session(CLOUD, program=fake) as session:
    assert session.ask('check').lines == ['= 0', ' two blanks', 'plain']
os.unlink(fake)
ended = refused_by(Ended, lambda: Session('no_such_folder', program=PROGRAM).ask('check'))
assert (ended.status, ended.line) == (3, 'providers: Unreadable'), ended
