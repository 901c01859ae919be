#!/usr/bin/env python3
"""tests/memory/refusals.py CRATE [MODULE]: runs each test of the crate's modules `refusals`, or of those below MODULE, again and again. In each run one
memory allocation (a *growth*) is refused: the first, then the second and so on, until a run has no more. Such a test makes one call that takes memory.
It passes if the call answers as with ample memory, or says that memory ran out, and fails if the call answers anything else. The script writes which
growth made which test fail, or how many growths there were.

A test named `.._takes_no_memory_to_go_on` asks for two growths of the size MARK. It is run once more, and each growth from the first of the two up to
the second is refused. It must pass, and must have asked for no growth between the two.

The tests are those that were proved and built last, crates/CRATE/out/CRATE_tests: `rt ci` leaves them, and `rt test` makes them."""
from __future__ import annotations

import glob
import os
import shutil
import subprocess
import sys
import tempfile

from growths import MOST, refuser, run

# The same size as MARK in the tests.
MARK = 40961
GOES_ON = '_takes_no_memory_to_go_on'
ROOT = os.path.dirname(os.path.dirname(os.path.dirname(os.path.abspath(__file__))))


def missing(crate, program):
    """What these runs need and isn't there, or None."""
    if not shutil.which('cc'):
        return 'there is no C compiler, cc, to make tests/memory/refuse.c with'
    if not os.path.isfile(program):
        return f'there is no {os.path.relpath(program, ROOT)}: `rt test` in crates/{crate} makes it'
    sources = glob.glob(os.path.join(ROOT, 'crates', crate, 'src', '**', '*.rt'), recursive=True)
    if max(map(os.path.getmtime, sources)) > os.path.getmtime(program):
        return f'{os.path.relpath(program, ROOT)} is older than its sources: `rt test` in crates/{crate} makes it anew'
    return None


def tests(program, module):
    said = subprocess.run([program, '--list'], capture_output=True, text=True, check=True).stdout
    names = [line.removesuffix(': test') for line in said.splitlines() if line.endswith(': test')]
    return [name for name in names if '::refusals::' in name and name.startswith(module)]


def failed(program, name, library):
    """Why the test fails if one of its growths is refused, or None; and how many growths it has."""
    for number in range(MOST):
        _, err, status, refused = run([program, name], library, number)
        if status != 0:
            return f'{name} fails where growth {number} is refused: {err[-300:]!r}', number
        if number > 0 and not refused:
            return (None if number > 1 else f'{name} needs no memory'), number - 1
    return f'{name} has no end', MOST


def took(program, name, library):
    """What a test did that must take no memory, or None if it took none."""
    _, err, status, refused = run([program, name], library, 0, MARK)
    if status != 0:
        return f'{name} fails where each growth between its marks is refused: {err[-300:]!r}'
    return None if refused == 2 else f'{name} was refused {refused} growths from its first mark to its last, and not these two alone'


def main(crate, module=''):
    program = os.path.join(ROOT, 'crates', crate, 'out', f'{crate}_tests')
    why = missing(crate, program)
    if why:
        print(why)
        return 1
    names = tests(program, module)
    with tempfile.TemporaryDirectory() as folder:
        library = refuser(folder)
        found = [failed(program, name, library) for name in names]
        more = [took(program, name, library) for name in names if name.endswith(GOES_ON)]
    wrong = [why for why in [*(why for why, _ in found), *more] if why]
    print(*wrong, sep='\n', end='\n' if wrong else '')
    print(f'{len(names)} tests, {sum(count for _, count in found)} growths, each refused once; {len(more)} tests with all growths refused in between')
    return 0 if names and not wrong else 1


if __name__ == '__main__':
    sys.exit(main(*sys.argv[1:]))
