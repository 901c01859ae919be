#!/usr/bin/env python3
"""tests/memory/growths.py PROGRAM WORDS..: runs the program with these words again and again. In each run one memory allocation (a *growth*) is
refused: the first, then the second and so on, until a run has no more. A run may answer as with ample memory; or it may say `out of memory` with status
7, after at most a first part of that answer. The first run has to do the latter. The script writes what else happened, or how many growths there were.
Each run is given what stands on standard input."""
from __future__ import annotations

import os
import shutil
import subprocess
import sys
import tempfile

REFUSER = os.path.join(os.path.dirname(os.path.abspath(__file__)), 'refuse.c')
MEMORY = b'out of memory\n', 7
MOST = 100000


def refuser(folder):
    """Makes the library that refuses growths, in this folder."""
    library = os.path.join(folder, 'refuse.so')
    subprocess.run(['cc', '-shared', '-fPIC', '-O', '-o', library, REFUSER], check=True)
    return library


def run(words, library, number, mark=0, given=b''):
    """Runs these words, with this on standard input. It returns what came on both streams, the status, and how many growths were refused. Refused are the
    one of this number, and all from one of the size `mark` up to the next of that size, both included."""
    read, write = os.pipe()
    ran = subprocess.run(words, input=given, capture_output=True, pass_fds=(write,),
                         env={**os.environ, 'LD_PRELOAD': library, 'REFUSE': str(number), 'REFUSE_BETWEEN': str(mark), 'REFUSED': str(write)})
    os.close(write)
    refused = len(os.read(read, MOST))
    os.close(read)
    return ran.stdout, ran.stderr, ran.returncode, refused


def wrong(number, whole, ran):
    """What a run without this growth did that it may not do, or None."""
    out, err, status, _ = ran
    if (err, status) == MEMORY and whole[0].startswith(out):
        return None
    if number > 1 and (out, err, status) == whole[:3]:
        return None
    return f'growth {number} was refused: status {status}, {err[:200]!r}, {out[:200]!r}'


def main(*words):
    if not shutil.which('cc'):
        print('there is no C compiler, cc, to make tests/memory/refuse.c with')
        return 1
    with tempfile.TemporaryDirectory() as folder:
        library = refuser(folder)
        given = b'' if sys.stdin.isatty() else sys.stdin.buffer.read()
        whole = run(words, library, 0, given=given)
        for number in range(1, MOST):
            ran = run(words, library, number, given=given)
            if not ran[3]:
                break
            why = wrong(number, whole, ran)
            if why:
                print(why)
                return 1
    print(f'{number - 1} growths, each refused once')
    return 0 if number > 1 and ran == whole else 1


if __name__ == '__main__':
    sys.exit(main(*sys.argv[1:]))
