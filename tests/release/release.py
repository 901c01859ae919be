"""Cases for ./ac_cli where a clone has no program yet: what a release gives there, what is said without one, and the Debian package. The machine that they
run on is made to have no `rt`."""
from __future__ import annotations

import atexit
import functools
import os
import shutil
import tempfile

from cases import SOME, Case

ROOT = os.path.dirname(os.path.dirname(os.path.dirname(os.path.abspath(__file__))))
NO_PROGRAM = 70
UNBUILT = "ac_cli: the program isn't built, or is older than its sources; ./ac_cli without words proves and builds it\n"
NO_RT = ("ac_cli: these sources aren't those of the release, and rt, which alone can build them, isn't on the PATH (README.md says where it is from)\n")
BROKEN = ("ac_cli: release/ac_cli.gz isn't the file that release/MANIFEST names; `git checkout release` restores it, AC_CLI_BUILD=yes ./ac_cli builds one\n")
# Commands that a user finds first, with the status of each: the tables are those of examples/cloud.
ANSWERS = {
    'check --tables examples/cloud': 0,
    '"explain" "resources=VCPU:1" --tables examples/cloud': 0,
    '"explain" "resources=VCPU:999999" --tables examples/cloud': 1,
    'tokens': 2,
    'check --tables examples/cloud --traits examples/providers.csv': 2,
    'check --providers examples/inventories.csv --inventories examples/inventories.csv': 3,
    'tokens "" --tables examples/cloud': 4,
    'verify "resources=VCPU:1" x --tables examples/cloud': 5,
    'tokens "resources=VCPU:1" --tables examples/cloud >/dev/full': 6,
    'session --tables examples/cloud </dev/null': 0,
}


def contents(path):
    with open(os.path.join(ROOT, path), encoding='utf-8') as file:
        return file.read()


def without_program(name, script, out='', err='', status=0):
    """A case that runs ./ac_cli as in a clone without a release, on a machine without `rt`."""
    made = 'room=$(mktemp -d) && cp -r ac_cli crates.txt "$room" && mkdir "$room/docs" && cp -r docs/help "$room/docs" && cd "$room" || exit'
    called = f'{made}; PATH=/usr/bin:/bin; {script}; status=$?; rm -r "$room"; exit $status'
    return Case(f'without a program: {name}', ['sh', '-c', called], out, err, status)


@functools.cache
def clone():
    """A clone of what stands here, without git."""
    room = os.path.join(tempfile.mkdtemp(prefix='released-'), 'ac')
    atexit.register(shutil.rmtree, os.path.dirname(room), ignore_errors=True)
    shutil.copytree(ROOT, room, ignore=shutil.ignore_patterns('out', '.git', 'must-fail', '__pycache__'))
    os.chmod(os.path.dirname(room), 0o755)
    return room


def released(name, script, out='', err='', status=0):
    """A case that runs a script in a clone of its own, by bash, without `rt` on the PATH."""
    made = f'set -u; room=$(mktemp -d) && trap \'rm -rf "$room"\' EXIT && cp -rp "$0/." "$room" && chmod 755 "$room" && cd "$room" && rm -rf out || exit; PATH=/usr/bin:/bin'
    return Case(f'a release: {name}', ['sh', '-c', 'exec bash -c "$1" "$0"', clone(), f'{made}\n{script}'], out, err, status)


TURNED = 'printf x | dd of=release/ac_cli.gz bs=1 seek=5000 conv=notrunc 2>/dev/null'
BY_NOBODY = 'if test "$(id -u)" = 0; then chmod -R go+rX . && run() { setpriv --reuid=65534 --regid=65534 --clear-groups "$@"; }; else chmod a-w . && run() { "$@"; }; fi'
FAKE = 'mkdir rt-here && printf \'#!/bin/sh\\necho "$@" >>"%s/asked"\\ntest "$1" != version\' "$PWD" >rt-here/rt && chmod +x rt-here/rt && PATH=$PWD/rt-here:$PATH'


def releases(sample):
    """Cases over the release that stands here; `sample` is what the program says without words."""
    shells = [shell for shell in ('bash', 'dash', 'busybox sh') if shutil.which(shell.split()[0])]
    # By the time of a processor and not by the clock, which counts what else runs on the machine.
    spent = 'tail -n 1 spent | tr ms "  " | awk \'{ exit !($1 + $3 == 0 && $2 + $4 < 1) }\''
    yield from (released(f'the first answer takes less than a second of a processor, by {shell}', f'bash -c "{shell} ./ac_cli; times >spent"; {spent}', sample) for shell in shells)
    yield released('in a clone by git too', 'git init -q . && git add -A . && ./ac_cli', sample)
    yield released('a second call unpacks nothing', './ac_cli >/dev/null && mv release elsewhere && ./ac_cli', sample)
    yield released('two first calls at once', './ac_cli >one & ./ac_cli >two; wait; cat one two; ls out', sample * 2 + 'ac_cli\n')
    yield released('a clone that cannot be written to', f'{BY_NOBODY}; mkdir /tmp/$$ && chmod 777 /tmp/$$ && export TMPDIR=/tmp/$$; run ./ac_cli; ls -d out; ls /tmp/$$; rm -r /tmp/$$',
                   sample, "ls: cannot access 'out': No such file or directory\n")
    yield released('help, and the version', './ac_cli --help && ./ac_cli help why && ./ac_cli --version',
                   ''.join(contents(f'docs/help/{name}.txt') for name in ('ac_cli', 'why', 'version')))
    yield from (Case(f'a release: status {status}: {words}', ['sh', '-c', f'exec 2>&1; "$0"/ac_cli {words}', clone()], '' if '</dev' in words else SOME, status=status)
                for words, status in ANSWERS.items())
    yield released('a broken file is refused', f'{TURNED}; ./ac_cli 2>said; status=$?; tail -n 1 said; ls out; exit $status', BROKEN, status=NO_PROGRAM)
    yield released('a source that was touched is still the same', './ac_cli >/dev/null && touch crates/ac_base/src/lib.rt && ./ac_cli', sample)
    yield released('other sources', 'echo "// more" >>crates/ac_base/src/lib.rt; ./ac_cli', err=NO_RT, status=NO_PROGRAM)
    yield released('other sources, with a program of the release', './ac_cli >/dev/null; sleep 0.01; echo "// more" >>crates/ac_base/src/lib.rt; ./ac_cli', err=NO_RT, status=NO_PROGRAM)
    yield released('other sources, and help', 'echo "// more" >>crates/ac_base/src/lib.rt; ./ac_cli why --help', contents('docs/help/why.txt'))
    yield released('a build is wanted, without rt', 'AC_CLI_BUILD=yes ./ac_cli', err=NO_RT, status=NO_PROGRAM)
    yield released('a build is wanted', f'{FAKE}; AC_CLI_BUILD=yes ./ac_cli >/dev/null 2>&1; status=$?; grep -o "^ci" asked | uniq; exit $status', 'ci\n', status=NO_PROGRAM)
    yield released('it is what the package has, installed in a folder of its own',
                   'tools/package /tmp/$$.deb >/dev/null && dpkg-deb -x /tmp/$$.deb there; rm -f /tmp/$$.deb; cd there/usr && bin/ac_cli && '
                   'bin/ac_cli check --tables share/doc/ac-cli/examples/cloud >/dev/null && if command -v man >/dev/null; then man -l --warnings share/man/man1/ac_cli.1.gz 2>&1 >/dev/null | head -3; fi; '
                   'ls share/bash-completion/completions share/zsh/vendor-completions share/doc/ac-cli',
                   f'{sample}share/bash-completion/completions:\nac_cli\n\nshare/doc/ac-cli:\ncopyright\nexamples\n\nshare/zsh/vendor-completions:\n_ac_cli\n')
