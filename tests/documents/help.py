#!/usr/bin/env python3
"""tests/documents/help.py: checks that the manual page and what shells complete are what tools/make-help.py makes of the texts of help in docs/help, and that
bash and zsh complete so. It writes a line for each difference; the status is 0 only if there is none. tests/program.py tests that the texts are the
program's own."""
from __future__ import annotations

import importlib.util
import os
import shutil
import subprocess
import sys

ROOT = os.path.dirname(os.path.dirname(os.path.dirname(os.path.abspath(__file__))))
BASH, ZSH = 'tools/completions/ac_cli.bash', 'tools/completions/_ac_cli'
SPEC = importlib.util.spec_from_file_location('make_help', os.path.join(ROOT, 'tools', 'make-help.py'))
help = importlib.util.module_from_spec(SPEC)
sys.modules['make_help'] = help
SPEC.loader.exec_module(help)


def same():
    for path, words in help.made().items():
        with open(os.path.join(ROOT, path), encoding='utf-8') as file:
            if file.read() != words:
                yield f'{path} is another one: tools/make-help.py makes it anew'


def completed(*words):
    """What bash completes for the last of these words."""
    script = 'source "$0"; COMP_WORDS=(ac_cli "$@"); COMP_CWORD=$#; _ac_cli ac_cli "${COMP_WORDS[-1]}" "${COMP_WORDS[-2]}"; printf "%s\\n" "${COMPREPLY[@]}"'
    ran = subprocess.run(['bash', '-c', script, BASH, *words], cwd=ROOT, capture_output=True, text=True)
    return set(ran.stdout.split()) if not ran.stderr else {ran.stderr}


def by_bash():
    commands = help.commands()
    wanted = {('',): {*commands, 'help', '--help', '--version'}, ('help', ''): {*commands, 'help'}, ('tok',): {'tokens'},
              ('tokens', '--a'): {'--aggregates', '--after', '--at'}, ('check', '--tables', 'exam'): {'examples'}, ('why', '--microversion', ''): {'1.36', '1.37', '1.38', '1.39'},
              ('list', '--usages', 'examples/prov'): {'examples/providers.csv'}, ('tokens', '--after', ''): set(), **{('hosts', name, ''): {'csv', 'table', 'json'} for name in ('-f', '--format')},
              **{(name, '--'): {help.long(option) for option in help.options(said)} for name, said in commands.items()}}
    yield from (f'{BASH}: behind {words} it completes {sorted(completed(*words))}, and not {sorted(says)}' for words, says in wanted.items()
                if completed(*words) != says)


def by_zsh():
    if shutil.which('zsh'):
        yield from (f'{ZSH}: {line}' for line in subprocess.run(['zsh', '-n', ZSH], cwd=ROOT, capture_output=True, text=True).stderr.splitlines())


if __name__ == '__main__':
    said = [*same(), *by_bash(), *by_zsh()]
    print(''.join(line + '\n' for line in said), end='')
    sys.exit(1 if said else 0)
