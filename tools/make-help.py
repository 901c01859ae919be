#!/usr/bin/env python3
"""tools/make-help.py [--program]: makes the manual page (docs/ac_cli.1) and what bash and zsh complete (tools/completions) of the texts of help in docs/help.
With --program the built program first writes these texts anew. The program's own help is so the one place where commands, options and statuses are told."""
from __future__ import annotations

import os
import re
import subprocess
import sys
from dataclasses import dataclass

ROOT = os.path.dirname(os.path.dirname(os.path.abspath(__file__)))
FOLDER = os.path.join(ROOT, 'docs', 'help')


@dataclass
class Option:
    """A line of help about an option: `-h, --help` or `--tables <DIR>`, and what it says."""
    names: list
    value: str
    told: str


def text(name):
    with open(os.path.join(FOLDER, name + '.txt'), encoding='utf-8') as file:
        return file.read()


def part(help, heading):
    """The lines below a heading of a help."""
    found = re.search(rf'^{heading}:\n((?:  .*\n)+)', help, re.M)
    return found[1].splitlines() if found else []


def pairs(help, heading):
    """The words and what is told of each, below a heading."""
    return [re.split(r'  +', line.strip(), maxsplit=1) for line in part(help, heading)]


def options(help):
    found = []
    for words, told in pairs(help, 'Options'):
        names = re.findall(r'(?<![\w<-])--?[A-Za-z][\w-]*', words)
        found.append(Option(names, (re.findall(r'<(\w+)>', words) or [''])[0], told))
    return found


def commands():
    """The commands, with the help of each, in the order of the program's help."""
    return {name: text(name) for name, _ in pairs(text('ac_cli'), 'Commands') if name != 'help'}


def values(option):
    """The values that its help names: versions, or forms."""
    form = r'`(\w+)`' if option.value == 'FORM' else r'\b\d+\.\d+\b(?!\])'
    return ' '.join(dict.fromkeys(re.findall(form, option.told)))


# ---- the manual page

def roff(words):
    words = words.replace('\\', '\\e').replace('-', '\\-')
    return re.sub(r"^([.'])", r'\\&\1', re.sub(r'`([^`]*)`', r'\\fB\1\\fR', words))


def bold(words):
    return f'\\fB{roff(words)}\\fR'


def italic(words):
    return f'\\fI{roff(words)}\\fR'


def items(told):
    return ''.join(f'.TP\n{word}\n{roff(says)}\n' for word, says in told)


def shown(option):
    return ', '.join(map(bold, option.names)) + (' ' + italic(option.value) if option.value else '')


def manual():
    own, of = text('ac_cli'), commands()
    version = text('version').split()[1].rstrip(',')
    every = {}
    for name, help in of.items():
        for option in options(help):
            every.setdefault((*option.names, option.told), (option, []))[1].append(name)
    usages = [line for help in of.values() for line in re.findall(r'^(?:Usage:|      ) (ac_cli .*)$', help, re.M)]
    synopsis = ''.join(re.sub(r'<(\w+)>', r'\\fI\1\\fR', roff(line)) + '\n' for line in usages)
    told = [(shown(option), option.told + ('' if len(names) == len(of) else ' (' + ', '.join(f'`{name}`' for name in names) + ')'))
            for option, names in every.values()]
    told.append((shown(next(option for option in options(own) if '--version' in option.names)), 'Print version'))
    words = {word.strip('<>'): says for help in of.values() for word, says in pairs(help, 'Arguments')}
    examples = ''.join(roff(help.rstrip('\n').rpartition('\n')[2].strip()) + '\n' for help in of.values())
    parts = {'NAME': 'ac_cli \\- which hosts OpenStack Placement could give, and why not the others\n',
             'SYNOPSIS': f'.nf\n{synopsis}.fi\n',
             'DESCRIPTION': roff(own.splitlines()[0]) + '.\n',
             'COMMANDS': items((bold(name), help.splitlines()[0] + '.') for name, help in of.items()),
             'ARGUMENTS': items((italic(word), says) for word, says in words.items()),
             'OPTIONS': items(told) + f'.PP\nPut {bold("--")} before a query or a token that begins with {bold("-")}.\n',
             'EXIT STATUS': items((bold(status), says) for status, says in pairs(own, 'Exit status')),
             'EXAMPLES': f'With the five tables of an export in the folder cloud:\n.PP\n.nf\n.RS\n{examples}.RE\n.fi\n',
             'SEE ALSO': 'README.md, docs/GUIDE.md, docs/RULES.md and docs/REFERENCE.md of the repository.\n'}
    return ('.\\" tools/make-help.py makes this page of the texts in docs/help.\n'
            f'.TH AC_CLI 1 "" "ac_cli {version}" "User Commands"\n' + ''.join(f'.SH {heading}\n{said}' for heading, said in parts.items()))


# ---- what shells complete

def long(option):
    return next((name for name in option.names if name.startswith('--')), '')


def bash():
    of = commands()
    offered = ''.join(f"        {name}) offered='" + ' '.join(map(long, options(help))) + "' ;;\n" for name, help in of.items())
    every = {long(option): option for help in of.values() for option in options(help)}

    def named(value):
        return ' | '.join(name for name, option in every.items() if option.value == value)

    listed = ''.join(f"""    {' | '.join(option.names)})
        mapfile -t COMPREPLY < <(compgen -W '{values(option)}' -- "$word")
        return
        ;;
""" for option in every.values() if option.value in ('VERSION', 'FORM'))
    return f'''# What bash completes after `ac_cli`. tools/make-help.py makes this file of the texts in docs/help. Source it in ~/.bashrc, or copy it as `ac_cli` into
# ~/.local/share/bash-completion/completions.

_ac_cli() {{
    local word=$2 before=$3 offered=
    COMPREPLY=()
    case $before in
    {named("DIR")})
        compopt -o filenames 2>/dev/null
        mapfile -t COMPREPLY < <(compgen -d -- "$word")
        return
        ;;
    {named("FILE")})
        compopt -o filenames 2>/dev/null
        mapfile -t COMPREPLY < <(compgen -f -- "$word")
        return
        ;;
{listed}    {named("TOKEN")})
        return
        ;;
    esac
    if [[ $COMP_CWORD == 1 ]]; then
        offered='{" ".join([*of, "help", *map(long, options(text("ac_cli")))])}'
    else
        case ${{COMP_WORDS[1]}} in
{offered}        help) offered='{" ".join([*of, "help"])}' ;;
        esac
    fi
    mapfile -t COMPREPLY < <(compgen -W "$offered" -- "$word")
}}

complete -F _ac_cli ac_cli
'''


def quoted(words):
    return words.replace("'", "'\\''").replace('[', '\\[').replace(']', '\\]').replace(':', '\\:')


def zsh():
    of = commands()
    kinds = {'DIR': ':folder:_directories', 'FILE': ':file:_files', 'TOKEN': ':token:'}

    def spec(option):
        if '-h' in option.names:
            return "'(-h --help)'{-h,--help}'[" + quoted(option.told) + "]'"
        value = kinds.get(option.value, f':{option.value.lower()}:({values(option)})' if option.value else '')
        return f"'{long(option)}[{quoted(option.told)}]{value}'"

    described = ''.join(f"    '{name}:{quoted(told)}'\n" for name, told in pairs(text('ac_cli'), 'Commands'))
    cases = ''
    for name, help in of.items():
        asked = ''.join(" ':" + word.strip('<>').lower() + ":'" for word, _ in pairs(help, 'Arguments'))
        cases += f'    {name}) _arguments' + ''.join(f' \\\n        {spec(option)}' for option in options(help)) + f'{asked} ;;\n'
    return f'''#compdef ac_cli
# What zsh completes after `ac_cli`. tools/make-help.py makes this file of the texts in docs/help. Copy it into a folder of $fpath.

local curcontext="$curcontext" state line
local -a commands

commands=(
{described})

_arguments -C \\
    '(- *)'{{-h,--help}}'[print help]' \\
    '(- *)'{{-V,--version}}'[print the version]' \\
    '1:command:->command' \\
    '*::word:->words'

case $state in
command)
    _describe command commands
    ;;
words)
    case $words[1] in
{cases}    help) _describe command commands ;;
    esac
    ;;
esac
'''


def made():
    """What is made, by its path."""
    return {'docs/ac_cli.1': manual(), 'tools/completions/ac_cli.bash': bash(), 'tools/completions/_ac_cli': zsh()}


def ask_program():
    def said(*words):
        return subprocess.run([os.path.join(ROOT, 'out', 'ac_cli'), *words], capture_output=True, text=True, check=True).stdout

    own = said('--help')
    told = {'ac_cli': own, 'version': said('--version'), **{name: said(name, '--help') for name, _ in pairs(own, 'Commands') if name != 'help'}}
    for name, words in told.items():
        with open(os.path.join(FOLDER, name + '.txt'), 'w', encoding='utf-8') as file:
            file.write(words)


if __name__ == '__main__':
    if '--program' in sys.argv:
        ask_program()
    for path, words in made().items():
        with open(os.path.join(ROOT, path), 'w', encoding='utf-8') as file:
            file.write(words)
