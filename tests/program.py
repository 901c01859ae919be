#!/usr/bin/env python3
"""tests/program.py [--all] [WORD]: runs the built ./ac_cli as a user would, and says which cases went wrong.

With a word, it runs only the cases whose names contain it. With --all, it also names the cases that went well. AC_CLI may name another program to run.
The last line is `N passed, M failed`, and the status is 0 only if M is 0."""
from __future__ import annotations

import csv
import json
import os
import re
import shlex
import shutil
import subprocess
import sys
import tempfile
from concurrent.futures import ThreadPoolExecutor

sys.dont_write_bytecode = True
HERE = os.path.dirname(os.path.abspath(__file__))
sys.path += [os.path.join(os.path.dirname(HERE), 'tools'), *(os.path.join(HERE, folder) for folder in ('documents', 'flavors', 'limits', 'release'))]

from audits import drawn_audits
from called import CMP, ZONES, beside, names_cases
from cases import AUDIT_HEAD, CAPACITY_HEAD, CHILD, ODD_FLAVORS, ONE, PLANTED, SHARED, SMALL, SOME, TWO_FIT, TWO_SHORT, Case, cuts, full, lines, tables
from changes import changes
from cliffs import cliffs
from compares import BOTH, MIXED, NO_REQUEST, compares
from database import database_exports
from examples import examples
from export import exports
from faults import drawn_queries, drawn_tables
from flavor_queries import flavor_queries
from forms import FORMS_BY_HAND, in_forms
from hostile import hostile
from large import LARGE, MOST_PROVIDERS, QUERY_BYTES, roots, vcpu
from log_lines import FOUND, REFUSED
from metrics import METRICS, read
from model import difference_line, drawn, headings, words_of
from notation import HEADERS, provider
from queries import queries
from release import NO_PROGRAM, UNBUILT, clone, releases, without_program
from remedies import second_lines
from sessions import sessions, untried
from tries import tries
from try_with_service import answers, differences, short, told

ROOT = os.path.dirname(os.path.dirname(os.path.abspath(__file__)))
# ./ac_cli looks at every source before it runs the program. So it is called only once, and for the commands that the pages show.
LAUNCHER = os.path.abspath(os.environ.get('AC_CLI', os.path.join(ROOT, 'ac_cli')))
PROGRAM = os.path.abspath(os.environ.get('AC_CLI', os.path.join(ROOT, 'out', 'ac_cli')))
EXAMPLES = os.path.join(ROOT, 'examples')
PROVIDERS = os.path.join(EXAMPLES, 'providers.csv')
INVENTORIES = os.path.join(EXAMPLES, 'inventories.csv')
CLOUD = os.path.join(EXAMPLES, 'cloud')
NO_FILE = os.path.join(EXAMPLES, 'no_such_file.csv')
ONE_HOST = '2b7d9e54-61c8-4f03-8a9d-c4e1b05f3a27\n'
COMMANDS = 'check', 'candidates', 'tokens', 'list', 'fill', 'verify', 'explain', 'hosts', 'why', 'capacity', 'audit', 'compare', 'query', 'session'
STATUSES = {'no: rule': 1, 'unknown provider': 1, 'query': 4, 'flavors:': 4, 'token': 5, 'host:': 5, 'answer:': 5, 'output': 6, 'out of memory': 7,
            **dict.fromkeys(('providers:', 'inventories:', 'usages:', 'traits:', 'aggregates:'), 3)}
SHELLS = [shell for shell in ('bash', 'dash', 'zsh') if shutil.which(shell)]
SECONDS = 60


def over(words, providers=PROVIDERS, inventories=INVENTORIES, *more):
    return [*words, '--providers', providers, '--inventories', inventories, *more]


def tokens(query, *tables):
    return over(['tokens', query], *tables)


def check(*tables):
    return over(['check'], *tables)


def logic():
    """The logic of the toolchain, as `rt version` names it; of another program than that in `out`, the one that the release's manifest names."""
    try:
        told = contents(os.path.join(ROOT, 'release', 'MANIFEST')) if 'AC_CLI' in os.environ else subprocess.run(['rt', 'version'], capture_output=True, check=True).stdout
        return re.search(r'logic \w+', told.decode())[0]
    except (OSError, subprocess.CalledProcessError, TypeError):
        return 'logic that is missing: `rt version` names none'


def version():
    """The version of which CHANGELOG.md tells first."""
    return re.search(r'^## (\S+)', contents(os.path.join(ROOT, 'CHANGELOG.md')).decode(), re.M)[1]


def refused(name, words, *says):
    return Case(f'refused command line: {name}', words, err=SOME, status=2, has=says)


def unreadable(name, words, table):
    return Case(name, words, err=f'{table}: Unreadable\n', status=3)


def contents(path):
    with open(path, 'rb') as file:
        return file.read()


def help_text(name):
    """A text that ./ac_cli prints while there is no program yet."""
    return contents(os.path.join(ROOT, 'docs', 'help', name + '.txt')).decode()


# Words to which the program itself, and the launcher without a program, must answer the same.
HELP_WORDS = {
    'ac_cli': [['--help'], ['-h'], ['help']],
    'version': [['--version'], ['-V']],
    **{name: [[name, '--help'], [name, '-h'], ['help', name]] for name in COMMANDS},
}


def example_of(name):
    """A case that runs the command at the end of a text of help, over the example cloud."""
    command = help_text(name).rstrip('\n').rpartition('\n')[2].strip()
    called = re.sub('^ac_cli', lambda _: shlex.quote(PROGRAM), command)
    return Case(f'the example in the help: {command}', ['sh', '-c', f'cd examples && {called}'], SOME, status={'fill': 1, 'verify': 1, 'explain': 1, 'hosts': 1, 'why': 1, 'capacity': 1}.get(name, 0))


HELP = [
    *(Case(f'help: {" ".join(words)}', words, help_text(name)) for name, each in HELP_WORDS.items() for words in each),
    *(without_program(' '.join(words), './ac_cli ' + ' '.join(words), help_text(name)) for name, each in HELP_WORDS.items() for words in each),
    *(example_of(name) for name in ('ac_cli', *COMMANDS)),
    Case('version: the newest of CHANGELOG.md, and the logic of the toolchain', ['--version'], f"ac_cli {version()}, proved with Rattle's {logic()}\n"),
    Case('the manual page and what shells complete are as the help says', ['sh', '-c', 'python3 -B tests/documents/help.py']),
    without_program('a word that is no command', './ac_cli token x', err='ac_cli: no command token; ./ac_cli --help tells the commands\n', status=2),
    without_program('an option in place of a command', './ac_cli --tables x check',
                    err='ac_cli: no command --tables; ./ac_cli --help tells the commands\n', status=2),
    without_program('help of a word that is no command', './ac_cli help token', err='ac_cli: no command token; ./ac_cli --help tells the commands\n', status=2),
    *(without_program(f'no build is begun: {words}', f'AC_CLI_NO_BUILD=yes ./ac_cli {words}', err=UNBUILT, status=NO_PROGRAM)
      for words in ('', 'check --tables x', 'check --help --tables')),
]

WORDS = [
    refused('no such command', ['token'], "unrecognized subcommand 'token'", 'Usage: ac_cli'),
    refused('no command', over([])),
    refused('options before the command', over([]) + ['check']),
    refused('no query', over(['tokens'])),
    refused('no query for candidates', over(['candidates'])),
    refused('no query for list', over(['list'])),
    refused('no table of flavors', over(['capacity']), '<FLAVORS>'),
    refused('a token for list', over(['list', 'resources=VCPU:2', ONE_HOST.strip()])),
    refused('no query for fill', over(['fill'])),
    refused('a token for fill', over(['fill', 'resources=VCPU:2', ONE_HOST.strip()])),
    *(refused(f'--at for {words[0]}', over([*words, '--at', ONE_HOST.strip()]), '--at') for words in (
        ['fill', 'resources=VCPU:2'], ['explain', 'resources=VCPU:2'], ['hosts', 'resources=VCPU:2'], ['why', 'resources=VCPU:2', ONE_HOST.strip()], ['session'])),
    refused('--after for fill', over(['fill', 'resources=VCPU:2', '--after', ONE_HOST.strip()]), '--after'),
    refused('--sum for tokens', over(['tokens', 'resources=VCPU:2', '--sum']), '--sum'),
    refused('--sum for why', over(['why', 'resources=VCPU:2', ONE_HOST.strip(), '--sum']), '--sum'),
    refused('--sum with a value', over(['fill', 'resources=VCPU:2', '--sum=yes']), '--sum'),
    refused('--sum twice', over(['fill', 'resources=VCPU:2', '--sum', '--sum']), '--sum'),
    refused('--no-traits for tokens', over(['tokens', 'resources=VCPU:2', '--no-traits']), '--no-traits'),
    refused('--no-traits with a value', over(['list', 'resources=VCPU:2', '--no-traits=yes']), '--no-traits'),
    refused('--no-traits twice', over(['candidates', 'resources=VCPU:2', '--no-traits', '--no-traits']), '--no-traits'),
    refused('two queries', over(['tokens', 'resources=VCPU:2', 'resources=VCPU:2'])),
    refused('no token', over(['verify', 'resources=VCPU:2'])),
    refused('a query for check', over(['check', 'resources=VCPU:2'])),
    refused('a token for check', check() + ['--after', ONE_HOST.strip()]),
    refused('--after for verify', over(['verify', 'resources=VCPU:2', ONE_HOST.strip(), '--after', ONE_HOST.strip()])),
    refused('--detail before the command', ['--detail', *check()], '--detail'),
    refused('--detail with a value', over(['verify', 'resources=VCPU:2', ONE_HOST.strip(), '--detail=yes']), '--detail'),
    *(refused(f'--detail twice, for {name}', over([name, '--detail', '--detail']), "'--detail' cannot be used multiple times") for name in COMMANDS),
    refused('no query to explain', over(['explain'])),
    refused('a token to explain', over(['explain', 'resources=VCPU:2', ONE_HOST.strip()])),
    refused('--after for explain', over(['explain', 'resources=VCPU:2', '--after', ONE_HOST.strip()]), '--after'),
    refused('no query for hosts', over(['hosts'])),
    refused('a token for hosts', over(['hosts', 'resources=VCPU:2', ONE_HOST.strip()])),
    refused('--after for hosts', over(['hosts', 'resources=VCPU:2', '--after', ONE_HOST.strip()]), '--after'),
    *(refused(f'{value} for --in', over(['hosts', 'resources=VCPU:2', f'--in={value}']), f"invalid value '{value}' for '--in <UUID>'", 'Usage: ac_cli hosts')
      for value in ('', 'az1', ONE_HOST.strip()[:-1])),
    refused('--in without a value', over(['hosts', 'resources=VCPU:2', '--in']), '--in'),
    refused('--fits for why', over(['why', 'resources=VCPU:2', ONE_HOST.strip(), '--fits']), "unexpected argument '--fits' found", 'Usage: ac_cli why'),
    refused('--fits with a value', over(['hosts', 'resources=VCPU:2', '--fits=yes']), "unexpected value 'yes' for '--fits' found"),
    refused('--fits twice', over(['hosts', 'resources=VCPU:2', '--fits', '--fits']), "'--fits' cannot be used multiple times"),
    refused('--in for why', over(['why', 'resources=VCPU:2', ONE_HOST.strip(), '--in', ONE_HOST.strip()]), '--in'),
    refused('a query for an audit', over(['audit', 'resources=VCPU:2']), "unexpected argument 'resources=VCPU:2' found", 'Usage: ac_cli audit'),
    *(refused(f'{value} for --zone', over(['audit', f'--zone={value}']), f"invalid value '{value}' for '--zone <UUID>'", 'Usage: ac_cli audit')
      for value in ('', 'az1', ONE_HOST.strip()[:-1], f'{ONE_HOST.strip()},{ONE_HOST.strip()}')),
    refused('--zone without a value', over(['audit', '--zone']), '--zone <UUID>'),
    refused('--zone twice', over(['audit', '--zone', ONE_HOST.strip(), '--zone', ONE_HOST.strip()]), "'--zone <UUID>' cannot be used multiple times", 'Usage: ac_cli audit'),
    refused('--zone and tables that are not there', ['audit', '--zone', 'az1', '--tables', NO_FILE], "'--zone <UUID>'"),
    refused('no tables for an audit', ['audit'], 'provided:\n  --tables <DIR>\n\nUsage: ac_cli audit'),
    *(refused(f'{words[0]} for an audit', over(['audit', *words]), f"unexpected argument '{words[0]}' found", 'Usage: ac_cli audit')
      for words in (['--in', ONE_HOST.strip()], ['--tries', '9'], ['--microversion', '1.36'], ['--sum'], ['--prometheus'], ['--after', ONE_HOST.strip()])),
    *(refused(f'--zone for {name}', over([name, *words, '--zone', ONE_HOST.strip()]), "unexpected argument '--zone' found") for name, words in (
        ('check', []), ('hosts', ['resources=VCPU:2']), ('capacity', [NO_FILE]))),
    *(refused(f'--prometheus for {name}', over([name, *words, '--prometheus']), "unexpected argument '--prometheus' found") for name, words in (
        ('check', []), ('fill', ['resources=VCPU:2']), ('session', []))),
    refused('--prometheus with a value', over(['capacity', NO_FILE, '--prometheus=yes']), "unexpected value 'yes' for '--prometheus' found"),
    refused('--prometheus twice', over(['capacity', NO_FILE, '--prometheus', '--prometheus']), "'--prometheus' cannot be used multiple times"),
    refused('no answer for compare', over(['compare', 'resources=VCPU:2']), '<ANSWER>', 'Usage: ac_cli compare'),
    refused('neither a query nor an answer for compare', over(['compare']), '<QUERY>', '<ANSWER>', 'Usage: ac_cli compare'),
    refused('two answers for compare', over(['compare', 'resources=VCPU:2', NO_FILE, NO_FILE]), f"unexpected argument '{NO_FILE}' found", 'Usage: ac_cli compare'),
    refused('no tables for compare', ['compare', 'resources=VCPU:2', NO_FILE], 'provided:\n  --tables <DIR>\n\nUsage: ac_cli compare'),
    refused('--detail twice, for compare', over(['compare', '--detail', '--detail']), "'--detail' cannot be used multiple times"),
    refused('a later microversion for compare', over(['compare', 'resources=VCPU:2', NO_FILE, '--microversion', '1.40']), "invalid value '1.40'", 'Usage: ac_cli compare'),
    refused('-1 for --tries, for compare', over(['compare', 'resources=VCPU:2', NO_FILE, '--tries=-1']), "invalid value '-1' for '--tries <N>'", 'Usage: ac_cli compare'),
    *(refused(f'{words[0]} for compare', over(['compare', 'resources=VCPU:2', NO_FILE, *words]), f"unexpected argument '{words[0]}' found", 'Usage: ac_cli compare')
      for words in (*([name, ONE_HOST.strip()] for name in ('--after', '--at', '--in', '--zone')), ['--sum'], ['--no-traits'], ['--prometheus'])),
    refused('no host for why', over(['why', 'resources=VCPU:2']), '<HOST>', 'Usage: ac_cli why'),
    *(refused(f'{value} for --tries', [*tokens('resources=VCPU:2'), f'--tries={value}'], f"invalid value '{value}' for '--tries <N>'", 'Usage: ac_cli tokens')
      for value in ('', '-1', 'x', '1.5', '2147483648')),
    refused('--tries without a value', [*tokens('resources=VCPU:2'), '--tries'], '--tries'),
    *(refused(f'--tries for {name}', over([name, *words, '--tries', '9']), '--tries') for name, words in
      (('check', []), ('verify', ['resources=VCPU:2', ONE_HOST.strip()]))),
    refused('two hosts for why', over(['why', 'resources=VCPU:2', ONE_HOST.strip(), ONE_HOST.strip()])),
    refused('--after for why', over(['why', 'resources=VCPU:2', ONE_HOST.strip(), '--after', ONE_HOST.strip()]), '--after'),
    refused('a query for a session', over(['session', 'resources=VCPU:2'])),
    refused('--after for a session', over(['session', '--after', ONE_HOST.strip()]), '--after'),
    refused('no tables for a session', ['session'], 'provided:\n  --tables <DIR>\n\nUsage: ac_cli session'),
    refused('a later microversion for a session', over(['session', '--microversion', '1.40']), "invalid value '1.40'", 'Usage: ac_cli session'),
    refused('--after without a token', tokens('resources=VCPU:2') + ['--after']),
    refused('no inventories', ['tokens', 'resources=VCPU:2', '--providers', PROVIDERS], '--inventories <FILE>', 'Usage: ac_cli tokens'),
    refused('no providers', ['check', '--inventories', INVENTORIES], '--providers <FILE>', 'Usage: ac_cli check'),
    refused('no tables', ['explain', 'resources=VCPU:2'], 'provided:\n  --tables <DIR>\n\nUsage: ac_cli explain'),
    refused('--tables without a folder', ['check', '--tables'], '--tables <DIR>'),
    refused('two folders', ['check', '--tables', CLOUD, '--tables', CLOUD], '--tables <DIR>'),
    *(refused(f'a folder beside the table of {name}', ['check', '--tables', CLOUD, f'--{name}', os.path.join(CLOUD, name + '.csv')],
              "'--tables <DIR>' cannot be used with", f'--{name} <FILE>', 'Usage: ac_cli check') for name in HEADERS),
    refused('no such option', [*tokens('resources=VCPU:2'), '--colour', 'red'], '--colour', 'Usage: ac_cli tokens'),
    refused('a later microversion', [*tokens('resources=VCPU:2'), '--microversion', '1.40'], "invalid value '1.40'", '1.36', '1.39', 'Usage: ac_cli tokens'),
    refused('an earlier microversion', over(['candidates', 'resources=VCPU:2', '--microversion=1.35']), "invalid value '1.35'"),
    refused('no number for a microversion', over(['verify', 'resources=VCPU:2', ONE_HOST.strip(), '--microversion', ''])),
    refused('a microversion with a zero behind it', [*tokens('resources=VCPU:2'), '--microversion', '1.390']),
    refused('two microversions', [*tokens('resources=VCPU:2'), '--microversion', '1.36', '--microversion', '1.36'], '--microversion'),
    refused('--microversion without a value', [*tokens('resources=VCPU:2'), '--microversion']),
    refused('a microversion for check', [*check(), '--microversion', '1.36']),
    refused('help is not asked by a value', [*tokens('resources=VCPU:2'), '--microversion', '--help']),
    *(Case(f'a microversion that reads as the default: {version}', [*tokens('resources=VCPU:12'), '--microversion', version], ONE_HOST)
      for version in ('1.36', '1.37', '1.38')),
    Case('a list of traits before 1.39', [*tokens('resources=VCPU:12&required=in:A,B'), '--microversion', '1.38'], err='query: pair 2: BadValue\n', status=4),
    Case('the later microversion, before the query', over(['tokens', '--microversion=1.39', 'resources=VCPU:12']), ONE_HOST),
    refused('an option twice', [*tokens('resources=VCPU:2'), '--providers', PROVIDERS], '--providers'),
    refused('a query that looks like an option', tokens('-resources=VCPU:2')),
    refused('a word that is no UTF-8', tokens(b'resources=\xff')),
    Case('a query after two hyphens', over(['tokens'])[:1] + over([]) + ['--', 'resources=VCPU:12'], ONE_HOST),
    Case('options with an equals sign', ['tokens', f'--inventories={INVENTORIES}', f'--providers={PROVIDERS}', 'resources=VCPU:12'],
         ONE_HOST),
]

NO_USAGES = 'no storage,c93e1f08-7a4b-4d26-b5f1-0e8d2c6a9b44,compute-03,"VCPU in its tree, and no DISK_GB there, its own or shared"\nno usage,,,9 of 9 inventories have no row\n'
EXAMPLE_COUNTS = 'providers 4\ninventories 9\nusages 0\ntraits 0\naggregates 0\n'
BLANK = 'cd "$(mktemp -d)" && cp "$2" "providers.csv " && "$1" check --providers "providers.csv " --inventories "$3" && rm -r "$PWD"'
FILES = [
    Case('without words: the answer on the built-in sample', [], lines('P1')),
    Case('without words, from another folder', [], lines('P1'), folder='/'),
    Case('tables named from another folder', tokens('resources=VCPU:12', 'providers.csv', 'inventories.csv'), ONE_HOST, folder=EXAMPLES),
    Case('a table through a pipe', tokens('resources=VCPU:12', '/dev/stdin'), ONE_HOST, given=contents(PROVIDERS)),
    unreadable('no file of providers', check(NO_FILE), 'providers'),
    unreadable('no file of inventories', check(PROVIDERS, NO_FILE), 'inventories'),
    unreadable('neither file: the first is told', check(NO_FILE, NO_FILE), 'providers'),
    unreadable('a folder for the providers', check(EXAMPLES), 'providers'),
    unreadable('a folder for the traits', check() + ['--traits', EXAMPLES], 'traits'),
    unreadable('no file of aggregates, and a folder for the providers', check(EXAMPLES) + ['--aggregates', NO_FILE], 'aggregates'),
    unreadable('no file of usages, and a refused table', check(INVENTORIES) + ['--usages', NO_FILE], 'usages'),
    unreadable('files are opened before any is read', check('/dev/zero', NO_FILE), 'inventories'),
    unreadable('a folder, and a refused query', tokens('', EXAMPLES), 'providers'),
    Case('a table without end', check('/dev/zero'), err='providers: TooLarge\n', status=3),
    Case('a table without end, and a folder after it', check('/dev/zero', EXAMPLES), err='providers: TooLarge\n', status=3),
    Case('a path of more than 255 bytes', check('./' * 150 + 'providers.csv', 'inventories.csv'), EXAMPLE_COUNTS, folder=EXAMPLES),
    unreadable('a path that ends in a blank, of a file that ends in none', check(PROVIDERS + ' '), 'providers'),
    Case('a path that ends in a blank', ['sh', '-c', BLANK, 'blank', PROGRAM, PROVIDERS, INVENTORIES], EXAMPLE_COUNTS),
    Case('a session without questions', over(['session'])),
    Case('a session reads its queries by the version that is named', over(['session', '--microversion', '1.39']), ONE_HOST + '= 0\n',
         given=b'tokens resources=VCPU:12&required=!CUSTOM_A&required=!CUSTOM_B\n'),
    Case('a session by the version that is the default', over(['session']), '= 4 query: pair 3: Repeated\n',
         given=b'tokens resources=VCPU:12&required=!CUSTOM_A&required=!CUSTOM_B\n'),
    Case('a folder for the questions', ['sh', '-c', 'exec "$1" session --tables examples/cloud < examples', 'session', PROGRAM], err='questions: Unreadable\n', status=3),
    unreadable('no file of providers for a session', over(['session'], NO_FILE), 'providers'),
    unreadable('no file of providers for an audit', over(['audit'], NO_FILE), 'providers'),
    unreadable('a folder for the usages of an audit', [*over(['audit']), '--usages', EXAMPLES], 'usages'),
    Case('an audit without tables of usages, traits and aggregates', over(['audit']), AUDIT_HEAD + NO_USAGES, status=1),
    Case('flavors through a pipe, as metrics', ['sh', '-c', 'exec "$@" | grep at_most{', 'metrics', PROGRAM, *over(['capacity', '/dev/stdin']), '--prometheus'],
         'ac_flavor_at_most{flavor="one"} 3\n', given=b'flavor,query\none,resources=VCPU:6&in_tree=' + ONE_HOST.strip().encode() + b'\n'),
    Case('flavors through a pipe', over(['capacity', '/dev/stdin']), CAPACITY_HEAD + 'one,1,3,3,1,VCPU,1\n', given=b'flavor,query\none,resources=VCPU:6&in_tree=' + ONE_HOST.strip().encode() + b'\n'),
    *(Case(f'{name} for the table of flavors', over(['capacity', path]), err='flavors: Unreadable\n', status=4) for name, path in (('no file', NO_FILE), ('a folder', EXAMPLES))),
    Case('a table of flavors without end', over(['capacity', '/dev/zero']), err='flavors: TooLarge\n', status=4),
    unreadable('neither tables nor flavors: the tables are told', over(['capacity', NO_FILE], NO_FILE), 'providers'),
    Case('no file of flavors, and a table that is refused: the file is told', over(['capacity', NO_FILE], INVENTORIES), err='flavors: Unreadable\n', status=4),
    Case('a refused query in two groups of faults', tokens('limit=0&colour=red'), err='query: pair 1: BadValue\n', status=4),
]


# A folder stands for the options of the five tables.
EACH_TABLE = [word for name in HEADERS for word in (f'--{name}', os.path.join(CLOUD, name + '.csv'))]
DISK_AND_HOST = 'resources=VCPU:2,DISK_GB:20'
OVER_DISK = 'e7f31a9c-6b08-4d52-9f47-03a8c5d26e06,3c5e81d7-02a9-4f6b-8e34-b19d6a7f0c02'
CLOUD_COUNTS = 'providers 6\ninventories 9\nusages 9\ntraits 10\naggregates 2\n'
NO_ROWS = {**HEADERS, 'inventories': HEADERS['inventories'] + f'{provider(1)},VCPU,8,0,1,8,1,1.0\n',
           'providers': HEADERS['providers'] + f'{provider(1)},{provider(1)},\n'}


def by_folder(*words, status=0):
    """The program must answer over a folder as over its five tables, byte for byte."""
    return Case(f'a folder: {words[0]}, as by the five options', [*words, '--tables', CLOUD], lambda: run(Case('', [*words, *EACH_TABLE]))[0], status=status)


DRIVER = [
    Case('clients/python: the examples of the driver', ['sh', '-c', 'AC_CLI="$1" exec python3 -B -m doctest clients/python/ac_session.py', 'driver', PROGRAM]),
    Case('clients/python: its tests', ['sh', '-c', 'exec python3 clients/python/test_ac_session.py "$1"', 'driver', PROGRAM]),
]

# unittest tells on standard error how many tests there were.
REPORT = [Case(f'tools/report: the page, {how}', ['sh', '-c', 'exec python3 -B tests/report/test_report.py "$1" "$2"', 'report', PROGRAM, tests], err=SOME)
          for how, tests in (('as it is written', 'Written'), ('as Chromium shows it', 'Shown'))]

FOLDERS = [
    by_folder('check'),
    by_folder('audit'),
    by_folder('audit', '--zone', '0d4b7c19-83ea-4f20-b5d6-1e9a72c8f3a1'),
    by_folder('candidates', DISK_AND_HOST),
    by_folder('candidates', DISK_AND_HOST, '--no-traits'),
    by_folder('list', DISK_AND_HOST, '--after', OVER_DISK),
    by_folder('tokens', DISK_AND_HOST, '--after', OVER_DISK),
    by_folder('verify', DISK_AND_HOST, OVER_DISK),
    by_folder('explain', 'resources=VCPU:4&required=CUSTOM_ROW_2&member_of=0d4b7c19-83ea-4f20-b5d6-1e9a72c8f3a1', status=1),
    Case('a folder: each of its tables is read', ['check', '--tables', CLOUD], CLOUD_COUNTS),
    Case('a folder: what is used counts', ['verify', 'resources=VCPU:4', 'b48d0f61-9e2c-4c7a-83d5-e6047b15ac05', f'--tables={CLOUD}'], 'no: rule 6 Sums\n', status=1),
    Case('a folder named with a slash behind it', ['check', '--tables', CLOUD + '/'], CLOUD_COUNTS),
    Case('a folder named from another one', ['check', '--tables', 'cloud'], CLOUD_COUNTS, folder=EXAMPLES),
    Case('a folder with a path of more than 255 bytes', ['check', '--tables', './' * 150 + 'cloud'], CLOUD_COUNTS, folder=EXAMPLES),
    Case('the folder that the program runs in', ['check', '--tables', '.'], CLOUD_COUNTS, folder=CLOUD),
    Case('a folder of tables without rows', ['tokens', 'resources=VCPU:2'], lines('P1'), tables=NO_ROWS, together=True),
    *(Case(f'a folder without {name}', ['check'], err=f'{name}: Unreadable\n', status=3,
           tables={other: made for other, made in NO_ROWS.items() if other != name}, together=True) for name in HEADERS),
    unreadable('a folder that is not there', ['check', '--tables', os.path.join(EXAMPLES, 'no_such_folder')], 'providers'),
    unreadable('a file for a folder', ['check', '--tables', PROVIDERS], 'providers'),
    unreadable('an empty name of a folder: the tables at the top of all', ['check', '--tables', ''], 'providers'),
]


NINE = 'resources=VCPU:9'
NO_USAGES = 'usages: no table is given, so nothing counts as used\n'
NO_ROWS = 'usages: the table has no rows, so nothing counts as used\n'


def in_detail(*words, status=0):
    """With `--detail` the program must answer as without it, byte for byte, where there is no fault and no rule is broken."""
    called = [*words, '--tables', CLOUD]
    return Case(f'--detail without a fault: {words[0]}', [*called, '--detail'], lambda: run(Case('', called))[0], status=status)


DETAILS = [
    in_detail('check'),
    in_detail('audit'),
    *(Case(f'{words[0]} in detail without a table of usages', [*words, '--providers', PROVIDERS, '--inventories', INVENTORIES, '--detail'], out, err=NO_USAGES, status=status)
      for words, out, status in ((['check'], EXAMPLE_COUNTS, 0), (['tokens', NINE], ONE_HOST, 0), (['verify', NINE, ONE_HOST.strip()], 'candidate\n', 0),
                                 (['explain', 'resources=PCPU:1'], SOME, 1))),
    *(Case(f'{words[0]} in detail of no usages', [*words, '--detail'], out, err=err, tables={**tables(ONE), 'usages': HEADERS['usages']})
      for words, out, err in ((['check'], 'providers 1\ninventories 1\nusages 0\ntraits 0\naggregates 0\n', NO_ROWS), (['tokens', 'resources=VCPU:2'], lines('P1'), ''))),
    Case('query in detail', ['query', NINE, '--detail'], SOME),
    Case('a table in detail that is not there', ['check', '--tables', 'nowhere', '--detail'],
         err='providers: Unreadable\n  nowhere/providers.csv: there is no such file; give the path of a file that can be read\n', status=3),
    Case('a session in detail whose tables are refused', ['session', '--tables', 'nowhere', '--detail'],
         err='providers: Unreadable\n  nowhere/providers.csv: there is no such file; give the path of a file that can be read\n', status=3),
    *(in_detail(name, DISK_AND_HOST) for name in ('candidates', 'tokens', 'list', 'fill', 'explain', 'hosts')),
    in_detail('verify', DISK_AND_HOST, OVER_DISK),
    in_detail('why', DISK_AND_HOST, OVER_DISK.rpartition(',')[2]),
    in_detail('session'),
]


def filled(query, size):
    """This query with `&` behind it, up to this number of bytes. An empty piece between two `&` is no pair."""
    return query + '&' * (size - len(query))


# A query as a log has it, with the path of its URL.
TWELVE = 'resources=VCPU:12'
PATH = '/placement/allocation_candidates?'
PASTED = [
    Case('pasted: a path before the query', tokens(PATH + TWELVE), ONE_HOST),
    Case('pasted: a whole URL, percent-encoded', tokens('http://controller:8778/allocation_candidates?limit=5&resources=VCPU%3A12'), ONE_HOST),
    Case('pasted: with the method of the request', tokens('GET ' + PATH + TWELVE), ONE_HOST),
    Case('pasted: a mark alone', tokens('?' + TWELVE), ONE_HOST),
    Case('pasted: a path and no query', tokens(PATH), err='query: NoResources\n', status=4),
    Case('pasted: a path without a mark', tokens(PATH[:-1] + '&' + TWELVE), err='query: pair 1: UnknownParameter\n', status=4),
    Case('pasted: two marks', tokens('a?' + PATH + TWELVE), err='query: pair 1: UnknownParameter\n', status=4),
    Case('pasted: pairs are counted behind the path', tokens(PATH + TWELVE + '&limit=0'), err='query: pair 2: BadValue\n', status=4),
    Case('pasted: bytes are counted behind the path', tokens(PATH + filled(TWELVE, QUERY_BYTES)), ONE_HOST),
    Case('pasted: one byte too many behind the path', tokens(PATH + filled(TWELVE, QUERY_BYTES + 1)), err='query: QueryTooLong\n', status=4),
    Case('pasted: a mark behind an equals sign drops nothing', tokens(TWELVE + '?limit=1'), err='query: pair 1: BadValue\n', status=4),
    Case('pasted: a mark behind an ampersand drops nothing', tokens('a&b?' + TWELVE), err='query: pair 1: UnknownParameter\n', status=4),
    Case('pasted: an encoded mark is none', tokens('a%3F' + TWELVE), err='query: pair 1: UnknownParameter\n', status=4),
    Case('pasted: a token keeps its mark', [*tokens(TWELVE), '--after', '?' + ONE_HOST.strip()], err='token: BadToken\n', status=5),
    *(Case(f'pasted: {name}', tokens(line), ONE_HOST) for name, line in FOUND.items()),
    *(Case(f'pasted: {name}', tokens(line), err=f'query: {fault}\n', status=4) for name, (line, fault, _) in REFUSED.items()),
    *(Case(f'pasted, in detail: {name}', [*tokens(line), '--detail'], err=f'query: {fault}\n{told}', status=4) for name, (line, fault, told) in REFUSED.items() if told),
]


def to_full(name, words, **made):
    return Case(f'a full device: {name}', words, None, 'output: WriteFailed\n', 6, made, to='/dev/full')


def to_nobody(name, words, **made):
    return Case(f'a pipe that nobody reads: {name}', words, err='output: WriteFailed\n', status=6, tables=made, closed=True)


# Answers of more than 65536 bytes, which is how much is gathered before it is written. So writing fails while the answer is being made.
HOSTS = {'providers': roots(2000), 'inventories': vcpu(2000)}
LONG_NAMES = '&'.join(f'resources{n}=' + ','.join(f'C{n}_{k}_'.ljust(240, 'C') + ':1' for k in range(4)) for n in range(10, 74)) + '&group_policy=none'
LONG = (('tokens', 'resources=VCPU:2', HOSTS), ('candidates', 'resources=VCPU:2', HOSTS), ('list', 'resources=VCPU:2', HOSTS), ('fill', 'resources=VCPU:2', HOSTS), ('explain', LONG_NAMES, tables(ONE)), ('hosts', 'resources=VCPU:2', HOSTS))

MANY_REQUESTS = '{"allocation_requests":[' + ','.join(f'{{"allocations":{{"{"x" * 4000}{n}":1}},"mappings":{{}}}}' for n in range(20)) + ']}'
MANY_FLAVORS = 'flavor,query\n' + ''.join(f'{"x" * 200}{n},resources=VCPU:2\n' for n in range(400))

DEVICES = [
    to_full('without words', []),
    to_full('help', ['--help']),
    *(made(f'more than is gathered, {command}', [command, query], **cloud) for made in (to_full, to_nobody) for command, query, cloud in LONG),
    to_full('check', check()),
    to_full('tokens', tokens('resources=VCPU:2')),
    to_full('candidates', over(['candidates', 'resources=VCPU:2'])),
    to_full('list', over(['list', 'resources=VCPU:2'])),
    to_full('fill', over(['fill', 'resources=VCPU:2'])),
    to_full('fill, in sum', over(['fill', '--sum', 'resources=VCPU:2'])),
    to_full('hosts, in sum', over(['hosts', '--sum', 'resources=VCPU:2'])),
    to_full('verify', over(['verify', 'resources=VCPU:2', ONE_HOST.strip()])),
    to_full('explain', over(['explain', 'resources=VCPU:2'])),
    to_full('hosts', over(['hosts', 'resources=VCPU:2'])),
    to_full('capacity', over(['capacity']), flavors='flavor,query\none,resources=VCPU:2\n'),
    to_full('capacity, as metrics', over(['capacity', '--prometheus']), flavors='flavor,query\none,resources=VCPU:2\n'),
    to_full('audit', over(['audit'])),
    *(made(f'more than is gathered, {name}', words, **cloud) for made in (to_full, to_nobody) for name, words, cloud in (
        ('audit', ['audit'], HOSTS), ('capacity, as metrics', ['capacity', '--prometheus'], {**tables(ONE), 'flavors': MANY_FLAVORS}))),
    to_full('compare', over(['compare', 'resources=VCPU:2']), answer=NO_REQUEST),
    to_nobody('compare', over(['compare', 'resources=VCPU:2']), answer=NO_REQUEST),
    *(made(f'more than is gathered, compare, only {where}', ['compare', 'resources=VCPU:2'], answer=answer, **cloud) for made in (to_full, to_nobody)
      for where, answer, cloud in (('here', NO_REQUEST, HOSTS), ('the service', lambda: MANY_REQUESTS, tables(ONE)))),
    to_full('why', over(['why', 'resources=VCPU:2', ONE_HOST.strip()])),
    Case('a full device: nothing to write', tokens('resources=DISK_GB:3000'), to='/dev/full'),
    to_nobody('tokens', tokens('resources=VCPU:2')),
    to_nobody('candidates', over(['candidates', 'resources=VCPU:2'])),
    Case('standard error on a full device', tokens(''), err=None, status=4, err_to='/dev/full'),
    Case('both on a full device', [], None, None, 6, to='/dev/full', err_to='/dev/full'),
]


def growing(name, words, cloud='', given='', folder=None, **more):
    """A case in which each growth of this run is refused in turn, by tests/memory/growths.py. The tables are those of a folder, or each is named by itself."""
    return Case(f'each growth refused: {name}', ['sh', '-c', 'exec python3 -B tests/memory/growths.py "$@"', 'growths', PROGRAM, *map(full, words)],
                SOME, tables=folder or {**(tables(cloud) if cloud else {}), **more}, together=folder is not None, given=full(given).encode())


OTHERS = [f'--{name}={os.path.join(EXAMPLES, name)}.csv' for name in ('usages', 'traits', 'aggregates')]
TWO, DISK, FIVES = 'resources=VCPU:2', 'resources=DISK_GB:10,VCPU:1', 'resources1=VCPU:5&resources2=VCPU:5&group_policy=none'
LACKING = 'resources1=VCPU:2&required1=CUSTOM_A&resources2=VCPU:2&member_of2=in:A1,A2&root_required=CUSTOM_A&group_policy=none'
GROWTHS = [
    growing('without words', []),
    growing('help', ['--help']),
    growing('refused words', ['tokens']),
    growing('check of five tables', check() + OTHERS),
    growing('check of a folder', ['check', '--tables', CLOUD]),
    growing('a folder beside a table', ['check', *OTHERS, '--tables', CLOUD]),
    growing('a needed table left out', ['check', '--providers', PROVIDERS]),
    growing('check', ['check'], ONE),
    growing('tokens', ['tokens', TWO], ONE),
    growing('candidates', ['candidates', TWO], ONE),
    growing('candidates, one of a shared disk', ['candidates', DISK + '&limit=1'], SHARED),
    growing('candidates after one', ['candidates', DISK + '&limit=1', '--after', 'P9,P1'], SHARED),
    growing('list', ['list', DISK], SHARED),
    growing('list after one, without traits', ['list', DISK, '--after', 'P9,P1', '--no-traits'], SHARED),
    growing('fill', ['fill', DISK + '&limit=3'], SHARED),
    growing('fill, in sum', ['fill', '--sum', DISK], SHARED),
    growing('hosts, in sum', ['hosts', '--sum', DISK], SHARED),
    growing('fill, no candidate', ['fill', FIVES], ONE),
    growing('tokens by names', ['tokens', '--names', TWO + '&member_of=in:az1,az2', '--after', 'cmp-1'], folder=beside(CMP, ZONES)),
    growing('fill by names', ['fill', '--names', TWO + '&in_tree=cmp-1'], folder=beside(CMP, ZONES)),
    growing('verify, an unknown name', ['verify', '--names', '--detail', TWO + '&in_tree=cmp-1', 'cmp-3'], folder=beside(CMP, ZONES)),
    growing('verify', ['verify', FIVES, 'P1,P2'], CHILD),
    growing('verify, an unknown provider', ['verify', FIVES, 'P1,P7'], CHILD),
    growing('verify, in detail', ['verify', '--detail', FIVES, 'P1,P1'], CHILD),
    growing('explain', ['explain', DISK], SHARED),
    growing('explain, no candidate', ['explain', FIVES], ONE),
    growing('hosts', ['hosts', DISK], SHARED),
    growing('hosts, no candidate', ['hosts', FIVES], ONE),
    growing('hosts as JSON, no candidate', ['hosts', FIVES, '-f', 'json'], ONE),
    growing('list, as a table', ['list', DISK, '-f', 'table'], SHARED),
    growing('why as JSON, an unknown host', ['why', TWO, 'P7', '-f', 'json', '--detail'], ONE),
    growing('capacity', ['capacity'], SHARED, flavors=full(f'flavor,query,wanted\none,"{DISK}",2\nnone,"{DISK}&root_required=CUSTOM_A",\n')),
    growing('capacity, as metrics', ['capacity', '--prometheus'], SHARED, flavors=full(f'flavor,query,wanted\n"one, ""1""\n",{TWO},2\nnone,"{DISK}&root_required=CUSTOM_A",\n')),
    growing('audit', ['audit', '--zone', 'A3'], PLANTED),
    growing('audit, nothing is amiss', ['audit', '--tables', CLOUD]),
    growing('capacity, a refused query', ['capacity', '--detail'], ONE, flavors='flavor,query\none,resources=VCPU\n'),
    growing('hosts, a required trait', ['hosts', TWO + '&required=CUSTOM_A'], ONE),
    growing('compare', ['compare', TWO], CHILD, answer=full(BOTH)),
    growing('compare, with differences, in detail', ['compare', '--detail', DISK], SHARED, answer=full(MIXED)),
    growing('compare, more than is gathered', ['compare', TWO], CHILD, answer=MANY_REQUESTS),
    growing('compare, a malformed answer', ['compare', '--detail', TWO], ONE, answer=full(BOTH).replace('"mappings"', '"mapping"')),
    growing('compare, an answer that is no JSON', ['compare', TWO], ONE, answer=full(BOTH)[:-1]),
    growing('compare, a refused query', ['compare', '--detail', 'resources=VCPU'], ONE, answer=full(BOTH)),
    growing('compare, no file', ['compare', '--detail', TWO, NO_FILE], ONE),
    growing('why', ['why', DISK, 'P1'], SHARED),
    growing('why, with traits and aggregates', ['why', LACKING, 'P1'], ONE),
    growing('why, an unknown host', ['why', TWO, 'P7'], ONE),
    growing('a session', ['session'], SHARED, f'tokens {DISK}\nclaim {DISK} P9,P1\nfill {DISK}&limit=2\nusages\nverify {DISK} P9,P7\nrelease {DISK} P9,P1\nother\n'),
    growing('a session with names', ['session'], CHILD, f'claim {TWO} P1 one\nclaim {TWO} P2 {"x" * 9000}\nmove one P2\nclaim {FIVES} P1,P2 one\n'
            f'move one P7\nrelease one\nrelease {"x" * 9000}\nrelease one\n'),
    growing('a session without questions', ['session', '--tables', CLOUD]),
    growing('check of a usage without an inventory', ['check'], ONE, usages=HEADERS['usages'] + f'{provider(1)},MEMORY_MB,1\n'),
    growing('a refused query', ['tokens', 'resources1=VCPU:1&same_subtree=1,2'], ONE),
    growing('a refused token', ['tokens', FIVES, '--after', 'P1'], CHILD),
]


# Each call of the libraries that takes memory, by itself.
REFUSALS = [Case(f'each growth refused, in the tests of {name}', ['sh', '-c', f'exec python3 -B tests/memory/refusals.py {name}'], SOME)
            for name in ('ac_read_tests', 'ac_search_tests', 'ac_run_tests')]


def as_metrics(name, flavors, cloud=ONE, *words):
    """What `capacity --prometheus` writes must be read as Prometheus reads it, with the numbers of the CSV, by tests/metrics.py."""
    return Case(f'metrics are read: {name}', ['sh', '-c', 'exec python3 -B tests/metrics.py "$@"', 'metrics', PROGRAM, 'capacity', *words], tables={**tables(cloud), 'flavors': flavors})


AS_METRICS = [
    Case('metrics are read: the flavors of the examples', ['sh', '-c', 'exec python3 -B tests/metrics.py "$@"', 'metrics', PROGRAM, 'capacity', 'examples/flavors.csv', '--tables', 'examples/private']),
    as_metrics('two flavors, each short of another class', f'flavor,query,wanted\nb,{TWO_FIT},9\na,resources=VCPU:8,0\n', TWO_SHORT),
    as_metrics('odd names', ODD_FLAVORS),
    as_metrics('names that are no text', b'flavor,query\na\xffb,resources=VCPU:9\n\xf0\x9f\x98x,resources=VCPU:4\n\xc2\x85,resources=VCPU:4\n'),
    as_metrics('no flavor', 'flavor,query\n'),
    as_metrics('flavors that fit nowhere', 'flavor,query\na,"resources_A=VCPU:9,VGPU:1"\nb,resources=VCPU:1&root_required=CUSTOM_A\n'),
    as_metrics('the greatest numbers', 'flavor,query,wanted\na,resources=VCPU:2147483647,2147483647\n', 'P1 | | VCPU total 2147483647, allocation_ratio 2.9'),
    as_metrics('many flavors', MANY_FLAVORS),
    as_metrics('a refused query', 'flavor,query\na,resources=VCPU\n'),
    as_metrics('by version 1.39', 'flavor,query\na,resources=VCPU:1&required=A&required=B\n', ONE, '--microversion', '1.39'),
]

KNOWN = Case('a fault is told though a growth behind it is refused', ['sh', '-c', 'exec python3 -B tests/memory/known_faults.py "$0"', PROGRAM], SOME)


METRIC = f'# HELP ac_flavor_{next(iter(METRICS))} '


def status_of(text):
    """The status that goes with an answer or a fault line."""
    if text.startswith(AUDIT_HEAD):
        return int(text != AUDIT_HEAD)
    if text.startswith(METRIC):
        least, wanted = ([number for _, number in read(text)[f'ac_flavor_{name}'][1]] for name in ('at_least', 'wanted'))
        return int(any(one < other for one, other in zip(least, wanted)))
    if re.search('^candidates: none$|^verdict,(?!.*,fits$)|^only (here|the service): ', text, re.M):
        return 1
    if text.startswith(CAPACITY_HEAD):
        return int(any(int(row['at_least']) < int(row['wanted']) for row in csv.DictReader(text.splitlines())))
    return next((status for start, status in STATUSES.items() if text.startswith(start)), 0)


def shown(page, shells=('sh',), launcher=LAUNCHER):
    """Cases for the commands that a page shows: a block `sh` with one call of ./ac_cli, of tools/draw-cloud.py or of examples/scheduler.py, perhaps behind a line
    that makes a folder, perhaps with lines that it is given up to END, and, right after it, a block `text` or `json` with what it prints. Without such a
    block it may print anything. The status of a pipe is 0. A picture that it writes to /tmp must be the one in examples. Each of these shells must read it."""
    path = os.path.join(ROOT, page)
    text = contents(path).decode() if os.path.isfile(path) else ''
    for block in re.finditer(r'^```sh\n((?:mkdir .*\n)?(?:\./ac_cli|tools/draw-cloud\.py|examples/scheduler\.py)\b(?:.*\\\n)*.*?( <<\'END\'\n(?:.*\n)*?END)?)\n```\n'
                             r'(?:\n*```(?:text|json)\n((?:.*\n)*?)```$)?', text, re.M):
        command, lines_given, says = block[1].replace('\\\n', ' '), block[2], block[3]
        own = re.sub(r'^\./ac_cli', lambda _: shlex.quote(launcher), command, flags=re.M)
        called, pictures = re.subn(r' >/tmp/(\w+\.svg)$', r' | cmp - examples/\1', own)
        says = '' if pictures else says
        for shell in shells:
            name = f'{page}: {command.splitlines()[-1 if command.startswith("mkdir") else 0]}' + ('' if shell == 'sh' else f', by {shell}')
            yield Case(name + ('' if launcher == LAUNCHER else ', by a release'), ['sh', '-c', 'exec "$0" -c "$1"', shell, f'exec 2>&1; {called}\n'], says,
                       status=0 if lines_given or ' | ' in command else status_of(says or ''))


def remade(page):
    """A case: the tables beside a page must be those that the command on the page makes."""
    folder = os.path.dirname(page)
    words = re.search(rf'^    bench/make_tables\.py {folder} (.*)$', contents(os.path.join(ROOT, page)).decode(), re.M)[1]
    called = f'room=$(mktemp -d) && python3 bench/make_tables.py "$room" {words} && diff -r -x README.md "$room" {folder}; status=$?; rm -r "$room"; exit $status'
    return Case(f'{page}: bench/make_tables.py makes its tables', ['sh', '-c', called])


def ruled(page):
    """Cases for the examples of a page: a table in the notation of notation.py, and below it lines with a query, and with what it gives or how it is
    refused, or with an assignment and the verdict on it. Indented lines are about something else."""
    text = contents(os.path.join(ROOT, page)).decode()
    for table in re.finditer(r'^\| provider \|.*\n\|[-|]+\n((?:\|.*\n)+)\n((?:- `.*\n(?:  .*\n)*)+)', text, re.M):
        cloud = '\n'.join(row.strip('|') for row in table[1].splitlines())
        for line in re.findall('^- .*', table[2], re.M):
            query, *names = re.findall(r'`([^`]*)`', line)
            version = ['--microversion', '1.39'] if ' by 1.39' in line else []
            if ', assignment `' in line:
                yield Case(f'{page}: {line}', ['verify', full(query), full(names[0]), *version], names[1] + '\n', status=status_of(names[1]), tables=tables(cloud))
            elif ' is refused: `' in line:
                yield Case(f'{page}: {line}', ['tokens', full(query), *version], err=names[0] + '\n', status=status_of(names[0]), tables=tables(cloud))
            else:
                after = ['--after', full(names.pop(0))] if ' after `' in line else []
                yield Case(f'{page}: {line}', ['tokens', full(query), *after, *version], lines(*names), tables=tables(cloud))


def named(heading, cloud, query, said, lacks, others, version):
    """What `explain` is to say of a query that stands under a heading of docs/DIFFERENCES.md: nothing where the service answers as the program, or
    where the query is refused."""
    out, _, status = run(Case('', ['candidates', query, '--microversion', version], tables=cloud))
    if status or (told(200, json.loads(out), query) in answers(said) and not lacks):
        return ''
    return ''.join(difference_line(words) + '\n' for words in headings() if words in (words_of(heading), *others))


def concerned():
    """`explain` names the heading that each query of docs/DIFFERENCES.md stands under, where the service answers otherwise, and no other."""
    for one in differences('mariadb'):
        heading, cloud, query, *_, version = one
        yield Case(f'docs/DIFFERENCES.md: {heading}: explain {short(query)}', ['sh', '-c', '"$@" 2>/dev/null | grep "^differs: " || true', 'differs', PROGRAM, 'explain', query, '--microversion', version],
                   lambda one=one: named(*one), tables=cloud)


# The files that a word names, and no option.
BESIDE = 'flavors', 'answer'


def files(case, folder):
    """Writes the tables of a case, and returns the options that name them, with the path of a file that is read beside them."""
    options, beside = [], []
    for name, made in case.tables.items():
        made = made() if callable(made) else made
        path = os.path.join(folder, name + '.csv')
        with open(path, 'wb') as file:
            file.write(made.encode() if isinstance(made, str) else made)
        if name in BESIDE:
            beside.append(path)
        else:
            options += [f'--{name}', path]
    return [*(['--tables', folder] if case.together else options), *beside]


# A search over the most providers that are allowed takes memory for each of them, and not for each pair of them.
FEW_BYTES = Case('tokens: the first of 65536 roots, within 512 MiB', ['sh', '-c', 'ulimit -v 524288; exec "$@"', 'limited', PROGRAM, 'tokens', 'resources=VCPU:1&limit=1'],
                 lines('P1'), tables={'providers': lambda: roots(MOST_PROVIDERS), 'inventories': lambda: vcpu(MOST_PROVIDERS)})

# If the last build left the object file: the program must answer the same if it is linked with a static C library.
STATIC = [Case('linked statically, it answers as by itself',
               ['sh', '-c', 'made=$(mktemp) && tools/link-statically.sh "$made" && "$made" candidates "$1" --tables examples/private; status=$?; rm "$made"; exit $status',
                'linked', 'resources=VCPU:8,DISK_GB:80'],
               lambda: run(Case('', ['candidates', 'resources=VCPU:8,DISK_GB:80', '--tables', 'examples/private']))[0])]

PAGES = Case('the documents name what is there', ['sh', '-c', 'python3 -B tests/documents/pages.py'])
CRATES = Case('the picture of the crates is that of crates.txt', ['sh', '-c', 'python3 -B tools/draw-crates.py | cmp - docs/crates.svg'])
DRAWING = Case('a picture of a cloud is that of its tables', ['sh', '-c', 'python3 -B tests/documents/drawing.py'])


def reader_gone():
    """The writing end of a pipe that nobody reads."""
    read, write = os.pipe()
    os.close(read)
    return os.fdopen(write, 'wb')


def run(case, seconds=SECONDS, program=PROGRAM):
    """Runs a case, and returns what came on standard output and on standard error, and the status."""
    with tempfile.TemporaryDirectory() as folder, open(case.to or os.devnull, 'wb') as to, open(case.err_to or os.devnull, 'wb') as err_to:
        words = case.words if case.words[:1] == ['sh'] else [program, *case.words]
        gone = reader_gone() if case.closed else None
        ran = subprocess.run([*words, *files(case, folder)], cwd=case.folder or ROOT, input=case.given, timeout=seconds,
                             stdout=gone or (to if case.to else subprocess.PIPE), stderr=err_to if case.err_to else subprocess.PIPE)
        if gone:
            gone.close()
    return (ran.stdout or b'').decode(errors='replace'), (ran.stderr or b'').decode(errors='replace'), ran.returncode


def told_first(case):
    """What must come on standard error: with `--detail`, an answer of a command over tables tells first that no table of usages is given."""
    given = case.together or 'usages' in case.tables or {'--usages', '--tables'} & set(case.words)
    asked = case.status < 2 and '--detail' in case.words and case.words[0] not in ('query', 'session', 'sh') and (case.tables or '--providers' in case.words)
    told = asked and not given and isinstance(case.err, str) and not case.err.startswith(NO_USAGES)
    return NO_USAGES + case.err if told and case.err is not SOME else case.err


def differs(what, has, wanted):
    if wanted is SOME:
        return None if has else f'there is no {what}'
    return None if has == wanted else f'{what} is {has[:300]!r}, and not {wanted[:300]!r}'


def wrong(case):
    """How the program differs from the case, or None."""
    try:
        out, err, status = run(case)
    except subprocess.TimeoutExpired:
        return f'it had not ended after {SECONDS} seconds'
    wanted = case.out() if callable(case.out) else case.out
    for what, has, wants, gone in ('output', out, wanted, case.to), ('standard error', err, told_first(case), case.err_to):
        why = None if gone else differs(what, has, wants)
        if why:
            return why
    missing = [text for text in case.has if text not in out + err]
    if missing:
        return f'{missing[0]!r} is not said'
    return None if status == case.status else f'status is {status}, and not {case.status}: {(err or out)[-300:]!r}'


def main(*given):
    words = [text for text in given if text != '--all']
    _, said, status = run(Case('build', []), seconds=None, program=LAUNCHER)
    if status == NO_PROGRAM:
        print(f'FAILED to build the program:\n{said}\n0 passed, 1 failed')
        return 1
    rules = [case for page in ('docs/RULES.md', 'docs/DIFFERENCES.md') for case in ruled(page)]
    if len({case.out for case in rules if case.out.startswith('no: rule')}) < 9:
        print('FAILED to find an example of each rule in docs/RULES.md\n0 passed, 1 failed')
        return 1
    pages = [case for page in ('README.md', 'examples/README.md', 'docs/GUIDE.md', 'docs/CAPACITY.md', 'docs/RULES.md', 'docs/REFERENCE.md', 'docs/EXPORT.md', 'tests/examples/commands.txt')
             for case in shown(page)]
    pages += shown('docs/SESSION.md', SHELLS)
    if 'AC_CLI' not in os.environ:
        pages += [*releases(lines('P1')), *shown('README.md', launcher=os.path.join(clone(), 'ac_cli'))]
    chance = [*drawn(150), *drawn_audits(300), *drawn_tables(200), *drawn_queries(200)]
    linked = STATIC if os.path.isfile(os.path.join(ROOT, 'out', 'ac_cli.o')) and 'AC_CLI' not in os.environ else []
    cases = [PAGES, CRATES, DRAWING, *linked, *HELP, *WORDS, *FILES, *FOLDERS, *DRIVER, *REPORT, *DETAILS, *second_lines(), *PASTED, *DEVICES, *GROWTHS, *AS_METRICS, *FORMS_BY_HAND, *in_forms([*SMALL, *chance]), KNOWN, *REFUSALS, *SMALL, *pages, remade('examples/private/README.md'),
             *rules, *examples(), *concerned(), *exports(), *database_exports(), *flavor_queries(), *sessions(PROGRAM), *compares(PROGRAM), *queries(), *names_cases(PROGRAM), *changes(), *chance, *LARGE, *hostile(PROGRAM), *cliffs(PROGRAM), *tries(PROGRAM), FEW_BYTES, *cuts()]
    cases = [case for case in cases if all(word in case.name for word in words)]
    failed = 0
    with ThreadPoolExecutor(max_workers=2) as pool:
        for case, why in zip(cases, pool.map(wrong, cases)):
            failed += why is not None
            if why or '--all' in given:
                print(f'FAILED {case.name}: {why}' if why else f'ok     {case.name}', flush=True)
    for what in untried():
        print(f'not tried: {what}')
    print(f'{len(cases) - failed} passed, {failed} failed')
    return 1 if failed else 0


if __name__ == '__main__':
    sys.exit(main(*sys.argv[1:]))
