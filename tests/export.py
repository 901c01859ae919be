"""Cases for tools/export-tables.sh, with a stand-in for the client (tests/client/openstack), which makes its lists from joined tables."""
from __future__ import annotations

import os

from cases import Case

HERE = os.path.dirname(os.path.abspath(__file__))
CLOUD = os.path.join(HERE, 'client', 'cloud')
EXAMPLE = os.path.join(os.path.dirname(HERE), 'examples', 'cloud')
CHILD = '8c1d9a70-6e55-4f8f-8a0e-3f2f2f0a7702'
NOVA = os.path.join(HERE, 'client', 'nova.csv')
FIVE = 'aggregates.csv\ninventories.csv\nproviders.csv\ntraits.csv\nusages.csv\n'
SIX = 'aggregate-names.csv\n' + FIVE
NAMELESS = "no aggregate-names.csv: the names of aggregates can't be had"
OTHERS = '-x README.md -x aggregate-names.csv'  # what a folder has beside an example cloud's five tables
OLD_NAMES = 'echo old >"$out/aggregate-names.csv"; '
SCRIPT = 'tools/export-tables.sh "$out"; echo $?; ls -A "$out"'
NEEDED = 'dirname ls mkdir rm'  # what the script needs before it asks the client, and this test afterwards
ROUNDING = 'tools/export-tables.sh --round-ratios "$out"; echo $?'
# ratios as Python prints them, and what --round-ratios says about each
RATIOS = {**dict.fromkeys(('1.1', '16.0', '0.0', '0.333333', '1e+16', '1234567.25', 'inf'), ''), '1e-05': 'written as 0.00001',
          '2.5e-05': 'written as 0.000025', '0.3333333333333333': 'rounded down to 0.333333', '0.30000000000000004': 'rounded down to 0.3',
          '1.9999999999999998': 'rounded down to 1.999999', '0.0001234567': 'rounded down to 0.000123', '9.87654e-05': 'rounded down to 0.000098',
          '1e-07': 'rounded down to 0.0', '5e-324': 'rounded down to 0.0', '1000000.0000001': 'rounded down to 1000000.0'}


def export(name, script, out, *said, settings='', cloud=CLOUD):
    """A case that runs this script. $out is a new folder, and the client is the stand-in."""
    before = f'''out=$(mktemp -d) && trap 'rm -rf "$out" "$CLOUD"' EXIT && export CLOUD=$(mktemp -d) NOVA={NOVA} {settings} &&
        cp {cloud}/*.csv "$CLOUD" && export PATH={HERE}/client:$PATH && '''
    return Case(f'export: {name}', ['sh', '-c', before + script], out, ''.join(line + '\n' for line in said))


def failed(name, settings, *said):
    return export(name, SCRIPT, '1\n', *said, settings=settings)


def rounded(provider, named):
    """The lines about a provider's classes with these ratios."""
    return [f'export-tables: provider {provider}, {name}: the ratio {ratio} is {RATIOS[ratio]}' for name, ratio in named.items() if RATIOS[ratio]]


def exports():
    told = 'export-tables: '
    yield export('the tables are the lists joined', f'{SCRIPT}; diff -r "$out" {CLOUD}', '0\n' + SIX)
    yield export('the example cloud', f'{SCRIPT}; diff -r {OTHERS} "$out" {EXAMPLE}', '0\n' + SIX, cloud=EXAMPLE)
    yield export('without a right to see aggregates, names of an older export go', OLD_NAMES + SCRIPT, '0\n' + FIVE,
                 f"{told}{NAMELESS}: HttpException: 403: Client Error, Policy doesn't allow os_compute_api:os-aggregates:index to be performed.",
                 settings='NOVA=')
    yield export('an aggregate vanished in between', OLD_NAMES + SCRIPT, '0\n' + FIVE, f'{told}{NAMELESS}: No Aggregate found for 3', settings='VANISHED=3')
    yield export('no aggregates', SCRIPT + '; cat "$out/aggregate-names.csv"', '0\n' + SIX + '"uuid","name"\n', settings='NOVA=/dev/null')
    yield export('a list of aggregates of another form', OLD_NAMES + SCRIPT, '0\n' + FIVE, told + NAMELESS, settings='ODD=aggregate')
    named = {f'R{at}': ratio for at, ratio in enumerate(RATIOS)}
    rows = ''.join(f'"{CHILD}","{name}",{ratio},1,1,0,1,1,0\n' for name, ratio in named.items())
    ratios = ''.join(f'"{name}",{(RATIOS[ratio] or ratio).split()[-1]}\n' for name, ratio in named.items())
    yield export('ratios are rounded where that is asked for, and each that was is told',
                 f"""grep resource_class {CLOUD}/inventories.csv >"$CLOUD/inventories.csv"; cat >>"$CLOUD/inventories.csv" <<'X'\n{rows}X\n{ROUNDING}
                 others() {{ cut -d , -f 1,2,4- "$1/inventories.csv"; }}
                 tail -n +2 "$out/inventories.csv" | cut -d , -f 2,3; others "$out" >"$CLOUD/rounded"; others "$CLOUD" | diff - "$CLOUD/rounded\"""",
                 '0\n' + ratios, *rounded(CHILD, named))
    yield export('rounded tables are accepted',
                 f'grep -v e+16 {CLOUD}/inventories.csv >"$CLOUD/inventories.csv"; {ROUNDING}; '
                 '${AC_CLI:-out/ac_cli} check --providers "$out/providers.csv" --inventories "$out/inventories.csv"',
                 '0\nproviders 3\ninventories 7\nusages 0\ntraits 0\naggregates 0\n',
                 *rounded('5d3a1b1e-0c1f-4a4e-9a53-0f5b3a6f6b01', {'CUSTOM_TINY': '1e-05', 'CUSTOM_THIRD': '0.3333333333333333',
                                                                   'CUSTOM_SUM': '0.30000000000000004'}))
    yield export('nothing is rounded where all ratios are read', f'{ROUNDING}; diff -r {OTHERS} "$out" {EXAMPLE}', '0\n', cloud=EXAMPLE)
    yield failed('a provider vanished in between', f'VANISHED={CHILD}',
                 told + "there isn't one list of inventories for each provider: the client failed, or a provider vanished in between",
                 'The client said:', f'No resource provider with uuid {CHILD} found : Not Found (HTTP 404)')
    for commands, table in (0, 'providers'), (2, 'inventories'):
        yield failed(f'the client fails after {commands} commands', f'BROKEN={commands}', f'{told}the client failed while it listed {table}',
                     'The client said:', 'Unable to establish connection to http://placement')
    yield failed('the client says something else', 'ODD=provider',
                 told + 'the client printed a line that is no row of a list, among the lists of inventories')
    yield export('the cloud changes in between', SCRIPT, '0\n' + SIX, settings='BUSY=second',
                 *[told + 'the cloud changed while it was listed (a provider, or its generation): the tables are not of one moment'])
    yield export('older tables stay where the client fails', f'{OLD_NAMES}echo old >"$out/usages.csv"; {SCRIPT}; cat "$out"/*',
                 '1\naggregate-names.csv\nusages.csv\nold\nold\n', f'{told}the client failed while it listed providers', 'The client said:',
                 'Unable to establish connection to http://placement', settings='BROKEN=0')
    alone = f'mkdir "$CLOUD/bin" && for name in {NEEDED}; do ln -s "$(command -v $name)" "$CLOUD/bin"; done; PATH=$CLOUD/bin; '
    yield export('no client', alone + SCRIPT, '1\n', told + 'there is no openstack client on the PATH')
    yield export('no folder', 'tools/export-tables.sh; echo $?', '2\n', 'usage: tools/export-tables.sh [--round-ratios] OUTDIR')
    yield Case('check: the exported tables, with a ratio that is no ratio here', ['check', *(
        word for table in ('providers', 'inventories', 'usages', 'traits', 'aggregates')
        for word in (f'--{table}', os.path.join(CLOUD, table + '.csv')))], err='inventories: record 3: BadRatio\n', status=3)
