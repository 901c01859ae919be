"""Cases for tools/export-tables-from-database.sh, over a SQLite file with Placement's tables. The client sqlite3 is the real one, so it must be
installed; mysql and psql are a stand-in (tests/client/mysql). tools/try-with-service.sh tries the script over the service's own databases."""
from __future__ import annotations

from cases import Case
from export import CLOUD, EXAMPLE, FIVE, HERE, NAMELESS, NOVA, OLD_NAMES, OTHERS, RATIOS, SIX

TOLD = 'export-tables-from-database: '
TOOL = 'tools/export-tables-from-database.sh'
ROW = '8c1d9a70-6e55-4f8f-8a0e-3f2f2f0a7702'


def export(name, script, out, *said, settings='', cloud=CLOUD, before='true'):
    """A case that runs this script. $out is a new folder, and $base a SQLite file with the cloud. `before` may first change the cloud in $CLOUD.
    $NOVA has its aggregates, or is empty."""
    begin = f'''out=$(mktemp -d) && trap 'rm -rf "$out" "$CLOUD"' EXIT && export CLOUD=$(mktemp -d) NOVA={NOVA} {settings} && cp {cloud}/*.csv "$CLOUD" &&
        {{ {before}
        }} && base=$CLOUD/base && python3 -B {HERE}/client/make_database.py "$CLOUD" "$base" "$NOVA" && export PATH={HERE}/client:$PATH && '''
    return Case(f'export from a database: {name}', ['sh', '-c', begin + script], out, ''.join(line + '\n' for line in said))


def by(client, options=''):
    """Commands that export by this client. sqlite3 gets Nova's database by a word of its own."""
    more = '-cmd "ATTACH \'$base.nova_api\' AS nova_api"' if client == 'sqlite3' else ''
    return f'{TOOL} {options} "$out" {client} {more} "$base"; echo $?; ls -A "$out"'


def failed(name, settings, *said):
    return export(name, by('mysql'), '1\n', *said, settings=settings)


def rounded(provider, named):
    return [f'{TOLD}provider {provider}, {name}: the ratio {ratio} is {RATIOS[ratio]}' for name, ratio in named.items()]


def more_ratios(ratios):
    """Commands that give one provider an inventory for each of these ratios, and take all others away."""
    rows = ''.join(f'"{ROW}","R{at}",{ratio},1,1,0,1,1,0\n' for at, ratio in enumerate(ratios))
    return f'''grep resource_class {CLOUD}/inventories.csv >"$CLOUD/inventories.csv"; head -n 1 {CLOUD}/usages.csv >"$CLOUD/usages.csv"
        cat >>"$CLOUD/inventories.csv" <<'X'\n{rows}X\n'''


def database_exports():
    for client in 'sqlite3', 'psql':
        yield export(f'the tables of the client, by {client}', f'{by(client)}; diff -r "$out" {CLOUD}', '0\n' + SIX)
        yield export(f'the example cloud, by {client}', f'{by(client)}; diff -r {OTHERS} "$out" {EXAMPLE}', '0\n' + SIX, cloud=EXAMPLE)
    yield export('ratios of single precision, by mysql',
                 f'{by("mysql")}; sed "s/0.3333333333333333/0.333333/; s/0.30000000000000004/0.3/" {CLOUD}/inventories.csv '
                 '>"$CLOUD/inventories.csv"; rm "$base"*; diff -r "$out" "$CLOUD"', '0\n' + SIX)
    ratios = [ratio for ratio in RATIOS if ratio != 'inf'] + ['0.1', '123456.789', '9007199254740993.0', '1.7976931348623157e+308', '100.0']
    for client in 'sqlite3', 'psql':
        yield export(f'ratios as Python prints them, by {client}',
                     f'{by(client)}; tail -n +2 "$out/inventories.csv" | cut -d , -f 3', '0\n' + SIX +
                     ''.join(repr(float(one)) + '\n' for one in ratios), before=more_ratios(ratios))
    yield export('ratios are rounded where that is asked for', by('sqlite3', '--round-ratios') + '; cut -d , -f 3 "$out/inventories.csv"',
                 '0\n' + SIX + '"allocation_ratio"\n1.0\n0.00001\n1e+16\n0.0\n0.333333\n0.3\n16.0\n1.5\n',
                 *rounded('5d3a1b1e-0c1f-4a4e-9a53-0f5b3a6f6b01', {'CUSTOM_TINY': '1e-05', 'CUSTOM_THIRD': '0.3333333333333333',
                                                                   'CUSTOM_SUM': '0.30000000000000004'}))
    yield export('a name with the end of a line', by('sqlite3') + '; diff "$out/providers.csv" "$CLOUD/providers.csv"', '0\n' + SIX,
                 before=f"""sed 's/"cn1"/"end\\nproviders, ""x""\\t|"/' {CLOUD}/providers.csv >"$CLOUD/providers.csv\"""")
    yield export('the client has words of its own', f'cd "$CLOUD" && {HERE}/../{by("sqlite3").replace("$base", "base")}', '0\n' + SIX)
    nameless = TOLD + NAMELESS
    for client, why in (('mysql', "ERROR 1049 (42000) at line 34: Unknown database 'nova_api'"),
                        ('psql', '\\connect: connection to server failed: FATAL:  database "nova_api" does not exist')):
        yield export(f"without Nova's database, names of an older export go, by {client}", OLD_NAMES + by(client), '0\n' + FIVE, f'{nameless}: {why}',
                     settings='NOVA=')
    yield export("without Nova's database, by sqlite3",
                 f'{TOOL} "$out" sqlite3 "$base" 2>"$CLOUD/said"; echo $?; ls -A "$out"; cut -c -{len(nameless)} "$CLOUD/said"', f'0\n{FIVE}{nameless}\n')
    lost = 'ERROR 2013 (HY000): Lost connection to server during query'
    for name, settings, said in (('fails', 'BROKEN=26', f'{nameless}: {lost}'), ('ends', 'CUT=26', nameless), ('says something else', 'ODD=26', nameless)):
        yield export(f'the client {name} among the names of aggregates', OLD_NAMES + by('mysql'), '0\n' + FIVE, said, settings=settings)
    yield export('no aggregates', by('psql') + '; cat "$out/aggregate-names.csv"', '0\n' + SIX + '"uuid","name"\n', settings='NOVA=/dev/null')
    failure = TOLD + 'the client failed', 'The client said:', lost
    yield failed('the client fails at once', 'BROKEN=0', *failure)
    yield failed('the client fails among the traits', 'BROKEN=20', *failure)
    yield failed('the client ends too early', 'CUT=20', TOLD + 'the client ended before it had printed all tables')
    yield failed('the client says something else', 'ODD=1', TOLD + 'the client printed a line that is no row of a table')
    yield export('older tables stay where the client fails', f'{OLD_NAMES}echo old >"$out/usages.csv"; {by("mysql")}; cat "$out"/*',
                 '1\naggregate-names.csv\nusages.csv\nold\nold\n', *failure, settings='BROKEN=0')
    yield export('no such file', f'{TOOL} "$out" sqlite3 "$out/none" 2>&1 | head -n 1; ls -A "$out"', TOLD + 'the client failed\n')
    yield export('nobody reads what it says', f'{TOOL} "$out" sqlite3 "$out/none" 2>&1 | true; ls -A "$out"', '')
    yield export('no providers', by('sqlite3'), '1\n', TOLD + 'the cloud has no providers',
                 before='for table in "$CLOUD"/*.csv; do sed -i 2,\\$d "$table"; done')
    yield export('no client', f'{TOOL} "$out" /nowhere/psql; echo $?; ls -A "$out"', '1\n', TOLD + 'there is no client /nowhere/psql on the PATH')
    usage = 'usage: tools/export-tables-from-database.sh [--round-ratios] OUTDIR mysql|mariadb|psql|sqlite3 [ARG..]'
    for name, words in ('no client is named', '"$out"'), ('another client', '"$out" oracle'), ('no folder', '--round-ratios'):
        yield export(name, f'{TOOL} {words}; echo $?', '2\n', usage)
