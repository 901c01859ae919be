#!/bin/bash
# bench/operators.sh [HOSTS..]: makes the table that docs/PERFORMANCE.md begins with, in Markdown: how long answers take over an operator's cloud of
# these numbers of hosts (300, 1000, 10000 and 65533, if none is named), and how much memory. The clouds are of the shape `private` of
# bench/make_tables.py, with 53 traits for each host, NUMA nodes, functions of network cards and GPUs. More than 18000 such hosts don't fit into the
# limits of the tables, so larger clouds have no NUMA nodes or what belongs to them, and 16 traits for each host. The rows of each provider stand
# together, in the order of the table of providers, as the exports of docs/EXPORT.md write them.
#
# Each time is processor time of the program and of the system for it, the least of seven runs; memory is the most that was held at once. The query is
# that of an ordinary flavor, with `limit=1000`, as Nova asks; `capacity` has twelve flavors, of 1 to 12 VCPUs, and behind the table a hundred of these sizes
# over the last cloud. Build the program first, by ./ac_cli; AC_CLI may name another one.

set -eu
export LC_ALL=C
TIMEFORMAT='%3U %3S'
query='resources=DISK_GB:80,MEMORY_MB:32768,VCPU:8&root_required=!COMPUTE_STATUS_DISABLED&limit=1000'
bench=$(dirname "$(readlink -f "$0")")
room=$(mktemp -d)
trap 'rm -rf "$room"' EXIT

if [[ ${1-} == --help ]]; then
    sed -n '2,/^$/s/^# \{0,1\}//p' "$0"
    exit 0
fi
program=${AC_CLI-}
if [[ -z $program ]]; then
    AC_CLI_NO_BUILD=yes "$bench/../ac_cli" >"$room/sample" || exit
    program=$(dirname "$bench")/out/ac_cli
fi

# took WORDS..: prints the least processor time of seven runs, in thousandths of a second. A status of 1 is an answer too.
took() {
    local least='' user system spent
    for _ in 1 2 3 4 5 6 7; do
        { time "$program" "$@" --tables "$room" >"$room/out" 2>"$room/err" || [[ $? == 1 ]]; } 2>"$room/time"
        read -r user system <"$room/time"
        spent=$((10#${user/./} + 10#${system/./}))
        [[ -n $least && $spent -ge $least ]] || least=$spent
    done
    echo "$least"
}

# shown MILLISECONDS: prints them in milliseconds, or from 200 on in seconds
shown() {
    if [[ $1 -lt 200 ]]; then
        echo "$1 ms"
    else
        printf '%d.%02d s\n' $((($1 + 5) / 1000)) $((($1 + 5) / 10 % 100))
    fi
}

# flavors NUMBER: prints a table of this number of flavors
flavors() {
    echo flavor,query
    local n size
    for ((n = 0; n < $1; n++)); do
        size=$((n % 12 + 1))
        echo "f$n,\"resources=DISK_GB:$((size * 10)),MEMORY_MB:$((size * 4096)),VCPU:$size&root_required=!COMPUTE_STATUS_DISABLED\""
    done
}
flavors 12 >"$room/twelve"
flavors 100 >"$room/hundred"

echo '| hosts | providers | tables | `check` | `tokens` | `hosts` | `why` | `explain` | `audit` | `capacity` | memory |'
echo '|---|---|---|---|---|---|---|---|---|---|---|'
[[ $# -gt 0 ]] || set -- 300 1000 10000 65533
for hosts; do
    kinds=''
    [[ $hosts -le 18000 ]] || kinds='--kinds flat --traits 16'
    rm -f "$room"/*.csv
    python3 "$bench/make_tables.py" "$room" --shape private --hosts "$hosts" --order made $kinds
    checked=$(took check)
    providers=$(sed -n 's/^providers //p' "$room/out")
    bytes=$(cat "$room"/*.csv | wc -c)
    asked=$(took tokens "$query")
    hosted=$(took hosts "$query")
    asked_why=$(took why "$query" cmp-az1-000)
    explained=$(took explain "$query")
    audited=$(took audit)
    planned=$(took capacity "$room/twelve")
    /usr/bin/time -q -f %M -o "$room/memory" "$program" tokens "$query" --tables "$room" >"$room/out" 2>"$room/err"
    printf '| %d%s | %d | %d.%d MB | %s | %s | %s | %s | %s | %s | %s | %d MiB |\n' "$hosts" "${kinds:+, without NUMA nodes}" "$providers" $((bytes / 1000000)) \
        $((bytes / 100000 % 10)) "$(shown "$checked")" "$(shown "$asked")" "$(shown "$hosted")" "$(shown "$asked_why")" \
        "$(shown "$explained")" "$(shown "$audited")" "$(shown "$planned")" $(($(<"$room/memory") / 1024))
done
echo "capacity of a hundred flavors over the last: $(shown "$(took capacity "$room/hundred")")"
