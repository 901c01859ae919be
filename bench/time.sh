#!/bin/bash
# bench/time.sh [--deep|--disks] [PROVIDERS..]: times the proved program on clouds of these numbers of providers (4096, 16384 and 65536, if none is
# named). Each cloud is five tables, with three resource classes, eight traits and two aggregates for each provider (bench/make_tables.py has the
# shapes). Build the program first, by ./ac_cli. The script times:
# - `check`, and over the same bytes in the same run: the ported csv alone (bench/csv_alone.rattle), wc, Python's csv module, and a plain Rust program
#   that only splits and counts (bench/anchor, if there is rustc);
# - `tokens` and `candidates`, without a limit and with one, from the start and after a token, and `verify`;
# - for the last number also rows in order and in reverse, one chain, and hosts that all share in two groups; then fewer hosts, each of which also
#   shares in a group of its own;
# - operators' clouds of 300, 1000 and 10000 hosts, with an ordinary flavor and with one that asks for four functions of network cards.
# With --deep, it also times searches with several slots, which a search through all lists wouldn't end. With --disks, it only times searches and
# explanations over hosts that share many disks through one aggregate, and writes beside each the most processor time that it should take.
# Each figure is the best of three runs, or that of one run if it took more than ten seconds: wall time, and the most memory held at once.
# AC_CLI may name another program to time. BESIDE may name one that has the same command `tokens`; with --disks it is timed beside this one.

set -eu
export LC_ALL=C
bench=$(dirname "$(readlink -f "$0")")
room=$(mktemp -d)
trap 'rm -rf "$room"' EXIT
deep='' disks=''
if [[ ${1-} == --help ]]; then
    sed -n '2,/^$/s/^# \{0,1\}//p' "$0"
    exit 0
elif [[ ${1-} == --deep ]]; then
    deep=yes
    shift
elif [[ ${1-} == --disks ]]; then
    disks=yes
    shift
fi

program=${AC_CLI-}
if [[ -z $program ]]; then
    AC_CLI_NO_BUILD=yes "$bench/../ac_cli" >"$room/sample" || exit
    program=$(dirname "$bench")/out/ac_cli
fi

# aim SECONDS COMMAND QUERY: writes a line for each program, with these seconds beside its processor time. That is the least of three runs, or that of
# one run if it took more than ten seconds, or was ended after sixty.
aim() {
    local path beside=${BESIDE-} least status user system took
    [[ $2 != explain ]] || beside=''
    for path in "$program" $beside; do
        least=''
        for _ in 1 2 3; do
            status=0
            /usr/bin/time -q -f '%U %S' -o "$room/took" timeout 60 "$path" "$2" "$3" "${tables[@]}" >"$room/out" 2>"$room/err" || status=$?
            read -r user system <"$room/took"
            took=$((10#${user/./} + 10#${system/./}))
            [[ -n $least && $took -ge $least ]] || least=$took
            [[ $took -lt 1000 ]] || break
        done
        printf '  %-34s %5d.%02d s of processor time, at most %s; status %d, %d lines\n' "$2, ${path##*/}" $((least / 100)) $((least % 100)) "$1" "$status" \
            "$(wc -l <"$room/out")"
    done
}

# groups NUMBER: prints a query with this number of groups, each of which asks for some disk
groups() {
    local query='group_policy=none' k
    for ((k = 1; k <= $1; k++)); do
        query+="&resources$k=DISK_GB:1"
    done
    echo "$query"
}

# full_disks: times the searches and explanations over disks that all hosts share
full_disks() {
    local two='resources1=VCPU:1&resources2=DISK_GB:1&group_policy=none'
    local three='resources1=VCPU:1&resources2=VCPU:1&resources3=DISK_GB:1&group_policy=none'
    local few='--classes 1 --traits 0 --aggregates 0' number command
    for number in 300 400; do
        cloud 64000 sorted disks $few --disks "$number" --full
        echo "  $three"
        for command in tokens explain; do
            aim 1 "$command" "$three"
        done
    done
    cloud 64000 sorted disks $few --disks 1000 --full
    echo "  $two"
    for command in tokens explain; do
        aim 1 "$command" "$two"
    done
    cloud 20000 sorted disks $few --disks 20000
    echo '  64 groups'
    aim 2 explain "$(groups 64)"
    aim 2 tokens "$(groups 64)&limit=1"
}

anchor=''
if [[ -z $disks ]] && command -v rustc >"$room/rustc" && rustc -O -o "$room/reading" "$bench/anchor/reading.rs"; then
    anchor=$room/reading
fi

# The ported csv alone, which reads the same bytes into the same records. It is a crate of its own, made for this run.
ported=''
alone=$room/alone/crates/csv_alone
mkdir -p "$alone/src" && cp "$bench/csv_alone.rattle" "$alone/src/main.rt" && echo 'csv_alone: csv' >"$room/alone/crates.txt"
if [[ -z $disks ]] && (cd "$room/alone" && git init -q && cd "$alone" && rt run) >"$room/ported.log" 2>&1 </dev/null; then
    ported=$alone/out/csv_alone
fi

# The interpreter itself, since python3 may be a script that first looks for it.
python=$(python3 -c 'import sys; print(sys.executable)')
read_by_python='
import csv, sys
for path in sys.argv[1:]:
    with open(path, newline="") as file:
        print(sum(1 for record in csv.reader(file)))'

# best NAME COMMAND..: writes a line with the least wall time of the runs of this command, and the least of their peaks of memory
best() {
    local name=$1 least='' lowest='' began took peak
    shift
    for _ in 1 2 3; do
        began=${EPOCHREALTIME/./}
        if ! /usr/bin/time -q -f %M -o "$room/peak" "$@" >"$room/out" 2>"$room/err"; then
            echo "$name failed: $(head -c 300 "$room/err")" >&2
            exit 1
        fi
        took=$((${EPOCHREALTIME/./} - began))
        peak=$(<"$room/peak")
        [[ -n $least && $took -ge $least ]] || least=$took
        [[ -n $lowest && $peak -ge $lowest ]] || lowest=$peak
        [[ $took -lt 10000000 ]] || break
    done
    printf '  %-34s %8d.%d ms %6d MiB %9d lines %10d bytes\n' "$name" $((least / 1000)) $((least / 100 % 10)) $((lowest / 1024)) \
        "$(wc -l <"$room/out")" "$(wc -c <"$room/out")"
}

# cloud PROVIDERS ORDER SHAPE [WORDS..]: makes the tables, says what they are, and times how they are read. WORDS go to bench/make_tables.py too. For
# the shape `private`, the number is that of the hosts.
cloud() {
    rm -f "$room"/*.csv
    "$python" "$bench/make_tables.py" "$room" --providers "$1" --hosts "$1" --order "$2" --shape "${@:3}"
    files=("$room"/{providers,inventories,usages,traits,aggregates}.csv)
    tables=(--providers "${files[0]}" --inventories "${files[1]}" --usages "${files[2]}" --traits "${files[3]}" --aggregates "${files[4]}")
    printf '%s, %d providers, rows %s: %d rows, %d bytes\n' "${*:3}" $(($(wc -l <"${files[0]}") - 1)) "$2" "$(cat "${files[@]}" | wc -l)" \
        "$(cat "${files[@]}" | wc -c)"
    best 'ac_cli check' "$program" check "${tables[@]}"
    [[ -z $ported ]] || best 'ported csv alone' "$ported" "${files[@]}"
}

# search QUERY [whole]: times both writers with a limit, then `tokens` after the last line of that page, and `verify` of that line; with `whole`, first
# both writers without a limit
search() {
    local last
    echo "  $1"
    if [[ ${2-} == whole ]]; then
        best 'tokens' "$program" tokens "$1" "${tables[@]}"
        best 'candidates' "$program" candidates "$1" "${tables[@]}"
    fi
    best 'candidates, limit 1000' "$program" candidates "$1&limit=1000" "${tables[@]}"
    best 'tokens, limit 1000' "$program" tokens "$1&limit=1000" "${tables[@]}"
    last=$(tail -n 1 "$room/out")
    if [[ -n $last ]]; then
        best 'tokens, limit 1000, after' "$program" tokens "$1&limit=1000" --after "$last" "${tables[@]}"
        best 'verify' "$program" verify "$1" "$last" "${tables[@]}"
    fi
}

if [[ -n $disks ]]; then
    full_disks
    exit 0
fi
[[ $# -gt 0 ]] || set -- 4096 16384 65536
for providers; do
    cloud "$providers" shuffled flat
    [[ -z $anchor ]] || best 'splitting, plain Rust' "$anchor" "${files[@]}"
    best 'wc -l' wc -l "${files[@]}"
    best "Python's csv, started" "$python" -c "$read_by_python" "${files[@]}"
    search 'resources=VCPU:2' whole
    search 'resources1=VCPU:2,MEMORY_MB:512&required1=!CUSTOM_TRAIT_7'
    [[ -z $deep ]] || search 'resources=VCPU:2,MEMORY_MB:512,DISK_GB:512'
done
cloud "$providers" sorted flat
cloud "$providers" reversed flat
cloud "$providers" shuffled chain
search 'resources=VCPU:2'
few='--classes 1 --traits 0 --aggregates 0'
cloud "$providers" shuffled sharing $few
for number in 2000 4000 8000; do
    cloud "$number" shuffled sharing $few --groups "$number"
done
flavor='resources=DISK_GB:80,MEMORY_MB:32768,VCPU:8&root_required=!COMPUTE_STATUS_DISABLED'
functions='resources=DISK_GB:80&resources_CPU=PCPU:4,MEMORY_MB:8192&group_policy=isolate&root_required=!COMPUTE_STATUS_DISABLED'
for network in 1:DATA 2:DATA 3:PUBLIC 4:STORAGE; do
    functions+="&resources_NET${network%:*}=SRIOV_NET_VF:1&required_NET${network%:*}=CUSTOM_PHYSNET_${network#*:}"
done
for number in 300 1000 10000; do
    cloud "$number" shuffled private
    search "$flavor" whole
    search "$functions" whole
done
[[ -n $deep ]] || exit 0
cloud "$providers" shuffled numa
search 'resources_A=VCPU:1,MEMORY_MB:512&resources_B=VCPU:1,MEMORY_MB:512&resources_C=SRIOV_NET_VF:1&resources_D=SRIOV_NET_VF:1&same_subtree=_A,_C&same_subtree=_B,_D&group_policy=isolate'
cloud "$((providers < 20000 ? providers : 20000))" shuffled disk
search 'resources=VCPU:2,DISK_GB:512'
