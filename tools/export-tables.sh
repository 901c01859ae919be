#!/bin/sh
# tools/export-tables.sh [--round-ratios] OUTDIR: writes the tables of a cloud, as ac_cli reads them, into OUTDIR: providers.csv, inventories.csv,
# usages.csv, traits.csv, aggregates.csv and aggregate-names.csv. It asks the openstack client, which finds the cloud by OS_* variables (docs/EXPORT.md).
# One process of the client makes all lists of a table, by commands on its standard input. If the client fails, or a provider vanishes
# meanwhile, OUTDIR stays as it was and the status is 1: the tables get their names only when all are complete. Only aggregate-names.csv, which is
# Nova's, may be missing. Then a line says why, and an older one is deleted.
# With --round-ratios, allocation ratios are written without an exponent and cut to six decimals. A line names each one that this changes.

set -eu
tool=export-tables
usage='tools/export-tables.sh [--round-ratios] OUTDIR'
. "$(dirname -- "$0")/exporting.sh"
export OS_PLACEMENT_API_VERSION=1.29

# ask FILE: runs the commands on standard input in one process of the client, and writes its answer to that file of the room. Newer clients end such a
# process with status 1 though all went well: then they say nothing on standard error.
ask() {
    openstack >"$room/$1" 2>"$room/said" || test ! -s "$room/said" || stop "the client failed while it listed ${1%.*}"
}

# join TABLE FIRST: joins the lists of all providers into one table, with a column for the provider in front. Each list begins with the header,
# even if it has no rows. So the n-th header belongs to the n-th provider. FIRST is the name of the list's first column.
join() {
    awk -v ids="$room/ids" -v first="\"$2\"" '
        BEGIN { while ((getline id < ids) > 0) of[++wanted] = id }
        { sub(/^(\(openstack\) )+/, "") }
        $0 == "" { next }
        lists == 0 && index($0 ",", first ",") == 1 { header = $0; print "\"resource_provider\"," header }
        $0 == header { lists++; next }
        lists == 0 || !/^"/ { exit odd = 3 }
        { print "\"" of[lists] "\"," $0 }
        END { exit odd ? odd : lists == wanted ? 0 : 4 }' "$room/$1.lists" >"$room/$1.csv" || {
        case $? in
        3) stop "the client printed a line that is no row of a list, among the lists of $1" ;;
        *) stop "there isn't one list of $1 for each provider: the client failed, or a provider vanished in between" ;;
        esac
    }
}

# table TABLE FIRST COMMAND: makes a table by running COMMAND UUID for each provider
table() {
    sed "s/.*/$3 & -f csv/" "$room/ids" | ask "$1.lists"
    join "$1" "$2"
}

# names: makes the table of the names of aggregates: of each its own name, and then that of its zone, if it has one of another name. They are from
# Nova's list, which numbers the aggregates. One more process of the client tells the UUID of each number: only newer clients have it in the list. A row
# of the list goes on in the next line while it has an odd number of quotes, and the client writes each backslash twice. If there isn't one UUID for each
# number, this fails.
names() {
    export room OS_COMPUTE_API_VERSION=2.41
    openstack aggregate list -f csv -c ID -c Name -c 'Availability Zone' </dev/null >"$room/names.list" 2>"$room/said" || return
    awk '
        function named(uuid, name) { if (name != "\"\"") print "\"" uuid "\"," name }
        { row = row $0 }
        gsub(/"/, "&", row) % 2 { row = row "\n"; next }
        { rows[lines++] = row; row = "" }
        END {
            if (rows[0] != "\"ID\",\"Name\",\"Availability Zone\"" || row != "") exit 3
            client = "openstack >\"$room/uuids\" 2>\"$room/said\""
            for (at = 1; at < lines; at++) {
                if (rows[at] !~ /^[0-9]+,"([^"]|"")*","([^"]|"")*"$/) exit 3
                print "aggregate show " rows[at] + 0 " -f value -c uuid" | client
            }
            close(client)
            while ((getline uuid < (ENVIRON["room"] "/uuids")) > 0) {
                sub(/^(\(openstack\) )+/, "", uuid)
                if (uuid == "") continue
                if (length(uuid) != 36 || uuid !~ /^[0-9a-f-]+$/) exit 3
                of[++known] = uuid
            }
            if (known + 1 != lines) exit 4
            print "\"uuid\",\"name\""
            for (at = 1; at < lines; at++) {
                row = rows[at]
                gsub(/\\\\/, "\\", row)
                match(row, /,"([^"]|"")*",/)
                name = substr(row, RSTART + 1, RLENGTH - 2)
                zone = substr(row, RSTART + RLENGTH)
                named(of[at], name)
                if (zone != name) named(of[at], zone)
            }
        }' "$room/names.list" >"$room/aggregate-names.csv"
}

test $# = 1 || wrong_words
begin "$1"
command -v openstack >"$room/found" || stop 'there is no openstack client on the PATH'

echo 'resource provider list -f csv' | ask providers.csv
case $(head -n 1 "$room/providers.csv") in
*'"root_provider_uuid","parent_provider_uuid"'*) ;;
*) stop 'the list of providers has no columns root_provider_uuid and parent_provider_uuid' ;;
esac
awk -F '"' 'NR > 1 && length($2) == 36 && $2 ~ /^[0-9a-f-]+$/ { print $2 }' "$room/providers.csv" >"$room/ids"
test -s "$room/ids" || stop 'the cloud has no providers'

table inventories resource_class 'resource provider inventory list'
table usages resource_class 'resource provider usage show'
table traits name 'resource provider trait list'
table aggregates uuid 'resource provider aggregate list'

echo 'resource provider list -f csv' | ask providers.again
cmp -s "$room/providers.csv" "$room/providers.again" ||
    echo 'export-tables: the cloud changed while it was listed (a provider, or its generation): the tables are not of one moment' >&2
names || nameless
hand_over
