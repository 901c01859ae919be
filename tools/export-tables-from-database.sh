#!/bin/sh
# tools/export-tables-from-database.sh [--round-ratios] OUTDIR CLIENT [ARG..]: writes the tables of a cloud, as ac_cli reads them, into
# OUTDIR, straight from Placement's database. CLIENT ARG.. is the command by which you would open that database: mysql or mariadb, psql, or
# sqlite3 (docs/EXPORT.md). The client is started once. It answers one query for each table, all in one transaction that only reads, so the tables are
# of one moment. They have the columns of tools/export-tables.sh. If the client fails, OUTDIR stays as it was and the status is 1.
# Afterwards the client reads the names of aggregates, in Nova's database `nova_api` on the same server. If it fails only then, aggregate-names.csv is
# missing, a line says why, and an older one is deleted.
# With --round-ratios, allocation ratios are written without an exponent and cut to six decimals. A line names each one that this changes.

set -eu
tool=export-tables-from-database
usage='tools/export-tables-from-database.sh [--round-ratios] OUTDIR mysql|mariadb|psql|sqlite3 [ARG..]'
. "$(dirname -- "$0")/exporting.sh"
tab=$(printf '\t')

# queries HEX RATIO: prints the five queries. Each row of their answers begins with the name of its table, and the last row is `end`. HEX says how the
# database writes the bytes of a text as hexadecimal digits, so that no name of a provider can break a row. RATIO says how it writes a float with all
# its digits. In both, `@` stands for the value.
queries() {
    used='COALESCE((SELECT SUM(a.used) FROM allocations a
            WHERE a.resource_provider_id = i.resource_provider_id AND a.resource_class_id = i.resource_class_id), 0)'
    held='FROM inventories i
    JOIN resource_providers p ON p.id = i.resource_provider_id
    JOIN resource_classes c ON c.id = i.resource_class_id
    ORDER BY p.id, i.id'
    cat <<X
SELECT 'providers', p.uuid, $(echo "$1" | sed "s/@/COALESCE(p.name, '')/"), p.generation, root.uuid, COALESCE(parent.uuid, '')
    FROM resource_providers p
    LEFT JOIN resource_providers root ON root.id = p.root_provider_id
    LEFT JOIN resource_providers parent ON parent.id = p.parent_provider_id
    ORDER BY p.id;
SELECT 'inventories', p.uuid, c.name, $(echo "$2" | sed 's/@/i.allocation_ratio/'), i.min_unit, i.max_unit, i.reserved, i.step_size, i.total,
        $used
    $held;
SELECT 'usages', p.uuid, c.name,
        $used
    $held;
SELECT 'traits', p.uuid, t.name
    FROM resource_provider_traits h
    JOIN resource_providers p ON p.id = h.resource_provider_id
    JOIN traits t ON t.id = h.trait_id
    ORDER BY p.id, t.id;
SELECT 'aggregates', p.uuid, g.uuid
    FROM resource_provider_aggregates m
    JOIN resource_providers p ON p.id = m.resource_provider_id
    JOIN placement_aggregates g ON g.id = m.aggregate_id
    ORDER BY p.id, g.id;
COMMIT;
SELECT 'end';
X
}

# names HEX [SCHEMA]: prints the query for the names of aggregates, each with that of its zone. The last row of the answer is `named`.
names() {
    cat <<X
SELECT 'names', g.uuid, $(echo "$1" | sed 's/@/g.name/'), $(echo "$1" | sed "s/@/COALESCE(z.value, '')/")
    FROM ${2-}aggregates g
    LEFT JOIN ${2-}aggregate_metadata z ON z.aggregate_id = g.id AND z.key = 'availability_zone'
    WHERE g.uuid IS NOT NULL
    ORDER BY g.id;
SELECT 'named';
X
}

# ask CLIENT [ARG..]: prints the rows of all tables, with tabs between fields, by one call of the client
ask() {
    case ${1##*/} in
    mysql | mariadb)
        {
            echo 'SET SESSION TRANSACTION ISOLATION LEVEL REPEATABLE READ;'
            echo 'START TRANSACTION WITH CONSISTENT SNAPSHOT, READ ONLY;'
            queries 'HEX(CONVERT(@ USING utf8mb4))' '@'
            names 'HEX(CONVERT(@ USING utf8mb4))' nova_api.
        } | "$@" --batch --skip-column-names --skip-reconnect
        ;;
    psql)
        client=$1
        shift
        {
            echo 'SET extra_float_digits = 3;'
            echo 'BEGIN TRANSACTION ISOLATION LEVEL REPEATABLE READ, READ ONLY;'
            queries "encode(convert_to(@, 'UTF8'), 'hex')" '@'
            printf '%s\n' '\set VERBOSITY terse' '\connect nova_api'
            names "encode(convert_to(@, 'UTF8'), 'hex')"
        } | "$client" --no-psqlrc --quiet --no-align --tuples-only --field-separator="$tab" --set=ON_ERROR_STOP=1 "$@"
        ;;
    sqlite3)
        client=$1
        shift
        {
            echo '.timeout 10000'
            echo 'BEGIN;'
            queries 'hex(@)' 'quote(@)'
            names 'hex(@)' nova_api.
        } | "$client" -init /dev/null -batch -bail -readonly -list -noheader -separator "$tab" "$@"
        ;;
    esac
}

# part: splits the rows into tables in the form of the openstack client: texts in quotes, numbers without, and ratios as Python prints a float,
# with the fewest digits that read as the same float. There is a table of names only if all of them came.
part() {
    awk -F '\t' -v room="$room" '
        function quoted(text) { gsub(/"/, "\"\"", text); return "\"" text "\"" }
        function bytes(hex,   at, text) {
            for (at = 1; at < length(hex); at += 2)
                text = text sprintf("%c", 16 * (index(hexes, substr(hex, at, 1)) - 1) + index(hexes, substr(hex, at + 1, 1)) - 1)
            return text
        }
        function zeros(number,   text) { while (number-- > 0) text = text "0"; return text }
        function ratio(text,   most, few, shown, power) {
            for (most = 0; most < 17; most++) {
                few = sprintf("%." most "e", text)
                if (few + 0 == text + 0) break
            }
            split(few, shown, "e")
            sub(/[.]/, "", shown[1])
            power = shown[2] + 0
            if (power < -4 || power >= 16) {
                few = substr(shown[1], 1, 1) (length(shown[1]) > 1 ? "." substr(shown[1], 2) : "")
                return few (power < 0 ? "e-" : "e+") (power * power < 100 ? "0" : "") (power < 0 ? -power : power)
            }
            if (power < 0) return "0." zeros(-power - 1) shown[1]
            few = shown[1] zeros(power + 2 - length(shown[1]))
            return substr(few, 1, power + 1) "." substr(few, power + 2)
        }
        function row(name, line) { print line >(room "/" name ".csv") }
        function named(hex) { if (hex != "") names = names "\n" quoted($2) "," quoted(bytes(toupper(hex))) }
        BEGIN {
            hexes = "0123456789ABCDEF"
            row("providers", "\"uuid\",\"name\",\"generation\",\"root_provider_uuid\",\"parent_provider_uuid\"")
            rest = "\"allocation_ratio\",\"min_unit\",\"max_unit\",\"reserved\",\"step_size\",\"total\",\"used\""
            row("inventories", "\"resource_provider\",\"resource_class\"," rest)
            row("usages", "\"resource_provider\",\"resource_class\",\"usage\"")
            row("traits", "\"resource_provider\",\"name\"")
            row("aggregates", "\"resource_provider\",\"uuid\"")
            names = "\"uuid\",\"name\""
        }
        ended && $1 == "names" && NF == 4 {
            named($3)
            if ($4 != $3) named($4)
            next
        }
        ended { last = last $0; next }
        $1 == "providers" && NF == 6 {
            providers++
            row($1, quoted($2) "," quoted(bytes(toupper($3))) "," $4 "," quoted($5) "," quoted($6))
            next
        }
        $1 == "inventories" && NF == 10 {
            row($1, quoted($2) "," quoted($3) "," ratio($4) "," $5 "," $6 "," $7 "," $8 "," $9 "," $10)
            next
        }
        $1 == "usages" && NF == 4 { row($1, quoted($2) "," quoted($3) "," $4); next }
        ($1 == "traits" || $1 == "aggregates") && NF == 3 { row($1, quoted($2) "," quoted($3)); next }
        $0 == "end" { ended = 1; next }
        { exit odd = 3 }
        END {
            if (last == "named") row("aggregate-names", names)
            exit odd ? odd : !ended ? 4 : !providers ? 5 : 0
        }' "$room/rows" || {
        case $? in
        3) stop 'the client printed a line that is no row of a table' ;;
        4) stop 'the client ended before it had printed all tables' ;;
        *) stop 'the cloud has no providers' ;;
        esac
    }
}

test $# -ge 2 || wrong_words
case ${2##*/} in
mysql | mariadb | psql | sqlite3) ;;
*) wrong_words ;;
esac
begin "$1"
shift
command -v "$1" >"$room/found" || stop "there is no client $1 on the PATH"
ask "$@" >"$room/rows" 2>"$room/said" || grep -q '^end$' "$room/rows" || stop 'the client failed'
part
test -f "$room/aggregate-names.csv" || nameless
hand_over
