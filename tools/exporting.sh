# tools/exporting.sh: what the two exports share. They read it with `.`, after setting `tool` (their name in messages) and `usage` (their command
# line). It takes `--round-ratios` from their words. Both exports collect the tables in a folder inside OUTDIR, `room`. When all are complete,
# `hand_over` moves them to OUTDIR. If the export fails before that, OUTDIR stays as it was, and the status is 1. Names of aggregates are Nova's, so the
# table of them may be missing: then `nameless` says so, and the export goes on.

export LC_ALL=C
rounds=no
if test "${1-}" = --round-ratios; then
    rounds=yes
    shift
fi

# stop WHY: ends the export with this message, and with the last lines that the client wrote, which are in the room's file `said`
stop() {
    echo "$tool: $1" >&2
    if test -s "$room/said"; then
        echo 'The client said:' >&2
        tail -n 5 "$room/said" >&2
    fi
    exit 1
}

wrong_words() {
    echo "usage: $usage" >&2
    exit 2
}

# begin OUTDIR: makes the folder, and the room in it
begin() {
    test "${1#-}" = "$1" && test -n "$1" || wrong_words
    mkdir -p -- "$1"
    outdir=$1
    room=$1/.export.$$
    mkdir -- "$room"
    trap 'rm -rf -- "$room"' EXIT
    trap 'exit 1' HUP INT PIPE TERM
}

# nameless: says that there is no table of names, and why: by the last line that the client wrote
nameless() {
    rm -f -- "$room/aggregate-names.csv"
    why=$(tail -n 1 "$room/said")
    printf '%s\n' "$tool: no aggregate-names.csv: the names of aggregates can't be had${why:+: $why}" >&2
}

# hand_over: rounds the ratios if that was asked for, and gives the tables their names. Without a table of names, an older one goes.
hand_over() {
    test $rounds = no || round_ratios
    test -f "$room/aggregate-names.csv" || rm -f -- "$outdir/aggregate-names.csv"
    for name in providers inventories usages traits aggregates aggregate-names; do
        test ! -f "$room/$name.csv" || mv -f -- "$room/$name.csv" "$outdir/$name.csv"
    done
}

# round_ratios: writes each ratio of the inventories without an exponent, cut to six decimals, and a line for each one that this changes. Python writes
# a float below 0.0001 as one digit, perhaps a point and more digits, and an exponent.
round_ratios() {
    awk -F , -v OFS=, -v tool="$tool" '
        function digits(ratio,   parts, zeros) {
            if (split(ratio, parts, "e-") == 1) return ratio
            sub(/[.]/, "", parts[1])
            while (length(zeros) < parts[2] - 1) zeros = zeros "0"
            return "0." zeros parts[1]
        }
        NR == 1 { for (at = 1; at <= NF && $at != "\"allocation_ratio\""; at++); }
        $at ~ /^[0-9]([.][0-9]+)?e-[0-9]+$/ || $at ~ /^[0-9]+[.][0-9][0-9][0-9][0-9][0-9][0-9][0-9]/ {
            exact = digits($at)
            kept = substr(exact, 1, index(exact, ".") + 6)
            how = substr(exact, length(kept) + 1) ~ /^0*$/ ? "written as " : "rounded down to "
            sub(/0+$/, "", kept)
            sub(/[.]$/, ".0", kept)
            told = "provider " $1 ", " $2 ": the ratio " $at " is " how kept
            gsub(/"/, "", told)
            print tool ": " told | "cat >&2"
            $at = kept
        }
        { print }' "$room/inventories.csv" >"$room/rounded.csv"
    mv -f -- "$room/rounded.csv" "$room/inventories.csv"
}
