#!/bin/bash
# tools/prove.sh [--edits] NAME..: proves these crates and those that they stand on, and runs their tests, as ./test does. In the repository itself `rt ci NAME`
# would also try each must-fail edit of each crate below, one by one, for hours; so this is `rt ci` over a copy of these crates without their edits. What
# passes is kept on this machine, and ./test takes it from there. With --edits all edits of the crates that are named are tried then.

cd "$(dirname "$(readlink -f "$0")")/.." || exit 1
edits=
if [[ $1 == --edits ]]; then
    edits=yes && shift
fi
[[ $# -gt 0 ]] || { sed -n '2,4s/^# //p' "$0" >&2 && exit 2; }

# below NAME..: these crates and those that they stand on, each perhaps several times.
below() {
    local name
    for name in "$@"; do
        if [[ -d crates/$name ]]; then
            echo "$name"
            # shellcheck disable=SC2046
            below $(sed -n "s/^$name://p" crates.txt)
        fi
    done
}

room=$(mktemp -d) && trap 'rm -rf "$room"' EXIT || exit 1
wanted=$(below "$@" | sort -u)
grep -E "^($(paste -sd '|' <<<"$wanted")):" crates.txt >"$room/crates.txt"
tar -c --exclude=out --exclude=must-fail HANDLES $(sed 's,^,crates/,' <<<"$wanted") | tar -x -C "$room" || exit 1
(cd "$room" && rt ci) && { [[ -z $edits ]] || python3 tests/edits.py --all --crates "$room" "$@"; }
