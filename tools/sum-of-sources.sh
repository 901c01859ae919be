#!/bin/sh
# tools/sum-of-sources.sh: prints one sum (SHA-256) over all that the program is made of: HANDLES, crates.txt, and the sources, definitions and proofs of
# its crates, as git lists them. Where git knows none of them, every file there counts.

cd "$(dirname -- "$(readlink -f -- "$0")")/.." || exit
# shellcheck disable=SC2046
set -- HANDLES crates.txt $(sed -n 's,^\(ac_[a-z_]*\):.*,\1,p' crates.txt | grep -v '_tests$' | sed 's,.*,crates/&/src crates/&/specs crates/&/proofs,')
{ git ls-files "$@" | grep . || find "$@" -type f; } 2>/dev/null | LC_ALL=C sort | xargs sha256sum | sha256sum | cut -c -64
