#!/usr/bin/env bash
# Proves and links the programs and puts them into target/bin. `tools/programs.sh built` takes those that `rt ci` has just proved,
# linked and run. Needs `rt`.
set -euo pipefail
cd "$(dirname "$0")/.."
mkdir -p target/bin
for program in lpac_check lpac_published lpac_spell; do
    # A program is linked where it is run; each of these answers empty texts, and only one of them reads its arguments.
    [ "${1-}" = built ] || (cd "crates/$program" && rt run -- 4 /dev/null /dev/null /dev/null </dev/null >/dev/null)
    cp "crates/$program/out/$program" target/bin/
done
