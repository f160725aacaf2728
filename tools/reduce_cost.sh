#!/usr/bin/env bash
# Instructions per term that reduction::reduce needs, by callgrind: less those of a run with no terms, the fill of the run included.
set -euo pipefail
cd "$(dirname "$0")/.."
source tools/counting.sh

printf '| order | n = 64 | n = 256 | n = 1,024 | 1,024 to 64 |\n|---|---|---|---|---|\n'
for order in random sorted reversed equal; do
    none=$(instructions "$bench" reduce 0 "$order")
    row="| $order |"
    for n in 64 256 1024; do
        each=$((($(instructions "$bench" reduce "$n" "$order") - none) / n))
        [ "$n" = 64 ] && first=$each
        row="$row $each |"
    done
    printf '%s %s |\n' "$row" "$(ratio "$each" "$first")"
done
