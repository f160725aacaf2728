#!/usr/bin/env bash
# Instructions per byte of text, by callgrind, less those for the empty text: the proved checker, the independent one,
# and a loop that only looks at each byte once; per product on lines of more and more products; then times, in turns in one run; then how
# full the multipliers make the host's pool and the table.
set -euo pipefail
cd "$(dirname "$0")/.."
source tools/counting.sh

proved=$(instructions "$bench" proved <"$folder/empty")
independent=$(instructions "$bench" independent <"$folder/empty")
floor=$(instructions "$bench" floor <"$folder/empty")
printf '| text | bytes | lines | proved | independent | floor | proved to independent |\n|---|---|---|---|---|---|---|\n'
for name in $("$bench" names); do
    "$bench" text "$name" >"$folder/$name"
    bytes=$(wc -c <"$folder/$name")
    p=$((($(instructions "$bench" proved <"$folder/$name") - proved) / bytes))
    i=$((($(instructions "$bench" independent <"$folder/$name") - independent) / bytes))
    f=$((($(instructions "$bench" floor <"$folder/$name") - floor) / bytes))
    printf '| %s | %d | %d | %d | %d | %d | %s |\n' "$name" "$bytes" "$(wc -l <"$folder/$name")" $p $i $f "$(ratio $p $i)"
done

printf '\n| products a line | instructions a product |\n|---|---|\n'
for n in 64 256 1024; do
    all=$("$bench" proved <"$folder/products-$n" | cut -f 4)
    printf '| %d | %d |\n' "$n" $((($(instructions "$bench" proved <"$folder/products-$n") - proved) / all))
done

printf '\n'
"$bench"
printf '\n'
"$bench" room
