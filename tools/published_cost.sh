#!/usr/bin/env bash
# The 8 by 8 multiplier in three styles, alone and with an accumulator, published and as the lines that it stands for: instructions of the
# two host calls by callgrind, less those for empty texts, also with y for x in all names, so that they are numbered by place; and the most
# bytes of stack by massif, the calls' rooms included.
set -euo pipefail
cd "$(dirname "$0")/.."
source tools/counting.sh
multiplier=rust/target/release/multiplier

stack() { # COMMAND...
    valgrind --tool=massif --stacks=yes --peak-inaccuracy=0.0 --massif-out-file="$folder/out" "$@" >/dev/null 2>&1
    sed -n 's/^mem_stacks_B=//p' "$folder/out" | sort -n | tail -n 1
}

lines=$(instructions "$bench" lines "$folder/empty")
published=$(instructions "$bench" published 16 "$folder/empty" "$folder/empty" "$folder/empty")
three=("$folder/constraints" "$folder/target" "$folder/proof")
others=("$folder/constraints.named" "$folder/target.named" "$folder/proof.named")

row() { # NAME K STYLE OPTION...
    local name=$1 k=$2 style=$3 l p n
    shift 3
    "$multiplier" "$@" 8 "$k" "$style" >"$folder/lines"
    "$multiplier" "$@" --published "$folder" 8 "$style"
    for text in "${three[@]}"; do
        sed 's/x/y/g' "$text" >"$text.named"
    done
    [ "$("$bench" lines "$folder/lines")$("$bench" published "$k" "${three[@]}")$("$bench" published "$k" "${others[@]}")" = $'0\t00\t00\t0' ]
    l=$(($(instructions "$bench" lines "$folder/lines") - lines))
    p=$(($(instructions "$bench" published "$k" "${three[@]}") - published))
    n=$(($(instructions "$bench" published "$k" "${others[@]}") - published))
    printf '| %s | %d | %d | %d | %d | %s | %s | %d | %d |\n' "$name" "$(wc -c <"$folder/lines")" "$(cat "${three[@]}" | wc -c)" \
        "$l" "$p" "$(ratio "$p" "$l")" "$(ratio "$n" "$l")" "$(stack "$bench" lines "$folder/lines")" "$(stack "$bench" published "$k" "${three[@]}")"
}

printf '| text | bytes of lines | bytes published | instructions, lines | published | published to lines | with other names | stack, lines | published |\n'
printf '|---|---|---|---|---|---|---|---|---|\n'
for style in onelin cells fine; do
    row "$style" 16 "$style"
done
for width in 16 32; do
    for style in onelin cells fine; do
        row "$style-$width" "$width" "$style" --accumulate "$width"
    done
done
