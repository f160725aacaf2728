#!/usr/bin/env bash
# Runs the programs that check and the C example under valgrind's memcheck on accepted and refused texts, and prints the errors of each.
# Needs `tools/programs.sh`, `tools/libraries.sh`, gcc and valgrind.
set -euo pipefail
cd "$(dirname "$0")/.."
folder=$(mktemp -d)
trap 'rm -rf "$folder"' EXIT
gcc -std=c11 -O2 -g -Iinclude examples/c/check.c target/staticlib/liblpac_host.a -o "$folder/check"

multiplier() { (cd rust && cargo run --release --offline --quiet --bin multiplier -- "$@"); }
cp examples/*.lpac "$folder"
multiplier 8 16 cells > "$folder/eight"
multiplier 4 16 fine | sed 's/^in\t17\t/&1 /' > "$folder/wrong_gate"
: > "$folder/empty"
printf '\000\001\377\n' > "$folder/binary"
head -c 70000 /dev/zero > "$folder/long"
{ printf 'ring\t8\n' && seq 513 | sed 's/.*/in\t&\t1/'; } > "$folder/full"

errors() {
    local input=$1
    shift
    { valgrind --leak-check=full "$@" < "$input" 2>&1 > /dev/null || true; } | sed -n 's/.*ERROR SUMMARY: \([0-9]*\) errors.*/\1/p'
}

printf 'text\tverdict\tlpac_check\tcheck.c\n'
for text in sample.lpac multiplier.lpac eight accumulator-16.lpac accumulator-32.lpac refused.lpac wrong_gate full long binary empty; do
    input=$folder/$text
    verdict=$(target/bin/lpac_check < "$input" | cut -f 1)
    program=$(errors "$input" target/bin/lpac_check)
    example=$(errors /dev/null "$folder/check" "$input")
    printf '%s\t%s\t%s\t%s\n' "$text" "$verdict" "$program" "$example"
    [ "$program$example" = 00 ]
done

published() { # NAME K CONSTRAINTS TARGET PROOF
    local name=$1
    shift
    verdict=$(target/bin/lpac_published "$@" | cut -f 1)
    program=$(errors /dev/null target/bin/lpac_published "$@")
    example=$(errors /dev/null "$folder/check" "$@")
    printf '%s\t%s\t%s\t%s\n' "$name" "$verdict" "$program" "$example"
    [ "$program$example" = 00 ]
}

printf '\nproof\tverdict\tlpac_published\tcheck.c\n'
two=(examples/published/multiplier/constraints examples/published/multiplier/target)
for proof in lpac_proof pac_proof lpac_proof_as_printed; do
    published "$proof" 4 "${two[@]}" "examples/published/multiplier/$proof"
done
multiplier --published "$folder/published" 8 fine
published eight 16 "$folder/published/constraints" "$folder/published/target" "$folder/published/proof"
for width in 16 32; do
    published "accumulator-$width" "$width" "examples/published/accumulator-$width/"{constraints,target,proof}
done
# One name more than there are variables.
words=$(sed -n 's/^pub const SET_WORDS: usize = \([0-9]*\);$/\1/p' crates/limits/src/lib.rt)
{ printf '1 ' && seq $((64 * words + 1)) | sed 's/.*/n&/' | paste -sd '*' && printf ';'; } > "$folder/names"
published "$((64 * words + 1))_names" 4 "$folder/names" "${two[1]}" "$folder/empty"
published no_target 4 "${two[0]}" "$folder/empty" "$folder/binary"
published binary 4 "${two[@]}" "$folder/binary"
published long 4 "${two[@]}" "$folder/long"
published ring 65 "${two[@]}" "$folder/empty"
