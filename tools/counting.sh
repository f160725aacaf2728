# What the scripts that measure share: the benchmark, a folder, and how instructions are counted. They are at the root when they source it,
# and need valgrind and `tools/libraries.sh`.
(cd rust && cargo build --release --offline --quiet)
bench=rust/target/release/bench
folder=$(mktemp -d)
trap 'rm -rf "$folder"' EXIT
: >"$folder/empty"

instructions() { # COMMAND...
    valgrind --tool=callgrind --callgrind-out-file="$folder/out" "$@" 2>&1 >/dev/null | sed -n 's/.*Collected : //p'
}

ratio() { # A B
    printf '%d.%02d' $(($1 / $2)) $(($1 * 100 / $2 % 100))
}
