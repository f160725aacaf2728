#!/usr/bin/env bash
# Proves the exported calls and puts their libraries into target/staticlib: the host calls, which the crate lpac_host_c exports over
# lpac_host, and the calls for tests and benchmarks. `tools/libraries.sh lpac_host` builds the first alone. Needs `rt`.
set -euo pipefail
cd "$(dirname "$0")/.."
[ $# -gt 0 ] || set -- lpac_host lpac_rooms
mkdir -p target/staticlib
for library in "$@"; do
    crate=$library
    [ "$library" != lpac_host ] || crate=lpac_host_c
    (cd "crates/$crate" && rt lib)
    cp "crates/$crate/out/lib$crate.a" "target/staticlib/lib$library.a"
done
