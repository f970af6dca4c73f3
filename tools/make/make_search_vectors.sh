#!/usr/bin/env bash
# Makes the stored searches of the test program search_vectors (crates/search_vectors/stdin), and from
# them what it must print (stdout). The seeds are fixed, so every run makes the same bytes. Needs cargo
# and python3.
#   tools/make/make_search_vectors.sh
set -euo pipefail
cd "$(dirname "$0")/../.."
seed=20261116
cargo build --release --offline --quiet --manifest-path oracle/Cargo.toml
oracle=${CARGO_TARGET_DIR:-oracle/target}/release/oracle
to=crates/search_vectors
{
    # n and the searches of each kind. Of the hostile ones at n = 7 one has an answer whose q3 is -PI,
    # where the two wrap_to_pi differ; the bent ones have flags that others lack.
    for pair in 1:45 2:45 7:45 50:12 200:12 400:12; do
        for kind in reachable random hostile bent; do
            "$oracle" searches "$kind" "$seed" "${pair#*:}" "${pair%:*}"
        done
    done
    # The last of these has 1,432 pairs, and no other is so long.
    "$oracle" searches hostile 77 863 400 | tail -c $((432 + 104 * 1432))
} >$to/stdin
python3 tools/compare/search_records.py <$to/stdin >$to/stdout
wc -c $to/stdin
cat $to/stdout
