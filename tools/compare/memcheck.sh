#!/usr/bin/env bash
# Runs the solver program under valgrind's memcheck on 1,164 blocks of every kind and family, limits blocks
# among them: no use of unset memory, no access outside it, no heap. Its lines are compared with the
# reference program's.
#   tools/compare/memcheck.sh [SEED]
# Needs rt (or IK_PROGRAM), cargo, cc and valgrind. Prints '0 errors', or fails.
set -euo pipefail
cd "$(dirname "$0")/../.."
seed=${1:-1}
each=24
cargo build --release --offline --quiet --manifest-path oracle/Cargo.toml
oracle=${CARGO_TARGET_DIR:-oracle/target}/release/oracle
words=$(tools/measure/native.sh)
eval "program=($words)"
dir=$(mktemp -d)
trap 'rm -rf "$dir"' EXIT

# Family 6 takes a small n, but for the last few of each kind.
family_6() { # KIND
    "$oracle" generate "$1" 6 "$seed" 8 1 | head -c 4096
    "$oracle" generate "$1" 6 "$seed" 8 2 | head -c 4096
    "$oracle" generate "$1" 6 "$seed" 8 7 | head -c $((512 * 7))
    "$oracle" generate "$1" 6 "$seed" 1 200
}

for kind in reachable unreachable bent random hostile degenerate; do
    for family in 1 2 3 4 5; do "$oracle" generate "$kind" "$family" "$seed" $each; done
    family_6 "$kind"
done >"$dir/in"
# Limits blocks among pose blocks; behind the last of a run one may be short.
for family in 1 2 3 4 5 6; do
    "$oracle" generate reachable "$family" "$seed" 40 2 --limits | head -c $((512 * 26))
done >>"$dir/in"
# The last block to refuse is short: one such block ends the input.
for family in 6 5 4 3 2; do
    "$oracle" generate headers "$family" "$seed" $((each + 1)) 2 | head -c $((512 * each))
done >>"$dir/in"
"$oracle" generate headers 1 "$seed" $each >>"$dir/in"

"$oracle" blocks <"$dir/in" >"$dir/want"
status=0
valgrind --error-exitcode=9 --track-origins=yes "${program[@]}" <"$dir/in" >"$dir/got" 2>"$dir/log" || status=$?
if [ "$status" -ne 0 ]; then
    cat "$dir/log" >&2
    echo "memcheck: FAILED, exit status $status" >&2
    exit 1
fi
cmp "$dir/want" "$dir/got" || { echo "memcheck: the lines differ from the reference program's" >&2; exit 1; }
blocks=$((($(wc -c <"$dir/in") + 511) / 512))
sed -n 's/.*total heap usage: \(.*\)/heap: \1/p' "$dir/log"
grep -q 'ERROR SUMMARY: 0 errors' "$dir/log"
echo "$blocks blocks, $(wc -l <"$dir/got") lines as the reference program's, 0 errors"
