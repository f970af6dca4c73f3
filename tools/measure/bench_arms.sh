#!/usr/bin/env bash
# The calls on a file of arms beside the same in plain Rust (tools/measure/bench/arms_plain.rs): callgrind
# instructions of each call, on valid buffers of 10, 100, 1,000 and 10,000 blocks. Numbers have eight bits, so the
# longer ones hold 254 arms, spread evenly, and the other blocks are empty. Also holds the two sides against each
# other: buffers and arms after each call. Needs rt, rustc and valgrind.
#   tools/measure/bench_arms.sh [BLOCKS..]
# SAIHKEB_LIBRARY names another library than target/staticlib/libsaihkeb.a, and nothing is built by rt then.
set -euo pipefail
library=$([ -z "${SAIHKEB_LIBRARY:-}" ] || realpath "$SAIHKEB_LIBRARY")
cd "$(dirname "$0")/../.."
if [ -z "$library" ]; then
    tools/staticlib.sh saihkeb >/dev/null
    library=target/staticlib/libsaihkeb.a
fi
[ $# -gt 0 ] || set -- 10 100 1000 10000
mkdir -p target/bench
rustc -C opt-level=3 --edition 2021 -o target/bench/arms tools/measure/bench/arms.rs -C link-arg="$library"

# Sets counted to the instructions of a call, and printed to what the program printed.
count() { # SIDE CALL BLOCKS
    local log=target/bench/count
    printed=$(LD_BIND_NOW=1 valgrind --tool=callgrind --callgrind-out-file=/dev/null --toggle-collect='*bench_run*' \
        target/bench/arms "$@" 2>"$log")
    counted=$(($(sed -n 's/.*Collected : \([0-9]*\).*/\1/p' "$log") / 10))
}

status=0
printf '%-9s %7s %6s %12s %12s %6s\n' call blocks arms port plain ratio
for blocks in "$@"; do
    for call in put find take_out compact; do
        count port "$call" "$blocks"
        port=$counted by_port=$printed
        count plain "$call" "$blocks"
        if [ "$printed" != "$by_port" ]; then
            echo "$call, $blocks blocks: NOT the same result" >&2
            status=1
        fi
        printf '%-9s %7d %6d %12d %12d %6s\n' "$call" "$blocks" "${printed% *}" "$port" "$counted" \
            "$(awk -v p="$port" -v q="$counted" 'BEGIN { printf "%.2f", p / q }')"
    done
done
exit $status
