#!/usr/bin/env bash
# Polynomials, subproblems, forward kinematics and families of the port beside the reference
# program's Rust with the machine's sine, arctangent and roots: time (least of 60 rounds over 1,000
# calls, all in one run) and callgrind instructions, for each call. A family's calls are reachable
# poses. Needs rt, rustc and valgrind.
#   tools/measure/bench_functions.sh [GROUP..]
set -eu
cd "$(dirname "$0")/../.."
tools/staticlib.sh bench_c calls_c >/dev/null
mkdir -p target/bench
rustc -C opt-level=3 --edition 2021 -o target/bench/functions tools/measure/bench/functions.rs -L target/staticlib
count() {
    local total
    total=$(valgrind --tool=callgrind --callgrind-out-file=/dev/null --toggle-collect='*bench_run*' \
        target/bench/functions "$@" 2>&1 | sed -n 's/.*Collected : \([0-9]*\).*/\1/p')
    echo $((total / 1000))
}
groups=" $* "
printf '%-34s %10s %10s %6s %10s %10s %6s\n' function 'port ns' 'machine ns' ratio 'port' 'machine' ratio
target/bench/functions | while read -r group id name port machine; do
    case $groups in
        "  " | *" $group "*) ;;
        *) continue ;;
    esac
    counted=$(count "$group" "$id" port)
    against=$(count "$group" "$id" machine)
    awk -v n="$name" -v p="$port" -v m="$machine" -v c="$counted" -v a="$against" \
        'BEGIN { printf "%-34s %10.1f %10.1f %6.2f %10d %10d %6.2f\n", n, p, m, p / m, c, a, c / a }'
done
