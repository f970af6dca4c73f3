#!/usr/bin/env bash
# Scalar functions of the port beside Rust's: time (least of 400 rounds, all in one run) and
# callgrind instructions, for each call. Needs rt, rustc and valgrind.
set -eu
cd "$(dirname "$0")/../.."
tools/staticlib.sh float_c >/dev/null
mkdir -p target/bench
rustc -O --edition 2021 -o target/bench/float tools/measure/bench/float.rs -L target/staticlib
declare -A ns
while read -r name time; do ns[$name]=$time; done < <(target/bench/float)
printf '%-18s %10s %14s\n' function ns instructions
for name in machine_sqrt port_sqrt machine_cbrt port_cbrt machine_sin_cos rules_sin_cos port_sin_cos machine_atan2 rules_atan2 port_atan2; do
    total=$(valgrind --tool=callgrind --callgrind-out-file=/dev/null --toggle-collect='*bench_run*' \
        target/bench/float "$name" 2>&1 | sed -n 's/.*Collected : \([0-9]*\).*/\1/p')
    printf '%-18s %10s %14s\n' "$name" "${ns[$name]}" "$((total / 4096))"
done
