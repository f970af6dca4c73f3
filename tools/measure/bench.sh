#!/usr/bin/env bash
# The solve call of the library beside the reference program's (`rules`, and `machine`, which has the
# standard library's sine, arctangent and cube root) and the published Rust over nalgebra
# (`untouched`), on the same poses in one run: for families 1 to 5, and for family 6 by n,
# instructions and time for each solve, in family 6 also for each evaluation. Writes docs/bench.csv
# and the plot docs/bench.svg, and prints the table.
#   tools/measure/bench.sh [-c COUNTED] [-t TIMED] [-r ROUNDS]
# Time: TIMED poses (1000), the least of ROUNDS rounds (20; in family 6 of a quarter of them).
# Instructions: callgrind, 1000 poses in families 1 to 5, COUNTED (100) in family 6.
# Needs rt, rustc, valgrind and python3, and for `untouched` what `tools/compare/untouched.sh SOURCES`
# builds in target/untouched. Where that is missing it is left out, and said. Its n is 200.
set -euo pipefail
cd "$(dirname "$0")/../.."
counted=100 timed=1000 rounds=20
while getopts c:t:r: option; do
    case $option in
        c) counted=$OPTARG ;;
        t) timed=$OPTARG ;;
        r) rounds=$OPTARG ;;
        *) exit 2 ;;
    esac
done
tools/staticlib.sh saihkeb >/dev/null
mkdir -p target/bench
bench=target/bench/solve
built=target/untouched/built/release
more=()
if [ -e $built/libuntouched.rlib ]; then
    more=(--cfg untouched --extern "untouched=$built/libuntouched.rlib" -L "dependency=$built/deps")
else
    echo "tools/measure/bench.sh: without the published Rust, which tools/compare/untouched.sh builds" >&2
fi
rustc -C opt-level=3 --edition 2021 --check-cfg 'cfg(untouched, test)' -o $bench tools/measure/bench/solve.rs \
    -L native=target/staticlib -l static=saihkeb "${more[@]}"

# instructions of bench_run, then the evaluations that it made
count() {
    local log=target/bench/count made
    made=$(valgrind --tool=callgrind --callgrind-out-file=/dev/null --toggle-collect='*bench_run*' \
        $bench count "$@" 2>$log)
    echo "$(sed -n 's/.*Collected : \([0-9]*\).*/\1/p' $log) $made"
}

csv=target/bench/bench.csv
echo "family,n,side,poses_counted,instructions,evaluations,poses_timed,evaluations_timed,ns" >$csv
measure() {
    local family=$1 n=$2 poses=$3 turns=$4 side evaluations ns total made
    while read -r side evaluations ns; do
        read -r total made < <(count "$family" "$n" "$poses" "$side")
        awk -v f="$family" -v n="$n" -v s="$side" -v p="$poses" -v i="$total" -v e="$made" \
            -v t="$timed" -v te="$evaluations" -v ns="$ns" \
            'BEGIN { printf "%d,%d,%s,%d,%.1f,%.2f,%d,%.2f,%.1f\n", f, n, s, p, i / p, e / p, t, te, ns }' >>$csv
    done < <($bench time "$family" "$n" "$timed" "$turns")
}
for family in 1 2 3 4 5; do
    measure $family 0 1000 "$rounds"
done
for n in 25 50 100 200 400; do
    measure 6 $n "$counted" $(((rounds + 3) / 4))
done
mkdir -p docs
cp $csv docs/bench.csv
python3 tools/measure/plot_bench.py docs/bench.csv docs/bench.svg
