#!/usr/bin/env bash
# Counts the reachable poses of family 6 whose own angles are not in their list of answers, by the
# oracle alone. The same poses at each n. Needs cargo.
#   tools/measure/missed.sh [-n COUNT] [-s SEED]            the table of docs/missed.csv
#   tools/measure/missed.sh [-n COUNT] [-s SEED] classes    why they are missed, at each n
#   tools/measure/missed.sh [-n COUNT] [-s SEED] tilt       by the angle between axes 2 and 5, at each n
#   tools/measure/missed.sh [-n COUNT] [-s SEED] twice      missed at n = 400 and at n = 399 too
# COUNT is the number of poses (20000), SEED the generator's (3).
set -euo pipefail
cd "$(dirname "$0")/../.."
count=20000 seed=3
while getopts n:s: option; do
    case $option in
        n) count=$OPTARG ;;
        s) seed=$OPTARG ;;
        *) exit 2 ;;
    esac
done
shift $((OPTIND - 1))
cargo build --release --offline --quiet --manifest-path oracle/Cargo.toml
oracle=${CARGO_TARGET_DIR:-oracle/target}/release/oracle
sizes=(25 50 100 200 400)

columns="poses,unflagged,flagged,missing,answers,flagged answers,evaluations,untrue,flagged but true"

# The counts of recover as a table, with the option that divides the poses.
counts() {
    echo "n,$2,$columns"
    for n in "${sizes[@]}"; do
        "$oracle" recover reachable 6 "$seed" "$count" "$n" "$1" |
            sed 's/^family 6/all/; s/ [a-z-]* / /g' |
            sed "s/^/$n,/; s/ /,/g"
    done
}

table() {
    counts --arms arm
}

tilt() {
    counts --tilt tilt
}

classes() {
    for n in "${sizes[@]}"; do
        echo "n $n"
        "$oracle" missed reachable "$seed" "$count" "$n" | sed -n 's/^class //p'
    done
}

# The places of the missed poses, in the order that comm wants.
missed_at() {
    "$oracle" missed reachable "$seed" "$count" "$1" | sed -n 's/^pose \([0-9]*\) .*/\1/p' | sort
}

twice() {
    echo "missed at n = 400: $(missed_at 400 | wc -l)"
    echo "missed at n = 399: $(missed_at 399 | wc -l)"
    echo "missed at both: $(comm -12 <(missed_at 400) <(missed_at 399) | wc -l)"
}

case ${1:-table} in
    table | classes | tilt | twice) "${1:-table}" ;;
    *) exit 2 ;;
esac
