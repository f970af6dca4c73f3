#!/usr/bin/env bash
# Holds the port against the Rust oracle: for each group of functions the oracle makes test records,
# and the group's test program counts the results that differ. Needs rt, cargo and python3.
#   tools/compare/compare.sh [-n COUNT] [-s SEED] [GROUP..]
# COUNT is the number of records for each function (1000). Without a GROUP: all that crates.txt has.
# Prints each program's table. Exit status 1 where a result differs or a case is missing.
set -euo pipefail
cd "$(dirname "$0")/../.."
count=1000 seed=1
while getopts n:s: option; do
    case $option in
        n) count=$OPTARG ;;
        s) seed=$OPTARG ;;
        *) exit 2 ;;
    esac
done
shift $((OPTIND - 1))
groups=("$@")
if [ ${#groups[@]} -eq 0 ]; then
    # search_vectors has records of another kind: tools/compare/compare_search.sh.
    mapfile -t groups < <(sed -n '/^search_/d; s/^\([a-z_]*\)_vectors:.*/\1/p' crates.txt)
fi

log=$(mktemp -d)
trap 'rm -rf "$log"' EXIT
cargo build --release --offline --quiet --manifest-path oracle/Cargo.toml
oracle=${CARGO_TARGET_DIR:-oracle/target}/release/oracle
if ! tools/build.sh "${groups[@]/%/_vectors}" >"$log/rt" 2>&1; then
    tail -n 5 "$log/rt" >&2
    exit 1
fi

# Each function's line has COUNT cases and no mismatch, and the total is their sum.
right() {
    awk -v count="$count" '
        NF != 5 || $2 != "cases" || $4 != "mismatches" || $5 != 0 { bad = 1 }
        $1 == "total" { total = $3; next }
        $3 != count { bad = 1 }
        { functions++ }
        END { exit bad || !functions || total != functions * count }'
}

status=0
for group in "${groups[@]}"; do
    echo "$group: $count records for each function, seed $seed"
    "$oracle" cases "$group" "$seed" "$count" | tools/program.sh "${group}_vectors" >"$log/table"
    cat "$log/table"
    if ! right <"$log/table"; then
        echo "$group: NOT the same"
        status=1
    fi
done
case " ${groups[*]} " in
    *" float "*)
        echo "the stored cases of float_vectors, against the oracle:"
        python3 tools/make/make_float_vectors.py --oracle "$oracle" || status=1
        ;;
esac
exit $status
