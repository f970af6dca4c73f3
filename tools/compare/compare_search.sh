#!/usr/bin/env bash
# Holds the two-parallel search and family 6 against the Rust oracle: pairs, their order, what added
# each, evaluations and answers, by the test program search_vectors. Needs rt, cargo and python3.
#   tools/compare/compare_search.sh COUNT [SEED]
# COUNT searches, evenly over the kinds; n goes from 1 to 400 in each and begins again. SEED is 1 unless
# given. Prints a table with the most pairs and evaluations in one search, the n of that search and the
# bound for it, and the largest share of a bound that a search came to. Exit status 1 where one differs.
set -euo pipefail
[ $# -ge 1 ] || { sed -n '2,7s/^# *//p' "$0" >&2; exit 2; }
cd "$(dirname "$0")/../.."
count=$1 seed=${2:-1}
kinds=(reachable unreachable bent random hostile degenerate)
chunk=20000

dir=$(mktemp -d)
trap 'rm -rf "$dir"' EXIT
cargo build --release --offline --quiet --manifest-path oracle/Cargo.toml
oracle=${CARGO_TARGET_DIR:-oracle/target}/release/oracle
if ! tools/build.sh search_vectors >"$dir/rt" 2>&1; then
    tail -n 5 "$dir/rt" >&2
    exit 1
fi

# The program's table must be the one that the records ask for. Adds it to the file of tables.
compare() { # KIND SEED COUNT
    "$oracle" searches "$@" >"$dir/in"
    python3 tools/compare/search_records.py <"$dir/in" >"$dir/want"
    python3 tools/compare/search_records.py --sums "$1" <"$dir/in" >>"$dir/sums"
    tools/program.sh search_vectors <"$dir/in" >"$dir/got" || echo "exit status $?" >>"$dir/got"
    cat "$dir/got" >>"$dir/tables"
    cmp -s "$dir/want" "$dir/got" && return
    echo "DIFFERENT: oracle searches $*" | tee -a "$dir/different" >&2
    diff "$dir/want" "$dir/got" >&2 || true
}

: >"$dir/sums"
: >"$dir/tables"
: >"$dir/different"
for k in "${!kinds[@]}"; do
    left=$((count / ${#kinds[@]} + (k < count % ${#kinds[@]}))) part=0
    while [ "$left" -gt 0 ]; do
        now=$((left < chunk ? left : chunk))
        compare "${kinds[k]}" $((seed + 1000003 * part)) "$now"
        left=$((left - now)) part=$((part + 1))
    done
done

echo "$count searches, seed $seed; what was compared:"
awk '
    $2 != "cases" { next }
    !($1 in cases) { names[++n] = $1 }
    { cases[$1] += $3; bad[$1] += $5 }
    END { for (i = 1; i <= n; i++) printf "%-10s cases %9d mismatches %d\n", names[i], cases[names[i]], bad[names[i]] }' "$dir/tables"
awk '
    function row(kind, s, p, e, c, mp, np, me, ne, sp, se) {
        printf format, kind, s, p, c, e, mp, np, 44 * np, me, ne, ne + 1 + 3128 * ne, sp / 10 "%", se / 10 "%" }
    function most(a, b) { return a > b ? a : b }
    function add(k) {
        for (i = 2; i <= 5; i++) sum[k, i] += $i
        if ($6 >= sum[k, 6]) { sum[k, 6] = $6; sum[k, 7] = $7 }
        if ($8 >= sum[k, 8]) { sum[k, 8] = $8; sum[k, 9] = $9 }
        sum[k, 10] = most(sum[k, 10], $10); sum[k, 11] = most(sum[k, 11], $11)
    }
    BEGIN { format = "%-11s %8s %8s %9s %11s | %6s %4s %6s | %6s %4s %8s | %7s %7s\n"
        printf format, "kind", "searches", "pairs", "crossings", "evaluations", "pairs", "n", "44n", "evals", "n", "bound", "pairs", "evals" }
    !($1 in seen) { seen[$1] = 1; kinds[++n] = $1 }
    { add($1); add("all") }
    END { kinds[++n] = "all"
        for (j = 1; j <= n; j++) { k = kinds[j]
            row(k, sum[k, 2], sum[k, 3], sum[k, 4], sum[k, 5], sum[k, 6], sum[k, 7], sum[k, 8], sum[k, 9], sum[k, 10], sum[k, 11]) } }' "$dir/sums"
echo "$(wc -l <"$dir/different") of the runs differ"
[ ! -s "$dir/different" ]
