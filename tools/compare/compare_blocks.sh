#!/usr/bin/env bash
# Holds the solver program against the reference program, line by line, on blocks of every kind and
# family. Needs cargo and python3, and rt for target/bin/ik.
#   tools/compare/compare_blocks.sh [--limits] COUNT [SEED]
# COUNT pose blocks, evenly over kinds and families, and 1,100 of family 6 with long lists; SEED is 1
# unless given. With --limits the same pose blocks with limits blocks among them, good and bad. The
# environment variable IK_PROGRAM names another solver program, with its arguments. Blocks and lines are
# kept for one chunk at a time. Prints a table, the column `limits` having the limits blocks that take no
# place; exit status 1 where a line differs.
set -euo pipefail
option=()
if [ "${1:-}" = --limits ]; then
    option=(--limits)
    shift
fi
[ $# -ge 1 ] || { sed -n '2,9s/^# *//p' "$0" >&2; exit 2; }
cd "$(dirname "$0")/../.."
count=$1 seed=${2:-1}
chunk=20000
kinds=(reachable unreachable bent random hostile degenerate headers)
# Of 100 blocks of family 6, how many have which n: the search's time grows with n.
weights="1:25 2:20 7:20 25:13 50:10 200:10 400:2"

cargo build --release --offline --quiet --manifest-path oracle/Cargo.toml
oracle=${CARGO_TARGET_DIR:-oracle/target}/release/oracle
words=${IK_PROGRAM:-$(python3 tools/blocks.py)}
eval "program=($words)"
dir=$(mktemp -d)
trap 'rm -rf "$dir"' EXIT

# Blocks with a line, answers, flagged answers, answers with a NaN, refused blocks, evaluations, blocks
# without a line; then the blocks of each refusal 0 to 10.
tally() { # LINES BLOCKS
    awk -v given=$((($(wc -c <"$2") + 511) / 512)) '
        $1 == "block" { blocks++; refused[$4]++; answers += $6; evals += $8; next }
        { flagged += $7 }
        /7ff8000000000000/ { nans++ }
        END {
            printf "%.0f %.0f %.0f %.0f %.0f %.0f", blocks, answers, flagged, nans, blocks - refused[0], evals
            printf " %.0f", given - blocks
            for (i = 0; i <= 10; i++) printf " %.0f", refused[i]
            print ""
        }' "$1"
}

# The number of lines that differ, a missing one among them.
differing() {
    awk -v other="$2" '
        { if ((getline line < other) <= 0 || line != $0) bad++ }
        END { while ((getline line < other) > 0) bad++; print bad + 0 }' "$1"
}

# One chunk through both programs at a time; adds a line to the file of sums.
compare() { # KIND FAMILY SEED COUNT [N]
    "$oracle" generate "$@" "${option[@]}" >"$dir/in"
    "$oracle" blocks <"$dir/in" >"$dir/want" &
    local differ=0 status=0 reference=$!
    "${program[@]}" <"$dir/in" >"$dir/got" || status=$?
    wait "$reference"
    if [ "$status" -ne 0 ] || ! cmp -s "$dir/want" "$dir/got"; then
        differ=$(differing "$dir/want" "$dir/got")
        [ "$status" -eq 0 ] || differ=$((differ + 1))
        echo "DIFFERENT (program's exit status $status): oracle generate $* ${option[*]}" >&2
        diff "$dir/want" "$dir/got" | head -n 4 >&2 || true
    fi
    echo "$1 $2 $differ $(tally "$dir/want" "$dir/in")" >>"$dir/sums"
}

compare_all() { # KIND FAMILY COUNT [N]
    local kind=$1 family=$2 left=$3 part=0
    shift 3
    while [ "$left" -gt 0 ]; do
        local now=$((left < chunk ? left : chunk))
        compare "$kind" "$family" $((seed + 1000003 * part)) "$now" "$@"
        left=$((left - now)) part=$((part + 1))
    done
}

echo "$count pose blocks, seed $seed, and 1100 more with n = 400; ${program[*]}"
runs=$((6 * ${#kinds[@]})) run=0
: >"$dir/sums"
for family in 1 2 3 4 5 6; do
    for kind in "${kinds[@]}"; do
        share=$((count / runs + (run < count % runs))) run=$((run + 1))
        if [ "$family" -lt 6 ]; then
            compare_all "$kind" "$family" "$share"
            continue
        fi
        rest=$share
        for weight in $weights; do
            some=$((share * ${weight#*:} / 100)) rest=$((rest - share * ${weight#*:} / 100))
            compare_all "$kind" 6 "$some" "${weight%:*}"
        done
        compare_all "$kind" 6 "$rest" 3
    done
done
# Two of these have more than 1,024 answers, which no other run is sure to have.
compare hostile 6 77 1100 400

awk '
    BEGIN { format = "%-12s %6s %9s %9s %9s %9s %9s %11s %9s %7s\n"
        printf format, "kind", "family", "blocks", "answers", "flagged", "NaN", "refused", "evals", "limits", "differ" }
    { key = $1 " " $2; if (!(key in seen)) { seen[key] = 1; keys[++n] = key }
        for (i = 3; i <= 10; i++) { sum[key, i] += $i; all[i] += $i }
        for (i = 11; i <= 21; i++) refusal[i - 11] += $i }
    END {
        for (k = 1; k <= n; k++) { split(keys[k], w, " "); q = keys[k]
            printf format, w[1], w[2], sum[q, 4], sum[q, 5], sum[q, 6], sum[q, 7], sum[q, 8], sum[q, 9], sum[q, 10], sum[q, 3] }
        printf format, "all", "", all[4], all[5], all[6], all[7], all[8], all[9], all[10], all[3]
        printf "blocks by refusal:"; for (i = 0; i <= 10; i++) printf " %d: %d", i, refusal[i]; print ""
        print all[3] + 0, "lines differ"
        exit all[3] > 0 }' "$dir/sums"
