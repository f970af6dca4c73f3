#!/usr/bin/env bash
# Holds the library against the reference program, call by call: refusal, counts, and every element of the
# lists that a call is lent, with arms, poses, limits, blocks and lists of any length.
#   tools/compare/compare_calls.sh [--track | --one] COUNT [SEED]
# COUNT calls of `oracle generate-calls`, with --track of `oracle generate-track` (an arm of seven axes with
# one joint locked), or with --one of `oracle generate-one` (one answer), good ones and ones with every fault; SEED is
# 1 unless given. tools/compare/calls.c makes them from C with target/staticlib/libsaihkeb.a, which rt builds; the
# environment variable SAIHKEB_LIBRARY names another library, and nothing is built then. Needs rt, cargo and a C
# compiler. Prints how often each call gave which refusal, and how often each family, and each locked joint, was
# solved; exit status 1 where a line differs.
# With --one both give the first answer of the list within the limits, and are held against each other bit for bit.
# Refusal 12 is told apart: where the pose has answers, all outside the limits, and where it has none without limits
# either (the reference program's `solve` of the same call says which).
set -euo pipefail
generator=generate-calls
case ${1:-} in --*) generator=generate-${1#--}; shift ;; esac
[ $# -ge 1 ] || { sed -n '2,13s/^# *//p' "$0" >&2; exit 2; }
library=$([ -z "${SAIHKEB_LIBRARY:-}" ] || realpath "$SAIHKEB_LIBRARY")
cd "$(dirname "$0")/../.."
count=$1 seed=${2:-1}
chunk=20000

if [ -z "$library" ]; then
    tools/staticlib.sh saihkeb >/dev/null
    library=target/staticlib/libsaihkeb.a
fi
cargo build --release --offline --quiet --manifest-path oracle/Cargo.toml
oracle=${CARGO_TARGET_DIR:-oracle/target}/release/oracle
dir=$(mktemp -d)
trap 'rm -rf "$dir"' EXIT
${CC:-cc} -std=c99 -O2 -Wall -Wextra -Wpedantic -Wshadow -Werror -D_POSIX_C_SOURCE=200809L -I include \
    -o "$dir/calls" tools/compare/calls.c "$library" -lm

# The number of lines that differ, a missing one among them.
differing() {
    awk -v other="$2" '
        { if ((getline line < other) <= 0 || line != $0) bad++ }
        END { while ((getline line < other) > 0) bad++; print bad + 0 }' "$1"
}

# One chunk through both, and a line for each call and refusal, with their number, to the file of sums.
compare() { # SEED COUNT
    local differ=0 status=0
    "$oracle" "$generator" "$@" >"$dir/in"
    "$oracle" calls <"$dir/in" >"$dir/want"
    "$dir/calls" <"$dir/in" >"$dir/got" || status=$?
    if [ "$status" -ne 0 ] || ! cmp -s "$dir/want" "$dir/got"; then
        differ=$(differing "$dir/want" "$dir/got")
        [ "$status" -eq 0 ] || differ=$((differ + 1))
        echo "DIFFERENT (exit status $status): oracle $generator $*" >&2
        diff "$dir/want" "$dir/got" | head -n 4 | cut -c 1-400 >&2 || true
    fi
    echo "differ $differ" >>"$dir/sums"
    awk '{ seen[$3 " " $5]++; answers += $6 == "answers" ? $7 : $3 == "solve_one" && $5 == 0 }
        END { for (key in seen) print key, seen[key]; print "answers", answers + 0 }' "$dir/want" >>"$dir/sums"
    # What was solved, refusal 0 or 9: the word of the call's line that has the family, or the locked joint.
    awk -v want="$dir/want" '
        { getline line < want; split(line, result)
          if (result[5] != 0 && result[5] != 9) next
          if ($1 ~ /^solve(_track|_one)?$/) seen[$1 " family " $2]++
          if ($1 == "solve_track") seen[$1 " joint " $5]++ }
        END { for (key in seen) print "solved", key, seen[key] }' "$dir/in" >>"$dir/sums"
    # Refusal 12: the same call without limits, and without room, says how many answers there are.
    awk -v want="$dir/want" '
        { getline line < want; split(line, result)
          if ($1 == "solve_one" && result[5] == 12) print "solve", $2, $3, $4, $5, "-", 0, 0 }' "$dir/in" |
        "$oracle" calls | awk '$7 > 0 { outside++ } $7 == 0 { none++ }
            END { print "empty", outside + 0, none + 0 }' >>"$dir/sums"
}

: >"$dir/sums"
left=$count part=0
while [ "$left" -gt 0 ]; do
    now=$((left < chunk ? left : chunk))
    compare $((seed + 1000003 * part)) "$now"
    left=$((left - now)) part=$((part + 1))
done

echo "$count calls, seed $seed; $library"
sort "$dir/sums" | awk '
    function list(name, what,    i, text) {
        for (i = 0; i <= 6; i++) if ((name, what, i) in solved) text = text " " i ": " solved[name, what, i]
        if (text) print "    solved, by " what ":" text
    }
    $1 == "differ" { differ += $2; next }
    $1 == "answers" { answers += $2; next }
    $1 == "empty" { outside += $2; none += $3; next }
    $1 == "solved" { solved[$2, $3, $4] += $5; next }
    { if (!($1 in all)) names[++n] = $1; all[$1] += $3; seen[$1, $2] += $3; if ($2 > most) most = $2 }
    END {
        for (i = 1; i <= n; i++) {
            printf "%s %d, by refusal:", names[i], all[names[i]]
            for (r = 0; r <= most; r++) if ((names[i], r) in seen) printf " %d: %d", r, seen[names[i], r]
            print ""
            list(names[i], "family")
            list(names[i], "joint")
        }
        if (outside + none)
            print "    refusal 12, by the list without limits: with answers: " outside ", empty: " none
        print answers + 0, "answers"
        print differ + 0, "lines differ"
        exit differ > 0 }'
