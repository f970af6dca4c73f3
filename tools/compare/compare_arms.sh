#!/usr/bin/env bash
# Holds the library's calls on a file of arms against the reference program: refusal, find's 39 numbers, and every
# byte of the buffer after each call.
#   tools/compare/compare_arms.sh [--memcheck] SEQUENCES [SEED]
# SEQUENCES buffers of `oracle generate-arms` (valid ones, ones with every fault, and in 16,008 of them every length
# from 0 to 2,000 with whatever bytes), with up to 200 calls on each, one after the other; SEED is 1 unless given.
# tools/compare/arms.c makes the calls from C with target/staticlib/libsaihkeb.a, which rt builds; the environment
# variable SAIHKEB_LIBRARY names another library, and nothing is built then. With --memcheck the calls run under
# valgrind, with nothing beside buffer and lists, so that reading beyond them is an error too.
# Needs rt, cargo, python3 and a C compiler. Prints how many buffers were valid and how many had which fault, how
# many lengths and numbers there were, and how often each call gave which refusal. Exit status 1 where a line
# differs; the first such call is shown, with the bytes of the buffer that differ.
set -euo pipefail
watched=''
[ "${1:-}" != --memcheck ] || { watched=yes; shift; }
[ $# -ge 1 ] || { sed -n '2,13s/^# *//p' "$0" >&2; exit 2; }
library=$([ -z "${SAIHKEB_LIBRARY:-}" ] || realpath "$SAIHKEB_LIBRARY")
cd "$(dirname "$0")/../.."
count=$1 seed=${2:-1}
chunk=4000

if [ -z "$library" ]; then
    tools/staticlib.sh saihkeb >/dev/null
    library=target/staticlib/libsaihkeb.a
fi
cargo build --release --offline --quiet --manifest-path oracle/Cargo.toml
oracle=${CARGO_TARGET_DIR:-oracle/target}/release/oracle
dir=$(mktemp -d)
trap 'rm -rf "$dir"' EXIT
${CC:-cc} -std=c99 -O2 -Wall -Wextra -Wpedantic -Wshadow -Werror -D_POSIX_C_SOURCE=200809L -I include \
    ${watched:+-DGUARD=0 -Wno-type-limits} -o "$dir/arms" tools/compare/arms.c "$library" -lm
run=(${watched:+valgrind -q --error-exitcode=9} "$dir/arms")

# The first sequence whose lines differ, once more with the bytes of its buffer.
show() {
    local at
    at=$(awk -v other="$dir/got" '(getline line < other) <= 0 || line != $0 { print int($2); exit }' "$dir/want")
    awk -v at="$at" '$1 == "file" { place++ } place == at + 1' "$dir/in" >"$dir/one"
    "$oracle" arms --bytes <"$dir/one" >"$dir/want_one"
    "${run[@]}" --bytes <"$dir/one" >"$dir/got_one" || true
    python3 - "$dir" "$at" <<'END'
import sys
directory, at = sys.argv[1:]
read = lambda name: open(f"{directory}/{name}").read().splitlines()
calls, want, got = read("one"), read("want_one"), read("got_one")
got += ["no line"] * (len(want) - len(got))
pairs = zip(calls, want, got)
found = next(((c, w, g) for c, w, g in pairs if w != g), None)
if found is None:
    print(f"  sequence {at}: alone, without those before it, it gives the same")
    sys.exit()
call, one, other = found
print(f"  sequence {at}, the call: {call[:120]}")
for name, line in (("reference", one), ("library", other)):
    print(f"  {name + ':':<10} {line.split(' buffer ')[0][:900]}{' OUTSIDE' * line.endswith('OUTSIDE')}")
buffers = [line.partition(" buffer ")[2].replace(" OUTSIDE", "") for line in (one, other)]
if all(buffers) and "-" not in buffers:
    one, other = map(bytes.fromhex, buffers)
    places = [i for i in range(min(len(one), len(other))) if one[i] != other[i]]
    print(f"  {len(places)} bytes of the buffer differ" + "".join(
        f"\n    block {i // 512} byte {i % 512}: {one[i]:02x}, of the library {other[i]:02x}" for i in places[:12]))
END
}

# One chunk through both, and what it had to the file of sums.
compare() { # SEED COUNT FIRST
    local differ=0 status=0
    "$oracle" generate-arms "$@" >"$dir/in"
    "$oracle" arms <"$dir/in" >"$dir/want"
    "${run[@]}" <"$dir/in" >"$dir/got" || status=$?
    if [ "$status" -ne 0 ] || ! cmp -s "$dir/want" "$dir/got"; then
        differ=$(awk -v other="$dir/got" '
            { if ((getline line < other) <= 0 || line != $0) bad++ }
            END { while ((getline line < other) > 0) bad++; print bad + 0 }' "$dir/want")
        [ "$status" -eq 0 ] || differ=$((differ + 1))
        echo "DIFFERENT (exit status $status): oracle generate-arms $*" >&2
        show >&2
    fi
    echo "differ $differ" >>"$dir/sums"
    awk '{ seen[$1 == "file" ? "file " $6 : $3 " " $5]++ }
        END { for (key in seen) print key, seen[key] }' "$dir/want" >>"$dir/sums"
    awk '$1 == "file" { seen["buffers " ($2 == "-" ? 0 : length($2) / 2)] }
        $1 == "put" { seen["arms " ($3 == "-" ? 0 : (length($3) + 1) / 17)] }
        NF > 1 && $1 != "file" { seen["numbers " $1 " " $2] }
        END { for (key in seen) print key }' "$dir/in" >>"$dir/kinds"
}

: >"$dir/sums"
for ((first = 0; first < count; first += chunk)); do
    compare "$seed" $((count - first < chunk ? count - first : chunk)) "$first"
done

echo "$count sequences, seed $seed; $library"
sort -u "$dir/kinds" | awk '
    $1 == "buffers" { buffers += $2 <= 2000; if ($2 > most) most = $2 }
    $1 == "arms" { arms += $2 <= 45; if ($2 > longest) longest = $2 }
    $1 == "numbers" { numbers[$2]++ }
    END {
        printf "buffers of %d of the 2001 lengths from 0 to 2000, and to %d bytes; ", buffers, most
        printf "arms of %d of the 46 lengths from 0 to 45, and to %d\n", arms, longest
        printf "of the 256 numbers put was handed %d, find %d, take_out %d\n",
            numbers["put"], numbers["find"], numbers["take_out"] }'
sort "$dir/sums" | awk '
    $1 == "differ" { differ += $2; next }
    $1 == "file" && $2 == 14 { valid += $3; next }
    $1 == "file" { damaged += $3; fault[$2] += $3; next }
    { if (!($1 in all)) names[++n] = $1; all[$1] += $3; calls += $3; seen[$1, $2] += $3; by[$2] += $3 }
    END {
        printf "buffers valid %d, with a fault %d, by refusal:", valid, damaged
        for (r = 1; r <= 15; r++) if (r in fault) printf " %d: %d", r, fault[r]
        print ""
        for (i = 1; i <= n; i++) {
            printf "%s %d, by refusal:", names[i], all[names[i]]
            for (r = 0; r <= 15; r++) if ((names[i], r) in seen) printf " %d: %d", r, seen[names[i], r]
            print ""
        }
        printf "all calls %d, by refusal:", calls
        for (r = 0; r <= 15; r++) if (r in by) printf " %d: %d", r, by[r]
        print ""
        print differ + 0, "lines differ"
        exit differ > 0 }'
