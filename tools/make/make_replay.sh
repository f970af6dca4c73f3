#!/usr/bin/env bash
# Makes the stored set of the test program replay: crates/replay/stdin has blocks of every family and
# kind, crates/replay/stdout the lines that the reference program prints for them. The seeds are fixed,
# so every run makes the same bytes. Prints what the set has. Needs cargo and python3.
#   tools/make/make_replay.sh
# It has 3,755 blocks, and 846 of them are limits blocks: 622 accepted, which print nothing, 223 refused by 2,
# 3 or 10, and the last of all, cut short. First stands one that is refused, then 2,049 blocks that are solved
# without limits, then limits blocks in every state with other blocks among them
# (tools/make/replay_limits.py); before the short one stands an accepted one. Refusals 5 and 6 are not in it:
# a block has always 39 and 12 numbers.
set -euo pipefail
cd "$(dirname "$0")/../.."
seed=20261116
cargo build --release --offline --quiet --manifest-path oracle/Cargo.toml
oracle=${CARGO_TARGET_DIR:-oracle/target}/release/oracle
dir=$(mktemp -d)
trap 'rm -rf "$dir"' EXIT

# Appends whole blocks, and their kind, family and n to the list. A run of headers ends with a short
# block: one more is made, and left out.
add() { # KIND FAMILY SEED COUNT [N]
    "$oracle" generate "$1" "$2" "$3" $(($4 + 1)) ${5:-} | head -c $((512 * $4)) >>"$dir/in"
    for _ in $(seq "$4"); do echo "$1 $2 ${5:-0}"; done >>"$dir/list"
}

# Appends the block at a place of a run, or its first bytes.
add_one() { # NAME FAMILY N PLACE BYTES KIND SEED
    "$oracle" generate "$6" "$2" "$7" $(($4 + 1)) "$3" | tail -c 512 | head -c "$5" >>"$dir/in"
    echo "$1 $2 $3" >>"$dir/list"
}

kinds=(reachable unreachable bent random hostile degenerate headers)
python3 - >"$dir/in" <<'END'
import sys
sys.path.insert(0, "tools")
import blocks
# Limits that would leave nothing, were it not for a low above its high; then document 01's three blocks.
sys.stdout.buffer.write(blocks.make_limits([4.0, 5.0] * 5 + [5.0, 4.0]))
for family, n in ((3, 0), (6, 200), (9, 0)):
    sys.stdout.buffer.write(blocks.make(family, n, [0.0] * 39, [0.0] * 12))
END
printf '%s\n' 'limits 0 0' 'zeros 3 0' 'zeros 6 200' 'zeros 9 0' >"$dir/list"
for kind in "${kinds[@]}"; do
    for family in 1 2 3 4 5; do add "$kind" "$family" "$seed" 25; done
    for n in 1 2 7; do add "$kind" 6 "$seed" 12 "$n"; done
    add "$kind" 6 "$seed" 4 200
    add "$kind" 6 "$seed" 2 400
done
# Two lists that are too long; what they leave behind must not change the lines of the next blocks.
add_one long 6 400 862 512 hostile 77
add_one long 6 400 1092 512 hostile 77
for family in 5 4 3 2 1; do
    for kind in "${kinds[@]}"; do add "$kind" "$family" $((seed + 1)) 25; done
done
# Ends with an accepted limits block.
python3 tools/make/replay_limits.py "$oracle" "$seed" "$dir/in" "$dir/list"
tail -c 512 "$dir/in" | head -c 511 >"$dir/short"
cat "$dir/short" >>"$dir/in"
echo 'short 0 0' >>"$dir/list"

mkdir -p crates/replay
cp "$dir/in" crates/replay/stdin
"$oracle" blocks <crates/replay/stdin >crates/replay/stdout
[ "$(wc -l <"$dir/list")" -eq "$(grep -c ^block crates/replay/stdout)" ] || { echo "places are missing" >&2; exit 1; }

awk '
    function add(table, key) {
        if (!((table, key) in count)) order[table] = order[table] key " "
        count[table, key]++
    }
    function show(table, title,    keys, m, j) {
        m = split(order[table], keys, " ")
        printf "%s:", title
        for (j = 1; j <= m; j++) printf " %s %d%s", keys[j], count[table, keys[j]], j < m ? "," : "\n"
    }
    NR == FNR { what[FNR - 1] = $0; next }
    $1 == "block" {
        split(what[$2], w, " ")
        add("kind", w[1])
        if (w[2] > 0) add("family", w[2])
        if (w[2] == 6) add("n", w[3])
        add("refusal", $4)
        blocks++
        answers += $6
        if ($6 > most) most = $6
        next
    }
    { written++; flagged += $7 }
    /7ff8000000000000/ { nans++ }
    END {
        show("kind", "by kind")
        show("family", "by family asked for")
        show("n", "family 6 by n")
        show("refusal", "by refusal")
        printf "%d blocks with a line, %d answers (most in one list: %d), ", blocks, answers, most
        printf "%d written, %d flagged, %d with a NaN\n", written, flagged, nans
    }
' "$dir/list" crates/replay/stdout
echo "$((($(wc -c <crates/replay/stdin) + 511) / 512)) blocks in all"
wc -c crates/replay/stdin crates/replay/stdout
