#!/usr/bin/env bash
# The solver program's peak stack, by valgrind's massif, on reachable and hostile blocks of each family.
#   tools/measure/stack.sh [COUNT] [SEED]
# COUNT blocks (10) of each kind and family. The first line is the program alone, on no input: its own lists
# are on the stack too. The second is a block that is refused. The last column is what a block adds to the
# program alone: the solve's lists are in the frame of whatever reads a block, so a refused one has them too.
# Needs rt (or IK_PROGRAM), cargo, cc and valgrind.
set -euo pipefail
cd "$(dirname "$0")/../.."
count=${1:-10} seed=${2:-1}
cargo build --release --offline --quiet --manifest-path oracle/Cargo.toml
oracle=${CARGO_TARGET_DIR:-oracle/target}/release/oracle
words=$(tools/measure/native.sh)
eval "program=($words)"
dir=$(mktemp -d)
trap 'rm -rf "$dir"' EXIT

peak() { # the blocks are on standard input
    valgrind --tool=massif --stacks=yes --heap=no --peak-inaccuracy=0.0 --massif-out-file="$dir/massif" \
        "${program[@]}" >/dev/null 2>"$dir/log" || { cat "$dir/log" >&2; exit 1; }
    sed -n 's/^mem_stacks_B=//p' "$dir/massif" | sort -n | tail -n 1
}

# Family 9 is refused.
python3 -c 'import sys; sys.path.insert(0, "tools"); import blocks
sys.stdout.buffer.write(blocks.make(9, 0, [0.0] * 39, [0.0] * 12))' >"$dir/refused"
alone=$(peak </dev/null)
row() { # NAME BLOCKS
    local now
    now=$(peak <"$2")
    printf '%-16s %12s %12s\n' "$1" "$now" $((now - alone))
}
printf '%-16s %12s %12s\n' blocks 'peak, bytes' 'of a block'
row none /dev/null
row refused "$dir/refused"
for case in 1 2 3 4 5 '6 1' '6 7' '6 400'; do
    read -r family n <<<"$case"
    for kind in reachable hostile; do "$oracle" generate "$kind" "$family" "$seed" "$count" $n; done >"$dir/in"
    row "family $family${n:+, n $n}" "$dir/in"
done
