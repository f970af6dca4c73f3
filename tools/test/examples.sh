#!/usr/bin/env bash
# Builds the C and the Rust examples and the program, and holds the examples' angles to the
# program's: the degrees that they print for their own pose, without limits and inside theirs, for one answer, on
# a turntable, and by an arm that is found in a file of arms; every line of COUNT poses for each family and of blocks that are refused; and the same poses with
# limits blocks among them. Then tools/test/test_header.sh. Needs rt, cargo, a C and a C++ compiler and python3.
#   tools/test/examples.sh [COUNT]
set -euo pipefail
cd "$(dirname "$0")/../.."
count=${1:-200}
log=$(mktemp -d)
trap 'rm -rf "$log"' EXIT
tools/example_c.sh >"$log/c"
tools/example_rust.sh >"$log/rust"
tools/build.sh ik >/dev/null
cargo build --release --offline --quiet --manifest-path oracle/Cargo.toml
oracle=${CARGO_TARGET_DIR:-oracle/target}/release/oracle

# The program's line of an answer, in degrees as the examples print it.
degrees() {
    python3 -c '
import math, struct, sys
for line in sys.stdin:
    *angles, flag = line.split()
    if angles[0] == "block":
        continue
    numbers = (struct.unpack(">d", bytes.fromhex(a))[0] for a in angles)
    print("".join("%10.4f" % (x / (math.pi / 180)) for x in numbers) + ("  least squares" if flag == "1" else ""))'
}
target/examples/solve_c block | tools/program.sh ik | degrees >"$log/program"
cmp "$log/program" "$log/c"
cmp "$log/program" "$log/rust"
{ target/examples/solve_c limits; target/examples/solve_c block; } | tools/program.sh ik | degrees >"$log/inside"
target/examples/solve_c inside | cmp "$log/inside" -
target/examples/solve_rust inside | cmp "$log/inside" -
echo "degrees: $(wc -l <"$log/program") answers, $(wc -l <"$log/inside") inside the limits, C and Rust as the program"
# The one answer is the first of these.
head -n 1 "$log/inside" >"$log/one"
target/examples/solve_c one | cmp "$log/one" -
target/examples/solve_rust one | cmp "$log/one" -
echo "one answer: C and Rust give the first of the $(wc -l <"$log/inside") inside the limits"
# On a turntable the same arm has the same answers behind the locked angle, and each makes the pose.
sed 's/^/   50.0000/; s/$/  makes the pose/' "$log/program" >"$log/track"
target/examples/track_c | cmp "$log/track" -
target/examples/solve_rust track | cmp "$log/track" -
echo "on a turntable: $(wc -l <"$log/track") answers, C and Rust as the program, and each makes the pose"
# An arm found in a file of arms is the arm that was put there.
target/examples/arms_c | cmp "$log/program" -
target/examples/solve_rust arms | cmp "$log/program" -
target/examples/arms_c file >"$log/site.arms"
python3 tools/arms.py list "$log/site.arms" >"$log/listed"
grep -q ': 4 blocks, 2 arms, 2 empty$' "$log/listed"
echo "found in a file of arms: $(wc -l <"$log/program") answers, C and Rust as the program; tools/arms.py lists the file"

# The lines of the program and of both examples for the blocks in a file, each input in a process of its
# own, for it may end in a short block.
hold() { # FILE
    tools/program.sh ik <"$1" >"$log/lines"
    target/examples/solve_c lines <"$1" | cmp - "$log/lines"
    target/examples/solve_rust lines <"$1" | cmp - "$log/lines"
    cat "$log/lines" >>"$log/all"
}
for limits in '' --limits; do
    : >"$log/all"
    for family in 1 2 3 4 5 6; do
        for kind in reachable hostile headers; do
            "$oracle" generate $kind "$family" 1 "$count" $([ "$family" -lt 6 ] || echo 25) $limits >"$log/in"
            hold "$log/in"
        done
    done
    echo "lines${limits:+, limits blocks among the others}: $(grep -c ^block "$log/all") blocks with a line," \
        "$(grep -vc ^block "$log/all") answers, C and Rust as the program"
done
tools/test/test_header.sh
