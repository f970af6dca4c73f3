#!/usr/bin/env bash
# The memory of the library: the most stack that a solve used, the size of its code and constants,
# and the functions that the linker has to find for it. Needs rt, cargo, a C compiler and binutils.
#   tools/measure/memory.sh [COUNT]
set -euo pipefail
cd "$(dirname "$0")/../.."
count=${1:-100}
tools/staticlib.sh saihkeb >/dev/null
cargo build --release --offline --quiet --manifest-path oracle/Cargo.toml
oracle=${CARGO_TARGET_DIR:-oracle/target}/release/oracle
mkdir -p target/bench
${CC:-cc} -std=c11 -O2 -Wall -Wextra -pthread -I include -o target/bench/stack tools/measure/bench/stack.c \
    target/staticlib/libsaihkeb.a -lm
for kind in reachable unreachable hostile; do
    for family in 1 2 3 4 5 6; do
        "$oracle" generate $kind $family 1 "$count"
    done
done | target/bench/stack
size -t target/staticlib/libsaihkeb.a
echo "functions of others:"
nm -u target/staticlib/libsaihkeb.a | awk '$1 == "U" { print "    " $2 }'
