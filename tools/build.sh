#!/usr/bin/env bash
# Proves and builds programs, and puts each to target/bin/NAME, its object file to target/obj/NAME.o. Needs rt.
#   tools/build.sh NAME..
# rt builds a program only to run it, under the machine's own C library. Where that is too old the run fails, and
# says so; the program is proved and built all the same, and tools/program.sh runs it under the toolchain's.
set -euo pipefail
cd "$(dirname "$0")/.."
mkdir -p target/bin target/obj
log=$(mktemp)
trap 'rm -f "$log"' EXIT
for name in "$@"; do
    (cd "crates/$name" && rt run </dev/null) 2>&1 | tee "$log" || true
    # This line comes once the program is proved and linked.
    grep -q "^rt: running out/$name;" "$log" || { echo "tools/build.sh: $name was not proved and built" >&2; exit 1; }
    cp "crates/$name/out/$name" "target/bin/$name"
    cp "crates/$name/out/$name.o" "target/obj/$name.o"
done
