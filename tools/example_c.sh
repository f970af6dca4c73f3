#!/usr/bin/env bash
# Builds the library and the C examples that link it, and runs one: a pose's answers in degrees. The first word
# `track` is for examples/c/track.c, the arm on a turntable, `arms` for examples/c/arms.c, an arm that is found in a
# file of arms; else it is examples/c/solve.c, whose first lines have its words. Needs rt and a C compiler.
#   tools/example_c.sh [track | arms | WORD]
set -eu
cd "$(dirname "$0")/.."
tools/staticlib.sh saihkeb >/dev/null
mkdir -p target/examples
for one in solve track arms; do
    ${CC:-cc} -std=c11 -O2 -Wall -Wextra -I include -o "target/examples/${one}_c" "examples/c/$one.c" \
        target/staticlib/libsaihkeb.a -lm
done
case ${1:-} in
    track | arms) exec "target/examples/$1_c" ;;
esac
exec target/examples/solve_c "$@"
