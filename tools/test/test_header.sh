#!/usr/bin/env bash
# Compiles tools/test/test_header.c as C99 and as C++ with every warning an error, links it with the
# library, and runs it: what include/saihkeb.h says of NULL, lists, refusals, one answer, seven axes, a file of arms,
# rounding and stack. Needs rt, a C and a C++ compiler.   tools/test/test_header.sh
set -eu
cd "$(dirname "$0")/../.."
tools/staticlib.sh saihkeb >/dev/null
mkdir -p target/examples
warnings='-Wall -Wextra -Wpedantic -Wshadow -Werror'
${CC:-cc} -std=c99 -O2 $warnings -pthread -D_POSIX_C_SOURCE=200809L -I include -o target/examples/header_c \
    tools/test/test_header.c target/staticlib/libsaihkeb.a -lm
${CXX:-c++} -x c++ -std=c++11 -O2 $warnings -pthread -I include -o target/examples/header_cxx \
    tools/test/test_header.c -x none target/staticlib/libsaihkeb.a -lm
for one in header_c header_cxx; do
    printf '%s: ' "$one"
    "target/examples/$one"
done
