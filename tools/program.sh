#!/usr/bin/env bash
# Runs a program that tools/build.sh built, under the loader and the C library of the toolchain, which the
# machine's own may be older than.
#   tools/program.sh NAME [ARGUMENT..]
set -eu
cd "$(dirname "$0")/.."
libraries=$(dirname "$(rt doc)")/toolchain/lib
name=$1
shift
exec "$libraries/ld-linux-x86-64.so.2" --library-path "$libraries" "target/bin/$name" "$@"
