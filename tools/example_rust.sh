#!/usr/bin/env bash
# Builds the library and the Rust example that links it, and runs it: a pose's answers in degrees. The first
# lines of examples/rust/main.rs have its words, among them `track` for the arm on a turntable and `arms` for one
# that is found in a file of arms. Needs rt and rustc.   tools/example_rust.sh [WORD]
set -eu
cd "$(dirname "$0")/.."
tools/staticlib.sh saihkeb >/dev/null
mkdir -p target/examples
rustc --edition 2021 -O -o target/examples/solve_rust examples/rust/main.rs \
    -L native=target/staticlib -l static=saihkeb
exec target/examples/solve_rust "$@"
