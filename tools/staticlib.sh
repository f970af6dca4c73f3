#!/usr/bin/env bash
# Proves and builds the static library NAME, and puts its archive to target/staticlib/libARCHIVE.a; ARCHIVE is
# NAME unless given. Needs rt.
#   tools/staticlib.sh NAME [ARCHIVE]
set -eu
cd "$(dirname "$0")/.."
(cd "crates/$1" && rt lib)
mkdir -p target/staticlib
cp "crates/$1/out/lib$1.a" "target/staticlib/lib${2:-$1}.a"
