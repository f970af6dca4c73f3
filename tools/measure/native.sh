#!/usr/bin/env bash
# Prints the command that starts the solver program under valgrind: the object file that rt compiled
# (tools/build.sh ik), linked with the machine's own C library to target/native/ik, for valgrind can't run the
# toolchain's. The environment variable IK_PROGRAM names another program instead. Needs rt and cc.
set -eu
cd "$(dirname "$0")/../.."
if [ -n "${IK_PROGRAM:-}" ]; then
    echo "$IK_PROGRAM"
    exit
fi
[ -f target/obj/ik.o ] || { echo "target/obj/ik.o is missing: tools/build.sh ik" >&2; exit 1; }
mkdir -p target/native
c=$(dirname "$(rt doc)")/c
cc -o target/native/ik target/obj/ik.o "$c/libos_c.a" "$c/liblibc_c.a" -lm
echo target/native/ik
