#!/bin/sh
# native_lib.sh NAME OUT: writes OUT/libNAME.a, the functions of the proved library NAME for C, for this machine's processor.
# Run it in the repository's root.
#
# The archive is that of the crate NAME_c, which `rt lib` proves and compiles; it is copied under the library's name. Its code
# runs on every x86-64 processor or, on Arm, on every aarch64 one.
set -eu
name=$1
mkdir -p "$2"
out=$(cd "$2" && pwd -P)

case $(uname -m) in
x86_64) processor="--cpu x86-64" ;;
aarch64) processor="--target aarch64-unknown-linux-gnu" ;;
*)
    echo "native_lib.sh: the kit has nothing for $(uname -m)" >&2
    exit 2
    ;;
esac

cd "crates/${name}_c"
# shellcheck disable=SC2086
rt lib $processor
cp "out/lib${name}_c.a" "$out/lib$name.a"
