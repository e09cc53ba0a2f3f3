#!/usr/bin/env bash
# The static library of a crate's C exports, proved first where it is not yet: `tools/staticlib.sh stand` builds the crate `stand_c` and writes
# target/staticlib/libstand.a, for x86-64 Linux.
set -eu
name=$1
cd "$(dirname "$0")/../crates/${name}_c"
rt lib
mkdir -p ../../target/staticlib
cp "out/lib${name}_c.a" "../../target/staticlib/lib$name.a"
