#!/bin/sh
# Builds the harness over gdsr's published code (GDSR_SRC) and the static library of `tools/build.sh ravenvanity`, and compares:
# the stored cases of tools/stored, or of the file that CASES names, 100,000 generated cells, 100,000 with any sines and cosines,
# 20,000 libraries, the cells at limits that gdsr has not, and the longest sheets. Before, it runs the tests of src/side.rs.
set -e
here=$(cd "$(dirname "$0")" && pwd)
"$here/build.sh"
target=${ORACLE_TARGET:-$here/../target/oracle}
program=$target/oracle
rustc --edition 2024 --test -o "$target/side" "$here/src/side.rs"
"$target/side" --quiet
if [ -z "$CASES" ]; then
    CASES=$target/stored.txt
    xzcat "$here"/../tools/stored/*.txt.xz >"$CASES"
fi
"$program" --stored "$CASES"
"$program" --cases "${1:-1}" 100000
"$program" --any-pair "${1:-1}" 100000
"$program" --libraries "${1:-1}" 20000
"$program" --limits
"$program" --long
