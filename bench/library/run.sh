#!/bin/sh
# Builds gdsr and the proved writer into one program and times both on the same libraries: see docs/BENCHMARK.md.
# GDSR_SRC names the folder with gdsr's published code; the library is made by `tools/build.sh ravenvanity`.
set -e
root=$(cd "$(dirname "$0")/../.." && pwd)
"$root/oracle/build.sh"
"${ORACLE_TARGET:-$root/target/oracle}/libraries"
