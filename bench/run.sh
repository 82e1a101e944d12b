#!/bin/sh
# Builds the static library of crates/bench_arithmetic and the program over it, and runs it: see docs/BENCHMARK.md.
set -e
cd "$(dirname "$0")/.."
tools/build.sh bench_arithmetic
mkdir -p target/bench
cc -O2 -o target/bench/arithmetic bench/arithmetic.c target/staticlib/libbench_arithmetic.a -lm
target/bench/arithmetic
