#!/bin/sh
# Builds the static library and the program over it, and runs it: see docs/BENCHMARK.md.
set -e
cd "$(dirname "$0")/../.."
tools/build.sh ravenvanity
mkdir -p target/bench
cc -O2 -ffp-contract=off -o target/bench/survey bench/survey/survey.c target/staticlib/libravenvanity.a -lm
target/bench/survey
