#!/bin/sh
# Compares one tag of 85 bytes with a plain C SipHash-2-4, on this machine and in this run.
# First: (cd crates/bench && rt run). The C compiler is CC, or clang where there is one, or cc.
set -e
cd "$(dirname "$0")/.."
out=$(mktemp)
trap 'rm -f "$out"' EXIT
"${CC:-$(command -v clang || command -v cc)}" -O3 -o "$out" tools/siphash.c
for turn in 1 2 3; do
    crates/bench/out/bench timings
    "$out"
done
