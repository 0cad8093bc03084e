#!/bin/sh
# Builds the proved propagation as a static library and the same algorithm in C, and races them.
set -eu
cd "$(dirname "$0")/.."
tools/c_library.sh propagation_bench
gcc -O3 -o target/propagation_bench bench/bench.c target/staticlib/libpropagation_bench.a "$(dirname "$(rt doc)")/c/liblibc_c.a" -lm
target/propagation_bench data/ieee80211n-1944-rate12.txt "$@"
