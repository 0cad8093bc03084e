#!/bin/sh
# Proves and builds what C links of a crate, controller or propagation_bench, as target/staticlib/libNAME.a.
set -eu
cd "$(dirname "$0")/.."
mkdir -p target/staticlib
(cd "crates/$1_c" && rt lib) >"target/staticlib/$1.log" 2>&1 || { cat "target/staticlib/$1.log"; exit 1; }
cp "crates/$1_c/out/lib$1_c.a" "target/staticlib/lib$1.a"
