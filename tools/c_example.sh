#!/usr/bin/env bash
# Builds the C example with the static library and compares what it prints; then runs damaged input under the sanitizers.
set -euo pipefail
cd "$(dirname "$0")/.."
out=$(mktemp -d)
trap 'rm -rf "$out"' EXIT
tools/c_library.sh controller
library=target/staticlib/libcontroller.a
warnings="-std=c11 -Wall -Wextra -Werror -Iinclude"
gcc $warnings -O2 examples/c/controller.c "$library" -o "$out/controller"
"$out/controller" | diff - examples/c/controller.expected
gcc $warnings -g -O1 -fsanitize=address,undefined -fno-sanitize-recover=all examples/c/damage.c "$library" -o "$out/damage"
"$out/damage"
