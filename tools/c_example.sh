#!/usr/bin/env bash
# Builds examples/c/evaluate.c over include/aquabob.h with crates/bench/out/libbench.a (`rt lib` in crates/bench makes it),
# runs it and compares what it prints with examples/c/evaluate.out. The header is also compiled as C++.
set -eu
cd "$(dirname "$0")/.."
library=${BENCH_STATICLIB:-crates/bench/out}/libbench.a
if [ ! -f "$library" ]; then
  echo "c_example: $library is not there: run 'rt lib' in crates/bench first" >&2
  exit 2
fi
folder=$(mktemp -d)
trap 'rm -rf "$folder"' EXIT
gcc -std=c11 -O2 -Wall -Wextra -Wpedantic -Werror -Iinclude examples/c/evaluate.c "$library" -o "$folder/evaluate"
gcc -x c++ -std=c++11 -Wall -Wextra -Wpedantic -Werror -fsyntax-only include/aquabob.h
"$folder/evaluate" >"$folder/out"
cmp "$folder/out" examples/c/evaluate.out
