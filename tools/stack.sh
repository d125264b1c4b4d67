#!/usr/bin/env bash
# The stack that reading, checking and evaluating a text takes, in KiB to the next 4, measured by running the proved
# library in threads of shorter and longer stacks (`compare within`): tools/stack.sh FILE..
set -eu
compare=$(dirname "$0")/../compare/target/release/compare

# fits KIB PART FILE: the text is judged within so much stack.
fits() { "$compare" within $(($1 * 1024)) "$2" "$3" >/dev/null 2>&1; }

# least PART FILE: the least stack that is enough.
least() {
  local low=0 high=16384 middle
  while [ $((high - low)) -gt 4 ]; do
    middle=$(((low + high) / 8 * 4))
    if fits "$middle" "$1" "$2"; then high=$middle; else low=$middle; fi
  done
  echo "$high"
}

ulimit -c 0
for file in "$@"; do
  "$compare" within $((16384 * 1024)) evaluate "$file" >/dev/null
  printf '%s: read %s KiB, check %s KiB, evaluate %s KiB\n' "$file" "$(least read "$file")" "$(least check "$file")" "$(least evaluate "$file")"
done
