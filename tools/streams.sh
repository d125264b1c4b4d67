#!/usr/bin/env bash
# Standard input and output of the two programs: a read that fails, an argument or a write that fails gives one line on standard error and nothing on
# standard output; a text is read whole however it comes. Run from anywhere after `rt run` in crates/evaluate_main and crates/check_main has built the programs: tools/streams.sh
# Prints each test that fails; exit status 0 only where none does.
set -u
cd "$(dirname "$0")/.." || exit 1
work=$(mktemp -d)
trap 'rm -rf "$work"' EXIT
failed=0

# expect NAME OUTPUT ERROR: what the last run wrote, with its line ends.
expect() {
  if ! cmp -s <(printf '%s' "$2") "$work/out" || ! cmp -s <(printf '%s' "$3") "$work/err"; then
    failed=$((failed + 1))
    printf 'streams: FAILED: %s\n' "$1"
    printf '  standard output: %s\n  standard error: %s\n' "$(head -c 300 "$work/out")" "$(head -c 300 "$work/err")"
  fi
}

# blanks N: the sample with blanks behind it, N bytes in all.
blanks() { python3 -c 'import sys; t = open(sys.argv[1]).read(); sys.stdout.write(t + " " * (int(sys.argv[2]) - len(t)))' "$text" "$1"; }

# half PROGRAM: the program reads from a terminal whose other end is closed after half of the text, so that a read fails after the first bytes.
half() {
  python3 - "$1" "$text" "$work/out" "$work/err" <<'PY'
import os, pty, subprocess, sys, termios, time
program, text, out, err = sys.argv[1:]
upper, lower = pty.openpty()
mode = termios.tcgetattr(lower)
mode[3] &= ~(termios.ICANON | termios.ECHO)
termios.tcsetattr(lower, termios.TCSANOW, mode)
data = open(text, "rb").read()
with open(out, "wb") as o, open(err, "wb") as e:
    run = subprocess.Popen([program], stdin=lower, stdout=o, stderr=e)
os.close(lower)
os.write(upper, data[: len(data) // 2])
time.sleep(0.5)
os.close(upper)
run.wait(timeout=20)
PY
}

text=examples/sample.mlir
for name in evaluate_main check_main; do
  program=crates/$name/out/$name
  if [ "$name" = evaluate_main ]; then answer=$(cat examples/sample.out)$'\n'; else answer=$'accepted\n'; fi

  "$program" <"$text" >"$work/out" 2>"$work/err"
  expect "$name: an ordinary text" "$answer" ''
  "$program" <. >"$work/out" 2>"$work/err"
  expect "$name: a folder as input" '' $'standard input: Is a directory\n'
  "$program" <&- >"$work/out" 2>"$work/err"
  expect "$name: a closed input" '' $'standard input: Bad file descriptor\n'
  half "$program"
  expect "$name: a read that fails half way" '' $'standard input: Input/output error\n'
  "$program" "$text" <"$text" >"$work/out" 2>"$work/err"
  expect "$name: an argument" '' $'no argument is taken: the text is read from standard input\n'
  : >"$work/out"
  "$program" <"$text" >/dev/full 2>"$work/err"
  expect "$name: a full device as output" '' $'standard output: No space left on device\n'
  "$program" <"$text" >&- 2>"$work/err"
  expect "$name: a closed output" '' $'standard output: Bad file descriptor\n'

  (head -c 100 "$text"; sleep 0.2; tail -c +101 "$text" | head -c 100; sleep 0.2; tail -c +201 "$text") | "$program" >"$work/out" 2>"$work/err"
  expect "$name: a text in three pieces" "$answer" ''
  blanks 65536 | "$program" >"$work/out" 2>"$work/err"
  expect "$name: 65,536 bytes" "$answer" ''
  for n in 65537 70000 200000; do
    blanks "$n" | "$program" >"$work/out" 2>"$work/err"
    expect "$name: $n bytes through a pipe" "refused 1 $n 0"$'\n' ''
    blanks "$n" >"$work/text"
    "$program" <"$work/text" >"$work/out" 2>"$work/err"
    expect "$name: $n bytes from a file" "refused 1 $n 0"$'\n' ''
  done
done
[ "$failed" -eq 0 ] && printf 'streams: ok\n'
[ "$failed" -eq 0 ]
