#!/usr/bin/env bash
# Counts the places of docs/DESIGN-PASS.md in crates/*/src/, a line for each command there. With an argument: lists them.
set -u
cd "$(dirname "$0")/.." || exit 1
list=${1:-}
src=$(ls crates/*/src/*.rt)

# count LABEL PATTERN: lines that match an extended regular expression.
count() {
  printf '%-52s %4d\n' "$1" "$(cat $src | grep -cE "$2")"
  if [ -n "$list" ]; then grep -nE "$2" $src; fi
}

# found LABEL: the lines of standard input.
found() {
  lines=$(cat)
  printf '%-52s %4d\n' "$1" "$(grep -c . <<<"$lines")"
  if [ -n "$list" ]; then printf '%s\n' "$lines"; fi
}

count '1a flags with a value beside them' '^ *(pub )?(fits|known|ok|failed|big): bool,$'
count '1b fields that hold a refusal or a size by number' '^    (pub )?(refusal: u(8|size)|passed: u8),$|^    pub number: usize,$'
count '1c own enums of the shape of Option or Result' '^(pub )?enum (Divided|Step|Reducer) '
count '1d constants that number kinds' '^    pub const [A-Z0-9_]+: u(8|size) = [0-9]+;$'
awk '/^\/\/ /{c=c $0; next} /^ *(pub )?fn /{f=$0; cc=c; c=""; if (f !~ /\)/) {open=1; next}} open{f=f $0; if ($0 ~ /\)/) open=0; else next} f!=""{if (f ~ /-> (usize|u8|u64)/ && cc ~ /(where (there is none|none|it is none|it does not|it stands for none|all are|it takes all|each does|none is|none does)|0 for none|else 0|or 0|: none|or count|no such|their number|past the end|not reduced|foreign to the op|11 for none|stands for none|0 where)/) print FILENAME": "f; f=""} {c=""}' $src |
  found '1e functions whose number says that there is none'
awk '/^(pub )?fn [a-z_]+_broken\(/{f=""; on=1} on{f=f $0; if ($0 ~ /->/) {on=0; if (f ~ /-> usize/) print FILENAME": "f}}' $src |
  found '1f functions that number a broken constraint, 0 for none'
count '2a calls that a wrapper makes with one literal' '^    (is_word|starts)\(text, .*b"[^"]*"?.*\)$'
count '3a while and loop' "^ *('[a-z]+: )?(while .*|loop) \{$"
count '4a returned true and false' '^ *return (true|false);$'
count '4b own and, or, minimum, monus' '[^_a-z](both|either|less_one|least_of)\('
count '4c own wrapping product, named wrapping functions' 'fn wrapping_mul|std::num::wrapping'
count '4d a bool as a number or a choice' '^    if [a-z_.]+ \{ [a-z01]+ \} else \{ [a-z01]+ \}$'
count '4e arms that give a constant' '^ *[A-Z][A-Za-z]+::[A-Z][A-Za-z0-9]* => (true|false|[0-9][0-9a-fx_]*),$'
cat $src | grep -oE 'requires( [a-z_]+)? \{ .* \}' | sed -E 's/^requires( [a-z_]+)? \{ //; s/ \}$//; s/ × /\n/g' | sed -E 's/^[( ]+//; s/[) ]+$//' | sort | uniq -c | awk '$1 >= 3' |
  found '5a facts that three or more contracts require'
count '6a fields that count the places of an array beside' '^    (pub )?(rank|count|arity|len|inputs): (usize|\[usize; 11\]),$'
count '6b a place beside the buffer that it is in' '(stack|entries|out|store): &mut \[[a-z0-9]+\], (top|place|from): usize'
count '7a enums whose variants name a test or a step' '^(pub )?enum (DimTest|TypeTest|Kind|Class) '
