#!/usr/bin/env bash
# Runs the program `run`, which `./ruu run FILE` starts where the words have no `--alone`, to each of its statuses: 0, 1, 2 and 4,
# from a file and from standard input, with the report and the line of the tally; 3 for words that it does not take; and 5, with
# the word of the refusal alone, where nothing can be read or written. (Want of memory and of threads is for refused_memory.sh and
# refused_threads.sh, by the program `ruu`.)
. "$(dirname "$0")/common.bash"
build run run
run=crates/run/out/run
tally='tally lets [0-9]+ claims [0-9]+ .* renewals [0-9]+'
: > "$work/none"

# The last run ended with this status, wrote just this file, and said a line of this form on standard error, or nothing.
is_told() { # what ran, status, file, form
  [ "$status" -eq "$2" ] || fail "$1: status $status, and not $2"
  cmp -s "$work/out" "$3" || { diff "$3" "$work/out"; fail "$1: something else is written"; }
  [[ $(cat "$work/err") =~ ^$4$ ]] || fail "$1: another line on standard error"
}

# Runs a listing, as a file and as standard input.
ends() { # listing, status, report, form, options
  "$run" run "$1" "${@:5}" > "$work/out" 2> "$work/err"
  status=$?
  is_told "$1 ${*:5}" "$2" "$3" "$4"
  "$run" run - "${@:5}" < "$1" > "$work/out" 2> "$work/err"
  status=$?
  is_told "$1 ${*:5}, as standard input" "$2" "$3" "$4"
}

ends examples/sum.s 0 examples/sum.report "$tally"
ends tests/listings/fault.s 2 tests/listings/fault.report ''
printf 'lui $1,0x7fff\nadd $2,$1,$1\nbreak\n' > "$work/overflow.s"
printf 'stop overflow\ncount 1\npc 0x00400004\nr1 0x7fff0000\n' > "$work/overflow.report"
ends "$work/overflow.s" 1 "$work/overflow.report" "$tally"
printf 'again: j again\n' > "$work/again.s"
printf 'limit\ncount 3\npc 0x00400000\n' > "$work/again.report"
ends "$work/again.s" 4 "$work/again.report" "$tally" --limit 3
echo 'run: ends with 0, 1, 2 and 4, and reads files and standard input'

# Runs it with words that are refused, where nothing is written.
refused() { # status, form, words
  "$run" run "${@:3}" > "$work/out" 2> "$work/err" < /dev/null
  status=$?
  is_told "run ${*:3}" "$1" "$work/none" "$2"
}

refused 3 'error: this program has no --alone: .*' examples/sum.s --alone
refused 3 "error: .*--unit'.*" examples/sum.s --unit 3
refused 5 'ruu: open' "$work/nowhere.s"
refused 5 'ruu: read' examples
"$run" run - <&- > "$work/out" 2> "$work/err"
status=$?
is_told 'a closed standard input' 5 "$work/none" 'ruu: read'
"$run" run examples/sum.s > /dev/full 2> "$work/err"
status=$?
: > "$work/out"
is_told 'a full device' 5 "$work/none" 'ruu: write'
echo 'run: 3 for other words, and 5 where it cannot read or write'
