#!/usr/bin/env bash
# Runs the program `alone` to each of its statuses: 0 where the listing breaks, 1 where it stops otherwise, 2 for a fault
# in the text, 4 at the limit, and 5 where nothing can be read or written. What it writes is the report, and on standard
# error it says nothing but the word of a refusal. (Want of memory is for tests/refused_memory.sh.)
. "$(dirname "$0")/common.bash"
build run alone
alone=crates/alone/out/alone
statuses=

# Runs a listing, which has to end with this status and report.
ends() { # listing, status, report
  "$alone" < "$1" > "$work/out" 2> "$work/err"
  status=$?
  [ $status -eq "$2" ] || fail "$1: status $status, and not $2"
  cmp -s "$work/out" "$3" || { diff "$3" "$work/out"; fail "$1: another report"; }
  [ ! -s "$work/err" ] || fail "$1: a line on standard error"
  statuses+=" $status"
}

for listing in examples/*.s tests/listings/*.s; do
  report=${listing%.s}.report
  ends "$listing" "$(status_of "$report")" "$report"
done

# a listing in one line, its status, and the lines of its report
gives() {
  printf '%b' "$1" > "$work/listing.s"
  printf '%s\n' "${@:3}" > "$work/report"
  ends "$work/listing.s" "$2" "$work/report"
}
gives 'ori $1,$0,7\nbreak\n' 0 'stop break' 'count 1' 'pc 0x00400004' 'r1 0x00000007'
gives 'lui $1,0x7fff\nadd $2,$1,$1\nbreak\n' 1 'stop overflow' 'count 1' 'pc 0x00400004' 'r1 0x7fff0000'
gives '.space 4\nlw $1,2($0)\nbreak\n' 1 'stop unaligned' 'count 0' 'pc 0x00400000'
gives 'lw $1,0($0)\nbreak\n' 1 'stop range' 'count 0' 'pc 0x00400000'
gives 'ori $1,$0,8\njr $1\nbreak\n' 1 'stop badpc' 'count 2' 'pc 0x00000008' 'r1 0x00000008'
gives 'ori $1,$0,7\nadd $1\nbreak\n' 2 'fault line 2 BadOperands'
gives 'again: j again\n' 4 'limit' 'count 1000000' 'pc 0x00400000'
for one in 0 1 2 4; do
  [[ " $statuses " == *" $one "* ]] || fail "no run ended with status $one"
done

# what cannot be read, and what cannot be written
refused() { # the word, input, output
  "$alone" < "$2" > "$3" 2> "$work/err"
  status=$?
  [ $status -eq 5 ] || fail "from $2 to $3: status $status, and not 5"
  [ "$(cat "$work/err")" = "ruu: $1" ] || fail "from $2 to $3: another line on standard error"
}
refused read examples "$work/out"
[ ! -s "$work/out" ] || fail 'something was written for what was not read'
refused write examples/sum.s /dev/full
"$alone" <&- > "$work/out" 2> "$work/err"
[ $? -eq 5 ] && [ "$(cat "$work/err")" = 'ruu: read' ] && [ ! -s "$work/out" ] || fail 'a closed standard input'
"$alone" < examples/sum.s >&- 2> "$work/err"
[ $? -eq 5 ] && [ "$(cat "$work/err")" = 'ruu: write' ] || fail 'a closed standard output'
echo "alone: $(wc -w <<< "$statuses") listings with their statuses and reports, and 5 where it cannot read or write"
