#!/usr/bin/env bash
# Listings of programs for MARS and SPIM: those of examples/translate run and end as SPIM told of them, cases become what is written
# beside them, and each row of pseudo-instructions says what `ruu check` does. Where SPIM is there it is asked, and with the word
# `renew` what it tells is written anew. Mistakes have their words and their status.
. "$(dirname "$0")/common.bash"
for program in ruu checker; do
  build run $program
done
ruu=$PWD/crates/ruu/out/ruu

for part in "programs ${1:-}" cases rows; do
  # shellcheck disable=SC2086
  python3 -B tests/translate.py $part || fail "translate, $part"
done

# Sets `status` and what is written, of a program that finds `run` there.
translate() { # words
  python3 -B translate/translate.py "$ruu" "$@" > "$work/out" 2> "$work/err"
  status=$?
}

says() { # status, first line on standard error, words
  local wanted=$1 line=$2
  shift 2
  translate "$@"
  [ "$status" -eq "$wanted" ] && [ "$(head -n 1 "$work/err")" = "$line" ] || fail "translate $*: status $status"
  [ "$wanted" -eq 0 ] || [ ! -s "$work/out" ] || fail "translate $*: wrote something"
}

# a run tells registers and data by their names, with the status of the run
translate examples/translate/strings.s --run --alone
[ $status -eq 0 ] && cmp -s "$work/out" tests/translate/strings.told || { cat "$work/out"; fail "a run of strings.s: status $status"; }
translate examples/translate/globals.s --run --alone
[ $status -eq 0 ] && grep -qx 'shared byte 40    0, 6' "$work/out" || fail "a run of globals.s: status $status"
printf 'main: li $t0,3\nlw $t1,($t0)\n' > "$work/odd.s"
translate "$work/odd.s" --run --alone
[ $status -eq 1 ] && [ "$(head -n 1 "$work/out")" = "stop unaligned after 3 instructions, in line 2: lw \$t1,(\$t0)" ] || fail "a run of odd.s: status $status"
translate examples/translate/hanoi.s --run --alone --limit 10
[ $status -eq 4 ] && [ "$(head -n 1 "$work/out")" = "limit after 10 instructions, in line 25: addi \$sp, \$sp, -20" ] || fail "a run with a limit: status $status"
translate examples/translate/hanoi.s --run --limit x
[ $status -eq 3 ] && [ ! -s "$work/out" ] || fail "a run with a mistake: status $status"
echo 'runs tell registers and data by their names'

# what goes wrong
says 3 'error: translate takes one file: the program'
says 3 'error: translate takes one file: the program' examples/translate/gcd.s examples/translate/gcd.s
says 3 'error: there is no option --bogus' examples/translate/gcd.s --bogus
says 5 'ruu: nowhere.s: the program cannot be read: No such file or directory' nowhere.s
says 5 'ruu: -x.s: the program cannot be read: No such file or directory' -- -x.s
translate tests/translate/faults.s
[ $status -eq 2 ] && [ ! -s "$work/out" ] && cmp -s "$work/err" tests/translate/faults.told || fail "faults.s: status $status, or other faults"
says 0 'examples/translate/caesar.s: note: output is left out, in lines 13, 15: there is no system' examples/translate/caesar.s
cp "$work/out" "$work/named"
translate - < examples/translate/caesar.s
diff "$work/named" "$work/out" | grep -qx '> # From standard input by ruu translate..*' || fail 'standard input: another listing'
python3 -B translate/translate.py "$ruu" examples/translate/gcd.s > /dev/full 2> "$work/err"
[ $? -eq 5 ] && [ "$(cat "$work/err")" = 'ruu: standard output: No space left on device' ] || fail 'a listing that cannot be written'
for words in 'translate --help' 'help translate'; do
  # shellcheck disable=SC2086
  ./ruu $words | cmp -s - docs/help/translate.txt || fail "ruu $words: another help"
done
echo 'what goes wrong has its word and its status'
