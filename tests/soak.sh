#!/usr/bin/env bash
# Runs listings on threads that `--shake` holds back, for some seconds: on each number of units and each ring size each report
# is that of one thread, and there were stale answers and squashes. (benchmarks/soak.py goes on for as long as one likes.)
. "$(dirname "$0")/common.bash"
build run ruu

benchmarks/soak.py "${1:-5}" "${2:-1}" > "$work/out" 2> "$work/err" || fail "$(cat "$work/out")"
grep -qE ', [1-9][0-9]* stale, [1-9][0-9]* squashes, [1-9][0-9]* mends, ' "$work/out" || fail "nothing came late: $(cat "$work/out")"
echo "ruu: $(cat "$work/out")"

# a seed tells of the tally and of the progress as without
printf 'ori $1,$0,300\nL: addiu $1,$1,-1\nbne $1,$0,L\nbreak\n' > "$work/loop.s"
crates/ruu/out/ruu run "$work/loop.s" --progress --units 4 --shake 7 > "$work/out" 2> "$work/err" || fail "shaken and told: status $?"
told=$(sed -nE 's/^progress .* retires ([0-9]+) .*$/\1/p' "$work/err" | tr '\n' ' ')
[ "$told" = '64 128 192 256 320 384 448 512 576 601 ' ] || fail "told of retirements $told"
tail -n 1 "$work/err" | grep -qE '^tally .* retires 601 ' || fail 'the last line is no tally'
echo 'ruu: the progress and the tally are told with units held back'
