#!/usr/bin/env bash
# The log of `./ruu commits`: of the examples, and of a hundred random listings with every operation, it says what the report
# of the run says; a part of it is that part, with a limit it is cut after as many lines, and its hashes are those of the simulator
# of examples/lockstep, which writes the same log, and with its mistake differs at one line; a real MIPS in qemu has the same
# registers. Then what goes wrong: scripts, devices, files and want of memory. And 100,000 instructions are logged in the memory
# of 100.
. "$(dirname "$0")/common.bash"
build_refuse
build run ruu
build run listing
build run commit_log
ruu=crates/ruu/out/ruu
commits=crates/commit_log/out/commit_log

log() { # listing, options
  "$commits" commits "$@" > "$work/out" 2> "$work/err"
  status=$?
}

# The log of a listing, which has to agree with its report. Without the texts it is the same.
agrees() { # listing, its report
  local limit=()
  [ "$(head -n 1 "$2")" != limit ] || limit=(--limit "$(sed -n 's/^count //p' "$2")")
  log "$1" --text "${limit[@]}"
  [ $status -eq "$(status_of "$2")" ] && [ ! -s "$work/err" ] || fail "$1: status $status"
  python3 tests/commits.py "$work/out" "$2" "$1" 2> "$work/err" || fail "$1: the log and the report differ"
  mv "$work/out" "$work/texts"
  log "$1" "${limit[@]}"
  sed 's/ # .*//' "$work/texts" | cmp -s - "$work/out" || fail "$1: without texts another log"
}

for report in examples/*.report examples/c/*.report examples/rows/*.report tests/listings/limit.report; do
  [[ $(head -n 1 "$report") != fault* ]] || continue
  agrees "${report%.report}.s" "$report"
done
count=$(wc -l < "$work/out")
[ "$count" -eq 1000001 ] || fail "the log of a run up to the limit has $count lines"
log tests/listings/fault.s
[ $status -eq 2 ] && cmp -s "$work/out" tests/listings/fault.report || fail "a listing with a fault: status $status"
log examples/sieve.s
mv "$work/out" "$work/whole"
for limit in 0 1 40; do
  log examples/sieve.s --limit $limit
  [ $status -eq 4 ] && [ "$(wc -l < "$work/out")" -eq $((limit + 1)) ] || fail "a limit of $limit: status $status"
  head -n $limit "$work/whole" | cmp -s - <(head -n $limit "$work/out") || fail "a limit of $limit: no beginning of the log"
  pc=$(sed -n "$((limit + 1))s/^core   0: 3 \(0x........\) .*/\1/p" "$work/whole")
  [ "$(tail -n 1 "$work/out")" = "core   0: 3 $pc limit" ] || fail "a limit of $limit: $(tail -n 1 "$work/out")"
done
lines=$(wc -l < "$work/whole")
for from in 1 2 $((lines - 1)) "$lines" 4294967295; do
  log examples/sieve.s --from "$from"
  tail -n "+$((from < lines ? from : lines))" "$work/whole" | cmp -s - "$work/out" || fail "--from $from: another part of the log"
done
log examples/sieve.s --from 10 --limit 12
[ $status -eq 4 ] && sed -n 10,12p "$work/whole" | cmp -s - <(head -n 3 "$work/out") && [ "$(wc -l < "$work/out")" -eq 4 ] || fail 'a part up to a limit'
echo "the logs of the examples agree with their reports"

# the address of a stop, and of a load whose base it overwrites
printf '        addiu $1,$0,%d\n        lw $1,-4($1)\n        break\n        .word 7,9\n' 8 > "$work/load.s"
log "$work/load.s"
[ "$(sed -n 2p "$work/out")" = 'core   0: 3 0x00400004 (0x8c21fffc) x1  0x00000009 mem 0x00000004' ] || fail "a load that overwrites its base: $(sed -n 2p "$work/out")"
for row in '6 unaligned 0x00000002' '16 range 0x0000000c' '0 range 0xfffffffc'; do
  printf '        addiu $1,$0,%d\n        lw $1,-4($1)\n        break\n        .word 7,9\n' "${row%% *}" > "$work/load.s"
  log "$work/load.s"
  [ $status -eq 1 ] && [ "$(tail -n 1 "$work/out")" = "core   0: 3 0x00400004 stop ${row#* }" ] || fail "a load at ${row##* }: $(tail -n 1 "$work/out")"
done

for seed in {1..100}; do
  ./ruu random --seed "$seed" > "$work/random.s"
  "$ruu" run "$work/random.s" --alone > "$work/report" 2> "$work/err" || fail "seed $seed: status $?"
  "$ruu" run "$work/random.s" --units $((1 + seed % 4)) > "$work/threads" 2> "$work/err" || fail "seed $seed: status $?"
  cmp -s "$work/threads" "$work/report" || fail "seed $seed: threads have another report"
  agrees "$work/random.s" "$work/report"
done
words=$(grep -ohE '^        [a-z]+' "$work/random.s" | sort -u | wc -l)
[ "$words" -eq 51 ] || fail "a random listing has $words operations"
echo "a hundred random listings, each with every operation, agree on one thread, on threads and in their logs"

# the simulator of examples/lockstep beside the log, with its mistake and without
for name in primes numbers sorting; do
  log examples/c/$name.s
  python3 examples/lockstep/simulator.py --right examples/c/$name.elf > "$work/simulated"
  cmp -s "$work/out" "$work/simulated" || fail "$name: the simulator has another log"
  log examples/c/$name.s --text
  python3 examples/lockstep/first_difference.py "$work/out" "$work/simulated" > "$work/err" || fail "$name: the simulator has another log"
  for each in 1 300; do
    python3 examples/lockstep/simulator.py --right --hash $each examples/c/$name.elf | head -n 40 > "$work/simulated"
    log examples/c/$name.s --hash $each
    head -n 40 "$work/out" | cmp -s - "$work/simulated" || fail "$name: another hash after each $each"
  done
done
log examples/c/sorting.s --hash 1000 --from 2000 --limit 3100
[ "$(cut -d ' ' -f 7- "$work/out" | cut -d ' ' -f 1,2)" = "$(printf 'count 2000\ncount 3000\nlimit')" ] || fail "hashes from 2000 to 3100: $(cat "$work/out")"
# memory of .space is hashed, and each byte of it counts
for at in 0 3 16; do
  printf '        addiu $1,$0,1\n        sb $1,%d($0)\n        addu $1,$0,$0\n        break\n        .space 20\n' $at > "$work/space.s"
  log "$work/space.s" --hash 3
  head -n 1 "$work/out"
done | sort -u > "$work/hashes"
[ "$(wc -l < "$work/hashes")" -eq 3 ] || fail 'a byte of .space is not hashed'
log examples/c/primes.s
python3 examples/lockstep/simulator.py examples/c/primes.elf > "$work/simulated"
python3 examples/lockstep/first_difference.py "$work/out" "$work/simulated" > "$work/told" && fail 'the mistake does not show'
[ "$(sed -n 4p "$work/told")" = 'line 1503' ] && [ "$(wc -l < "$work/told")" -eq 6 ] || fail 'the mistake shows at another line'
echo "the simulator's first difference is line 1503 of its log"

# a real MIPS beside, where there is qemu-mipsel
for name in primes numbers sorting; do
  python3 examples/lockstep/qemu.py examples/c/$name.elf > "$work/told" 2>&1 || { cat "$work/told"; fail "$name: qemu-mipsel does something else"; }
done
grep -qxE '[0-9]+ instructions agree with qemu-mipsel|skipped: no qemu' "$work/told" || fail "qemu.py says $(cat "$work/told")"
cat "$work/told"

# no script ends in a traceback
for script in first_difference lockstep simulator qemu; do
  python3 examples/lockstep/$script.py 2> "$work/err" > "$work/told"
  [ $? -eq 1 ] && grep -q "^usage: $script.py " "$work/err" || fail "$script.py without words: $(cat "$work/err")"
done
python3 examples/lockstep/simulator.py "$work/nowhere" 2> "$work/err"
[ $? -eq 1 ] && [ "$(cat "$work/err")" = "simulator.py: $work/nowhere: No such file or directory" ] || fail "simulator.py of no file: $(cat "$work/err")"
python3 examples/lockstep/simulator.py examples/c/primes.c 2> "$work/err"
[ $? -eq 1 ] && grep -q 'no little endian ELF32 file' "$work/err" || fail "simulator.py of no ELF file: $(cat "$work/err")"
python3 examples/lockstep/simulator.py examples/c/primes.elf 2> "$work/err" | head -n 1 > "$work/told"
[ "${PIPESTATUS[0]}" -eq 5 ] && [ ! -s "$work/err" ] || fail "simulator.py without a reader: $(cat "$work/err")"

# what goes wrong
says() { # name, status, standard error
  [ "$status" -eq "$2" ] || fail "$1: status $status, and not $2"
  [ "$(cat "$work/err")" = "$3" ] || fail "$1: another line on standard error"
}
"$commits" commits examples/sum.s > /dev/full 2> "$work/err"
status=$?
says 'a full standard output' 5 'ruu: write'
"$commits" commits - < examples/sum.s >&- 2> "$work/err"
status=$?
says 'a closed standard output' 5 'ruu: write'
"$commits" commits - <&- > "$work/out" 2> "$work/err"
status=$?
says 'a closed standard input' 5 'ruu: read'
log "$work/nowhere.s"
says 'a listing that is not there' 5 'ruu: open'
log examples
says 'a folder as the listing' 5 'ruu: read'
[ ! -s "$work/out" ] || fail 'a log of a folder'
"$commits" commits tests/listings/limit.s 2> "$work/err" | head -n 1 > "$work/told"
status=${PIPESTATUS[0]}
says 'a reader that goes away' 5 ''
for option in '--ruu-size 16' '--lsq-size 8' '--bpred bimod' '--seed 1' '--units 2' '--from 0' '--hash x' '--limit 4294967296'; do
  # shellcheck disable=SC2086
  log examples/sum.s $option
  [ $status -eq 3 ] && [ ! -s "$work/out" ] || fail "$option: status $status"
done
(exec -a ruu "$commits" commits --help) | cmp -s - docs/help/commits.txt || fail 'help is another text than in docs/help'
"$commits" commits - < examples/sum.s > "$work/again" 2> "$work/err"
log examples/sum.s
cmp -s "$work/out" "$work/again" || fail 'standard input has another log'

# each allocation is refused in turn: named behind a beginning of the log, or the log is whole
log examples/wrong_path.s
mv "$work/out" "$work/whole"
n=0 refused=0
while :; do
  n=$((n + 1))
  run_under /dev/null REFUSED=$n "$commits" commits examples/wrong_path.s
  $was_refused || break
  ! $is_held || fail "allocation $n refused: a block was held at the end"
  if [ "$status" -eq 5 ] && [ "$said" = 'ruu: memory' ]; then
    refused=$((refused + 1))
    cmp -s -n "$(stat -c %s "$work/out")" "$work/out" "$work/whole" || fail "allocation $n refused: no beginning of the log"
  else
    cmp -s "$work/out" "$work/whole" && [ "$status" -eq 0 ] && [ -z "$said" ] || fail "allocation $n refused: status $status"
  fi
done
cmp -s "$work/out" "$work/whole" || fail 'with all its memory another log'
[ $refused -gt 5 ] || fail "only $refused allocations were refused"
echo "each of $((n - 1)) allocations was refused in turn, $refused told"

# the least room in which 100 instructions are logged has room for 100,000
within() { # kilobytes, limit
  (ulimit -v "$1"; exec "$commits" commits tests/listings/limit.s --limit "$2") > "$work/out" 2> /dev/null
  [ $? -eq 4 ]
}
low=0 high=1048576
within $high 100 || fail 'a run of 100 instructions has no room'
while [ $((high - low)) -gt 16 ]; do
  middle=$(((low + high) / 2))
  if within $middle 100; then high=$middle; else low=$middle; fi
done 2> /dev/null
within $((high + 64)) 100000 || fail "100 instructions are logged in $high kilobytes, and 100,000 are not"
[ "$(wc -l < "$work/out")" -eq 100001 ] || fail 'the log of 100,000 instructions is shorter'
echo "100,000 instructions are logged in the $high kilobytes of 100"
