#!/usr/bin/env bash
# Drives units by the scripts of examples/drive: what is written is the transcript beside each. The first line of a script
# is its command line. Then what goes wrong: a listing with a fault or none, a full device, want of memory; and the prompt.
. "$(dirname "$0")/common.bash"
build_refuse
build run drive
ruu=crates/drive/out/drive

words_of() { # script
  local first
  read -r first < "$1"
  [[ $first = '# ruu drive '* ]] || fail "$1 does not begin with its command line"
  read -r -a words <<< "${first#\# ruu drive }"
}

is_told() { # name, what is told, status, standard error
  [ "$status" -eq "$3" ] || fail "$1: status $status, and not $3"
  cmp -s "$work/out" "$2" || { diff "$2" "$work/out"; fail "$1 is told otherwise"; }
  [ "$(cat "$work/err")" = "$4" ] || fail "$1: another line on standard error"
}

drive() { # script, words
  local script=$1
  shift
  "$ruu" drive "$@" < "$script" > "$work/out" 2> "$work/err"
  status=$?
}

# some scripts have lines that are no commands
count=0
for script in examples/drive/*.txt; do
  words_of "$script"
  drive "$script" "${words[@]}"
  case $script in
    */creator.txt | */lines.txt | */meetings.txt | */mistakes.txt | */wild_guess.txt) expected=1 ;;
    *) expected=0 ;;
  esac
  is_told "$script" "${script%.txt}.told" $expected ''
  count=$((count + 1))
done
[ $count -gt 10 ] || fail "only $count scripts"
echo "$count scripts are told as they should be"

: > "$work/none"
script=examples/drive/relet.txt
drive "$script" "$work/nowhere.s"
is_told 'a listing that is not there' "$work/none" 5 'ruu: open'
drive "$script" examples
is_told 'a folder as the listing' "$work/none" 5 'ruu: read'
printf 'fault line 2 BadOperands\n' > "$work/fault"
printf 'nop\nadd $1,$2\n' > "$work/fault.s"
drive "$script" "$work/fault.s"
is_told 'a listing with a fault' "$work/fault" 2 ''
drive "$script" - 2> "$work/err"
[ $status -eq 3 ] && [ ! -s "$work/out" ] || fail "standard input as the listing: status $status"
"$ruu" drive examples/drive/relet.s < examples/drive > "$work/out" 2> "$work/err"
status=$?
is_told 'a folder as the script' "$work/none" 5 'ruu: read'
"$ruu" drive examples/drive/relet.s < "$script" > /dev/full 2> "$work/err"
status=$?
: > "$work/out"
is_told 'a full device' "$work/none" 5 'ruu: write'
"$ruu" drive examples/drive/relet.s <&- > "$work/out" 2> "$work/err"
status=$?
is_told 'a closed script' "$work/none" 5 'ruu: read'
"$ruu" drive examples/drive/relet.s < "$script" >&- 2> "$work/err"
status=$?
: > "$work/out"
is_told 'a closed standard output' "$work/none" 5 'ruu: write'
printf 'turn\r\n\r\n\tlook 0 # a comment' > "$work/script"
printf 'Let station 0 tag 1 pc 0x00400000 addiu $1,$0,5\nSeen tag 1 state OPEN value 0x00000000\n' > "$work/told"
drive "$work/script" examples/double.s
is_told 'lines that end otherwise' "$work/told" 0 ''
for line in 'look 99' '# hello' 'quit'; do
  printf '%s\nturn\n' "$line" > "$work/script"
  drive "$work/script" examples/double.s
  [ $status -eq 0 ] || fail "$line: status $status"
done
for line in hello look 'quit now' 'list 1' step 'step 0x1' 'step 1 2' until 'until A' 'until Stale' 'queue 1' 'undo 1' 6 '6 hello' '2 6 turn' '1001 turn' '-1 turn'; do
  printf 'turn\n%s\nturn\nquit\n' "$line" > "$work/script"
  drive "$work/script" examples/double.s
  [ $status -eq 1 ] || fail "$line: status $status"
  grep -q '^line 2: ' "$work/out" && [ "$(grep -c '^Let station' "$work/out")" -eq 2 ] || fail "$line is told otherwise"
done
echo 'what goes wrong has its word and its status'

# turns to the end, in one step or in many, lead to the report of a run; so does an end that nobody waits for
for name in double wrong_path forwarding fibonacci; do
  printf 'step 4294967295\nreport\n' > "$work/script"
  drive "$work/script" "examples/$name.s" --ruu-size 8
  [ $status -eq 0 ] || fail "$name, steps to the end: status $status"
  cp "$work/out" "$work/steps"
  sed '1,/^Ended/d' "$work/out" | cmp -s - "examples/$name.report" || fail "$name, steps to the end: another report"
  count=$(grep -c '^Retired' "$work/out")
  { yes 'step 1' | head -n $((count + 1)); echo report; } > "$work/script"
  drive "$work/script" "examples/$name.s" --ruu-size 8
  is_told "$name, step by step" "$work/steps" 0 ''
  { echo 'line 1: no instruction is at this pc'; cat "$work/steps"; } > "$work/told"
  printf 'until 0\nstep 4294967295\nreport\n' > "$work/script"
  drive "$work/script" "examples/$name.s" --ruu-size 8
  is_told "$name, until a pc that is none" "$work/told" 0 ''
done
echo 'steps come to the end of a run'

# what is undone was not done: some commands of a shuffle, and all of them
for name in double wrong_path forwarding; do
  drive "$work/none" "examples/$name.s" --ruu-size 8 --shuffle 1 --steps 60
  sed -n 's/^> //p' "$work/out" | head -n -2 > "$work/commands"
  count=$(wc -l < "$work/commands")
  for left in $((count / 2)) 0; do
    { head -n $left "$work/commands"; echo table; echo report; } > "$work/script"
    drive "$work/script" "examples/$name.s" --ruu-size 8
    tail -n +$((left + 1)) "$work/out" > "$work/told"
    { cat "$work/commands"; echo "$((count - left)) undo"; echo table; echo report; } > "$work/script"
    drive "$work/script" "examples/$name.s" --ruu-size 8
    [ $status -eq 0 ] || fail "$name, undone to $left: status $status"
    [ "$(grep -cx Undone "$work/out")" -eq $((count - left)) ] || fail "$name: not all is undone"
    sed '1,/^Undone$/d' "$work/out" | grep -vx Undone | cmp -s - "$work/told" || fail "$name, undone to $left: told otherwise"
  done
done
echo 'what is undone was not done'

# each line is told before its answer where that is wanted, and nothing else changes
drive "$script" examples/drive/relet.s --ruu-size 4 --bpred nottaken --echo
sed -n 's/^> //p' "$work/out" | cmp -s - "$script" || fail 'the echo is not the script'
grep -v '^> ' "$work/out" | cmp -s - examples/drive/relet.told || fail 'an echo changes an answer'

# commands that a seed chooses: a run to its end has the report of the run, the lines are a script that is answered
# alike, and another seed chooses otherwise
for name in double wrong_path forwarding fibonacci; do
  for seed in 1 2 3; do
    drive "$work/none" "examples/$name.s" --ruu-size 8 --shuffle $seed --steps 20000
    [ $status -eq 0 ] || fail "$name, seed $seed: status $status"
    cp "$work/out" "$work/seeded.$seed"
    drive "$work/none" "examples/$name.s" --ruu-size 8 --shuffle $seed --steps 20000
    is_told "$name, seed $seed once more" "$work/seeded.$seed" 0 ''
    sed '1,/^> report$/d' "$work/out" | cmp -s - "examples/$name.report" || fail "$name, seed $seed: another report"
    sed -n 's/^> //p' "$work/seeded.$seed" > "$work/script"
    drive "$work/script" "examples/$name.s" --ruu-size 8 --echo
    is_told "$name, the commands of seed $seed" "$work/seeded.$seed" 0 ''
  done
  ! cmp -s "$work/seeded.1" "$work/seeded.2" || fail "$name: a seed is ignored"
done
echo 'seeds choose commands, whose lines are scripts'

# each allocation is refused in turn: the refusal is named behind a beginning of the answers, or a snapshot was not
# shown or the core not renewed, or all is told as before
for name in relet queue steps undo snapshot renewed renewed_twice; do
  words_of "examples/drive/$name.txt"
  n=0 refused=0 kept=0
  while :; do
    n=$((n + 1))
    run_under "examples/drive/$name.txt" REFUSED=$n "$ruu" drive "${words[@]}"
    $was_refused || break
    ! $is_held || fail "$name, allocation $n refused: a block was held at the end"
    if [ "$status" -eq 5 ] && [ "$said" = 'ruu: memory' ]; then
      cmp -s -n "$(stat -c %s "$work/out")" "$work/out" "examples/drive/$name.told" || grep -qx Memory "$work/out" \
        || fail "$name, allocation $n refused: the answers before it differ"
      refused=$((refused + 1))
    elif ! grep -qx Memory "$work/out"; then
      [ "$status" -eq 0 ] && cmp -s "$work/out" "examples/drive/$name.told" || fail "$name, allocation $n refused: status $status"
    elif [ $name = renewed_twice ]; then
      # all have gone on at the old core, which the other renewal replaces
      [ "$status" -eq 0 ] && sed 's/^Memory$/Renewed/' "$work/out" | cmp -s - "examples/drive/$name.told" \
        || fail "$name, allocation $n refused: the answers behind a refused renewal differ"
      kept=$((kept + 1))
    else
      [ "$status" -eq 0 ] || fail "$name, allocation $n refused: status $status"
    fi
  done
  [ $refused -gt 0 ] || fail "$name: no refusal was told of, of $((n - 1))"
  [ $name != renewed_twice ] || [ $kept -gt 1 ] || fail "$name: $kept refused renewals"
  echo "$name: each of $((n - 1)) allocations was refused in turn, $refused told"
done

# a prompt before each command, on a terminal alone, and not where it is unwanted
prompts() { # options
  python3 - "$ruu" "$@" <<'END'
import os, pty, sys
pid, terminal = pty.fork()
if pid == 0:
    os.execv(sys.argv[1], [sys.argv[1], "drive", "examples/double.s", *sys.argv[2:]])
os.write(terminal, b"turn\nturn\n\x04")
told = b""
while True:
    try:
        more = os.read(terminal, 4096)
    except OSError:
        break
    if not more:
        break
    told += more
os.waitpid(pid, 0)
print(told.count(b"> "), told.count(b"Let station"))
END
}
[ "$(prompts)" = '3 2' ] || fail "a terminal has other prompts: $(prompts)"
[ "$(prompts --quiet-prompt)" = '0 2' ] || fail "prompts though they are unwanted: $(prompts --quiet-prompt)"
echo 'a prompt stands before each command on a terminal, unless it is unwanted'
