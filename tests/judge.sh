#!/usr/bin/env bash
# `./ruu judge`: the logs of examples/judge get the verdicts that stand beside them; the simulator there is legal on 200 dense
# random listings, with values and without, and with each of its mistakes it is refused at the cause: the one that only waits too
# long is legal, and refused where the log says producers. Sessions of `drive` are legal,
# and their answers that something waits are refused as events. Then logs that are not read, files and options.
. "$(dirname "$0")/common.bash"
build run judge
build run drive
judge=crates/judge/out/judge drive=crates/drive/out/drive

judged() { # words
  "$judge" judge "$@" > "$work/out" 2> "$work/err"
  status=$?
}

is_status() { # status, what was judged
  [ "$status" -eq "$1" ] || { head -n 3 "$work/out"; fail "$2: status $status, not $1"; }
}

for log in examples/judge/*.log; do
  name=${log%.log}
  judged "${name%.*}.s" "$log"
  cmp -s "$work/out" "$name.verdict" || { diff "$name.verdict" "$work/out"; fail "$log: another verdict"; }
  is_status "$(grep -q ^legal "$name.verdict"; echo $?)" "$log"
done
echo 'the logs of examples/judge get their verdicts'

# what stands beside each other runs beside each other
for_each() { # function, numbers
  local name=$1
  shift
  export -f "$name"
  export judge work
  printf '%s\n' "$@" | xargs -P "$(nproc)" -I{} bash -c "$name {}" || exit 1
}

is_right() {
  listing=$work/$1.s log=$work/$1.log
  ./ruu random --seed "$1" --kind dense --blocks 2 > "$listing"
  options=() sizes=(--ruu-size $((4 + $1 % 60)) --lsq-size $((2 + $1 % 9)))
  [ $(($1 % 3)) -ne 0 ] || options=(--silent)
  python3 examples/judge/simulator.py "$listing" --seed "$1" --from --ring "${sizes[1]}" --queue "${sizes[3]}" "${options[@]}" > "$log"
  "$judge" judge "${sizes[@]}" "$listing" "$log" > "$log.out" || { head -n 2 "$log.out"; echo "FAILED: seed $1: refused"; exit 255; }
  grep -q '^stop break' "$log.out" || { head -n 2 "$log.out"; echo "FAILED: seed $1: no break"; exit 255; }
  rm "$listing" "$log" "$log.out"
}
for_each is_right {1..200}
echo 'the simulator is legal on 200 dense random listings'

# each mistake, as the line after the first of a verdict tells it, in one of ten runs at least, and in none otherwise than refused
declare -A cause=(
  [1]='has other producers'
  [2]='has no value yet: it waits for'
  [3]='the older store .* has no address yet'
  [4]='has another value'
  [5]='has another value|an older store to a byte of .* has no data yet'
  [6]='is older, and retires first'
  [7]='was mispredicted: those after it are squashed first|the path goes on at .*, after'
  [8]='the path goes on at .*, after|was mispredicted: those after it are squashed first'
  [9]='has another value'
  [10]='no station is free: all 16 are in use'
  [11]='has another value'
  [12]='has other producers'
)
for bug in {1..12}; do
  found=0
  for seed in {1..10}; do
    [ -e "$work/$seed.s" ] || ./ruu random --seed "$seed" --kind dense --blocks 2 > "$work/$seed.s"
    python3 examples/judge/simulator.py "$work/$seed.s" --seed "$seed" --bug "$bug" --from > "$work/log" 2> "$work/err"
    judged --ruu-size 16 --lsq-size 8 "$work/$seed.s" "$work/log"
    case $status in
      0) [ "$bug" -ne 12 ] || fail "bug 12, seed $seed: legal though the log says producers" ;;
      1)
        sed -n 2p "$work/out" | grep -qE "${cause[$bug]}" || { head -n 3 "$work/out"; fail "bug $bug, seed $seed: another cause"; }
        found=$((found + 1))
        ;;
      *) fail "bug $bug, seed $seed: status $status" ;;
    esac
    [ "$bug" -ne 12 ] || {
      grep -v '^from' "$work/log" > "$work/plain"
      judged --ruu-size 16 --lsq-size 8 "$work/$seed.s" "$work/plain"
      is_status 0 "bug 12, seed $seed, where the log says no producers"
    }
  done
  [ $found -gt 0 ] || fail "bug $bug is found in none of ten runs"
done
echo 'each mistake of the simulator is refused at its cause'

# sessions by hand, chosen by seeds, as events; and each answer that something waits, made an event
answers=0
for listing in examples/*.s examples/drive/{loads,blocked_load,past_a_store,part_of_a_load,creator,square}.s; do
  for seed in {1..4}; do
    "$drive" drive "$listing" --ruu-size 4 --lsq-size 2 --shuffle "$seed" | sed 's/^> //' > "$work/told"
    rm -rf "$work/refused"
    mkdir "$work/refused"
    python3 tests/judge.py events < "$work/told" > "$work/log" && python3 tests/judge.py refused "$work/refused" < "$work/told" \
      || fail "$listing, seed $seed: the session is not read"
    judged --ruu-size 4 --lsq-size 2 "$listing" "$work/log"
    is_status 0 "$listing, a session of seed $seed"
    for reason in "$work"/refused/*.reason; do
      [ -e "$reason" ] || continue
      judged --ruu-size 4 --lsq-size 2 "$listing" "${reason%.reason}.log"
      sed -n "$((status + 1))p" "$work/out" | grep -qE "$(cat "$reason")" \
        || { cat "$reason"; head -n 2 "$work/out"; fail "$listing, seed $seed: another answer than that of the session"; }
      answers=$((answers + 1))
    done
  done
done
[ $answers -gt 20 ] || fail "the sessions have $answers answers that something waits"
echo "sessions are legal, and $answers answers that something waits are refused as events"

# lines that are not read, and what stands after the end
listing=examples/judge/branch.s
unread() { # text of the log, line, why
  printf "$1" > "$work/log"
  judged "$listing" "$work/log"
  is_status 4 "$1"
  [ "$(cat "$work/out")" = "unread line $2: $3" ] || fail "$1: $(cat "$work/out")"
}
unread 'let\nfetch 0\n' 2 'no event begins with this word'
unread '# nothing\n\nbegin\n' 3 'a number is wanted'
unread 'let\nend 0 = five\n' 2 'a number is wanted'
unread 'let 0x00400000 ->\n' 1 'a number is wanted'
unread 'let\nbegin 0 1\n' 2 'there is more than the event takes'
unread 'issue 0\n' 1 'issue is a dispatch in some books and the begin of execution in others: --issue says which'
unread 'let\nbegin 4294967296\n' 2 'a number is wanted'
printf 'issue\nissue 0\n' > "$work/log"
judged --issue dispatch "$listing" "$work/log"
is_status 1 'issue as dispatch, at a pc where the path does not go on'
printf 'let\r\n  issue\t0   # a comment\r\nend 0 = 3' > "$work/log"
judged --issue=execute "$listing" - < "$work/log"
is_status 0 'issue as execute, by a pipe'
head -c 10000000 /dev/zero | tr '\0' x > "$work/log"
judged "$listing" "$work/log"
is_status 4 'a line of 10 MB'
{ printf 'let\n# '; head -c 10000000 /dev/zero | tr '\0' x; printf '\nexecute 0\n'; } > "$work/log"
judged "$listing" "$work/log"
is_status 0 'a comment of 10 MB'
: > "$work/log"
judged "$listing" "$work/log"
is_status 0 'an empty log'
[ "$(tail -n +2 "$work/out")" = $'limit\ncount 0\npc 0x00400000' ] || fail 'an empty log: another report than that of the start'
echo 'lines that are not read are named'

# loads that guess, and squashes without a misprediction
printf '.word 7\n lui $1,0\n sw $1,0($1)\n lw $2,0($0)\n addu $3,$2,$2\n break\n' > "$work/guess.s"
told() { # events, one a word: `let`, or an event with its numbers behind dots
  printf '%s\n' "$@" | tr . ' ' > "$work/log"
}
speculates() { # status, what its second line says, options
  local status_wanted=$1 said=$2
  shift 2
  judged "$@" "$work/guess.s" "$work/log"
  is_status "$status_wanted" "$said"
  sed -n 2p "$work/out" | grep -q "$said" || { head -n 2 "$work/out"; fail "not said: $said"; }
}
wrong=(let let let let execute.2 load.2.=.7 execute.3.=.14 execute.0 retire execute.1 retire)
told "${wrong[@]}" retire
speculates 1 'the older store 1 sw $1,0($1) has no address yet'
speculates 1 '2 lw $2,0($0) has guessed another value than it has: 0x00000000' --guess
told "${wrong[@]}" squash squash let 'load 4 = 0' 
speculates 1 'no older instruction in flight is known to be mispredicted' --guess
told "${wrong[@]}" squash squash let execute.4 load.4.=.0 retire let execute.5.=.0 retire let complete.6 retire
speculates 0 'stop break' --guess --flush
told let let let execute.2 load.2.=.0 execute.0 retire execute.1 retire retire
speculates 0 'limit' --guess
told let let let load.2.=.0 execute.0 retire execute.1 retire retire
speculates 0 'limit' --guess
told let let let execute.2 load.2.=.0 execute.0 retire retire.2
speculates 1 '1 sw $1,0($1) is older, and retires first' --guess
told let let let execute.2 load.2 
speculates 1 'has no address yet' --guess
told let squash
speculates 1 'no older instruction' --guess
told let let squash.0
speculates 1 '1 sw $1,0($1) is younger, and is squashed first' --flush
echo 'guesses are judged as they retire, and flushes where they may be'

# files and options
for words in "$listing" '' '--ruu-size 0 a b' '--ruu-size x a b' '--issue both a b' '--within a b' 'a b c' '--lsq-size'; do
  # shellcheck disable=SC2086
  judged $words
  is_status 3 "judge $words"
done
judged nowhere.s "$work/log"
is_status 5 'a listing that is not there'
judged "$listing" nowhere.log
is_status 5 'a log that is not there'
judged tests/listings/fault.s "$work/log"
is_status 2 'a listing with a fault'
cmp -s "$work/out" tests/listings/fault.report || fail 'a listing with a fault: not its line'
judged "$listing" examples/judge
is_status 5 'a folder as the log'
"$judge" judge "$listing" examples/judge/branch.right.log > /dev/full 2> "$work/err"
status=$?
is_status 5 'a full device'
echo 'files and options are told apart'
