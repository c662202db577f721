#!/usr/bin/env bash
# Reads the listings of tests/listings/check with `ruu check`, from the file and from standard input: what is written is what
# stands beside each, with status 0 or 2, and where there is a text for it, what `--all` writes. Of a fault each run writes the
# first line of that and nothing else. Each row of tests/listings/remedies.txt is told what helps. Then files that do not open, a
# writer that takes nothing, and want of memory.
. "$(dirname "$0")/common.bash"
build_refuse
build run ruu
build run checker
build run alone
build run drive
build run listing
ruu=crates/ruu/out/ruu
check=crates/checker/out/checker

is_told() { # name, what is told, status, standard error
  [ "$status" -eq "$3" ] || fail "$1: status $status, and not $3"
  cmp -s "$work/out" "$2" || { diff "$2" "$work/out"; fail "$1 is told otherwise"; }
  [ "$(cat "$work/err")" = "$4" ] || fail "$1: another line on standard error"
}

# Each run of a listing with a fault writes its line alone: on threads, on one, before any limit, and by `alone`.
names() { # listing, line
  local options
  printf '%s\n' "$2" > "$work/line"
  for options in '' '--units 1' '--units 4' --alone '--alone --units 4' '--limit 0'; do
    # shellcheck disable=SC2086
    "$ruu" run "$1" $options > "$work/out" 2> "$work/err"
    status=$?
    is_told "a run of $1 $options" "$work/line" 2 ''
  done
  crates/alone/out/alone < "$1" > "$work/out" 2> "$work/err"
  status=$?
  is_told "$1 by alone" "$work/line" 2 ''
}

count=0
for listing in tests/listings/check/*.s; do
  told=${listing%.s}.told
  wanted=0
  [[ $(head -c 5 "$told") != fault ]] || wanted=2
  "$check" check "$listing" > "$work/out" 2> "$work/err"
  status=$?
  is_told "$listing" "$told" $wanted ''
  sed "s|^$listing:|-:|" "$told" > "$work/told"
  "$check" check - < "$listing" > "$work/out" 2> "$work/err"
  status=$?
  is_told "$listing as standard input" "$work/told" $wanted ''
  if [ -f "${listing%.s}.all" ]; then
    "$check" check --all "$listing" > "$work/out" 2> "$work/err"
    status=$?
    is_told "all of $listing" "${listing%.s}.all" $wanted ''
  fi
  [ $wanted -ne 2 ] || names "$listing" "$(head -n 1 "$told")"
  count=$((count + 1))
done
[ $count -gt 10 ] || fail "only $count listings"

# What helps stands first, behind the place, and no other byte of a listing than those that can be shown is written.
rows=0
while IFS= read -r row; do
  [[ $row != '#'* ]] || continue
  printf '%b\n' "${row%% => *}" > "$work/row.s"
  "$check" check "$work/row.s" > "$work/out" 2> "$work/err"
  status=$?
  [ $status -eq 2 ] && [ ! -s "$work/err" ] || fail "$row: status $status"
  [ "$(sed -n '2s/^[^ ]*: error: //p' "$work/out")" = "${row#* => }" ] || { cat "$work/out"; fail "$row: another line"; }
  ! LC_ALL=C grep -q "[^[:print:]$(printf '\t')]" "$work/out" || fail "$row: a byte that cannot be shown"
  rows=$((rows + 1))
done < tests/listings/remedies.txt
[ $rows -gt 300 ] || fail "only $rows rows"
echo "$rows faults are told with what helps"

# The name of a file is told with its characters beyond ASCII, and its control characters by their bytes.
while read -r name shown; do
  printf -v file %b "$work/$name.s"
  echo 'adu $t0,$t1,$t2' > "$file"
  "$check" check "$file" > "$work/out" 2> "$work/err"
  [[ $(sed -n 2p "$work/out") == "$work/$shown.s:1:1: error: "* ]] || { cat "$work/out"; fail "the name $name is told otherwise"; }
done << 'NAMES'
plain plain
30\xc2\xb0 30°
\xc3\xa9\xe2\x82\xac\xf0\x9f\x98\x80 é€😀
a\x1b[1mb a\x1b[1mb
a\x7f\xc2\x9bb a\x7f\xc2\x9bb
\xc2\x80\xc2\x9f\xc2\xa1 \xc2\x80\xc2\x9f¡
NAMES
echo 'names of files are told without control characters'

# With --all each line is told once, in the order of the lines, and 200 at most.
for n in 200 201; do
  for ((i = 0; i < n; i++)); do echo 'adu $t0,$t1,$t2'; done > "$work/many.s"
  "$check" check "$work/many.s" --all > "$work/out" 2> "$work/err"
  [ "$(grep -c ': error: ' "$work/out")" -eq 200 ] || fail "another number of $n faults"
  grep -o "^$work/many.s:[0-9]*" "$work/out" | cut -d : -f 2 | cmp -s - <(seq 200) || fail "$n faults are told in another order"
done

: > "$work/none"
"$check" check "$work/nowhere.s" > "$work/out" 2> "$work/err"
status=$?
is_told 'a file that is not there' "$work/none" 5 "ruu: $work/nowhere.s: No such file or directory (os error 2)"
"$check" check examples > "$work/out" 2> "$work/err"
status=$?
is_told 'a folder' "$work/none" 5 'ruu: read'
"$check" check examples/sum.s > /dev/full 2> "$work/err"
status=$?
: > "$work/out"
is_told 'a full device' "$work/none" 5 'ruu: write'
"$check" check examples/sum.s >&- 2> "$work/err"
status=$?
is_told 'a closed standard output' "$work/none" 5 'ruu: write'
"$check" check - <&- > "$work/out" 2> "$work/err"
status=$?
is_told 'a closed standard input' "$work/none" 5 'ruu: read'
"$ruu" run examples/sum.s >&- 2> "$work/err"
status=$?
[ $status -eq 5 ] && [ "$(tail -n 1 "$work/err")" = 'ruu: write' ] || fail "a run to a closed standard output: status $status"
"$ruu" run - --alone <&- > "$work/out" 2> "$work/err"
status=$?
is_told 'a run of a closed standard input' "$work/none" 5 'ruu: read'
echo "$count listings are told as they should be, from files and from standard input"

# each allocation of a check is refused in turn: the refusal is named and nothing is written, or all is told as before
for name in good bad_register; do
  n=0 refused=0
  while :; do
    n=$((n + 1))
    run_under /dev/null REFUSED=$n "$check" check "tests/listings/check/$name.s"
    $was_refused || break
    if is_refused memory; then
      refused=$((refused + 1))
    else
      cmp -s "$work/out" "tests/listings/check/$name.told" && ! $is_held || fail "$name, allocation $n refused: status $status"
    fi
  done
  [ $refused -gt 0 ] || fail "$name: no refusal was told of, of $((n - 1))"
  echo "$name: each of $((n - 1)) allocations was refused in turn, $refused told"
done

# four words have their help and the version; tests/script.sh asks all
"$ruu" --version > "$work/version" || fail 'ruu --version'
for words in 'ruu run' 'checker check' 'drive drive' listing; do
  read -r program word <<< "$words"
  # shellcheck disable=SC2086
  for option in --version -V; do
    "crates/$program/out/$program" $word $option > "$work/out" 2> "$work/err" || fail "$words $option: status $?"
    cmp -s "$work/out" "$work/version" && [ ! -s "$work/err" ] || fail "$words $option is told otherwise"
  done
  # shellcheck disable=SC2086
  for option in --help -h; do
    "crates/$program/out/$program" $word $option > "$work/out" 2> "$work/err" || fail "$words $option: status $?"
    grep -q '^Usage: ' "$work/out" && [ ! -s "$work/err" ] || fail "$words $option is told otherwise"
  done
done
echo 'four words tell their help and the version'

# a run from standard input is that of the file
for listing in examples/*.s; do
  "$ruu" run - --alone < "$listing" > "$work/out" 2> "$work/err"
  status=$?
  is_told "$listing run from standard input" "${listing%.s}.report" "$(status_of "${listing%.s}.report")" ''
done
"$ruu" help run > "$work/out" 2> "$work/err" || fail 'ruu help run'
"$ruu" run --help > "$work/help" || fail 'ruu run --help'
cmp -s "$work/out" "$work/help" || fail 'ruu help run and ruu run --help differ'
echo 'runs from standard input are those of the files'
