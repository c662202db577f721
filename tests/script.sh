#!/usr/bin/env bash
# The scripts `ruu` and `prove`: help is told at once, from the texts of docs/help, which are those of the programs; a word that there
# is not, a file that cannot be read and a missing kit are told before anything is proved; and what is proved, with a kit that proves
# nothing. With the word `renew` those texts are written anew from the programs.
. "$(dirname "$0")/common.bash"
declare -A program_of=([run]=run [check]=checker [chart]=chart [commits]=commit_log [drive]=drive [judge]=judge [listing]=listing [words]=words)
programs=(ruu "${program_of[@]}")
for program in "${programs[@]}"; do
  build run "$program"
done

# Runs a built program, which is named `ruu` in what it writes.
start() { # name, words
  (exec -a ruu "crates/$1/out/$1" "${@:2}") < /dev/null
}

for word in "${!program_of[@]}" version; do
  case $word in
    version) start ruu --version ;;
    listing) start listing --help ;;
    *) start "${program_of[$word]}" "$word" --help ;;
  esac > "$work/text" || fail "no help of $word"
  [ "${1:-}" != renew ] || cp "$work/text" "docs/help/$word.txt"
  cmp -s "$work/text" "docs/help/$word.txt" || { diff "docs/help/$word.txt" "$work/text"; fail "docs/help/$word.txt is not what the program prints: tests/script.sh renew"; }
done
# the programs of a word are asked in other ways too
for word in run check chart commits drive; do
  asked=("${program_of[$word]}")
  [ $word != run ] || asked+=(ruu)
  for program in "${asked[@]}"; do
    asks() { # text, words
      start "$program" "${@:2}" 2> "$work/err" | cmp -s - "docs/help/$1" || fail "the program $program, ${*:2}: not the text $1"
    }
    asks $word.txt $word --help
    asks $word.txt help $word
    asks version.txt $word -V
    asks version.txt --version
    for other in run check chart commits drive; do
      [ $other = $word ] || { start "$program" $other examples/sum.s > "$work/out" 2> "$work/err"; [ $? -eq 3 ]; } || fail "the program $program takes the word $other"
    done
    start "$program" help | grep -q "^  $word " || fail "the help of the program $program does not name $word"
  done
done
# `--alone` is for the other program
start run run examples/sum.s --alone > "$work/out" 2> "$work/err"
[ $? -eq 3 ] && [ ! -s "$work/out" ] && [ "$(cat "$work/err")" = 'error: this program has no --alone: the program ruu has it' ] || fail 'the program run takes --alone'
echo 'the texts of docs/help are those of the programs'

# the help of all names each word of the script as its own help begins
mapfile -t words < <(sed -n "/^table='/,/^'/s/^\([a-z]\+\) .*/\1/p" ruu)
for word in "${words[@]}"; do
  said=$(sed -n "s/^  $word [A-Z ]* \([A-Z][a-z].*\)/\1/p" docs/help/ruu.txt)
  [[ -n $said && $(tr '\n' ' ' < "docs/help/$word.txt") == "$said"[\ :.,]* ]] || fail "docs/help/ruu.txt tells otherwise of $word than its help"
done
# the options that take no value are those of the help
flags=$(cat docs/help/*.txt | sed -nE 's/^ +(--[a-z-]+)  .*/\1/p' | grep -vx -- --unproved | sort -u | tr '\n' '|')
[ "flags='@(${flags}--*=*)'" = "$(grep '^flags=' ruu)" ] || fail "the options that take no value are $flags"
echo "${#words[@]} words are named as their own help begins"

# a folder of the repository in which nothing is built, and one of commands without rt and python3
fresh=$work/fresh bare=$work/bare
mkdir -p "$fresh/docs" "$bare"
cp -r ruu prove crates.txt page "$fresh"
cp -r docs/help "$fresh/docs"
for crate in crates/*/; do
  mkdir -p "$fresh/$crate"
  cp -r "$crate/src" "$fresh/$crate"
done
for it in bash cat env find mktemp readlink rm sed; do
  ln -s "$(command -v $it)" "$bare/$it"
done

# Sets `status` and what is written, of the script in that folder, where neither rt nor python3 is.
answer() { # words
  (cd "$work" && PATH=$bare "$fresh/ruu" "$@" < /dev/null > "$work/out" 2> "$work/err")
  status=$?
}

is_answered() { # text, words
  answer "${@:2}"
  [ $status -eq 0 ] && cmp -s "$work/out" "docs/help/$1" && [ ! -s "$work/err" ] || fail "ruu ${*:2}: status $status, not the text $1"
}

for of in -h --help help '--unproved --help' 'help help' 'help prove' 'prove --help' 'package -h'; do
  # shellcheck disable=SC2086
  is_answered ruu.txt $of
done
for of in -V --version 'run --version' 'drive nowhere.s -V' 'prove -V'; do
  # shellcheck disable=SC2086
  is_answered version.txt $of
done
for word in "${words[@]}"; do
  for of in "$word --help" "$word -h" "help $word" "$word nowhere.s --help" "--unproved $word --help"; do
    # shellcheck disable=SC2086
    is_answered "$word.txt" $of
  done
done
is_answered chart.txt chart nowhere.s --trace sum.log --help
echo 'help and the version are answered where nothing is built, without rt and python3'

is_mistaken() { # first line, words
  answer "${@:2}"
  [ $status -eq 3 ] && [ ! -s "$work/out" ] && [ "$(head -n 1 "$work/err")" = "error: $1" ] || fail "ruu ${*:2}: status $status"
}

# no word, or one that there is not: the script names the words
for of in '' foo 'runn examples/sum.s' 'help foo' 'help ../../README' --helpp -- '-x run examples/sum.s' examples/sum.s; do
  # shellcheck disable=SC2086
  set -- $of
  [ "${1:-}" != help ] || shift
  # shellcheck disable=SC2086
  is_mistaken "there is no command${1:+ '$1'}" $of
  for word in "${words[@]}"; do
    grep -q "^  $word " "$work/err" || fail "ruu $of: $word is not named"
  done
done
is_mistaken "there is no command" ''
is_mistaken "'prove' stands alone" prove ruu
is_mistaken "'package' stands alone" --unproved package
echo 'the words are named where there is no such word'

# a file that cannot be read: all words tell it in one form
is_refused_as() { # line, words
  answer "${@:2}"
  [ $status -eq 5 ] && [ ! -s "$work/out" ] && [ "$(cat "$work/err")" = "ruu: $1" ] || fail "ruu ${*:2}: status $status"
}
mkdir "$work/folder"
mapfile -t readers < <(sed -n "/^table='/,/^'/s/^\([a-z]\+\) .* FILE$/\1/p" ruu)
for word in "${readers[@]}"; do
  is_refused_as 'nowhere.s: No such file or directory' "$word" nowhere.s
  is_refused_as 'folder: Is a directory' "$word" folder
  is_refused_as '-a: No such file or directory' "$word" -- -a
done
is_refused_as 'nowhere.s: No such file or directory' run --alone --seed 3 nowhere.s
is_refused_as 'nowhere.s: No such file or directory' run --units=3 nowhere.s --limit 5
is_refused_as 'nowhere.s: No such file or directory' chart --trace a.log nowhere.s
is_refused_as 'nowhere.s/a.s: No such file or directory' --unproved check nowhere.s/a.s
touch "$work/a.s" "$work/3"
is_refused_as 'a.s/b.s: Not a directory' commits a.s/b.s
if [ "$(id -u)" -ne 0 ]; then
  chmod 000 "$work/3"
  is_refused_as '3: Permission denied' run 3
  chmod 644 "$work/3"
fi
echo 'a file that cannot be read is told before anything is proved, by all words in one form'

# without the kit: one line that names what is missing, and status 70
lacks() { # line, command
  "${@:2}" < /dev/null > "$work/out" 2> "$work/err"
  status=$?
  [ $status -eq 70 ] && [ ! -s "$work/out" ] && [ "$(cat "$work/err")" = "$1" ] || fail "${*:2}: status $status"
}
no_rt="ruu: there is no rt on the path: the Rattle kit brings it, and its pages begin at what 'rt doc' prints"
for of in "run $work/a.s" 'check -' "chart $work/a.s --foo" "--unproved run $work/a.s" prove package; do
  # shellcheck disable=SC2086
  lacks "$no_rt" env PATH="$bare" "$fresh/ruu" $of
done
lacks 'ruu: there is no python3 on the path' env PATH="$bare" "$fresh/ruu" page "$work/a.s" "$work/a.html"
echo 'a missing kit is named in one line'

# a kit that proves nothing: what it is asked for goes to a file, and what is built says with which words it is run
mkdir -p "$work/path"
cat > "$work/path/rt" << 'END'
#!/bin/sh
name=${PWD##*/}
echo "$name $*" >> "$ASKED"
case $1 in
  try)
    echo a report
    printf 'races: none\nsaid by the program\nchecked: ended status=4\n' >&2
    exit
    ;;
esac
for below in ../*; do
  [ "$below" = "../$name" ] || [ -e "$below/out/rlib/stamp" ] || { echo "$below is not built"; exit 1; }
done
[ "$name" != "$UNPROVED" ] || { echo 'a goal is open'; exit 1; }
mkdir -p out/rlib
case $1 in
  lib) echo > out/rlib/stamp ;;
  run)
    printf '#!/bin/sh\necho "ran $*"\n' > "out/$name"
    chmod +x "out/$name"
    echo "rt: running out/$name; to give it other input, run that file yourself"
    exit 3
    ;;
esac
END
chmod +x "$work/path/rt"
export ASKED=$work/asked UNPROVED=
with_kit() { # command
  : > "$ASKED"
  (cd "$work" && PATH=$work/path:$PATH "$@" < /dev/null > "$work/out" 2> "$work/err")
  status=$?
}

with_kit env UNPROVED=inorder "$fresh/ruu" run a.s
[ $status -eq 70 ] && grep -qx 'a goal is open' "$work/err" && grep -qx 'prove: inorder is not proved; its log is above' "$work/err" \
  || fail "a crate that is not proved: status $status"
[ ! -e "$fresh/crates/inorder/out/rlib/stamp" ] || fail 'a crate that is not proved was kept'
with_kit "$fresh/prove" nothing
[ $status -eq 1 ] && [ "$(cat "$work/err")" = 'prove: crates.txt names no crate nothing' ] || fail "a crate that there is not: status $status"

# a first look: from the program's folder, with the places of files, and with what the program says and its status
unproved() { # what the kit is asked for, words
  with_kit "$fresh/ruu" --unproved "${@:2}"
  [ $status -eq 4 ] && [ "$(cat "$work/out")" = 'a report' ] || fail "ruu --unproved ${*:2}: status $status"
  [[ $(head -n 1 "$work/err") == 'ruu: a first look: '* ]] && [ "$(tail -n +2 "$work/err")" = 'said by the program' ] || fail "ruu --unproved ${*:2}: another text"
  [ "$(cat "$ASKED")" = "$1" ] || { cat "$ASKED"; fail "ruu --unproved ${*:2}: the kit is asked for something else"; }
}
unproved "run try -- run $work/a.s --units 3" run a.s --units 3
unproved "ruu try -- run $work/a.s --alone --limit 3" run a.s --alone --limit 3
unproved "chart try -- chart $work/a.s --seed 3 --trace=$work/b.log" chart a.s --seed 3 --trace=b.log
unproved "chart try -- chart --trace $work/b.log $work/a.s" chart --trace b.log a.s
unproved "drive try -- drive $work/a.s" drive a.s
unproved "listing try -- $work/a.s" listing a.s
unproved 'checker try -- check -' check -
with_kit "$fresh/ruu" --unproved page a.s a.html
[ $status -eq 3 ] && [ "$(cat "$work/err")" = "error: 'page' takes no --unproved" ] || fail "a page of what is not proved: status $status"
echo 'a first look is built without a proof, and says so'

# how many crates the programs stand on
count_of() { # programs
  PYTHONPATH=tests python3 -B - "$@" << 'END'
import sys, map
uses = dict(line for _, lines in map.sections() for line in lines)
found = {*sys.argv[1:]}
for name in reversed(uses):
    found.update(it for it in uses[name] if name in found and it in uses)
print(len(found))
END
}

# a line tells which crate begins; LLVM compiles the program
is_told() { # how many crates
  sed -nE 's/^[a-z_]+, ([0-9]+ of [0-9]+), [0-9]+:[0-9]{2}$/\1/p' "$work/err" | cmp -s - <(seq -f "%g of $1" "$1") || fail 'no line for each crate that begins'
}
find "$fresh/crates" -name out -prune -exec rm -r {} +
with_kit "$fresh/ruu" run a.s
[ $status -eq 0 ] && [ "$(cat "$work/out")" = 'ran run a.s' ] || fail "a first run: status $status"
number=$(count_of run)
is_told "$number"
[ "$(wc -l < "$work/err")" -eq $((number + 1)) ] || fail 'a first run: other lines in the log'
grep -qxE 'run run --jobs [1-4] -- --help' "$ASKED" || fail 'the program run is built otherwise'
[ "$(grep -cE '^[a-z_]+ lib --jobs [1-4]$' "$ASKED")" -eq $((number - 1)) ] || fail 'the libraries are built otherwise'
[ ! -e "$fresh/.prove" ] || fail 'a proof leaves its views'
with_kit "$fresh/ruu" run a.s --seed 3
[ $status -eq 0 ] && [ "$(cat "$work/out")" = 'ran run a.s --seed 3' ] && [ ! -s "$work/err" ] && [ ! -s "$ASKED" ] || fail "a second run: status $status"

# the one-thread unit is proved once it is asked for, and that program then runs threads too
with_kit "$fresh/ruu" run a.s --alone
[ $status -eq 0 ] && [ "$(cat "$work/out")" = 'ran run a.s --alone' ] || fail "a first run alone: status $status"
is_told $(($(count_of run ruu) - number))
rm "$fresh/crates/run/out/run"
with_kit "$fresh/ruu" run a.s
[ $status -eq 0 ] && [ "$(cat "$work/out")" = 'ran run a.s' ] && [ ! -s "$ASKED" ] || fail "a run on threads by ruu: status $status"

# where a program is no longer proved, the older one is not taken for it
touch "$fresh/crates/ruu/src/main.rt"
with_kit env UNPROVED=ruu "$fresh/ruu" run a.s --alone
[ $status -eq 70 ] && [ ! -s "$work/out" ] || fail "a program that is not proved: status $status"
with_kit "$fresh/ruu" run a.s
with_kit "$fresh/ruu" run a.s --alone

# all programs at once, and then each starts
with_kit "$fresh/ruu" prove
[ $status -eq 0 ] && is_told $(($(count_of "${programs[@]}") - $(count_of run ruu))) || fail "ruu prove: status $status"
[[ $(tail -n 1 "$work/err") == 'ruu: proved and built: ruu '* ]] || fail 'ruu prove: no line at its end'
for of in 'run a.s' 'run a.s --alone' 'check a.s' 'drive a.s' 'listing a.s' 'commits a.s' 'chart a.s --trace b.log'; do
  # shellcheck disable=SC2086
  with_kit "$fresh/ruu" $of
  [ $status -eq 0 ] && [ "$(cat "$work/out")" = "ran ${of#listing }" ] && [ ! -s "$work/err" ] || fail "ruu $of after all were built"
done
ln -s "$fresh/ruu" "$work/path/ruu"
with_kit ruu check a.s
[ $status -eq 0 ] && [ "$(cat "$work/out")" = 'ran check a.s' ] || fail "a link on the path: status $status"
echo 'a line tells of each crate, and all programs are built at once'

# a report for people: names of registers, and values with their sign
printf '%s\n' 'stop break' 'count 12' 'pc 0x00400030' '$t0 = -2003195205 (0x8899aabb)' '$t1 = -2003195205 (0x8899aabb)' '$t2 = -30567 (0xffff8899)' \
  '$t3 = 43707 (0x0000aabb)' '$t4 = -86' '$t5 = -2003238725 (0x889900bb)' '$t6 = 84281096 (0x05060708)' '$t7 = -1430585344 (0xaabb0000)' \
  'memory 0 = -2003238725 (0x889900bb)' 'memory 4 = 84281096 (0x05060708)' 'memory 8 = -1430585344 (0xaabb0000)' > "$work/wanted"
named() { # status, words
  ./ruu "${@:2}" > "$work/out" 2> "$work/err"
  status=$?
  [ $status -eq "$1" ] || fail "ruu ${*:2}: status $status"
}
named 0 run examples/forwarding.s --names --alone
cmp -s "$work/out" "$work/wanted" || fail 'another report for people'
named 0 chart --names examples/forwarding.s
head -n 14 "$work/out" | cmp -s - "$work/wanted" && tail -n +15 "$work/out" | cmp -s - <(start chart chart examples/forwarding.s | tail -n +15) || fail 'another chart for people'
printf '%s\n' 'addiu $t0,$zero,-3' 'addiu $t1,$zero,200' 'mult $t0,$t1' 'lui $t2,0x7fff' 'add $t2,$t2,$t2' break > "$work/stops.s"
named 1 run --alone --names "$work/stops.s"
[ "$(tail -n +4 "$work/out" | tr '\n' ' ')" = '$t0 = -3 $t1 = 200 $t2 = 2147418112 (0x7fff0000) LO = -600 HI = -1 ' ] || fail 'a report for people of a run that stops'
named 2 run --names tests/listings/fault.s --alone
named 4 run --names examples/sum.s --alone --limit 3
named 3 check --names examples/sum.s
named 5 run --names nowhere.s
./ruu run --alone --names examples/sum.s > /dev/full 2> "$work/err"
[ $? -eq 5 ] && [ "$(cat "$work/err")" = 'ruu: write' ] || fail 'a report for people that cannot be written'
echo 'a report for people has the names of registers'

# on a terminal the fault of a listing is shown after the report, where the program that shows it is built
if command -v script > /dev/null; then
  printf 'break\n\nadu $t0,$t1,$t2\n' > "$work/fault.s"
  cp crates/ruu/out/ruu "$fresh/crates/ruu/out/ruu"
  cp crates/checker/out/checker "$fresh/crates/checker/out/checker"
  on_terminal() { # words
    (cd "$work" && script -qec "$fresh/ruu $*" /dev/null < /dev/null | tr -d '\r' > "$work/out"; exit "${PIPESTATUS[0]}")
    status=$?
  }
  on_terminal run fault.s --alone
  [ $status -eq 2 ] && [ "$(cat "$work/out")" = "$(cd "$work" && exec -a ruu "$fresh/crates/checker/out/checker" check fault.s)" ] || fail "a fault on a terminal: status $status"
  rm "$fresh/crates/checker/out/checker"
  on_terminal run fault.s --alone
  [ $status -eq 2 ] && [ "$(wc -l < "$work/out")" -eq 1 ] || fail "a fault on a terminal without the checker: status $status"
  on_terminal run "$PWD/examples/sum.s" --alone
  [ $status -eq 0 ] && cmp -s "$work/out" <(start ruu run examples/sum.s --alone) || fail "a run on a terminal: status $status"
  echo 'on a terminal the fault of a listing is shown'
else
  echo 'without the command script no run on a terminal was looked at'
fi
