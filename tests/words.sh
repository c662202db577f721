#!/usr/bin/env bash
# `./ruu words`: of the examples and of random listings each word is that of the log of commits, and data is that of the listing;
# an executable gives a listing with the same words, and the simulator of examples/lockstep runs it as the one that a linker made;
# a branch without a nop after it is named by its line. Then what goes wrong: the command line, files, devices, want of memory.
. "$(dirname "$0")/common.bash"
build_refuse
build run listing
build run commit_log
build run words
words=crates/words/out/words

says() { # name, status, standard error
  [ "$status" -eq "$2" ] || fail "$1: status $status, and not $2"
  [ "$(cat "$work/err")" = "$3" ] || fail "$1: another line on standard error"
}

# Runs the program. Sets `status`.
get() { # words
  "$words" words "$@" > "$work/out" 2> "$work/err"
  status=$?
}

# The words of a listing: those that its log has, at their addresses, and its data.
agrees() { # listing
  get "$1"
  says "$1" 0 ''
  crates/commit_log/out/commit_log commits "$1" --limit 100000 2> /dev/null | sed -nE 's/^core   0: 3 (0x\w+) \((0x\w+)\).*/\1 \2/p' | sort -u > "$work/log"
  sort "$work/out" | comm -13 - "$work/log" > "$work/err"
  [ ! -s "$work/err" ] || fail "$1: the log has other words"
  python3 - "$work/out" "$1" << 'PYTHON' 2> "$work/err" || fail "$1: other data"
import re, sys
lines = [[int(it, 16) for it in line.split()] for line in open(sys.argv[1], encoding="ascii")]
text = [address for address, _ in lines if address >= 0x400000]
assert text == [0x400000 + 4 * k for k in range(len(text))] and [address for address, _ in lines[: len(text)]] == text
data = []
for kind, numbers in re.findall(r"^[^#\n]*?\.(word|space)\s+([^#\n]*)", open(sys.argv[2], encoding="latin-1").read(), re.M):
    values = [int(number, 0) for number in numbers.split(",")]
    data += [0] * (values[0] // 4) if kind == "space" else [value % 2**32 for value in values]
assert lines[len(text):] == [[4 * k, value] for k, value in enumerate(data)]
PYTHON
}

for listing in examples/*.s examples/c/*.s; do
  agrees "$listing"
done
for seed in {1..20}; do
  ./ruu random --seed "$seed" > "$work/random.s"
  agrees "$work/random.s"
done
get - < examples/double.s
[ $status -eq 0 ] && [ "$(cat "$work/out")" = $'0x00400000 0x24010005\n0x00400004 0x00211021\n0x00400008 0x0000000d' ] || fail "standard input: $(cat "$work/out")"
echo 'words and data of the examples and of random listings'

# executables
for name in primes numbers sorting; do
  get examples/c/$name.s --elf "$work/made.elf"
  says "$name --elf" 0 ''
  [ -x "$work/made.elf" ] && [ ! -s "$work/out" ] || fail "$name: no file that can be started"
  crates/listing/out/listing "$work/made.elf" > "$work/listing.s" 2> "$work/err" || fail "$name: its executable has no listing"
  get "$work/listing.s"
  "$words" words examples/c/$name.s | cmp -s - "$work/out" || fail "$name: the executable has other words"
  python3 examples/lockstep/simulator.py --right "$work/made.elf" > "$work/log"
  python3 examples/lockstep/simulator.py --right examples/c/$name.elf | cmp -s - "$work/log" || fail "$name: the executable runs otherwise"
done
# a nop after each branch and jump of a random listing makes it one that has an executable; the first without one is named
for seed in {1..20}; do
  ./ruu random --seed "$seed" > "$work/random.s"
  get "$work/random.s" --elf "$work/none.elf"
  line=$(grep -nE '^ +(b(eq|ne|lez|gtz|ltz|gez)|j|jal|jr|jalr) ' "$work/random.s" | head -n 1)
  says "seed $seed" 2 "ruu: $work/random.s: line ${line%%:*}: a MIPS runs the instruction after this branch or jump: write nop after it"
  [ ! -e "$work/none.elf" ] || fail "seed $seed: an executable"
  sed -E 's/^ +(b(eq|ne|lez|gtz|ltz|gez)|j|jal|jr|jalr) .*/&\n        nop/' "$work/random.s" > "$work/slots.s"
  get "$work/slots.s" --elf="$work/made.elf"
  says "seed $seed with nops" 0 ''
  crates/listing/out/listing "$work/made.elf" > "$work/listing.s" 2> "$work/err" || fail "seed $seed: its executable has no listing"
  "$words" words "$work/slots.s" > "$work/wanted"
  get "$work/listing.s"
  head -n "$(wc -l < "$work/wanted")" "$work/out" | cmp -s - "$work/wanted" || fail "seed $seed: the executable has other words"
  # with bytes of 0 after its own
  [ "$(grep -vc '^0x004' "$work/out")" -eq 16384 ] && ! tail -n "+$(($(wc -l < "$work/wanted") + 1))" "$work/out" | grep -qv ' 0x00000000$' || fail "seed $seed: other data"
done
printf '        .word 1\n' > "$work/empty.s"
get "$work/empty.s" --elf "$work/none.elf"
says 'no instruction' 2 "ruu: $work/empty.s: there is no instruction: write break"
printf '        j end\n        nop\nend:\n' > "$work/behind.s"
get "$work/behind.s" --elf "$work/none.elf"
says 'a target after the text' 2 "ruu: $work/behind.s: line 1: its target is after the last instruction: write break there"
printf '        break\n        jr $31\n' > "$work/last.s"
get "$work/last.s" --elf "$work/none.elf"
says 'a jump at the end' 2 "ruu: $work/last.s: line 2: a MIPS runs the instruction after this branch or jump: write nop after it"
echo 'executables of listings give their words back'

# what goes wrong
get tests/listings/fault.s
[ $status -eq 2 ] && cmp -s "$work/out" tests/listings/fault.report && [ ! -s "$work/err" ] || fail "a listing with a fault: status $status"
get "$work/nowhere.s"
says 'a listing that is not there' 5 "ruu: $work/nowhere.s: No such file or directory (os error 2)"
get examples
says 'a folder as the listing' 5 'ruu: read'
for options in '' '--bogus examples/sum.s' 'examples/sum.s examples/sum.s' 'examples/sum.s --elf' 'examples/sum.s --elf -' 'examples/sum.s --elf examples/sum.s' 'examples/sum.s --elf a --elf b'; do
  # shellcheck disable=SC2086
  get $options
  [ $status -eq 3 ] && [ ! -s "$work/out" ] && grep -q '^error: ' "$work/err" || fail "words $options: status $status"
done
cp examples/c/primes.s "$work/one.s"
ln "$work/one.s" "$work/other.s"
get "$work/one.s" --elf "$work/other.s"
says 'the listing by another name' 3 "ruu: $work/other.s: it is the file of the listing"
cmp -s "$work/one.s" examples/c/primes.s || fail 'the listing was overwritten'
get examples/c/primes.s --elf "$work"
says 'a folder as the executable' 5 "ruu: $work: Is a directory (os error 21)"
get examples/c/primes.s --elf /dev/full
says 'a full device' 5 'ruu: write'
"$words" words examples/sum.s > /dev/full 2> "$work/err"
status=$?
says 'a full standard output' 5 'ruu: write'
"$words" words - <&- > "$work/out" 2> "$work/err"
status=$?
says 'a closed standard input' 5 'ruu: read'

# each allocation is refused in turn: named, or all is written
refuses() { # file that is written, words
  local n=0
  while :; do
    n=$((n + 1))
    rm -f "$work/made.elf"
    run_under /dev/null REFUSED=$n "$words" words "${@:2}"
    $was_refused || break
    ! $is_held || fail "allocation $n refused: a block was held at the end"
    if [ "$status" -eq 5 ] && [ "$said" = 'ruu: memory' ]; then
      [ ! -s "$1" ] || fail "allocation $n refused: something was written"
    else
      cmp -s "$1" "$work/whole" && [ "$status" -eq 0 ] && [ -z "$said" ] || fail "allocation $n refused: status $status"
    fi
  done
  cmp -s "$1" "$work/whole" || fail 'with all its memory other words'
  told=$((told + n - 1))
}
told=0
"$words" words examples/c/primes.s > "$work/whole"
refuses "$work/out" examples/c/primes.s
"$words" words examples/c/primes.s --elf "$work/whole"
refuses "$work/made.elf" examples/c/primes.s --elf "$work/made.elf"
echo "each of $told allocations was refused in turn"
