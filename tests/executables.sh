#!/usr/bin/env bash
# Each stored executable gives its stored listing, byte for byte, and each listing its stored report, on one thread and
# on several. A file that is none, and one that is not there, are refused; so are small executables that are made here,
# each with its reason, and others that are made here give their listings.
. "$(dirname "$0")/common.bash"
build run listing
build run ruu

for report in examples/c/*.report; do
  name=${report%.report}
  crates/listing/out/listing "$name.elf" > "$work/listing" 2> "$work/err" || fail "$name.elf: status $?, expected 0"
  cmp "$work/listing" "$name.s" || fail "$name.elf: another listing"
  for options in --alone '--units 2' '--units 4 --ruu-size 32'; do
    # shellcheck disable=SC2086
    crates/ruu/out/ruu run "$name.s" $options > "$work/out" 2> "$work/err"
    status=$?
    [ $status -eq "$(status_of "$report")" ] || fail "$name.s $options: status $status"
    cmp "$work/out" "$report" || fail "$name.s $options: another report"
  done
  echo "$name: its listing, and its report on one thread and on several"
done

# status, word of the refusal, file
refused() {
  crates/listing/out/listing "${@:3}" > "$work/out" 2> "$work/err"
  status=$?
  [ $status -eq "$1" ] && [ ! -s "$work/out" ] && grep -q -- "$2" "$work/err" || fail "${*:3}: status $status, expected $1"
}

head -c 100 examples/c/primes.elf > "$work/cut.elf"
refused 2 'ends before what it names' "$work/cut.elf"
refused 2 'no ELF file' examples/c/primes.c
refused 5 'No such file' "$work/none.elf"
refused 3 'Usage'
refused 3 'Usage' --bogus
refused 3 'Usage' --
refused 3 'Usage' "$work/none.elf" "$work/none.elf"
refused 5 'No such file' -- --bogus
echo "what is refused: cut, no ELF file, not there, no FILE, an option that is none"

# standard input as the file, and streams that are closed
listing=crates/listing/out/listing
for words in - '-- -'; do
  # shellcheck disable=SC2086
  $listing $words < examples/c/primes.elf > "$work/listing" 2> "$work/err" && cmp "$work/listing" examples/c/primes.s || fail "listing $words: status $?"
done
$listing examples/c/primes.elf >&- 2> "$work/err"
[ $? -eq 5 ] && grep -q 'cannot be written' "$work/err" || fail 'a closed standard output'
$listing - <&- > "$work/listing" 2> "$work/err"
[ $? -eq 5 ] && grep -q 'cannot be read' "$work/err" && [ ! -s "$work/listing" ] || fail 'a closed standard input'
echo "listing: from standard input, and with streams that are closed"
python3 tests/executables.py "$work/made.elf" || fail 'an executable that is made here'
