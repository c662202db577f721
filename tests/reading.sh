#!/usr/bin/env bash
# Listings as they are read. Of one with a fault the line of the fault is all that is written by the program `alone`, by
# `ruu` on threads and by `ruu --alone`, with status 2, and the first that `ruu check` writes: so it is for each row of
# tests/listings/faults.txt, for listings at each limit and beyond it, and for each beginning of a listing. And each row of
# tests/listings/forms.txt is read as the instruction that `drive` tells.
. "$(dirname "$0")/common.bash"
build run alone
build run ruu
build run checker
ruu=crates/ruu/out/ruu
check=crates/checker/out/checker

# Runs a listing in each way, which has to end with this status and write just this file.
ends() { # listing, status, file
  local -a way
  while read -r -a way; do
    "${way[@]}" < "$1" > "$work/out" 2> "$work/err"
    status=$?
    [ $status -eq "$2" ] || fail "${way[*]}, ${name:-$1}: status $status, and not $2"
    cmp -s "$work/out" "$3" || { diff "$3" "$work/out"; fail "${way[*]}, ${name:-$1}: another answer"; }
  done <<END_OF_WAYS
crates/alone/out/alone
$ruu run -
$ruu run - --alone
END_OF_WAYS
}

# Reads a listing, which has to end with this status and begin with this line.
is_checked() { # listing, status, line
  "$check" check "$1" > "$work/out" 2> "$work/err"
  status=$?
  [ $status -eq "$2" ] || fail "ruu check, ${name:-$1}: status $status, and not $2"
  [ "$(head -n 1 "$work/out")" = "$3" ] || { cat "$work/out"; fail "ruu check, ${name:-$1}: the first line is not $3"; }
}

has_fault() { # listing, line
  printf '%s\n' "$2" > "$work/wanted"
  ends "$1" 2 "$work/wanted"
  is_checked "$1" 2 "$2"
}

# A listing without a fault, that many instructions, the status of its run, and the lines of its report.
has_none() { # listing, instructions, status, lines
  printf '%s\n' "${@:4}" > "$work/wanted"
  ends "$1" "$3" "$work/wanted"
  is_checked "$1" 0 "instructions $2"
}

count=0
while IFS= read -r row; do
  [[ $row != '#'* ]] || continue
  name=${row#*: }
  printf '%b' "$name" > "$work/listing.s"
  has_fault "$work/listing.s" "${row%%: *}"
  count=$((count + 1))
done < tests/listings/faults.txt
[ $count -gt 50 ] || fail "only $count rows"
echo "$count listings: their fault is named by a check and by runs in three ways"

name='a byte in a comment that is no ASCII'
printf 'break # \x80' > "$work/listing.s"
has_none "$work/listing.s" 1 0 'stop break' 'count 0' 'pc 0x00400000'
name='capitals, blanks between the parts, and no offset'
printf 'LW $t0 , ( $sp )\nbreak\n' > "$work/listing.s"
has_none "$work/listing.s" 2 1 'stop range' 'count 0' 'pc 0x00400000'
name='directives between the instructions, in capitals, with labels'
printf 'L: .word 1, -2,0x80000000\nbreak\n.SPACE 4\nM: .Word 4294967295\nj L\nj M' > "$work/listing.s"
has_none "$work/listing.s" 3 0 'stop break' 'count 0' 'pc 0x00400000' 'm 0x00000000 0x00000001' 'm 0x00000004 0xfffffffe' \
  'm 0x00000008 0x80000000' 'm 0x00000010 0xffffffff'
name='two labels in one line, for the instruction in the next'
printf 'A: B:\nj A\n' > "$work/listing.s"
has_none "$work/listing.s" 1 4 'limit' 'count 1000000' 'pc 0x00400000'
for way in '' --alone; do
  # shellcheck disable=SC2086
  "$ruu" run "$work/listing.s" --limit 3 $way 2> "$work/err" | cmp -s - <(printf 'limit\ncount 3\npc 0x00400000\n') \
    || fail "$name, with --limit 3 $way"
done

build run drive
drive=crates/drive/out/drive

# each form, as the unit that reads it tells it when it lets it: by numbers
count=0
while IFS= read -r row; do
  [[ $row == *' => '* ]] || continue
  name=${row%% => *}
  printf '%b' "$name\n" > "$work/listing.s"
  written=$("$drive" drive "$work/listing.s" <<< turn 2> "$work/err" | sed -nE 's/^Let station 0 tag 1 pc 0x00400000 (.*)$/\1/p' | sed 's/ half Low$/ lo/')
  [ "$written" = "${row#* => }" ] || fail "$name is written as $written"
  count=$((count + 1))
done < tests/listings/forms.txt
[ $count -gt 60 ] || fail "only $count forms"
echo "$count instructions are read as they should be, in each form and with each name of a register"

# the limits of a listing, each met and passed
nothing=(1 'stop badpc' 'count 0' 'pc 0x00400000')
bytes() { # how many, which
  head -c "$1" /dev/zero | tr '\0' "$2"
}
name='as many instructions as there may be'
yes nop | head -n 16384 > "$work/listing.s"
has_none "$work/listing.s" 16384 1 'stop badpc' 'count 16384' 'pc 0x00410000'
name='an instruction too many'
yes nop | head -n 16385 > "$work/listing.s"
has_fault "$work/listing.s" 'fault line 16385 TooLong'
name='as many bytes as there may be'
bytes 4194304 '#' > "$work/listing.s"
has_none "$work/listing.s" 0 "${nothing[@]}"
name='a byte too many'
bytes 4194305 '#' > "$work/listing.s"
has_fault "$work/listing.s" 'fault line 0 TooLong'
name='lines without a statement, and a byte too many'
bytes 4194305 '\n' > "$work/listing.s"
has_fault "$work/listing.s" 'fault line 0 TooLong'
"$check" check "$work/listing.s" > "$work/out"
printf 'fault line 0 TooLong\n%s\n' \
  "$work/listing.s: error: A listing has at most 4194304 bytes, 16384 instructions and 65536 bytes of data." | cmp -s - "$work/out" \
  || fail 'a check shows more of a listing that is too long as a whole'
name='as many words as there may be'
{ printf '.word 0'; yes ,0 | head -n 16383 | tr -d '\n'; } > "$work/listing.s"
has_none "$work/listing.s" 0 "${nothing[@]}"
name='a word too many'
{ printf '.word 0'; yes ,0 | head -n 16384 | tr -d '\n'; } > "$work/listing.s"
has_fault "$work/listing.s" 'fault line 1 TooLong'
name='as much space as there may be'
yes '.space 32768' | head -n 2 > "$work/listing.s"
has_none "$work/listing.s" 0 "${nothing[@]}"
name='space for more than there may be'
yes '.space 32768' | head -n 3 > "$work/listing.s"
has_fault "$work/listing.s" 'fault line 3 TooLong'
echo 'listings are taken up to each limit, and not beyond'

# Each beginning of a listing. A line has a letter for each of its bytes, the line feed last: up to there it is an unknown
# word (u), bad operands (p), a bad number (n), or an instruction or a directive (o).
lines=('.space 4' 'addiu $1,$0,-1' 'sw $1,0($0)' 'sb $0,1($0)' 'lw $2,0($0)' 'break')
letters=(uuuuuppoo uuppppppppppnoo upppppppppoo upppppppppoo upppppppppoo uuuuoo)
# the status and the report of the first lines, from none to all of them
reports=(
  '1;stop badpc;count 0;pc 0x00400000'
  '1;stop badpc;count 0;pc 0x00400000'
  '1;stop badpc;count 1;pc 0x00400004;r1 0xffffffff'
  '1;stop badpc;count 2;pc 0x00400008;r1 0xffffffff;m 0x00000000 0xffffffff'
  '1;stop badpc;count 3;pc 0x0040000c;r1 0xffffffff;m 0x00000000 0xffff00ff'
  '1;stop badpc;count 4;pc 0x00400010;r1 0xffffffff;r2 0xffff00ff;m 0x00000000 0xffff00ff'
  '0;stop break;count 4;pc 0x00400010;r1 0xffffffff;r2 0xffff00ff;m 0x00000000 0xffff00ff'
)
reads() { # lines, the last one included, and the letter of the beginning
  local -a report
  case $2 in
    u) has_fault "$work/beginning" "fault line $1 UnknownOp" ;;
    p) has_fault "$work/beginning" "fault line $1 BadOperands" ;;
    n) has_fault "$work/beginning" "fault line $1 BadNumber" ;;
    o)
      IFS=';' read -r -a report <<< "${reports[$1]}"
      has_none "$work/beginning" $(($1 > 1 ? $1 - 1 : 0)) "${report[@]}"
      ;;
  esac
}
printf '%s\n' "${lines[@]}" > "$work/whole.s"
: > "$work/beginning"
reads 0 o
size=0
for at in "${!lines[@]}"; do
  [ ${#letters[at]} -eq $((${#lines[at]} + 1)) ] || fail "${lines[at]} has other letters"
  for ((k = 0; k < ${#letters[at]}; k++)); do
    size=$((size + 1))
    name="the first $size bytes"
    head -c $size "$work/whole.s" > "$work/beginning"
    reads $((at + 1)) "${letters[at]:k:1}"
  done
done
cmp -s "$work/beginning" "$work/whole.s" || fail 'the last beginning is not the whole listing'
echo "each of $size beginnings of a listing is read as it should be"
