#!/usr/bin/env bash
# Charts and logs of `./ruu chart`: of some listings they stand beside them, counted by hand; of each example the report is
# that of `./ruu run --alone`, and the chart behind it is drawn anew from the log, which says of each turn who was let, went on,
# began to wait for a store and left. In the order of a seed the report stays, and the charts are those that are stored for two
# seeds. Then the number of rows and their order, the names of registers, and what goes wrong: devices that fail, files that do not open, a log over the listing, want of memory. And a run of 100,000 instructions
# is told in the memory of one of 100.
. "$(dirname "$0")/common.bash"
build_refuse
build run ruu
build run chart
ruu=crates/ruu/out/ruu
chart=crates/chart/out/chart

# The options that the first line of a listing names.
options_of() { # listing
  local first
  read -r first < "$1"
  options=()
  [[ $first != '# ruu run FILE '* ]] || read -r -a options <<< "${first#'# ruu run FILE '}"
}

count=0
for stored in examples/*.chart examples/rows/*.chart; do
  of=${stored%.chart}
  options_of "$of.s"
  "$chart" chart "$of.s" --trace "$work/log" "${options[@]}" > "$work/out" 2> "$work/err"
  [ $? -eq "$(status_of "$of.report")" ] && [ ! -s "$work/err" ] || fail "$of.s: another status, or a line"
  cat "$of.report" "$stored" > "$work/told"
  cmp -s "$work/told" "$work/out" || { diff "$work/told" "$work/out"; fail "$stored is drawn otherwise"; }
  [ ! -e "$of.kanata" ] || cmp -s "$of.kanata" "$work/log" || { diff "$of.kanata" "$work/log"; fail "$of.kanata is told otherwise"; }
  count=$((count + 1))
done
[ $count -ge 7 ] || fail "only $count charts"
echo "$count charts, and the logs beside them, are as they were counted by hand"

# Draws each tenant of a log, and compares the lines with those of the chart. The log and its pictures are those of
# crates/chart/src (kanata.rt, drawing.rt).
cat > "$work/draw.py" << 'DRAW'
import re
import sys
turn, rows, left, order = 0, {}, {}, []
lines = open(sys.argv[1]).read().split("\n")
assert lines[:2] == ["Kanata\t0004", "C=\t0"] and lines[-1] == "", "the first lines, or the last one"
STAGES = {"Ds": ["Ad", "Cm", "Ms", "St"], "Ad": ["Cm"], "Ms": ["Cm"]}
retired = 0
for line in lines[2:-1]:
    what, *of = line.split("\t")
    if what == "C":
        assert of == ["1"], line
        turn += 1
    elif what == "I":
        assert int(of[0]) == int(of[1]) == len(rows) and of[2] == "0", line
        rows[of[0]] = {"let": turn, "at": "Ds", "ran": None, "settled": None, "held": ""}
    elif what == "L" and of[1] == "0":
        rows[of[0]]["text"] = of[2]
    elif what == "L":
        before, store = of[2].rsplit(" ", 1)
        assert of[1] == "1" and before == "waits for the store" and int(store) < int(of[0]) and rows[of[0]]["at"] == "Ad", line
        assert rows[of[0]]["held"] != " B:" + store and rows[store]["text"].split(" ")[1] in ("sw", "sh", "sb"), line
        rows[of[0]]["held"] = " B:" + store
    elif what == "W":
        assert int(of[1]) < int(of[0]), line
    elif what == "E":
        assert rows[of[0]]["at"] == of[2], line
    elif what == "S":
        row, to = rows[of[0]], of[2]
        if to == "Ds":
            assert row["let"] == turn, line
        else:
            assert to in STAGES[row["at"]], line
            row["ran" if row["at"] == "Ds" else "settled"] = (turn, row["at"])
            row["at"] = to
    elif what == "R":
        if of[2] == "0":
            assert int(of[1]) == retired, line
            retired += 1
        left[of[0]] = (turn, "R" if of[2] == "0" else "S")
        order.append(of[0])
    else:
        sys.exit("no line of a log: " + line)

def picture(row, end, mark):
    text, last, between = "L", row["let"], "."
    for at, sign, then in ((row["ran"], "X", "-"), (row["settled"], None, "=")):
        if at:
            text += between * (at[0] - last - 1) + (sign or {"Ad": "V", "Ms": "M"}[at[1]])
            last, between = at[0], then
    return text + between * (end - last - 1) + mark

def drawn(name, end, mark):
    row = rows[name]
    pc, instr = row["text"].split(" ", 1)
    return "%s\t%d\t%s %s %s%s" % (name, row["let"], pc, (instr + row["held"]).ljust(26), " " * ((row["let"] - 1) % 64), picture(row, end, mark))

def axis(turn):
    ruler = "".join(f"{column}".rjust(5, ".") for column in range(5, 61, 5)) + "...."
    return "row\tturn\tpc         %s %s" % (f"from turn {turn}".ljust(26), ruler)

# The log does not say how long a load was blocked: its marks stand behind its execution.
def unmarked(line):
    return re.sub(r"(?<=X)B+", lambda it: "-" * len(it[0]), line)

options = sys.argv[3:]
names = [*order, *(it for it in rows if it not in left)] if "--by-leave" in options else [*rows]
most = int(options[options.index("--rows") + 1]) if "--rows" in options else 1000
wanted, round_before = [], None
for name in names:
    if int(name) < most:
        at = (rows[name]["let"] - 1) // 64
        if at != round_before:
            wanted.append(axis(64 * at + 1))
        round_before = at
        wanted.append(drawn(name, *left.get(name, (turn + 1, ">"))))
if len(rows) > most:
    wanted.append(f"rows {most} of {len(rows)}: --rows N draws N")
told = open(sys.argv[2]).read().split("\n")
assert told[-1] == "" and [unmarked(it) for it in told[:-1]] == wanted, "\n".join(t + "\n" + w for t, w in zip(told, wanted) if unmarked(t) != w)
for it in told[:-1]:
    assert (" B:" in it) == bool(re.search("XB", it)) or re.search(" B:.*X[RS>]$", it), it
print(len(rows))
DRAW

# Runs a listing alone, and draws its chart with a log and without one. The report is that of any order.
told=0
tell() { # listing, options, -- and options of the chart alone
  local listing=$1 count options=()
  shift
  while [ $# -gt 0 ] && [ "$1" != -- ]; do
    options+=("$1")
    shift
  done
  [ $# -eq 0 ] || shift
  "$ruu" run "$listing" --alone "${options[@]}" > "$work/report" 2> "$work/err"
  status=$?
  "$chart" chart "$listing" --trace "$work/log" "${options[@]}" "$@" > "$work/out" 2> "$work/err"
  [ $? -eq $status ] && [ ! -s "$work/err" ] || fail "$listing ${options[*]} $*: another status, or a line"
  head -c "$(stat -c %s "$work/report")" "$work/out" | cmp -s - "$work/report" || fail "$listing ${options[*]} $*: another report"
  tail -c +$(($(stat -c %s "$work/report") + 1)) "$work/out" > "$work/chart"
  "$chart" chart "$listing" "${options[@]}" "$@" > "$work/charted" 2> "$work/err"
  [ $? -eq $status ] && cmp -s "$work/charted" "$work/out" && [ ! -s "$work/err" ] || fail "$listing ${options[*]} $*: another chart without a log"
  count=$(python3 "$work/draw.py" "$work/log" "$work/chart" "$@" 2> "$work/err") || fail "$listing ${options[*]} $*: the log draws another chart"
  told=$((told + count))
}

for listing in examples/*.s tests/listings/limit.s; do
  tell "$listing" --limit 2000
  tell "$listing" --limit 500 --ruu-size 4 --bpred nottaken
  tell "$listing" --limit 77 --ruu-size 32 --lsq-size 2 --bpred taken
  tell "$listing" --limit 200 -- --by-leave --rows 150
done
[ $told -gt 5000 ] || fail "only $told tenants were told"
echo "the charts and logs of the examples agree on each of $told tenants"

# in the order of a seed: the charts that are stored, and the report of the run
count=0
for stored in examples/seeded/*.chart; do
  of=${stored##*/} of=${of%.chart}
  name=${of%.*} seed=${of##*.}
  tell "examples/$name.s" -- --seed "$seed"
  cmp -s "$work/chart" "$stored" || { diff "$stored" "$work/chart"; fail "$stored is drawn otherwise"; }
  mv "$work/log" "$work/seeded"
  tell "examples/$name.s"
  ! cmp -s "$work/log" "$work/seeded" || fail "$name: the seed $seed changes no turn"
  count=$((count + 1))
done
[ $count -ge 6 ] || fail "only $count charts with a seed"
echo "$count charts with seeds are those that are stored"

# additions of registers at random: as a script draws them that was written after the definitions
count=0
for seed in {0..19} 9223372036854775807 18446744073709551615; do
  python3 -c "
import random
draw = random.Random($seed)
print(*(f'        addu \${draw.randint(1, 5)},\${draw.randint(0, 5)},\${draw.randint(0, 5)}' for _ in range(50)), '        break', sep='\n')" > "$work/additions.s"
  ring=$((2 << count % 5)) count=$((count + 1))
  "$chart" chart "$work/additions.s" --seed "$seed" --ruu-size $ring > "$work/out" 2> "$work/err" || fail "additions, seed $seed: status $?"
  python3 tests/seeded.py "$work/additions.s" "$seed" $ring > "$work/drawn" 2> "$work/err" || fail "additions, seed $seed: no drawing"
  grep -P '^\d+\t' "$work/out" | cmp -s - "$work/drawn" || fail "additions, seed $seed, $ring stations: another chart than by the definitions"
done
echo "$count charts of additions are those of the definitions"

told=0 count=0
for seed in {0..5} 18446744073709551615; do
  for listing in examples/*.s tests/listings/limit.s; do
    tell "$listing" --limit 700 --ruu-size $((2 << count % 5)) -- --seed "$seed"
  done
  count=$((count + 1))
done
echo "with $count seeds the reports stay, and charts and logs agree on each of $told tenants"

# of a run without an end 1,000 rows are drawn, and a line tells of more; the first is the same of each number of rows
printf 'l: j l\n' > "$work/endless.s"
"$chart" chart "$work/endless.s" > "$work/out"
[ $? -eq 4 ] || fail 'a run without an end has another status'
[ "$(grep -cP '^\d' "$work/out")" -eq 1000 ] && [ "$(tail -n 1 "$work/out")" = 'rows 1000 of 1000015: --rows N draws N' ] \
  || fail 'a run without an end has another number of rows'
[ "$(stat -c %s "$work/out")" -lt 200000 ] || fail 'a run without an end fills the disk'
cp "$work/out" "$work/thousand"
for rows in 0 1 64 1000 1001; do
  "$chart" chart "$work/endless.s" --rows $rows > "$work/out"
  [ "$(grep -cP '^\d' "$work/out")" -eq $rows ] || fail "$rows rows are others"
  [ "$(tail -n 1 "$work/out")" = "rows $rows of 1000015: --rows N draws N" ] || fail "$rows rows have no line behind them"
  diff <(grep -P '^\d' "$work/thousand" | head -n $rows) <(grep -P '^\d' "$work/out" | head -n 1000) > "$work/diff" || fail "$rows rows: $(cat "$work/diff")"
done
echo 'a run without an end has as many rows as are wanted, and a line that tells of more'

# a load that waits for a store: counted by hand
cat > "$work/blocked.s" << 'LISTING'
        .word 4, 0
        lw    $t0,0($zero)
        sw    $t0,0($t0)      # its address comes from the load
        lw    $t1,0($zero)    # waits for it
        break
LISTING
"$chart" chart "$work/blocked.s" --trace "$work/log" | tail -n 5 > "$work/out"
cat > "$work/told" << 'CHART'
row	turn	pc         from turn 1                ....5...10...15...20...25...30...35...40...45...50...55...60....
0	1	0x00400000 lw $t0,0($zero)            L...X--V==R
1	2	0x00400004 sw $t0,0($t0)               L......X--R
2	3	0x00400008 lw $t1,0($zero) B:1          L..XBBBV==R
3	4	0x0040000c break                         L..X------R
CHART
cmp -s "$work/told" "$work/out" || { diff "$work/told" "$work/out"; fail 'a blocked load is drawn otherwise'; }
[ "$(grep -P '^L\t2\t1' "$work/log")" = "$(printf 'L\t2\t1\twaits for the store 1')" ] || fail 'the log names another store'

# registers as the line of each instruction writes them, whatever comments and other lines say; one that the line does not
# name as most are
written() { # name, listing, instructions in the chart
  printf "$2" > "$work/written.s"
  "$chart" chart "$work/written.s" --trace "$work/log" --limit 9 > "$work/out"
  for instr in "${@:3}"; do
    grep -qP "^\d+\t\d+\t0x[0-9a-f]{8} \Q$instr\E  " "$work/out" && grep -qP "^L\t\d+\t0\t0x[0-9a-f]{8} \Q$instr\E$" "$work/log" \
      || fail "$1: another instruction than $instr"
  done
}
written 'numbers' 'addu $9,$8,$10\nbreak\n' 'addu $9,$8,$10'
written 'names' 'addu $t1,$t0,$t2\nbreak\n' 'addu $t1,$t0,$t2'
written 'names in comments' '# $t0 $t1 $t2 $t3 $t4\naddu $9,$8,$10 # $t1,$t0,$t2\nbreak\n' 'addu $9,$8,$10'
written 'names and a number' 'addu $t1,$8,$t2\nbreak\n' 'addu $t1,$8,$t2'
written 'numbers and a name' 'addu $9,$t0,$10\nbreak\n' 'addu $9,$t0,$10'
written 'register 0' 'addu $t1,$0,$zero\naddu $t1,$zero,$0\nsll $0,$zero,0\nbreak\n' 'addu $t1,$0,$zero' 'addu $t1,$zero,$0' 'nop'
written 'one register in two ways' 'addu $8,$t0,$8 # $t0,$8,$t0\nbreak\n' 'addu $8,$t0,$8'
written 'register 30' 'addu $s8,$30,$fp\nlw $30,-4($s8)\nbreak\n' 'addu $s8,$30,$fp' 'lw $30,-4($s8)'
written 'two lines' 'a: b :\tADDU  $t1 , $8,$t2\n\n  addu $9,$t0,$10\nbeq $t1 ,$0, c\nc: break\n' 'addu $t1,$8,$t2' 'addu $9,$t0,$10' 'beq $t1,$0,L0040000c'
written 'a jump that names one register' '.word 0x400008\nlw $t0,0($0)\njalr $8\nbreak\n' 'lw $t0,0($0)' 'jalr $31,$8'
written 'a jump among names' '.word 0x400008\nlw $t0,0($zero)\njalr $8 # $31 $31 $31\nbreak\n' 'jalr $ra,$8'
written 'a jump by its own register' '.word 0x40000c\nlw $t0,0($zero)\naddu $ra,$0,$t0\njalr $31\nbreak\n' 'jalr $31,$31'
# each form, with the registers that it writes; by number where it leaves one out, as most of the listing
while IFS= read -r row; do
  [[ $row == *' => '* ]] || continue
  printf '%b' "${row%% => *}\naddu \$1,\$1,\$1\naddu \$1,\$1,\$1\n" > "$work/written.s"
  python3 -c "
import re, sys
given, wanted = sys.argv[1].split(' => ')
names = re.findall(r'\\$\w+', given.split('#')[0])
if len(names) == wanted.count('\$'):
    wanted = re.sub(r'\\$\d+', lambda it: names.pop(0), wanted)
print(wanted)" "$row" > "$work/told"
  "$chart" chart "$work/written.s" --limit 1 2> "$work/err" | sed -nE 's/^0\t1\t0x00400000 (.*[^ ]) +L.*/\1/p' > "$work/out"
  cmp -s "$work/told" "$work/out" || { diff "$work/told" "$work/out"; fail "${row%% => *} is drawn otherwise"; }
done < tests/listings/forms.txt
echo 'a blocked load names its store, and each register is written as its line has it'

# A listing with a fault has no pictures.
says() { # name, status, standard error
  [ "$status" -eq "$2" ] || fail "$1: status $status, and not $2"
  [ "$(cat "$work/err")" = "$3" ] || fail "$1: another line on standard error"
}

draw() { # words
  "$chart" chart "$@" > "$work/out" 2> "$work/err"
  status=$?
}

draw tests/listings/fault.s --trace "$work/log"
says 'a listing with a fault' 2 ''
cmp -s "$work/out" tests/listings/fault.report && [ ! -s "$work/log" ] || fail 'a listing with a fault has a picture'

# devices that fail
listing=examples/forwarding.s
draw $listing --trace /dev/full
says 'a full log' 5 'ruu: trace'
cp "$work/out" "$work/beside"
tell $listing
cp "$work/log" "$work/again"
cmp -s "$work/beside" "$work/charted" || fail 'a full log cuts the report or the chart'
"$chart" chart $listing --trace "$work/log" > /dev/full 2> "$work/err"
status=$?
says 'a full standard output' 5 'ruu: write'
[ ! -s "$work/log" ] || fail 'a log without its report'
"$chart" chart - --trace "$work/log" < $listing >&- 2> "$work/err"
status=$?
says 'a closed standard output' 5 'ruu: write'
[ ! -s "$work/log" ] || fail 'the report is in the log'
"$chart" chart - --trace "$work/log" <&- > "$work/out" 2> "$work/err"
status=$?
says 'a closed standard input' 5 'ruu: read'
[ ! -s "$work/out" ] && [ ! -s "$work/log" ] || fail 'something was told of a closed standard input'
"$chart" chart "$work/nowhere.s" --trace "$work/log" 2>&- > "$work/out"
status=$?
: > "$work/err"
says 'a listing that is not there, and a closed standard error' 5 ''
"$chart" chart - --trace "$work/beside.log" < $listing 2>&- > "$work/out"
[ $? -eq 0 ] && cmp -s "$work/out" "$work/beside" && cmp -s "$work/beside.log" "$work/again" || fail 'a closed standard error changes what is told'

# files that do not open
rm -f "$work/log"
draw "$work/nowhere.s" --trace "$work/log"
says 'a listing that is not there' 5 'ruu: open'
[ ! -e "$work/log" ] || fail 'a log of a listing that is not there'
draw examples --trace "$work/log"
says 'a folder as the listing' 5 'ruu: read'
draw $listing --trace "$work/nowhere/log"
says 'a log in no folder' 5 "ruu: $work/nowhere/log: No such file or directory (os error 2)"
[ ! -s "$work/out" ] || fail 'a report where the log did not open'
draw $listing --trace examples
says 'a folder as the log' 5 'ruu: examples: Is a directory (os error 21)'

# the log is never the listing
cp $listing "$work/own.s"
ln -s own.s "$work/link.log"
ln "$work/own.s" "$work/hard.log"
draw "$work/own.s" --trace "$work/own.s"
[ $status -eq 3 ] && grep -qx 'error: --trace names the file of the listing' "$work/err" || fail "the listing as the log: status $status"
for log in "$work/./own.s" "$work/link.log" "$work/hard.log"; do
  draw "$work/own.s" --trace "$log"
  says 'the listing by another name' 3 "ruu: $log: it is the file of the listing"
  "$chart" chart - --trace "$log" < "$work/own.s" > "$work/out" 2> "$work/err"
  status=$?
  says 'the listing from standard input' 3 "ruu: $log: it is the file of the listing"
done
cmp -s "$work/own.s" $listing || fail 'the listing was overwritten'
"$chart" chart - --trace "$work/log" < $listing > "$work/out" 2> "$work/err" && cmp -s "$work/log" "$work/again" \
  || fail 'standard input has another log'

# `-` is no file
draw $listing --trace -
[ $status -eq 3 ] && [ ! -e - ] && [ "$(head -n 1 "$work/err")" = 'error: --trace takes a file' ] || fail "--trace -: status $status"

echo 'what goes wrong has its word and its status, and no log overwrites the listing'

# each allocation is refused in turn: the refusal is named behind a beginning of the report and the chart, and of the
# log; or all is told as before
listing=examples/wrong_path.s
tell $listing --bpred nottaken --ruu-size 4
mv "$work/out" "$work/whole.out"
mv "$work/log" "$work/whole.log"
is_all() {
  [ "$status" -eq 0 ] && [ -z "$said" ] && cmp -s "$work/out" "$work/whole.out" && cmp -s "$work/log" "$work/whole.log"
}
n=0 refused=0
while :; do
  n=$((n + 1))
  : > "$work/log"
  run_under /dev/null REFUSED=$n "$chart" chart $listing --bpred nottaken --ruu-size 4 --trace "$work/log"
  $was_refused || break
  ! $is_held || fail "allocation $n refused: a block was held at the end"
  for of in out log; do
    cmp -s -n "$(stat -c %s "$work/$of")" "$work/$of" "$work/whole.$of" || fail "allocation $n refused: no beginning"
  done
  if [ "$status" -eq 5 ] && [ "$said" = 'ruu: memory' ]; then
    refused=$((refused + 1))
  else
    is_all || fail "allocation $n refused: status $status"
  fi
done
[ $refused -gt 100 ] || fail "only $refused allocations were refused"
is_all || fail "with all its memory: status $status"
echo "each of $((n - 1)) allocations was refused in turn, $refused told"

# the least room in which 100 instructions are told has room for 100,000
within() { # kilobytes, limit
  (ulimit -v "$1"; exec "$chart" chart tests/listings/limit.s --trace "$work/log" --limit "$2" --rows 100) > /dev/null 2>&1
  [ $? -eq 4 ]
}
low=0 high=1048576
within $high 100 || fail 'a run of 100 instructions has no room'
while [ $((high - low)) -gt 16 ]; do
  middle=$(((low + high) / 2))
  if within $middle 100; then high=$middle; else low=$middle; fi
done 2> /dev/null
within $((high + 64)) 100000 || fail "100 instructions are told in $high kilobytes, and 100,000 are not"
[ "$(grep -c '^R' "$work/log")" -ge 100000 ] || fail 'the log of 100,000 instructions is shorter'
echo "100,000 instructions are told in the $high kilobytes of 100"
