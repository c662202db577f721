#!/usr/bin/env bash
# What `./ruu judge` reads beside events: the tables of examples/sheets get the grades that stand beside them, and their events as a
# text the same verdict; every log that `chart --trace` writes is legal, with the report of the chart, and spoilt ones are refused or
# not read, by their mistake; gem5's lines; grades of many tables; files that are no tables, by line and cell; and options.
. "$(dirname "$0")/common.bash"
build run judge
build run chart
judge=crates/judge/out/judge chart=crates/chart/out/chart

judged() { # words
  "$judge" judge "$@" > "$work/out" 2> "$work/err"
  status=$?
}

is_status() { # status, what was judged
  [ "$status" -eq "$1" ] || { head -n 3 "$work/out"; fail "$2: status $status, not $1"; }
}

# the listing of a table, and the options that its name asks for
listing_of() { # table
  local name=${1##*/}
  listing=examples/lessons/${name%%.*}.s options=()
  [[ $name != *.bypass.* ]] || options=(--within bypass)
}

for table in examples/sheets/*.csv; do
  [[ $table != *.stations.csv ]] || continue
  listing_of "$table"
  judged "${options[@]}" --grade "$listing" "$table"
  cmp -s "$work/out" "${table%.csv}.grade" || { diff "${table%.csv}.grade" "$work/out"; fail "$table: another grade"; }
  n=$(tail -n 1 "$work/out" | sed 's/ .*//')
  is_status "$(tail -n 1 "$work/out" | grep -q "^$n of $n rows"; echo $?)" "$table"
  right=$status
  judged "${options[@]}" "$listing" "$table"
  is_status "$right" "$table, judged"
  sed '1s/ line [0-9]*\( cycle [0-9]*\)\?//; /^#/d' "$work/out" > "$work/verdict"
  "$judge" judge "${options[@]}" --events "$listing" "$table" > "$work/log" || fail "$table: no events"
  judged "$listing" "$work/log"
  sed '1s/ line [0-9]*//' "$work/out" | cmp -s - "$work/verdict" || fail "$table: its events have another verdict"
done
echo 'the tables of examples/sheets get their grades, and their events the same verdict'

# the logs of our own unit
logs=0
for listing in examples/*.s examples/lessons/*.s; do
  for seed in '' 1 2 3; do
    options=()
    [ -z "$seed" ] || options=(--seed "$seed")
    "$chart" chart "$listing" "${options[@]}" --limit 2000 --trace "$work/log" > "$work/chart" 2> "$work/err"
    [ "$(wc -l < "$work/log")" -lt 30000 ] || continue
    judged "$listing" "$work/log"
    is_status 0 "$listing, seed $seed: its log"
    tail -n +2 "$work/out" > "$work/report"
    head -n "$(wc -l < "$work/report")" "$work/chart" > "$work/begin"
    cmp -s "$work/begin" "$work/report" || { diff "$work/begin" "$work/report"; fail "$listing, seed $seed: another report"; }
    logs=$((logs + 1))
    [ "$seed" = 3 ] || continue
    for kind in producer retire result let pc cycle; do
      for spoil in 1 2; do
        python3 tests/sheets.py $kind $spoil < "$work/log" > "$work/spoilt" 2> "$work/must" || continue
        judged "$listing" "$work/spoilt"
        head -n 1 "$work/out" | grep -qE "$(cat "$work/must")" \
          || { cat "$work/must"; head -n 3 "$work/out"; fail "$listing: a log spoilt by $kind $spoil"; }
        [ "$status" -lt 5 ] || fail "$listing: a log spoilt by $kind $spoil: status $status"
        echo "$kind $status" >> "$work/spoils"
      done
    done
  done
done
[ $logs -ge 40 ] || fail "only $logs logs"
echo "$logs logs of chart --trace are legal, with its reports"
for kind in producer retire result let pc cycle; do
  grep -q "^$kind [14]$" "$work/spoils" || fail "no log spoilt by $kind is refused"
done
n=$(wc -l < "$work/spoils") legal=$(grep -c ' 0$' "$work/spoils")
[ "$n" -ge 100 ] || fail "only $n spoilt logs"
[ $((legal * 4)) -le "$n" ] || fail "$legal of $n spoilt logs are legal"
echo "of $n spoilt logs all but $legal, which are legal, are refused or not read"

# other names of stages
listing=examples/double.s
"$chart" chart "$listing" --trace "$work/log" > "$work/chart"
sed 's/\tDs$/\tQ/; s/\tCm$/\tDone/; s/\tSt$/\tDone/' "$work/log" > "$work/other"
judged "$listing" "$work/other"
is_status 4 'stages with other names'
judged --stage Q=let --stage Done=complete "$listing" "$work/other"
is_status 0 'stages with other names, which are told'

# gem5's lines, which were written by hand, in the order in which instructions leave
judged examples/double.s examples/sheets/double.pipeview
is_status 0 'lines of gem5'
tail -n +2 "$work/out" | cmp -s - examples/double.report || fail 'lines of gem5: another report'
sed 's/^O3PipeView:issue:3000/O3PipeView:issue:2500/' examples/sheets/double.pipeview > "$work/log"
judged examples/double.s "$work/log"
is_status 1 'lines of gem5, with an issue before its operand'
judged --within strict examples/double.s examples/sheets/double.pipeview
is_status 1 'lines of gem5, where an operand is used in the cycle of its broadcast'
sed 's/:0:2:/:1:2:/' examples/sheets/double.pipeview > "$work/log"
judged examples/double.s "$work/log"
is_status 4 'lines of gem5, with a part of an instruction'
echo "gem5's lines are read"

# separators, names of columns in any order and letters, quotes and a byte order mark make no difference
right=examples/sheets/wakeup.right.csv listing=examples/lessons/wakeup.s
alike() { # what is alike
  judged --grade "$listing" "$work/table"
  is_status 0 "$1"
  [ "$(cat "$work/out")" = '7 of 7 rows are right' ] || fail "$1: $(head -n 1 "$work/out")"
}
sed 's/;/\t/g' "$right" > "$work/table"; alike 'tabs'
sed 's/;/|/g' "$right" > "$work/table"; alike 'bars'
sed 's/^\([^;]*\);/"\1";/; s/;/,/g' "$right" > "$work/table"; alike 'commas and quotes'
sed 's/$/\r/' "$right" > "$work/table"; alike 'lines as Windows ends them'
{ printf '\xef\xbb\xbf'; cat "$right"; } > "$work/table"; alike 'a byte order mark'
awk -F';' -v OFS=';' '{ print $6, $5, $4, $3, $2, $1 }' "$right" > "$work/table"; alike 'columns from the right'
sed '1s/.*/INSTR;issue;Execution;Memory access;write cdb;RETIRE/' "$right" > "$work/table"; alike 'other names'
cut -d';' -f2- "$right" > "$work/table"; alike 'no instructions'
sed '1s/Instruction/PC/; 2s/[^;]*/0x00400000/; 3s/[^;]*/0x00400004/' "$right" > "$work/table"; alike 'addresses'
cut -d';' -f1-5 "$right" > "$work/table"
judged --grade "$listing" "$work/table"
is_status 0 'a table without commits'
grep -q '^no column says when an instruction commits' "$work/out" || fail 'a table without commits: the answer does not say so'
sed '1s/Issue;Exec/Dispatch;Issue/' "$right" > "$work/table"; alike 'dispatch beside issue'
judged --issue dispatch --grade "$listing" "$work/table"
is_status 4 'dispatch beside issue, where issue is dispatch'
echo 'a table is read alike, however it is written'

# rows and values that are wrong
wrong() { # what is wrong, what the first line begins with
  judged --grade "$listing" "$work/table"
  is_status 1 "$1"
  head -n 1 "$work/out" | grep -q "^$2" || fail "$1: $(head -n 1 "$work/out")"
}
sed '3s/;6;7$/;;7/' "$right" > "$work/table"; wrong 'an empty cell' 'row 2, Write: is empty; the earliest is cycle 5'
sed '3s/addu $t1/addu $t7/' "$right" > "$work/table"
judged --grade "$listing" "$work/table"
is_status 4 'an instruction that the listing does not have'
sed '3s/^[^;]*/mflo $t3/' "$right" > "$work/table"; wrong 'another instruction' 'row 2, Instruction: the path goes on with addu $t1,$t0,$t0'
sed '1s/$/;Value/; 2s/$/;7/; 3s/$/;14/; 4s/$/;6/' "$right" > "$work/table"; wrong 'a value' 'row 3, Value: the value is 0x00000005'
sed '4s/;3;4;/;2;4;/; 3s/;2;5;/;3;5;/' "$right" > "$work/table"; wrong 'dispatches out of order' 'row 3, Issue, cycle 2: row 2 is issued before it, in cycle 3; the earliest is cycle 3'
echo 'wrong cells are named'

# a class
mkdir "$work/class"
for n in {1..60}; do cp "$right" "$work/class/$n.csv"; cp examples/sheets/wakeup.early.csv "$work/class/late$n.csv"; done
(cd "$work/class" && "$OLDPWD/$judge" judge --grade --tsv "$OLDPWD/$listing" *.csv) > "$work/out" 2> "$work/err"
status=$?
is_status 1 '120 tables'
[ "$(grep -c $'\t7\t7\t\t\t\t\t$' "$work/out")" -eq 60 ] && [ "$(grep -c $'\t4\t7\t\t\t\t\t$' "$work/out")" -eq 60 ] || fail '120 tables: other sums'
[ "$(wc -l < "$work/out")" -eq 300 ] && [ "$(awk -F'\t' 'NF != 8' "$work/out" | wc -l)" -eq 0 ] || fail '120 tables: other lines'
grep -qxF $'late7.csv\t\t\t2\tExec\t4\t5\tneeds $t0 of row 1, which is written in cycle 4' "$work/out" || fail '120 tables: no such cell'
printf 'Issue;Exec\nx;2\n' > "$work/class/a.csv"
(cd "$work/class" && "$OLDPWD/$judge" judge --grade --tsv "$OLDPWD/$listing" a.csv 1.csv nowhere.csv) > "$work/out" 2> "$work/err"
status=$?
is_status 5 'a table that is not there among others'
[ "$(wc -l < "$work/out")" -eq 2 ] || fail 'a table that is not read among others: other lines'
echo '120 tables are graded in one call'

# what is counted beside, on a table whose rows are right
counted() { # what is said, options
  judged --grade "${@:2}" "$listing" "$work/table"
  is_status 1 "${*:2}"
  grep -qxF "counted: $1" "$work/out" || { cat "$work/out"; fail "${*:2}: other counts"; }
  grep -qx '7 of 7 rows are right' "$work/out" || fail "${*:2}: rows are wrong"
}
sed '3s/;2;5;;6;7/;2;5;;7;8/; 5s/;4;6;/;3;6;/' "$right" > "$work/table"
counted 'cycle 3 has 2 dispatches, and at most 1: rows 3, 4' --lets 1
counted 'cycle 7 has 2 results, and at most 1: rows 2, 4' --results 1
counted 'cycle 8 has 2 begins of execution, and at most 1: rows 5, 7' --begins 1
counted 'cycle 5 has 1 commits, and at most 0: rows 1' --commits 0
counted 'row 1 is written in cycle 4: it takes 3 from cycle 2 on, and the earliest is cycle 5' --latency lw=3
counted 'row 4 begins in cycle 6, in which 2 of its operation execute, and at most 1' --units addu=1
judged --grade --lets 1 --results 2 --latency lw=2 --units lw=1 "$listing" "$right"
is_status 0 'a table within its bounds'
echo 'widths, buses, latencies and units are counted'

# stations after a cycle
compared() { # status, cycle, what the answer has
  judged "$listing" "$right" --stations "$work/table" --after "$2"
  is_status "$1" "stations after cycle $2"
  grep -qxF "$3" "$work/out" || { cat "$work/out"; fail "stations after cycle $2: not $3"; }
}
sed '5s/.*/Add3;yes;addu;;;Add2;#3;/' examples/sheets/wakeup.stations.csv > "$work/table"
compared 0 4 '4 of 4 stations are right'
compared 1 3 'station 2: Vj: $t0 is not there yet. Qj: $t0 comes from row 1. Vk: $t0 is not there yet. Qk: $t0 comes from row 1.'
cp examples/sheets/wakeup.stations.csv "$work/table"
compared 1 4 'station 4: Vj: $t0 is not there yet. Qj: $t0 comes from row 3. Vk: $t0 is not there yet. Qk: $t0 comes from row 3.'
printf 'Row,Busy,Op,Vj,Vk,Qj,Qk,A\n1,y,lw,0,,,,0\n2,y,addu,,,#1,#1,\n' > "$work/table"
compared 0 2 '2 of 2 stations are right'
printf 'Name,Busy,Op,A\nLoad1,yes,lw,4\nAdd1,yes,addu,\nAdd2,no,,\n' > "$work/table"
compared 1 2 'station 1: A: it is 0x00000000.'
printf 'Name,Busy,Op\nAdd2,no,\n' > "$work/table"
compared 1 2 'row 1, lw $t0,0($zero), waits in no station'
printf 'Name,Busy,Op,Vj,Vk,Qj\nM,yes,mult,10,14,\nF,yes,mflo,,,M\n' > "$work/table"
compared 0 7 '2 of 2 stations are right'
printf 'Name,Busy,Op\nAdd2,perhaps,\n' > "$work/table"
judged "$listing" "$right" --stations "$work/table" --after 2
is_status 4 'a station that is perhaps busy'
[ "$(cat "$work/out")" = 'unread line 2 cell 2: yes or no is wanted' ] || fail 'a station that is perhaps busy is read'
judged "$listing" "$right" --stations nowhere.csv --after 2
is_status 5 'a table of stations that is not there'
# both halves of a multiplication are in one station
(listing=$work/halves.s right=$work/halves.csv
printf 'addiu $t0,$zero,6\nmult $t0,$t0\nmfhi $t1\nmflo $t2\nbreak\n' > "$listing"
printf 'Issue;Exec;Write;Commit\n1;2;3;4\n2;6;7;8\n3;8;9;10\n4;8;9;10\n5;6;;11\n' > "$right"
printf 'Name,Busy,Op,Vj,Vk,Qj\nM,yes,mult,6,6,\nH,yes,mfhi,,,M\nF,yes,mflo,,,#2\n' > "$work/table"
compared 0 4 '3 of 3 stations are right'
printf 'Name,Busy,Op,Vj,Vk,Qj\nM,yes,mult,6,6,\nH,yes,mfhi,,,#1\nF,yes,mflo,,,M\n' > "$work/table"
compared 1 4 'station 2: Qj: HI comes from row 2.') || exit 1
echo 'tables of stations are compared with the unit'

# files that are no tables
unread() { # what it is, how the answer begins
  judged "$listing" "$work/table"
  is_status 4 "$1"
  grep -q "^unread line $2" "$work/out" || fail "$1: $(head -n 1 "$work/out")"
}
big() { # bytes
  head -c "$1" /dev/zero | tr '\0' 7
}
printf 'Instruction;Issue;Exek;Commit\n' > "$work/table"; unread 'a name that no column has' '1 cell 3: no column has this name'
printf 'Issue;Exec;Begin\n' > "$work/table"; unread 'a column twice' '1 cell 3: an earlier column says the same'
printf 'Exec;Write;Commit\n1;2;3\n' > "$work/table"; unread 'no dispatches' '1: no column says when an instruction is issued'
printf 'Issue;Exec\n1;two\n' > "$work/table"; unread 'a word for a cycle' '2 cell 2: a cycle is wanted'
printf 'Issue;Exec\n1;5-3\n' > "$work/table"; unread 'a range that ends before it begins' '2 cell 2: the range ends'
printf 'Issue;Exec\n1;1000000000000\n' > "$work/table"; unread 'a cycle of 10^12' '2 cell 2: a cycle is wanted'
printf 'Issue;Exec\n1;2;3\n' > "$work/table"; unread 'a cell too many' '2 cell 3: there are more cells than columns'
{ printf 'Issue;Exec\n1;'; big 1000000; echo; } > "$work/table"; unread 'a cell of a megabyte' '2 cell 2: a cycle is wanted'
printf 'Issue;Value\n1;seven\n' > "$work/table"; unread 'a word for a value' '2 cell 2: a number is wanted'
printf 'Issue;Exec;Commit\n1;;3\n' > "$work/table"; unread 'a gap' '2 cell 2: a cycle is missing'
printf 'Instruction;Issue\nadd $t0;1\n' > "$work/table"
judged --grade "$listing" "$work/table"
is_status 4 'an operation that the listing does not have'
{ echo 'Issue;Exec'; yes '1;2' | head -n 2500000; } > "$work/table"; unread 'a table of 10 MB' '100002: a table has at most 100000 rows'
: > "$work/table"
judged --grade "$listing" "$work/table"
is_status 4 'an empty file as a table'
echo 'what is no table is named by line and cell'

for words in '--lets x a b' '--latency lw a b' '--units run=1 a b' '--tsv a b' '--events --grade a b' '--lets 1 a b' '--units addu=1 a b' '--grade --guess a b' '--grade --flush a b' '--grade --after 2 a b' '--events --guess a b' '--events --flush a b' '--events --ruu-size 4 a b' '--events --lsq-size 4 a b' '--events --stations c a b' '--within never a b' '--stage Q a b' '--stage Q=run a b' 'a b c'; do
  # shellcheck disable=SC2086
  judged $words
  is_status 3 "judge $words"
done
judged --grade "$listing" "$right" nowhere.csv
is_status 5 'a table that is not there'
"$judge" judge --grade "$listing" "$right" > /dev/full 2> "$work/err"
status=$?
is_status 5 'a full device'
echo 'options are told apart'
