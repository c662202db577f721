#!/usr/bin/env bash
# A run on threads ends with the tally of its steps. With `--progress` it tells on standard error each tally that it has
# counted when it shows: each 64 instructions and at the end, with the retirements shown. On a terminal of 80 columns that
# stays on one line. One thread alone tells nothing.
. "$(dirname "$0")/common.bash"
build run ruu
ruu=crates/ruu/out/ruu

for units in 1 4; do
  $ruu run examples/double.s --units $units > "$work/out" 2> "$work/err" || fail "$units units: status $?"
  grep -qxE 'tally lets 3 claims 3 finishes 3 stale 0 loads 0 retires 2 squashes 0 mends 0 hints [0-3] renewals 0' "$work/err" \
    || fail "$units units: another tally"
  $ruu run examples/rows/two_mispredictions.s --bpred nottaken --ruu-size 2 --units $units > "$work/out" 2> "$work/err" \
    || fail "$units units: status $?"
  grep -qE '^tally .* mends 2 ' "$work/err" || fail "$units units: not two mispredictions"
done
echo 'ruu: each step is counted once, and two mispredictions are two'

printf 'ori $1,$0,300\nL: addiu $1,$1,-1\nbne $1,$0,L\nbreak\n' > "$work/loop.s"
numbers='claims [0-9]+ finishes [0-9]+ stale [0-9]+ loads 0 retires ([0-9]+) squashes [0-9]+ mends [0-9]+ hints [0-9]+ renewals 0'

for units in 1 4; do
  $ruu run "$work/loop.s" --progress --units $units > "$work/out" 2> "$work/err" || fail "$units units: status $?"
  told=$(sed -nE "s/^progress lets [0-9]+ $numbers\$/\1/p" "$work/err" | tr '\n' ' ')
  [ "$told" = '64 128 192 256 320 384 448 512 576 601 ' ] || fail "$units units: told of retirements $told"
  [ "$(wc -l < "$work/err")" -eq 11 ] || fail "$units units: other lines than ten of the progress and one tally"
  tail -n 1 "$work/err" | grep -qE "^tally lets [0-9]+ $numbers\$" || fail "$units units: the last line is no tally"
done
echo "ruu: each tally is told with the retirements shown, with one unit and with four"

# Rows of a terminal of 80 columns behind a run that takes some tenths of a second: what is left of the progress is one.
printf 'lui $1,8\nL: addiu $1,$1,-1\nbne $1,$0,L\nbreak\n' > "$work/long.s"
python3 - "$ruu" "$work/long.s" > "$work/rows" <<'END' || fail 'the run on a terminal'
import fcntl, os, pty, re, struct, sys, termios
WIDTH = 80
pid, terminal = pty.fork()
if pid == 0:
    os.execv(sys.argv[1], [sys.argv[1], "run", sys.argv[2], "--progress"])
fcntl.ioctl(terminal, termios.TIOCSWINSZ, struct.pack("HHHH", 24, WIDTH, 0, 0))
told = b""
while True:
    try:
        more = os.read(terminal, 4096)
    except OSError:
        break
    if not more:
        break
    told += more
status = os.waitstatus_to_exitcode(os.waitpid(pid, 0)[1])
rows, row, column, wrote = [""], 0, 0, 0
for part in re.findall(r"\x1b\[A|[^\x1b]", told.decode("ascii"), re.S):
    if part == "\x1b[A":
        row, wrote = max(row - 1, 0), wrote + 1
    elif part == "\r":
        column = 0
    elif part == "\n":
        row += 1
    else:
        if column == WIDTH:
            row, column = row + 1, 0
        while len(rows) <= row:
            rows.append("")
        rows[row] = rows[row][:column].ljust(column) + part + rows[row][column + 1:]
        column += 1
print(status, wrote)
print(*rows, sep="\n")
END
read -r status wrote < "$work/rows"
[ "$status" -eq 4 ] && [ "$wrote" -ge 2 ] || fail "on a terminal: status $status, written over $wrote times"
[ "$(sed -n 2p "$work/rows" | grep -cE '^progress retires [0-9]+ lets [0-9]+ mends [0-9]+$')" -eq 1 ] \
  && [ "$(sed -n 3p "$work/rows")" = limit ] || fail "the progress is not one row of a terminal: $(cat "$work/rows")"
echo "ruu: on a terminal of 80 columns the progress is one row, written over $wrote times"

$ruu run "$work/loop.s" --progress --alone > "$work/out" 2> "$work/err" || fail "alone: status $?"
[ ! -s "$work/err" ] || fail 'one thread alone told something'
echo 'ruu: one thread alone tells nothing'
