#!/usr/bin/env bash
# Prints the processor times of `./ruu commits` and of the library for C as multiples of those of plain C programs, each the least of
# seven in turn: the log of a million instructions through a pipe, beside a program that prints as many such lines by printf; and
# the steps of a listing, by ruu_step and by ruu_run, beside those of step.c, which does the same, and beside the interpreter of
# interpreter.c, which decodes beforehand. Before that, agree.c has to find no word and state in which the library and step.c differ.
set -eu
cd "$(dirname "$0")/.."
work=$(mktemp -d)
trap 'rm -rf "$work"' EXIT
TIMEFORMAT='%U %S'

[ -n "${BUILT:-}" ] || ./prove commit_log words ruu_step

cat > "$work/lines.c" << 'C'
#include <stdio.h>
int main(void) {
    unsigned pc = 0x400000, value = 0;
    for (int k = 0; k < 1000000; k++, pc = 0x400000 + (pc + 4) % 64) printf("core   0: 3 0x%08x (0x%08x) x%-2d 0x%08x\n", pc, 0x24420001u, 2, value++);
    return 0;
}
C
cc -O2 -o "$work/lines" "$work/lines.c"

# a command's processor time through a pipe, with that of the system, onto the end of a file
piped() { # file, command
  { time "${@:2}" 2>&3 | cat > /dev/null; } 3>&2 2> "$work/took" || true
  awk '{ print $1 + $2 }' "$work/took" >> "$work/$1"
}

least() { # column, file
  awk -v column="$1" 'NR == 1 || $column < least { least = $column } END { print least }' "$work/$2"
}

for _ in 1 2 3 4 5 6 7; do
  piped log crates/commit_log/out/commit_log commits tests/listings/limit.s
  piped printed "$work/lines"
done
awk -v log_="$(least 1 log)" -v lines="$(least 1 printed)" 'BEGIN { printf "%-24s %6.2f s   C %6.2f s   ratio %.1f\n", "a million lines", log_, lines, log_ / lines }'

library=crates/ruu_step/out/libruu_step.a
c() { cc -O2 -I crates/ruu_step -o "$work/$1" "${@:2}"; } # what is made, from what
c steps benchmarks/steps.c "$library"
c plain benchmarks/steps.c benchmarks/step.c
c plain.o -c -Druu_step=plain_step -Druu_run=plain_run benchmarks/step.c
c agree benchmarks/agree.c "$work/plain.o" "$library"
"$work/agree" 200000

for program in loop mixed; do
  python3 benchmarks/assemble.py "benchmarks/$program.s" > "$work/program.h"
  cc -O2 -I "$work" -o "$work/interpreter" benchmarks/interpreter.c
  crates/words/out/words words "benchmarks/$program.s" > "$work/words"
  rm -f "$work"/*.step "$work"/*.run "$work/decoded"
  for _ in 1 2 3 4 5 6 7; do
    "$work/interpreter" >> "$work/decoded"
    for how in step run; do
      for by in steps plain; do
        "$work/$by" $how 4294967295 < "$work/words" >> "$work/$by.$how"
      done
    done
  done
  for how in step run; do
    awk -v name="ruu_$how, $program" -v n="$(least 1 steps.$how)" -v here="$(least 3 steps.$how)" -v plain="$(least 3 plain.$how)" \
      -v m="$(least 2 decoded)" -v decoded="$(least 4 decoded)" 'BEGIN {
        printf "%-24s %6.1f ns  C %6.2f ns  ratio %.1f", name, here / n * 1e9, plain / n * 1e9, here / plain
        printf "  decoded beforehand %6.2f ns  ratio %.1f\n", decoded / m * 1e9, here / n / (decoded / m)
      }'
  done
done
