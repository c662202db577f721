#!/usr/bin/env bash
# Prints how the parser, the in-order machine and the one-thread unit compare with plain C programs of the same work,
# the one-thread unit with SPIM, where that is installed, and the unit shared by threads with the one-thread unit, all
# measured in this run. The unit has a ring of 16 stations and the predictor bimod. The threads run on the processors
# that this script may use (taskset).
set -eu
cd "$(dirname "$0")/.."
work=$(mktemp -d)
trap 'rm -rf "$work"' EXIT

(cd crates/examples && rt run -- time < /dev/null > "$work/build.log" 2>&1) || { cat "$work/build.log"; exit 1; }

# runs the yardstick and program examples on a listing in turn, seven times
measure() { # listing, yardstick with its arguments
  local listing=$1
  shift
  for _ in 1 2 3 4 5 6 7; do
    "$@" >> "$work/yardstick"
    crates/examples/out/examples time < "$listing" 2>> "$work/here"
  done
}

# the least of a column
least() { # column, file
  awk -v column="$1" 'NR == 1 || $column < least { least = $column } END { print least }' "$work/$2"
}

ratio() { # name, column of what is measured, in microseconds
  awk -v name="$1" -v here="$(least "$2" here)" -v c="$(least 3 yardstick)" \
    'BEGIN { printf "%-28s %9.1f ms   C %9.1f ms   ratio %.2f\n", name, here / 1000, c * 1000, here / 1e6 / c }'
}

# SPIM on the loop, where it is installed, beside the one-thread unit. It keeps register 1 for itself.
spim_on_loop() {
  command -v spim > /dev/null || return 0
  # shellcheck disable=SC2016
  { printf '.text\n.globl main\nmain:\n'; sed -E 's/#.*//; s/\$1\>/$9/g; s/\<break\>/ori $2,$0,10\nsyscall/' benchmarks/loop.s; } > "$work/loop.asm"
  for _ in 1 2 3; do
    local started
    started=$(date +%s%N)
    spim -file "$work/loop.asm" > /dev/null 2>&1
    echo $((($(date +%s%N) - started) / 1000)) >> "$work/spim"
  done
  awk -v spim="$(least 1 spim)" -v here="$(least 4 here)" \
    'BEGIN { printf "%-28s %9.1f ms   one-thread unit %9.1f ms   ratio %.1f\n", "SPIM, loop", spim / 1000, here / 1000, spim / here }'
}

for program in loop mixed; do
  python3 benchmarks/assemble.py "benchmarks/$program.s" > "$work/program.h"
  cc -O2 -I "$work" -o "$work/interpreter" benchmarks/interpreter.c
  rm -f "$work/here" "$work/yardstick"
  measure "benchmarks/$program.s" "$work/interpreter"
  ratio "in-order machine, $program" 3
  ratio "one-thread unit, $program" 4
  [ "$program" != loop ] || spim_on_loop
done

cc -O2 -o "$work/split" benchmarks/split.c
for width in 40 12 7; do
  python3 benchmarks/listing.py $width > "$work/listing.s"
  rm -f "$work/here" "$work/yardstick"
  measure "$work/listing.s" "$work/split" "$work/listing.s"
  ratio "parser, $(grep -c : "$work/listing.s") labels" 2
done

# 300,000 instructions by threads, and by the one-thread unit in the same process, five times; the best of each
for program in loop mixed; do
  for units in 1 2 4 64; do
    rm -f "$work/here"
    for _ in 1 2 3 4 5; do
      crates/examples/out/examples time $units 300000 < "benchmarks/$program.s" 2>> "$work/here"
    done
    awk -v name="threads, $program, $units units" -v alone="$(least 3 here)" -v pool="$(least 4 here)" \
      'BEGIN { printf "%-28s %9.0f instructions/s   one thread %9.0f   ratio %.3f\n", name, 3e11 / pool, 3e11 / alone, alone / pool }'
  done
done
