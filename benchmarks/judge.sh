#!/usr/bin/env bash
# Prints how many events a second `./ruu judge` judges in a log of a loop, how many times as long it takes as plain C (split.c) takes
# to cut the log into lines and words, and its memory: for two lengths of the log, and for 16 and 64 instructions in flight.
set -eu
cd "$(dirname "$0")/.."
work=$(mktemp -d)
trap 'rm -rf "$work"' EXIT
judge=crates/judge/out/judge
cc -O2 -o "$work/split" benchmarks/split.c

# the least of seven, in microseconds
least() { # command
  for _ in 1 2 3 4 5 6 7; do
    local began=${EPOCHREALTIME/./}
    "$@" > /dev/null
    echo $((${EPOCHREALTIME/./} - began))
  done | sort -n | head -n 1
}

for rounds in 4000 16000; do
  python3 benchmarks/judge.py listing $rounds > "$work/loop.s"
  for flight in 16 64; do
    python3 benchmarks/judge.py log $rounds $flight > "$work/loop.log"
    events=$(wc -l < "$work/loop.log")
    took=$(least "$judge" judge "$work/loop.s" "$work/loop.log")
    split=$(for _ in 1 2 3 4 5 6 7; do "$work/split" "$work/loop.log"; done | awk '{ print int($3 * 1e6) }' | sort -n | head -n 1)
    memory=$(/usr/bin/time -f %M "$judge" judge "$work/loop.s" "$work/loop.log" 2>&1 > /dev/null)
    awk -v events="$events" -v flight=$flight -v took="$took" -v plain="$split" -v memory="$memory" 'BEGIN {
      printf "%7d events, %2d in flight  %.1f million a second  ratio %4.1f  %d kB\n", events, flight, events / took, took / plain, memory
    }'
  done
done
