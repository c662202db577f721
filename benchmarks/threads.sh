#!/usr/bin/env bash
# Prints what the proof costs on threads: the unit that threads share beside twin.c, the same algorithm in plain C, both
# run in turn in this run; and what the design costs: the twin with a queue whose stamps stand beside their values, without
# hints, and with each station's word on a cache line of its own. A ring of 16 stations, a queue of 8, the predictor bimod.
# The threads run on the processors that this script may use (taskset).
#
#   benchmarks/threads.sh [FOLDER]     loop and mixed, and each listing of the folder
#
# LIMIT instructions of each (300,000 by default), TIMES runs of each (9); the middle of them counts.
set -eu
cd "$(dirname "$0")/.."
limit=${LIMIT:-300000}
times=${TIMES:-9}
work=$(mktemp -d)
trap 'rm -rf "$work"' EXIT

(cd crates/examples && rt run -- time < /dev/null > "$work/build.log" 2>&1) || { cat "$work/build.log"; exit 1; }
cc -std=c11 -O2 -pthread -o "$work/twin" benchmarks/twin.c
cc -std=c11 -O2 -pthread -DTOGETHER -o "$work/together" benchmarks/twin.c
cc -std=c11 -O2 -pthread -DNO_HINTS -o "$work/unhinted" benchmarks/twin.c
cc -std=c11 -O2 -pthread -DPADDED -o "$work/padded" benchmarks/twin.c

# the middle of a column of times
middle() { # column, file
  awk -v column="$1" '{ print $column }' "$work/$2" | sort -n | awk '{ t[NR] = $1 } END { print t[int((NR + 1) / 2)] }'
}

listings=(benchmarks/loop.s benchmarks/mixed.s)
[ $# -eq 0 ] || listings+=("$1"/*.s)
echo "                                                                other twins' times by the twin's:"
echo "listing            units   instructions/s   twin's    time by twin's   together   no hints     padded"
for listing in "${listings[@]}"; do
  python3 benchmarks/decode.py "$listing" > "$work/numbers"
  for units in 1 2 4 64; do
    rm -f "$work/here" "$work"/*.times
    for _ in $(seq "$times"); do
      crates/examples/out/examples time $units "$limit" < "$listing" 2>> "$work/here"
      for it in twin together unhinted padded; do
        "$work/$it" "$work/numbers" $units "$limit" >> "$work/$it.times"
      done
    done
    count=$(awk 'NR == 1 { print $2 }' "$work/twin.times")
    echo "$(basename "$listing" .s) $units $count $(middle 4 here) $(middle 1 twin.times) $(middle 1 together.times) $(middle 1 unhinted.times) $(middle 1 padded.times)" |
      awk '{ printf "%-18s %5d %16.0f %8.0f %17.2f %10.2f %10.2f %10.2f\n", $1, $2, $3 * 1e6 / $4, $3 * 1e6 / $5, $4 / $5, $6 / $5, $7 / $5, $8 / $5 }'
  done
done
