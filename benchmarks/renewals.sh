#!/usr/bin/env bash
# Runs ten million instructions on threads with two stations and few tags each, so that the tags are spent and renewed
# thousands of times, and compares the report with that of the one-thread unit. Prints how often the core was renewed,
# and what a renewal cost: the same run without renewals, in turn in this run, takes so much less time.
set -eu
cd "$(dirname "$0")/.."
limit=${LIMIT:-10000000}
tags=${TAGS:-1000}
units=${UNITS:-2}
work=$(mktemp -d)
trap 'rm -rf "$work"' EXIT

(cd crates/examples && rt run -- time < /dev/null > "$work/build.log" 2>&1) || { cat "$work/build.log"; exit 1; }

# microseconds on threads, instructions, renewals; the program ends with a status above 0 where the reports differ
timed() { # first tag
  crates/examples/out/examples time "$units" "$limit" 2 "$1" < benchmarks/loop.s 2> "$work/said" || { echo "other reports, or no run: $(cat "$work/said")" >&2; exit 1; }
  sed -nE 's/^[0-9]+ ([0-9]+) [0-9]+ ([0-9]+) .*renewals: ([0-9]+).*$/\2 \1 \3/p' "$work/said"
}

with=$(timed $((268435455 - tags)))
without=$(timed 1)
echo "$with $without" | awk '{
  printf "%d instructions, %d renewals, %.1f s; without renewals (%d) %.1f s\n", $2, $3, $1 / 1e6, $6, $4 / 1e6
  printf "a renewal: %.1f microseconds\n", ($1 - $4) / $3
}'
