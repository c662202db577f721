#!/usr/bin/env bash
# Prints from how long an instruction takes on threads win: each unit thread takes a number of nanoseconds longer for what it
# has claimed, and the one-thread unit is reckoned with its own time and as many for each instruction of the report,
# so without those on wrong paths. The least of three runs each. The unit has a ring of 16 stations and the predictor
# bimod. The threads run on the processors that this script may use (taskset).
set -eu
cd "$(dirname "$0")/.."
limit=${LIMIT:-100000}
times=${TIMES:-3}
work=$(mktemp -d)
trap 'rm -rf "$work"' EXIT

(cd crates/examples && rt run -- time < /dev/null > "$work/build.log" 2>&1) || { cat "$work/build.log"; exit 1; }

echo "program  longer by   one thread, reckoned / shared: with 1 unit   2 units   4 units"
for program in loop mixed; do
  for longer in 250 500 1000 2000 4000 8000; do
    line=''
    for units in 1 2 4; do
      rm -f "$work/times"
      for _ in $(seq "$times"); do
        crates/examples/out/examples time "$units" "$limit" 16 1 "$longer" < "benchmarks/$program.s" 2>> "$work/times"
      done
      line="$line $(awk -v longer="$longer" \
        'NR == 1 || $3 < alone { alone = $3 } NR == 1 || $4 < shared { shared = $4 }
         END { printf "%.2f", (alone + $1 * longer / 1000) / shared }' "$work/times")"
    done
    # shellcheck disable=SC2086
    printf '%-7s %8s ns %47s %9s %9s\n' "$program" "$longer" $line
  done
done
