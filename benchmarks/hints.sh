#!/usr/bin/env bash
# Prints what hints cost or save: the unit shared by threads where units find work by hints, beside the same before
# there were hints, both measured in turn in this run, each time after the one-thread unit in the same process. The
# commit before is built in a worktree of its own, once (BEFORE names a folder that has it already, and COMMIT another
# commit to stand beside). The unit has a ring of 16 stations and the predictor bimod. The threads run on the processors
# that this script may use (taskset).
set -eu
cd "$(dirname "$0")/.."
commit=${COMMIT:-911126a}
before=${BEFORE:-$PWD/../before_$commit}
limit=${LIMIT:-300000}
times=${TIMES:-5}
work=$(mktemp -d)
trap 'rm -rf "$work"' EXIT

[ -d "$before" ] || git worktree add -q --detach "$before" "$commit"

# In older commits the program that times a listing is a crate of its own.
built() { # tree
  local crate=examples words=(-- time)
  [ ! -d "$1/crates/speed" ] || { crate=speed; words=(); }
  (cd "$1/crates/$crate" && rt run "${words[@]}" < /dev/null > "$work/build.log" 2>&1) || { cat "$work/build.log"; exit 1; }
}

timed() { # tree, words
  if [ -d "$1/crates/speed" ]; then
    "$1/crates/speed/out/speed" "${@:2}"
  else
    "$1/crates/examples/out/examples" time "${@:2}"
  fi
}

built .
built "$before"

# the least and the middle of a column of times
shown() { # column, file
  awk -v column="$1" '{ print $column }' "$work/$2" | sort -n |
    awk '{ t[NR] = $1 } END { print t[1], t[int((NR + 1) / 2)] }'
}

echo "               instructions a second, best and middle of $times"
echo "program units            today       at $commit      ratio best  middle"
for program in loop mixed; do
  for units in 1 2 4 16 64; do
    rm -f "$work/with" "$work/before"
    for _ in $(seq "$times"); do
      timed . $units "$limit" < "benchmarks/$program.s" 2>> "$work/with"
      timed "$before" $units "$limit" < "benchmarks/$program.s" 2>> "$work/before"
    done
    echo "$program $units $limit $(shown 4 with) $(shown 4 before)" |
      awk '{ r = $3 * 1e6; printf "%-7s %5d %8.0f %8.0f %9.0f %8.0f %12.2f %7.2f\n", $1, $2, r / $4, r / $5, r / $6, r / $7, $6 / $4, $7 / $5 }'
  done
done
