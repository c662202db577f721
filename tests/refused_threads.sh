#!/usr/bin/env bash
# Refuses each thread of runs of `ruu` in turn, until none is left to refuse. Each refusal has to end with status 5,
# 'ruu: thread' and no report; a run with all its threads gives its report.
. "$(dirname "$0")/common.bash"
build_refuse
build run ruu

for units in 1 4; do
  # one that dispatches, one that takes snapshots, and the units; the commit thread is the program's own
  threads=$((units + 2))
  for listing in examples/*.s; do
    n=0
    while :; do
      n=$((n + 1))
      run_under /dev/null REFUSED_THREAD=$n crates/ruu/out/ruu run "$listing" --units $units
      $was_refused || break
      is_refused thread || fail "$listing, $units units, thread $n refused: status $status"
    done
    is_whole "${listing%.s}.report" || fail "$listing, $units units, with all its threads: status $status"
    [ $n -eq $((threads + 1)) ] || fail "$listing, $units units: $((n - 1)) threads were refused, and not $threads"
  done
  echo "ruu, $units units: each of $threads threads was refused in turn, for each example"
done
