#!/usr/bin/env bash
# Refuses each allocation of a test of whole runs in turn, until none is left to refuse: a run on threads that renews. What
# is refused is tried again in this test, so that each run has to end well, and to hold no block at its end. (A core, a
# renewal, a commit side, a snapshot that is shown and a run that is told are refused memory by tests/drive.sh and
# tests/chart.sh.)
. "$(dirname "$0")/common.bash"
build_refuse

while read -r crate name; do
  build test "$crate"
  n=0
  while :; do
    n=$((n + 1))
    run_under /dev/null REFUSED=$n "crates/$crate/out/${crate}_tests" "$name"
    [ "$status" -eq 0 ] && ! $is_held || fail "$crate, $name, allocation $n: status $status, expected 0 with no block held"
    $was_refused || break
  done
  [ $n -gt 1 ] || fail "$crate, $name: no allocation was refused"
  echo "$crate, $name: each of $((n - 1)) allocations was refused in turn"
done <<'END_OF_TESTS'
proved_tests threads::renewals::a_run_that_is_refused_memory_renews_at_the_next_try
END_OF_TESTS
