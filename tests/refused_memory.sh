#!/usr/bin/env bash
# Refuses each allocation of whole runs in turn, until none is left to refuse: of `alone`, and of `ruu` on one thread and
# on several, on the examples and on a listing with a fault. A refusal has to end with status 5, 'ruu: memory' (or
# 'ruu: thread', once for each thread) and no report, or in the very report that the run with all its memory has. Then
# each allocation of the snapshots that a run shows, which is always 'ruu: memory'.
. "$(dirname "$0")/common.bash"
build_refuse
build run alone
build run ruu

# The tally's line counts what the report does; no other whole run says anything on standard error.
is_said() { # report, whether it runs on threads
  local count
  count=$(sed -n 's/^count //p' "$1")
  if [ "$2" = threads ] && [ -n "$count" ]; then
    local n='[0-9]+'
    [[ $said =~ ^tally\ lets\ $n\ claims\ $n\ finishes\ $n\ stale\ $n\ loads\ $n\ retires\ $count\ squashes\ $n\ mends\ $n\ hints\ $n\ renewals\ 0$ ]]
  else
    [ -z "$said" ]
  fi
}

# Whether a refusal that changes nothing is a mistake.
is_each_told=false

refuse() { # name, threads or alone, how many threads want memory, listing, report, command with its variables
  local name=$1 how=$2 threads=$3 listing=$4 report=$5 n=0 refused=0 unstarted=0
  local of=${report%.report}
  shift 5
  while :; do
    n=$((n + 1))
    run_under "$listing" REFUSED=$n "$@"
    $was_refused || break
    if is_refused memory; then
      refused=$((refused + 1))
    elif is_refused thread; then
      unstarted=$((unstarted + 1))
    else
      is_whole "$report" && is_said "$report" "$how" || fail "$name, $of, allocation $n refused: status $status"
    fi
  done
  is_whole "$report" && is_said "$report" "$how" || fail "$name, $of, with all its memory: status $status"
  [ $refused -gt 0 ] || fail "$name, $of: no refusal was told of, of $((n - 1))"
  ! $is_each_told || [ $refused -eq $((n - 1)) ] || fail "$name, $of: of $((n - 1)) refusals $refused were told of"
  [ $unstarted -eq "$threads" ] || fail "$name, $of: $unstarted threads were not started, and not $threads"
  echo "$name, $of: each of $((n - 1)) allocations was refused in turn, $((refused + unstarted)) told"
}

for listing in examples/*.s tests/listings/*.s; do
  report=${listing%.s}.report
  refuse alone alone 0 "$listing" "$report" crates/alone/out/alone
  refuse 'ruu --alone' alone 0 /dev/null "$report" crates/ruu/out/ruu run "$listing" --alone
done
# two units, one that dispatches, and one that takes snapshots
for listing in examples/*.s; do
  refuse ruu threads 4 /dev/null "${listing%.s}.report" crates/ruu/out/ruu run "$listing" --units 2
done
listing=tests/listings/fault
refuse ruu threads 0 /dev/null $listing.report crates/ruu/out/ruu run $listing.s --units 2

# Once the threads of a run with one unit have been started, dispatch, unit and snapshots, memory is taken for what is shown, and for
# the report if no thread has to be joined: each refusal is told. The longer listing is shown first after 64 instructions, and the
# shorter one at its end.
is_each_told=true
for listing in fibonacci double; do
  refuse 'ruu, what it shows' threads 0 /dev/null examples/$listing.report \
    WHILE_THREADS=3 crates/ruu/out/ruu run examples/$listing.s --units 1
done
