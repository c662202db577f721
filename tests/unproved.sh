#!/usr/bin/env bash
# Compiles and runs the tests of tests/unproved, which need no proof, in a copy of the repository in which they are a crate.
# They are named as Rust, which they nearly are: `rt ci` takes no Rattle file that no check reads.
. "$(dirname "$0")/common.bash"
uses='instructions isa lsq counted_io inorder one_thread own_model in_order_issue lookahead load_ahead dual_issue bench ruu_words encoding station snapshots front back hints counts
  workers committing pool command_line on_threads command'
tar cf - HANDLES crates/*/src crates/*/specs crates/*/proofs | tar xf - -C "$work"
{ cat crates.txt; echo "unproved tests_may=Threads+Wait:" $uses; } > "$work/crates.txt"

crate=$work/crates/unproved from=$PWD/tests/unproved
while read -r file; do
  install -D -m 644 "$from/$file" "$crate/${file%.rs}.rt"
done < <(cd "$from" && find src -name '*.rs')
python3 tests/unproved/examples.py > "$crate/src/examples.rt"
cd "$crate" || exit 1
rt fmt > "$work/log" 2>&1 || { cat "$work/log"; fail 'rt fmt'; }
while read -r file; do
  cmp -s "$file" "$from/${file%.rt}.rs" || fail "tests/unproved/${file%.rt}.rs is not as rt fmt writes it"
done < <(find src -name '*.rt' ! -name examples.rt)
rt try --test > "$work/log" 2>&1 || { tail -n 40 "$work/log"; fail 'a test of tests/unproved'; }
count=$(find src -name '*.rt' -exec cat {} + | grep -c '^ *#\[test\]')
grep "^test result: ok\. $count passed" "$work/log" || fail "not each of the $count tests of tests/unproved ran: is a mod line missing?"
processors=$(nproc)
[ "$processors" -ge 4 ] || echo "skipped: that a second unit is active for the work, where there are $processors processors"
