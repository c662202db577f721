#!/usr/bin/env bash
# Prints what runs of `ruu` allocate: the most bytes at a time, and how many blocks in all. Needs valgrind, and
# crates/ruu/out/ruu as ./prove leaves it. A run of few instructions and one of many allocate as many blocks.
set -eu
cd "$(dirname "$0")/.."
work=$(mktemp -d)
trap 'rm -rf "$work"' EXIT

# n instructions, labels at a number of them, and d bytes of data
listing() { # n, labels, d
  awk -v n="$1" -v labels="$2" -v d="$3" 'BEGIN {
    if (d) print ".space " d
    for (i = 1; i < n; i++) printf "%saddiu $1,$1,1\n", i <= labels ? "L" i ": " : ""
    print "break" }'
}

# The most bytes at a time and the blocks in all of a run, two numbers, as valgrind counts them.
allocated() { # words of ruu, FILE last
  valgrind --tool=dhat --dhat-out-file=/dev/null crates/ruu/out/ruu "$@" 2>&1 > /dev/null |
    sed -nE 's/.*Total: .* in ([0-9,]+) blocks.*/\1/p; s/.*t-gmax: +([0-9,]+) bytes.*/\1/p' |
    tr -d , | { read -r blocks; read -r most; echo "$most $blocks"; }
}

echo "instructions  labels   data  listing   most bytes   2 (24 n + 48 l + b + d) + 28,000"
for sizes in "10 0 0" "1000 0 0" "1000 0 60000" "16000 0 0" "16000 0 60000" "16000 15999 0"; do
  read -r n labels d <<< "$sizes"
  listing "$n" "$labels" "$d" > "$work/l.s"
  b=$(wc -c < "$work/l.s")
  read -r most _ <<< "$(allocated run --alone "$work/l.s")"
  printf '%12d %7d %6d %8d %12d %12d\n' "$n" "$labels" "$d" "$b" "$most" $((2 * (24 * n + 48 * labels + b + d) + 28000))
done

echo
echo "instructions run   blocks alone   on threads"
for limit in 10 1000 100000; do
  read -r _ alone <<< "$(allocated run --alone --limit $limit benchmarks/loop.s)"
  read -r _ threads <<< "$(allocated run --limit $limit benchmarks/loop.s)"
  printf '%16d %14d %12d\n' $limit "$alone" "$threads"
done
