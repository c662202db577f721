#!/usr/bin/env bash
# Measures the one-thread unit on whole programs: for each listing NAME.s of a folder that has a file NAME.expected
# beside it, prints how many instructions of the processor the unit takes for one of the listing, counted by
# valgrind, and its processor time beside that of a plain C interpreter (interpreter.c) of the same listing; then the
# geometric means. NAME.expected has the lines `count N` and `report SHA-256`, of the whole run and its report.
#
#     benchmarks/real.sh FOLDER [--ring N] [--queue N] [--limit N]
#
# Instructions are counted up to a limit (1,000,000): those of a run up to it, less those of a run of one instruction,
# which reads and decodes the listing too. Times are the least of five whole runs, less the least of five of one instruction.
set -eu
here=$(cd "$(dirname "$0")" && pwd)
folder=$(realpath "${1:?the folder of the listings}")
shift
work=$(mktemp -d)
trap 'rm -rf "$work"' EXIT

"$here/../prove" ruu
for listing in "$folder"/*.s; do
  name=$(basename "$listing" .s)
  [ -e "$folder/$name.expected" ] || continue
  mkdir "$work/$name"
  python3 "$here/assemble.py" "$listing" > "$work/$name/program.h"
  cc -O2 -I "$work/$name" -o "$work/$name/interpreter" "$here/interpreter.c"
done
python3 "$here/real.py" "$here/../crates/ruu/out/ruu" "$folder" "$work" "$@"
