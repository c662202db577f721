#!/usr/bin/env bash
# Runs each command of each page, of the README and of docs/, against the built programs, and fails where a page and a
# program disagree. Commands that prove or build are not run, but have to be there; so has each file that a page names.
# Pages that a script writes, as crates/README.md, have to be as it writes them.
. "$(dirname "$0")/common.bash"
for program in ruu alone checker chart commit_log drive judge listing; do
  build run $program
done
python3 -B tests/pages.py || fail 'the pages disagree with the programs'
