#!/usr/bin/env bash
# Looks that each edit applies: the text that it replaces stands once in its file; and tries those of the folders `edits`, each of
# which a check has to refuse. `./check --all-edits` tries those of `more_edits` too.
. "$(dirname "$0")/common.bash"
python3 tests/edits.py || fail 'an edit does not apply, or is not refused'
