#!/usr/bin/env bash
# Looks that each comment in the src/ and specs/ of a crate names its subject, so that it is understood by who finds it
# by a search: none begins with The same, It, Or, That or Such, nor does a line of one begin a sentence with these words.
# No comment there or in proofs/ says "so many" for n, "right behind" for after, or "comes to" for results in.
. "$(dirname "$0")/common.bash"

find crates/*/src crates/*/specs -name '*.rt' -o -name '*.antt' | sort | xargs awk '
  FNR == 1 { goes_on = 0 }
  {
    is_comment = match($0, /^[ \t]*(\/\/[\/!]?|--) /)
    words = substr($0, RLENGTH + 1)
    if (!goes_on) words = toupper(substr(words, 1, 1)) substr(words, 2)
    if (is_comment && words ~ /^(The same|It|Or|That|Such)([ ,.:;]|$)/) print FILENAME ":" FNR ": " $0
    goes_on = is_comment
  }' > "$work/found"
[ ! -s "$work/found" ] || { cat "$work/found"; fail 'a comment does not name its subject'; }

find crates/*/src crates/*/specs crates/*/proofs -name '*.rt' -o -name '*.antt' | sort | xargs awk '
  match($0, /(^|[ \t])(\/\/[\/!]?|--) /) && tolower(substr($0, RSTART)) ~ /[^a-z](so many|right behind|comes to)([^a-z]|$)/ {
    print FILENAME ":" FNR ": " $0
  }' > "$work/found"
[ ! -s "$work/found" ] || { cat "$work/found"; fail 'write n for "so many", after for "right behind", results in for "comes to"'; }
echo 'the comments of all crates name their subjects, in plain words'
