# What the scripts of this folder share. Each is run from anywhere, builds what it needs and is not there, and ends
# with a status other than 0 where something is not as it has to be. With BUILT=1, which says that the programs were
# built just now, none is built.
set -u
cd "$(dirname "${BASH_SOURCE[0]}")/.." || exit 1
work=$(mktemp -d) || exit 1
trap 'rm -rf "$work"' EXIT

fail() { # what is wrong
  printf 'FAILED: %s\n' "$*"
  [ ! -s "$work/err" ] || sed 's/^/  /' "$work/err"
  exit 1
}

# Proves and builds a crate's program, or with `test` its tests, where the code is newer.
build() { # run or test, crate
  local file=crates/$2/out/$2
  [ "$1" = run ] || file=${file}_tests
  [ ! -x "$file" ] || [ -n "$(find crates.txt crates/*/src -newer "$file" -print -quit)" ] || return 0
  [ -z "${BUILT:-}" ] || fail "$file was not built"
  local began=$EPOCHREALTIME
  # rt leaves an older one where the proof fails
  rm -f "$file"
  (cd "crates/$2" && rt "$1" < /dev/null > "$work/log" 2>&1)
  [ -x "$file" ] || { tail -n 40 "$work/log"; fail "$file cannot be built"; }
  touch -d "@$began" "$file"
}

# Builds the library for C, which `rt ci` proves and does not build.
build_step() {
  [ -z "${BUILT:-}" ] || python3 tests/built.py ruu_step
  (cd crates/ruu_step && rt lib < /dev/null > "$work/log" 2>&1) || { tail -n 40 "$work/log"; fail "the library cannot be built"; }
}

# The library that refuses, by the kit's own compiler.
build_refuse() {
  local kit
  kit=$(dirname "$(rt doc)")
  "$kit/toolchain/bin/clang" -O2 -shared -fPIC -nostdlib -fuse-ld=lld -o "$work/refuse.so" tests/refuse.c \
    || fail "tests/refuse.c does not compile"
}

# Runs a command under that library, with variables that say what is refused before it. Sets `status`, whether something
# was refused, whether a block was held at the end, and what the program itself said on standard error.
run_under() { # listing, VARIABLE=number .., command
  local listing=$1 line lines
  shift
  env LD_PRELOAD="$work/refuse.so" "$@" < "$listing" > "$work/out" 2> "$work/err"
  status=$? was_refused=false is_held=false said=
  mapfile -t lines < "$work/err"
  for line in "${lines[@]}"; do
    case $line in
      refused) was_refused=true ;;
      held) is_held=true ;;
      *) said+=$line ;;
    esac
  done
}

# The exit status that goes with a report.
status_of() { # report
  local first
  read -r first < "$1"
  case $first in
    'stop break') echo 0 ;;
    stop*) echo 1 ;;
    'fault line'*) echo 2 ;;
    limit) echo 4 ;;
    *) fail "$1 is no report" ;;
  esac
}

# The last run wrote the report, ended with its status, and held no block.
is_whole() { # report
  [ "$status" -eq "$(status_of "$1")" ] && cmp -s "$work/out" "$1" && ! $is_held
}

# The last run wrote nothing, ended with status 5 and said just this word, and held no block.
is_refused() { # memory or thread
  [ "$status" -eq 5 ] && [ ! -s "$work/out" ] && [ "$said" = "ruu: $1" ] && ! $is_held
}
