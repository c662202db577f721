#!/usr/bin/env bash
# Compiles a program to an executable: ./compile.sh [-o NAME.elf] [FLAG..] FILE.. makes one of all its files, in C (.c) or
# assembly (.s, and .S behind the preprocessor), which may be anywhere; without -o it stands beside the first file, with its name.
# With no file the programs of this folder are compiled, one after the other. Files in assembly alone that have a label `_start`
# or `__start` begin there; others begin in start.S, which calls `main`. The flags -O*, -D*, -I*, -U*, -W*, -std=* and -g are passed
# on to the compiler, after those below.
# It needs Debian's cross compiler: apt-get install gcc-mipsel-linux-gnu. Another one is named by CC=..
set -eu
here=$(dirname "$(readlink -f "${BASH_SOURCE[0]}")")
flags=(
  -O2 -ffreestanding -nostdlib -static
  -march=mips1 -msoft-float           # the operations of MIPS I, and no floating point
  -mno-abicalls -fno-pic -G0          # addresses as the linker script has them
  -fno-delayed-branch                 # nothing but nop in a delay slot
  -mno-check-zero-division            # no trap where a divisor is 0
  -fno-store-merging -fno-expensive-optimizations # no bytes joined to words: no lwl, lwr, swl, swr
  -fno-tree-loop-distribute-patterns  # no call of memset or memcpy in place of a loop
  -fno-inline -fno-ipa-cp -fno-ipa-sra  # each function stays one, under its own name
  -fno-asynchronous-unwind-tables
)
cc=${CC:-mipsel-linux-gnu-gcc}
work=$(mktemp -d)
trap 'rm -rf "$work"' EXIT

# Compiles some files, and links them behind what they begin with.
link() { # executable, files
  local to=$1 objects=() file
  shift
  for file in "$@"; do
    objects+=("$work/${#objects[@]}.o")
    "$cc" "${flags[@]}" -c -o "${objects[-1]}" "$file"
  done
  begin "$@"
  "$cc" "${flags[@]}" -T "$here/link.ld" -Wl,-n,--build-id=none,-e,"$entry" -o "$to" "$work/start.o" "${objects[@]}"
}

# Where a program begins: in start.S, which calls `main`, or the label of its own that is called in the place of that.
begin() { # files
  local file own=
  for file in "$@"; do
    [[ $file != *.c ]] || { own= && break; }
    own=${own:-$(sed -nE 's/^[[:space:]]*(__?start)[[:space:]]*:.*/\1/p' "$file" | head -n 1)}
  done
  entry=_start
  [ -z "$own" ] || entry=_begin
  sed "s/_start/$entry/; s/jal     main/jal     ${own:-main}/" "$here/start.S" > "$work/start.S"
  "$cc" "${flags[@]}" -c -o "$work/start.o" "$work/start.S"
}

to=
while [ $# -gt 0 ]; do
  case $1 in
    -o) to=${2:?a name behind -o} && shift ;;
    -[DIU]) flags+=("$1" "${2:?a name behind $1}") && shift ;;
    -Wl,* | -Wa,* | -Wp,*) echo "compile.sh: $1: no flag that is passed on" >&2; exit 1 ;;
    -O* | -D* | -I* | -U* | -W* | -std=* | -g*) flags+=("$1") ;;
    -*) echo "compile.sh: $1: no flag that is passed on" >&2; exit 1 ;;
    *) break ;;
  esac
  shift
done
if [ $# -eq 0 ]; then
  for file in "$here"/*.c; do
    link "${file%.c}.elf" "$file"
  done
  exit
fi
files=()
for file in "$@"; do
  # a name without its ending is that of a program of this folder
  [[ $file == *.[csS] ]] || { [ -f "$here/$file.c" ] && file=$here/$file.c; } || { echo "compile.sh: $file: neither .c, .s nor .S" >&2; exit 1; }
  files+=("$file")
done
link "${to:-${files[0]%.*}.elf}" "${files[@]}"
