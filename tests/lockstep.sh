#!/usr/bin/env bash
# The static library and its callers, where there is a C compiler: an independent model agrees with it, through ruu.py, on
# 60,000 random words and states, in what a step tells, and in many steps at once; the simulators of examples/lockstep, which
# have a mistake that was planted, differ where the mistake shows, and without it nowhere; a step refuses sizes that no program
# has, and ruu.py areas that are none. `rt ci` proves the library and builds none, so this does.
. "$(dirname "$0")/common.bash"
command -v cc > /dev/null || { echo "no C compiler: the library was not built"; exit 0; }

build_step
archive=crates/ruu_step/out/libruu_step.a
cc -shared -o "$work/libruu.so" -Wl,--whole-archive "$archive" -Wl,--no-whole-archive || fail "no shared library of $archive"
python3 tests/lockstep.py "$work/libruu.so" 60000 || fail "the model differs"

# a caller has to end with this status and say this
says() { # status, text, command
  "${@:3}" > "$work/out" 2> "$work/err"
  status=$?
  [ $status -eq "$1" ] || fail "${*:3}: status $status, and not $1"
  grep -qF -- "$2" "$work/out" || { cat "$work/out"; fail "${*:3}: another text"; }
}

flags=(-std=c11 -Wall -Wextra -Werror -O2 -I crates/ruu_step)
cc "${flags[@]}" -o "$work/lockstep" examples/lockstep/lockstep.c "$archive" || fail "lockstep.c does not compile"
says 1 'instruction 28 at 0x00400024: register 2 is 0x00000000, and has to be 0x00000001' "$work/lockstep" examples/c/primes.elf
sed 's/(int32_t)a < (int32_t)(near | 0x80000000)/a < near/' examples/lockstep/lockstep.c > "$work/right.c"
cc "${flags[@]}" -o "$work/right" "$work/right.c" "$archive" || fail "lockstep.c without its mistake does not compile"
says 0 'no difference in 3560 instructions' "$work/right" examples/c/primes.elf
says 1 'instruction 557 at 0x00400048: byte 0x00000022 is 0, and has to be 1' \
  python3 examples/lockstep/lockstep.py "$work/libruu.so" examples/c/primes.elf
for name in primes numbers sorting; do
  says 0 'no difference' python3 examples/lockstep/lockstep.py "$work/libruu.so" examples/c/$name.elf --right
done
cat > "$work/sizes.c" <<'C'
#include "ruu.h"
#include <string.h>
int main(void)
{
    static uint32_t text[16385], registers[34], pc = 0x00400000;
    static uint8_t memory[65540];
    struct ruu_change change = {9, 9, 9, 9, 9, 9, 9, 9, 9};
    uint64_t steps = 9;
    return ruu_step(text, 16385, memory, 0, registers, &pc) != RUU_SIZES || ruu_step(text, 1, memory, 65540, registers, &pc) != RUU_SIZES ||
           ruu_step(text, 1, memory, 3, registers, &pc) != RUU_SIZES || pc != 0x00400000 || ruu_step(text, 1, memory, 4, registers, &pc) != 0 ||
           pc != 0x00400004 || ruu_step(text, 1, memory, 4, registers, &pc) != RUU_BADPC || pc != 0x00400004 ||
           ruu_step_told(text, 1, memory, 3, registers, &pc, &change) != RUU_SIZES || change.registers != 0 || change.width != 0 ||
           ruu_run(text, 1, memory, 3, registers, &pc, &steps) != RUU_SIZES || steps != 0 || strcmp(ruu_stop_name(RUU_RANGE), "range") != 0;
}
C
cc "${flags[@]}" -o "$work/sizes" "$work/sizes.c" "$archive" || fail "a caller in C does not compile"
"$work/sizes" || fail "a step refuses other sizes"
for standard in c89 c99 c11 c++98 c++17; do
  cc -x "${standard%%[0-9]*}" -std=$standard -pedantic-errors -Wall -Wextra -Werror -Wno-long-long -fsyntax-only -include crates/ruu_step/ruu.h /dev/null \
    || fail "ruu.h is no $standard"
done
echo "the library: built, and called from C and from Python"
