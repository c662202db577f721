#!/usr/bin/env bash
# The judge as a library for C, where there is a C compiler: a caller in C tells it the logs of examples/judge, and those of the
# simulator there on random listings, line by line, and has each text and status of the program `judge`; with each allocation
# refused in turn it ends with status 5 or with that text, and holds no block; uses that are wrong are answered, and change
# nothing; and ruu.py does the same. `rt ci` proves the library and builds none, so this does.
. "$(dirname "$0")/common.bash"
command -v cc > /dev/null || { echo "no C compiler: the library was not built"; exit 0; }

build run judge
[ -z "${BUILT:-}" ] || python3 tests/built.py ruu_judge
(cd crates/ruu_judge && rt lib < /dev/null > "$work/log" 2>&1) || { tail -n 40 "$work/log"; fail "the library cannot be built"; }
kit=$(dirname "$(rt doc)")
judge=crates/judge/out/judge
archives=(crates/ruu_judge/out/libruu_judge.a "$kit/c/liblibc_c.a")
cc -shared -o "$work/libruu_judge.so" -Wl,--whole-archive "${archives[@]}" -Wl,--no-whole-archive || fail "no shared library of ${archives[*]}"

cat > "$work/told.c" <<'C'
#include "ruu.h"
#include <fcntl.h>
#include <stdlib.h>
#include <string.h>
#include <unistd.h>

static uint8_t listing[1 << 20], events[1 << 22], text[1 << 20];

static size_t read_file(const char *name, uint8_t *to, size_t size)
{
    size_t n = 0;
    ssize_t more;
    int file = open(name, O_RDONLY);
    if (file < 0) exit(9);
    while ((more = read(file, to + n, size - n)) > 0) n += (size_t)more;
    close(file);
    return n;
}

/* told LISTING LOG [STATIONS QUEUE] */
int main(int argc, char **argv)
{
    struct ruu_judge judge = RUU_NO_JUDGE;
    size_t n = read_file(argv[1], listing, sizeof listing), m = read_file(argv[2], events, sizeof events), at, end, length = 0;
    size_t stations = argc > 3 ? (size_t)atol(argv[3]) : RUU_NO_BOUND, queue = argc > 4 ? (size_t)atol(argv[4]) : RUU_NO_BOUND;
    uint64_t line = 0;
    int32_t answer = ruu_judge_new(listing, n, stations, queue, 0, &line, &judge), said;
    if (answer != RUU_JUDGE_LEGAL) return judge.held ? 9 : answer;
    memset(listing, 0, n);
    for (at = 0; at < m && answer == RUU_JUDGE_LEGAL; at = end) {
        const uint8_t *feed = memchr(events + at, '\n', m - at);
        end = feed ? (size_t)(feed - events) + 1 : m;
        answer = ruu_judge_event(&judge, events + at, end - at);
    }
    said = ruu_judge_reason(&judge, text, sizeof text, &length);
    if (answer == RUU_JUDGE_NO_MEMORY && (said != RUU_JUDGE_NO_MEMORY || ruu_judge_event(&judge, events, 0) != RUU_JUDGE_ENDED)) return 9;
    if (answer != RUU_JUDGE_NO_MEMORY && said == RUU_JUDGE_NO_MEMORY) said = ruu_judge_reason(&judge, text, sizeof text, &length);
    ruu_judge_free(&judge);
    if (judge.held || (said != RUU_JUDGE_LEGAL && said != answer) || write(1, text, length) != (ssize_t)length) return 9;
    return answer;
}
C
flags=(-std=gnu11 -Wall -Wextra -Werror -O2 -I crates/ruu_step)
cc "${flags[@]}" -o "$work/told" "$work/told.c" "${archives[@]}" || fail "a caller in C does not compile"

# The caller has the text and the status of the program.
is_judged() { # listing, log, [stations, queue]
  local sizes=()
  [ $# -lt 4 ] || sizes=(--ruu-size "$3" --lsq-size "$4")
  "$judge" judge "${sizes[@]}" "$1" "$2" > "$work/wanted" 2> "$work/err"
  wanted=$?
  "$work/told" "$@" > "$work/out" 2> "$work/err"
  status=$?
  [ $status -eq $wanted ] || fail "$*: status $status, and the program has $wanted"
  cmp -s "$work/out" "$work/wanted" || { diff "$work/wanted" "$work/out"; fail "$*: another text"; }
}

for log in examples/judge/*.log; do
  name=${log%.log}
  is_judged "${name%.*}.s" "$log"
  cmp -s "$work/out" "$name.verdict" || fail "$log: another verdict"
done
printf 'let\nlet 1 2 3 4\nretire\n' > "$work/unread.log"
is_judged examples/judge/stores.s "$work/unread.log"
[ $status -eq 4 ] || fail "a line that is not read: status $status"
for seed in {1..20}; do
  ./ruu random --seed "$seed" --kind dense --blocks 2 > "$work/random.s"
  ring=$((4 + seed % 60)) queue=$((2 + seed % 9)) bug=()
  [ $((seed % 2)) -eq 0 ] || bug=(--bug $((1 + seed / 2 % 10)))
  python3 examples/judge/simulator.py "$work/random.s" --seed "$seed" --from --ring $ring --queue $queue "${bug[@]}" > "$work/random.log"
  is_judged "$work/random.s" "$work/random.log" $ring $queue
done
echo 'a caller in C has the texts of judge'

build_refuse
for log in stores.right branch.renamed; do
  listing=examples/judge/${log%.*}.s n=0 refused=0
  while :; do
    n=$((n + 1))
    run_under /dev/null REFUSED=$n "$work/told" "$listing" "examples/judge/$log.log"
    ! $is_held || fail "$log, allocation $n refused: a block is held"
    $was_refused || break
    if [ $status -eq 5 ] && [ ! -s "$work/out" ]; then
      refused=$((refused + 1))
    else
      cmp -s "$work/out" "examples/judge/$log.verdict" || fail "$log, allocation $n refused: status $status"
    fi
  done
  cmp -s "$work/out" "examples/judge/$log.verdict" && [ $refused -gt 2 ] || fail "$log: $refused refusals were told of, of $((n - 1))"
done
echo 'want of memory is answered, and no block is held'

cat > "$work/used.c" <<'C'
#include "ruu.h"
#include <stdio.h>
#include <string.h>
#define SAYS(wanted, call) if ((call) != (wanted)) { printf("%s is not %s\n", #call, #wanted); return 1; }
#define TELL(line) ruu_judge_event(&judge, (const uint8_t *)(line), strlen(line))
#define MAKE(listing, stations, flags) ruu_judge_new((const uint8_t *)(listing), strlen(listing), stations, RUU_NO_BOUND, flags, &line, &judge)
int main(void)
{
    struct ruu_judge judge = RUU_NO_JUDGE, other = RUU_NO_JUDGE;
    uint8_t text[8] = {0};
    uint64_t line = 7;
    size_t length = 7;
    uint32_t pc = RUU_TEXT, word = 13, registers[34] = {0};
    uint8_t memory[4];
    SAYS(RUU_JUDGE_USED_WRONG, TELL("let"))
    SAYS(RUU_JUDGE_USED_WRONG, ruu_judge_reason(&judge, text, sizeof text, &length))
    SAYS(1, length == 0)
    ruu_judge_free(&judge);
    SAYS(RUU_JUDGE_USED_WRONG, MAKE("break\n", 0, 0))
    SAYS(RUU_JUDGE_USED_WRONG, MAKE("break\n", 1, 16))
    SAYS(RUU_JUDGE_USED_WRONG, MAKE("break\n", 1, RUU_JUDGE_ISSUE_DISPATCHES | RUU_JUDGE_ISSUE_EXECUTES))
    SAYS(RUU_JUDGE_LISTING, MAKE("break\nno\n", 1, 0))
    SAYS(1, line == 2 && judge.held == NULL)
    SAYS(RUU_JUDGE_LEGAL, MAKE("nop\nbreak\n", 1, RUU_JUDGE_ISSUE_EXECUTES))
    other = judge;
    SAYS(RUU_JUDGE_USED_WRONG, MAKE("nop\nbreak\n", 1, 0))
    SAYS(1, judge.held == other.held)
    SAYS(RUU_JUDGE_LEGAL, TELL("  # no event\r\n"))
    SAYS(RUU_JUDGE_LEGAL, TELL("let"))
    SAYS(RUU_JUDGE_UNREAD, TELL("leave 0"))
    SAYS(RUU_JUDGE_UNREAD, TELL("issue 0\nend 0"))
    SAYS(RUU_JUDGE_LEGAL, TELL("issue 0"))
    SAYS(RUU_JUDGE_LEGAL, TELL("end 0\n"))
    SAYS(RUU_JUDGE_REFUSED, TELL("let"))
    SAYS(RUU_JUDGE_ENDED, TELL("retire"))
    SAYS(RUU_JUDGE_LEGAL, ruu_judge_reason(&judge, text, 7, &length))
    SAYS(1, length > 60 && memcmp(text, "refused", 8) == 0)
    ruu_judge_free(&judge);
    SAYS(1, judge.held == NULL)
    SAYS(RUU_BREAK, ruu_step(&word, 1, memory, 4, registers, &pc))
    return 0;
}
C
build_step
cc "${flags[@]}" -o "$work/used" "$work/used.c" "${archives[@]}" crates/ruu_step/out/libruu_step.a || fail "a caller of both libraries does not compile"
"$work/used" > "$work/out" || { cat "$work/out"; fail "a use is answered otherwise"; }

PYTHONPATH=crates/ruu_step python3 -B - "$work/libruu_judge.so" > "$work/out" 2> "$work/err" <<'PY' || { cat "$work/out"; fail "ruu.py judges otherwise"; }
import sys
import ruu

def read(name):
    with open(f"examples/judge/{name}", "rb") as it:
        return it.read()

for log in "branch.right", "branch.renamed", "stores.early", "stores.right":
    with ruu.Judge(sys.argv[1], read(log.split(".")[0] + ".s")) as judge:
        answers = []
        for line in read(log + ".log").splitlines():
            answers.append(judge.event(line))
            if answers[-1] != ruu.LEGAL:
                break
        verdict = read(log + ".verdict").decode()
        assert answers[-1] == (ruu.LEGAL if verdict.startswith("legal") else ruu.REFUSED), (log, answers)
        assert judge.reason() == verdict, judge.reason()
    assert judge.event("let") == ruu.USED_WRONG
try:
    ruu.Judge(sys.argv[1], "nop\nnope\n")
    raise SystemExit("no fault")
except ruu.ListingFault as fault:
    assert fault.line == 2
for sizes in {"stations": 0}, {"flags": 16}:
    try:
        ruu.Judge(sys.argv[1], "nop\n", **sizes)
        raise SystemExit("no refusal")
    except ValueError:
        pass
long = ruu.Judge(sys.argv[1], "nop\n" * 2000 + "break\n", stations=900)
for _ in range(900):
    assert long.event("let") == ruu.LEGAL
assert long.event("let") == ruu.REFUSED and len(long.reason()) > 8192
PY
for standard in c89 c99 c11 c++98 c++17; do
  cc -x "${standard%%[0-9]*}" -std=$standard -pedantic-errors -Wall -Wextra -Werror -Wno-long-long -fsyntax-only -include crates/ruu_step/ruu.h /dev/null \
    || fail "ruu.h is no $standard"
done
echo 'the judge: built, and called from C and from Python'
