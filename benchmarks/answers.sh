#!/usr/bin/env bash
# Prints how many milliseconds `./ruu` takes for help, the version, mistakes, and for each word on a program that is built; behind
# the latter, how many the program takes alone. Each is the least of twenty.
set -eu
cd "$(dirname "$0")/.."

# Sets `least`, in tenths of a millisecond.
time_of() { # command
    local began took
    least=1000000
    for _ in {1..20}; do
        began=${EPOCHREALTIME/./}
        "$@" < /dev/null > /dev/null 2>&1 || true
        took=$(((${EPOCHREALTIME/./} - began) / 100))
        [ $took -ge $least ] || least=$took
    done
}

for words in --help --version rnu 'run nowhere.s' 'check --help'; do
    # shellcheck disable=SC2086
    time_of ./ruu $words
    printf '%-36s %3d.%d ms\n' "ruu $words" $((least / 10)) $((least % 10))
done
while read -r program words; do
    # shellcheck disable=SC2086
    time_of ./ruu $words
    all=$least
    # shellcheck disable=SC2086
    time_of "crates/$program/out/$program" ${words#listing }
    printf '%-36s %3d.%d ms, the program %d.%d\n' "ruu $words" $((all / 10)) $((all % 10)) $((least / 10)) $((least % 10))
done << 'PROGRAMS'
run run examples/sum.s
ruu run examples/sum.s --alone
checker check examples/sum.s
chart chart examples/sum.s
commit_log commits examples/sum.s
drive drive examples/sum.s
listing listing examples/c/primes.elf
PROGRAMS
