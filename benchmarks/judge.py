#!/usr/bin/env python3
"""Writes a listing with a loop, or a log of its run for `./ruu judge`, with a given number of instructions in flight.

usage: judge.py listing ROUNDS
       judge.py log ROUNDS FLIGHT   each instruction begins when half as many are younger, and retires when all are"""
import sys

START = 0x400000
BODY = """again:  lw    $3,0($4)
        addu  $3,$3,$1
        sw    $3,0($4)
        addiu $1,$1,-1
        bne   $1,$0,again"""


def listing(rounds):
    print(f"        .word 0\n        lui   $1,{rounds >> 16}\n        ori   $1,$1,{rounds & 0xFFFF}\n{BODY}\n        break")


def execution(at, n):
    """The events of an instruction's execution: it is the n-th, `at` its place in the listing."""
    return f"begin {n}\nend {n}\n" + (f"load {n}\n" if at == 2 else "")


def log(rounds, flight):
    path = [0, 1] + [2, 3, 4, 5, 6] * rounds + [7]
    out = []
    for n, at in enumerate(path):
        after = f" -> 0x{START + 4 * path[n + 1]:08x}" if at == 6 else ""
        out.append(f"let 0x{START + 4 * at:08x}{after}\n")
        if n >= flight // 2:
            out.append(execution(path[n - flight // 2], n - flight // 2))
        if n >= flight - 1:
            out.append(f"retire {n - flight + 1}\n")
        if len(out) > 10000:
            sys.stdout.write("".join(out))
            out.clear()
    for n in range(len(path) - flight // 2, len(path)):
        out.append(execution(path[n], n))
    out += [f"retire {n}\n" for n in range(len(path) - flight + 1, len(path))]
    sys.stdout.write("".join(out))


if __name__ == "__main__":
    if sys.argv[1] == "listing":
        listing(int(sys.argv[2]))
    else:
        log(int(sys.argv[2]), int(sys.argv[3]))
