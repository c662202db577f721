#!/usr/bin/env python3
"""Prints a listing of just under 4 MB: 16,384 instructions, and as many labels as fit round them. The argument is
the length of a label."""
import random
import sys

random.seed(1)
SIZE, INSTRUCTIONS, WIDTH = 4_190_000, 16_384, int(sys.argv[1])
room = SIZE // INSTRUCTIONS


def label(number):
    return "l" + str(number).rjust(WIDTH - 1, "_")


lines, number = [], 0
for instruction in range(INSTRUCTIONS):
    text = "        addu  $%d,$%d,$%d\n" % (random.randrange(32), random.randrange(32), random.randrange(32))
    if instruction % 8 == 0 and number:
        text = "        bne   $%d,$0,%s\n" % (random.randrange(32), label(random.randrange(number)))
    left = room - len(text)
    while left > WIDTH + 2:
        lines.append(label(number) + ":\n")
        number += 1
        left -= WIDTH + 2
    lines.append(text)
print("".join(lines), end="")
