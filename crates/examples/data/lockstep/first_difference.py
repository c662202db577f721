#!/usr/bin/env python3
"""The first line in which two logs of commits differ, after three lines in which they agree: first_difference.py OURS THEIRS.
The texts of instructions, which begin with `#`, are passed over, so that a simulator need not write them."""
import collections
import itertools

from ending import run


def bare(line):
    """A line without its text."""
    return line.partition("#")[0].rstrip()


def main(words):
    before = collections.deque(maxlen=3)
    with open(words[0], encoding="ascii") as ours, open(words[1], encoding="ascii") as theirs:
        for number, pair in enumerate(itertools.zip_longest(ours, theirs), 1):
            one, other = ((line or "nothing").rstrip("\n") for line in pair)
            if bare(one) != bare(other):
                print(*(f"  {line}" for line in before), f"line {number}", f"  {one}", f"  {other}", sep="\n")
                return 1
            before.append(one)
    print("no difference")
    return 0


if __name__ == "__main__":
    run(main, "OURS THEIRS")
