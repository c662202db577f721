"""Looks that the colours of a page's states can be told apart, also by those who lack one kind of cone: in each theme every two of
them differ enough (CIE 1976, 15), as they are and as Machado, Oliveira and Fernandes (2009) have them seen."""
import itertools
import math
import re
import sys

STATES = ("open", "busy", "addr", "done", "miss", "stop")
LEAST = 15
SEEN = {
    "all cones": ((1, 0, 0), (0, 1, 0), (0, 0, 1)),
    "no red cones": ((0.152286, 1.052583, -0.204868), (0.114503, 0.786281, 0.099216), (-0.003882, -0.048116, 1.051998)),
    "no green cones": ((0.367322, 0.860646, -0.227968), (0.280085, 0.672501, 0.047413), (-0.011820, 0.042940, 0.968881)),
    "no blue cones": ((1.255528, -0.076749, -0.178779), (-0.078411, 0.930809, 0.147602), (0.004733, 0.691367, 0.303900)),
}
XYZ = ((0.4124 / 0.9505, 0.3576 / 0.9505, 0.1805 / 0.9505), (0.2126, 0.7152, 0.0722), (0.0193 / 1.089, 0.1192 / 1.089, 0.9505 / 1.089))


def times(matrix, vector):
    return [sum(a * b for a, b in zip(row, vector)) for row in matrix]


def linear(colour):
    parts = [int(colour[at:at + 2], 16) / 255 for at in (0, 2, 4)]
    return [part / 12.92 if part <= 0.04045 else ((part + 0.055) / 1.055) ** 2.4 for part in parts]


def lab(colour, seen):
    shown = [min(1, max(0, part)) for part in times(seen, linear(colour))]
    x, y, z = (part ** (1 / 3) if part > 0.008856 else 7.787 * part + 16 / 116 for part in times(XYZ, shown))
    return 116 * y - 16, 500 * (x - y), 200 * (y - z)


def main():
    with open("page/style.css", encoding="utf-8") as style:
        text = style.read()
    found = [re.findall(rf"--{state}-edge: #(\w{{6}})", text) for state in STATES]
    themes = list(zip(*found, strict=True))
    if len(themes) != 2:
        sys.exit(f"{len(themes)} themes have a colour for each state")
    least = min((math.dist(lab(theme[one], seen), lab(theme[other], seen)), STATES[one], STATES[other], name)
                for theme in themes for name, seen in SEEN.items() for one, other in itertools.combinations(range(len(STATES)), 2))
    print(f"the colours of the states differ by at least {least[0]:.0f}: {least[1]} and {least[2]}, with {least[3]}")
    sys.exit(least[0] < LEAST)


main()
