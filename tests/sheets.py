#!/usr/bin/env python3
"""Spoils a Kanata log, read from standard input, by a seed and a kind of mistake, and writes it to standard output.

usage: tests/sheets.py producer|retire|result|let|pc|cycle SEED

Says on standard error what must become of the log: `refused`, or `unread` and a reason, each for `grep -E`; nothing if it may be legal.
Exits with 1 where the log has no place for such a mistake."""
import random
import sys

KIND, SEED = sys.argv[1], int(sys.argv[2])
lines = sys.stdin.read().split("\n")
rng = random.Random(SEED)


def places(*words):
    return [n for n, line in enumerate(lines) if line.split("\t")[0] in words]


def choose(found):
    if not found:
        sys.exit(1)
    return rng.choice(found)


def field(n, k, value):
    parts = lines[n].split("\t")
    parts[k] = str(value)
    lines[n] = "\t".join(parts)


def main():
    must = ""
    if KIND == "producer":
        # another producer, which was let before
        n = choose([n for n in places("W") if int(lines[n].split("\t")[1]) > 1])
        parts = lines[n].split("\t")
        others = [p for p in range(int(parts[1])) if p != int(parts[2]) and f"W\t{parts[1]}\t{p}\t0" not in lines]
        field(n, 2, choose(others))
        # it may be who makes the other source, which had its value
        must = "^refused .* from |^legal"
    elif KIND == "retire":
        # two that retire after one another change places
        found = [n for n in places("R") if lines[n].endswith("\t0")]
        n = choose(found[:-1])
        m = found[found.index(n) + 1]
        lines[n], lines[m] = lines[m], lines[n]
        must = "^refused .* retire |^unread .* (no I line has this number|was not let)"
    elif KIND == "result":
        # a result before that of its producer: the line of the consumer's result moves before the one of its producer's
        pairs = []
        done = {}
        for n in places("S"):
            who, stage = lines[n].split("\t")[1], lines[n].split("\t")[3]
            if stage in ("Cm", "St", "Ms", "Ad"):
                done.setdefault(who, n)
        last = {}
        for n in places("S"):
            if lines[n].split("\t")[3] in ("Cm", "St", "Ms"):
                last.setdefault(lines[n].split("\t")[1], n)
        for n in places("W"):
            consumer, producer = lines[n].split("\t")[1:3]
            if consumer in done and producer in last and last[producer] < done[consumer] and n < last[producer]:
                pairs.append((last[producer], done[consumer]))
        to, at = choose(pairs)
        lines.insert(to, lines.pop(at))
        # a store has its address before its data
        must = "^refused .* (complete|execute) |^legal|^unread .* (no I line has this number|was not let)"
    elif KIND == "let":
        n = choose([n for n in places("S") if lines[n].endswith("\tDs")])
        del lines[n]
        must = "^unread .* was not let|^refused |^legal"
    elif KIND == "pc":
        n = choose(places("L"))
        text = lines[n].split("\t")[3]
        field(n, 3, f"0x{(int(text[:10], 16) + 4) & 0xFFFFFFFF:08x}{text[10:]}")
        must = "^refused .* let |^legal"
    elif KIND == "cycle":
        n = choose(places("C"))
        field(n, 1, "many")
        must = "^unread .* a number is wanted"
    print("\n".join(lines), end="")
    print(must, file=sys.stderr)


main()
