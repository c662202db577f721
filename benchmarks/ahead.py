#!/usr/bin/env python3
"""Counts how many executions went ahead of an older one: of each listing without a seed, and in the orders of some seeds.

    benchmarks/ahead.py [--seeds N] [--program PATH] [LISTING ..] [-- OPTION ..]

An execution is ahead where an older tenant in flight had still to execute. Both are read from the logs of `./ruu chart
LISTING --trace LOG`, which have a line for each tenant that goes on from the stage `Ds`. The orders are those of the seeds
1 to N, 10 of them where no number is given; the examples are counted where no listing is. Options behind `--` are those of
`./ruu chart`. The table is one for docs/MEASURED.md."""
import argparse
import glob
import os
import subprocess
import sys
import tempfile

ROOT = os.path.dirname(os.path.dirname(os.path.realpath(__file__)))


def counts_of(log):
    """How many tenants of a log executed, and how many of these did ahead of an older one."""
    waiting, executed, ahead = {}, 0, 0
    with open(log, encoding="ascii") as lines:
        for line in lines:
            what, *of = line.split("\t")
            if what == "I":
                # kept in the order of the lets, so that the oldest is the first
                waiting[of[0]] = True
            elif what == "E" and of[2] == "Ds\n":
                executed += 1
                ahead += next(iter(waiting)) != of[0]
                del waiting[of[0]]
            elif what == "R":
                waiting.pop(of[0], None)
    return executed, ahead


def counted(given, listing, seed):
    """These counts of a run in the order of a seed, or without one."""
    with tempfile.TemporaryDirectory() as room:
        log = f"{room}/log"
        words = [given.program, "chart", listing, "--trace", log, *([] if seed is None else ["--seed", str(seed)]), *given.options]
        status = subprocess.run(words, stdout=subprocess.DEVNULL, check=False).returncode
        if status not in (0, 1, 4):
            sys.exit(f"{' '.join(words)}: status {status}")
        return counts_of(log)


def percent(part, whole):
    return f"{100 * part / max(whole, 1):.1f} %"


def row(name, plain, seeded):
    """Prints a line of the table."""
    executed, ahead = sum(it[0] for it in seeded), sum(it[1] for it in seeded)
    shares = [100 * part / max(whole, 1) for whole, part in seeded]
    print(f"| {name} | {plain[0]} | {plain[1]}, {percent(plain[1], plain[0])} "
          f"| {executed} | {percent(ahead, executed)} | {min(shares):.1f} to {max(shares):.1f} % |", flush=True)


def main():
    words = sys.argv[1:]
    at = words.index("--") if "--" in words else len(words)
    parser = argparse.ArgumentParser(description=__doc__, formatter_class=argparse.RawDescriptionHelpFormatter)
    parser.add_argument("--seeds", type=int, default=10, metavar="N")
    parser.add_argument("--program", default=f"{ROOT}/ruu")
    parser.add_argument("listings", nargs="*", metavar="LISTING")
    given = parser.parse_args(words[:at])
    given.options = words[at + 1 :]
    listings = given.listings or sorted(glob.glob(f"{ROOT}/examples/*.s")) + sorted(glob.glob(f"{ROOT}/examples/c/*.s"))
    print(f"| listing | executions without a seed | ahead | with seeds 1 to {given.seeds} | ahead | of each seed |")
    print("|---|---|---|---|---|---|")
    plains, seeds = [], []
    for listing in listings:
        plain = counted(given, listing, None)
        seeded = [counted(given, listing, seed) for seed in range(1, given.seeds + 1)]
        row(os.path.basename(listing).removesuffix(".s"), plain, seeded)
        plains.append(plain)
        seeds.append(seeded)
    row("all", tuple(map(sum, zip(*plains))), [tuple(map(sum, zip(*of_seed))) for of_seed in zip(*seeds)])


main()
