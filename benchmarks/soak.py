#!/usr/bin/env python3
"""Runs listings on threads that are held back by seeds, and compares each report with that of one thread: as long as one likes.

    benchmarks/soak.py [SECONDS] [SEED]     about so long (60), with this seed (1) and the next ones

A round has a random listing (`./ruu random`) of its seed, and one of the examples and test listings in turn. Each runs with
1, 2, 4, 8 and 64 units on rings of 2, 4, 8, 16 and 32 stations, with each predictor in turn, and on one thread in the order of
the seed. The program is the one that was built last; RUU names another. A report that differs ends it with status 1, and is
told with the words that gave it. The last line adds up what the tallies say."""
import glob
import itertools
import os
import re
import subprocess
import sys
import tempfile
import time

ROOT = os.path.dirname(os.path.dirname(os.path.realpath(__file__)))
RUU = os.environ.get("RUU", f"{ROOT}/crates/ruu/out/ruu")
UNITS, RINGS, PREDICTORS = [1, 2, 4, 8, 64], [2, 4, 8, 16, 32], ["nottaken", "taken", "bimod"]
LIMIT, MOST_SECONDS = "20000", 120
TOLD = ["retires", "claims", "stale", "squashes", "mends", "renewals"]


def run(*words):
    """What a run writes, its status, and what it counts by name."""
    done = subprocess.run([RUU, "run", *words], capture_output=True, timeout=MOST_SECONDS, check=False)
    last = done.stderr.decode().strip().rpartition("\n")[2]
    tally = dict(re.findall(r"([a-z]+) (\d+)", last)) if last.startswith("tally ") else {}
    return done.stdout, done.returncode, {name: int(n) for name, n in tally.items()}


class Soak:
    def __init__(self):
        self.runs, self.totals, self.predictors = 0, dict.fromkeys(TOLD, 0), itertools.cycle(PREDICTORS)

    def compare(self, wanted, *words):
        report, status, tally = run(*words)
        if (report, status) != wanted:
            sys.exit(f"FAILED: status {status}, and not {wanted[1]}, or another report: ruu run {' '.join(words)}")
        self.runs += 1
        for name in TOLD:
            self.totals[name] += tally.get(name, 0)

    def listing(self, path, seed):
        wanted = run(path, "--limit", LIMIT, "--alone")[:2]
        self.compare(wanted, path, "--limit", LIMIT, "--alone", "--seed", str(seed))
        for units, ring in itertools.product(UNITS, RINGS):
            self.compare(wanted, path, "--limit", LIMIT, "--units", str(units), "--ruu-size", str(ring), "--lsq-size", "32",
                         "--bpred", next(self.predictors), "--shake", str(seed))


def main():
    seconds, seed = [*map(int, sys.argv[1:]), *[60, 1][len(sys.argv) - 1:]]
    known = sorted(glob.glob(f"{ROOT}/examples/*.s") + glob.glob(f"{ROOT}/tests/listings/*.s"))
    soak, began, first = Soak(), time.monotonic(), seed
    with tempfile.TemporaryDirectory() as work:
        while seed == first or time.monotonic() - began < seconds:
            with open(f"{work}/random.s", "w", encoding="ascii") as listing:
                subprocess.run([f"{ROOT}/ruu", "random", "--seed", str(seed)], stdout=listing, check=True)
            soak.listing(f"{work}/random.s", seed)
            soak.listing(known[(seed - first) % len(known)], seed)
            seed += 1
    told = ", ".join(f"{n} {name}" for name, n in soak.totals.items())
    print(f"{soak.runs} runs with seeds {first} to {seed - 1}, each with the report of one thread; on threads {told}")


if __name__ == "__main__":
    main()
