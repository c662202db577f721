#!/usr/bin/env python3
"""Measures a program `ruu` on the listings of a folder beside C interpreters of them: the part of real.sh that counts.
The arguments are the program, the folder, and the folder of the interpreters, then the options of real.sh."""
import argparse
import hashlib
import math
import os
import re
import resource
import subprocess
import sys

RUNS = 5


def options():
    parser = argparse.ArgumentParser()
    parser.add_argument("program")
    parser.add_argument("folder")
    parser.add_argument("work")
    parser.add_argument("--ring", default="16")
    parser.add_argument("--queue", default="8")
    parser.add_argument("--limit", type=int, default=1_000_000)
    return parser.parse_args()


def command(given, listing, limit):
    return [given.program, "run", listing, "--alone", "--limit", str(limit), "--ruu-size", given.ring, "--lsq-size", given.queue]


def instructions(given, listing, limit):
    """How many instructions of the processor a run takes up to a limit."""
    out = f"--callgrind-out-file={given.work}/callgrind"
    words = ["valgrind", "--tool=callgrind", out, *command(given, listing, limit)]
    ran = subprocess.run(words, stdout=subprocess.DEVNULL, stderr=subprocess.PIPE, text=True, check=False)
    return int(re.search(r"Collected : (\d+)", ran.stderr)[1])


def seconds(words):
    """The processor time of a program."""
    before = resource.getrusage(resource.RUSAGE_CHILDREN)
    subprocess.run(words, stdout=subprocess.DEVNULL, check=False)
    after = resource.getrusage(resource.RUSAGE_CHILDREN)
    return after.ru_utime - before.ru_utime + after.ru_stime - before.ru_stime


def of_unit(given, listing):
    """The least processor time of several whole runs, less the least of those that only read the listing."""
    wholes, readings = zip(*[[seconds(command(given, listing, limit)) for limit in (0xFFFF_FFFF, 1)] for _ in range(RUNS)])
    return min(wholes) - min(readings)


def of_c(given, name):
    ran = subprocess.run([f"{given.work}/{name}/interpreter"], capture_output=True, text=True, check=True)
    return ran.stdout.split()


def mean(values):
    return math.exp(sum(map(math.log, values)) / len(values))


def measure(given, name):
    listing = f"{given.folder}/{name}.s"
    with open(f"{given.folder}/{name}.expected", encoding="utf-8") as lines:
        expected = dict(line.split(None, 1) for line in lines)
    count = int(expected["count"])
    whole = command(given, listing, 0xFFFF_FFFF)
    report = subprocess.run(whole, stdout=subprocess.PIPE, check=False).stdout
    if hashlib.sha256(report).hexdigest() != expected["report"].strip():
        sys.exit(f"{name}: another report than expected")
    if int(of_c(given, name)[1]) != count:
        sys.exit(f"{name}: the interpreter counts otherwise")
    limit = min(count, given.limit)
    each = (instructions(given, listing, limit) - instructions(given, listing, 1)) / (limit - 1)
    unit = of_unit(given, listing)
    plain = min(float(of_c(given, name)[3]) for _ in range(RUNS))
    print(f"{name:16} {each:7.1f} instructions {unit * 1e9 / count:7.1f} ns   C {plain * 1e9 / count:6.2f} ns   ratio {unit / plain:6.2f}", flush=True)
    return each, unit / plain


def main():
    given = options()
    names = sorted(entry for entry in os.listdir(given.work) if os.path.isdir(f"{given.work}/{entry}"))
    if not names:
        sys.exit("no listing with what is expected")
    measured = [measure(given, name) for name in names]
    print(f"{'geometric mean':16} {mean([it[0] for it in measured]):7.1f} instructions   ratio {mean([it[1] for it in measured]):6.2f}")


main()
