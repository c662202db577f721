#!/usr/bin/env python3
"""What the gate costs, by crate and part: benchmarks/gate.py [--to FILE] COMMAND .., as benchmarks/gate.py rt ci --anew.

Runs the command, looks each half second at the processes of the checker, and prints behind it a table of the seconds of one
processor (user and system) of each crate: of its proof, of its tests, and of the edits that have to be refused. With --to the
table goes to a file, where it is written anew each minute. What a process does behind the last look at it is counted in the
last line alone, which is exact. Only what is proved anew costs anything: `rt ci --anew` proves all. The status is that of the
command."""
import collections
import os
import resource
import subprocess
import sys
import time

PARTS = ("proof", "tests", "edits")
TICKS = os.sysconf("SC_CLK_TCK")


def words_of(process):
    with open(f"/proc/{process}/cmdline", "rb") as it:
        return it.read().decode(errors="replace").split("\0")


def fields_of(process):
    """Of what the system says of a process, that behind its name: its state, its parent, .."""
    with open(f"/proc/{process}/stat", encoding="utf-8") as it:
        return it.read().rpartition(")")[2].split()


def is_below(process, top):
    while process not in ("0", str(top)):
        process = fields_of(process)[1]
    return process == str(top)


def part_of(process, words):
    folders = os.readlink(f"/proc/{process}/cwd").split("/")
    if any(it.startswith(("edits-", "rt-edit-")) for it in folders):
        return "edits"
    return "tests" if "--test" in words else "proof"


def look(found, top):
    """Notes of each process of the checker below this one its crate, its part and its seconds until now."""
    for process in filter(str.isdigit, os.listdir("/proc")):
        try:
            words = words_of(process)
            if "--crate-name" not in words or not is_below(process, top):
                continue
            crate, fields = words[words.index("--crate-name") + 1], fields_of(process)
            seconds = (int(fields[11]) + int(fields[12])) / TICKS
            found[process, fields[19]] = (crate, part_of(process, words), seconds)
        except (OSError, IndexError, ValueError):
            continue


def table(found, whole, took):
    rows = collections.defaultdict(lambda: dict.fromkeys(PARTS, 0.0))
    for crate, part, seconds in found.values():
        rows[crate][part] += seconds
    lines = ["| crate | proof | tests | edits |", "|---|---|---|---|"]
    for crate, row in sorted(rows.items(), key=lambda it: -sum(it[1].values())):
        lines.append(f"| `{crate}` | " + " | ".join(f"{row[part]:.0f}" for part in PARTS) + " |")
    sums = [sum(row[part] for row in rows.values()) for part in PARTS]
    lines.append("| all that was seen | " + " | ".join(f"{it:.0f}" for it in sums) + " |")
    lines.append(f"{whole / 60:.0f} minutes of one processor, in {took / 60:.0f} minutes")
    return "\n".join(lines)


def write(to, found, began):
    used = resource.getrusage(resource.RUSAGE_CHILDREN)
    text = table(found, used.ru_utime + used.ru_stime, time.monotonic() - began)
    if to is None:
        print(text)
        return
    with open(to, "w", encoding="utf-8") as it:
        it.write(text + "\n")


def main(words):
    to = None
    if words[:1] == ["--to"]:
        to, words = words[1], words[2:]
    found, began, minutes = {}, time.monotonic(), 0
    run = subprocess.Popen(words)
    while run.poll() is None:
        look(found, run.pid)
        time.sleep(0.5)
        if to is not None and time.monotonic() - began > 60 * (minutes + 1):
            minutes += 1
            write(to, found, began)
    write(to, found, began)
    return run.returncode if run.returncode >= 0 else 128 - run.returncode


if __name__ == "__main__":
    sys.exit(main(sys.argv[1:]))
