#!/usr/bin/env python3
"""Reads what `drive` told, with each command before its answer, from standard input, and writes it as events for `judge`.

usage: tests/judge.py events            writes the events of the session
       tests/judge.py refused FOLDER    writes for each answer Full, Waiting or Blocked a log of the events before it and of the one
                                        that it refuses, and beside the log what the reason has to hold
"""
import os
import re
import sys

LET = re.compile(r"Let station (\d+) tag \d+ pc (0x[0-9a-f]+) ")
JOB = re.compile(r"Job station (\d+) ")
FINISHED = re.compile(r"Finished station (\d+) tag \d+ (\w+) value (0x[0-9a-f]+)")
LOADED = re.compile(r"Loaded station (\d+) tag \d+ value (0x[0-9a-f]+)")
RETIRED = re.compile(r"(?:Retired pc \S+ n \d+|Half pc \S+) station (\d+)")
MENDED = re.compile(r"Mended station (\d+) ")
WAITING = re.compile(r"Waiting tag \d+ source (\d) from station (\d+) ")
BLOCKED = re.compile(r"Blocked load (\d+) store (\d+)")


def main():
    events, refused, at, lets, command = [], [], {}, 0, ""
    for line in sys.stdin:
        line = line.rstrip("\n")
        if it := LET.match(line):
            at[it[1]] = lets
            lets += 1
            events.append(f"let {it[2]}")
        elif it := JOB.match(line):
            events.append(f"begin {at[it[1]]}")
        elif it := FINISHED.match(line):
            events.append(f"end {at[it[1]]}" + ("" if it[2] == "STOP" else f" = {it[3]}"))
        elif it := LOADED.match(line):
            events.append(f"load {at[it[1]]} = {it[2]}")
        elif it := RETIRED.match(line):
            events.append(f"retire {at[it[1]]}")
        elif it := MENDED.match(line):
            events.append(f"recover {at[it[1]]}")
        elif line.startswith("Full"):
            refused.append((len(events), "let", "no station is free"))
        elif it := WAITING.match(line):
            station = command.split()[-1]
            refused.append((len(events), f"begin {at[station]}", f"source {it[1]} .* of {at[station]} .* it waits for {at[it[2]]} "))
        elif it := BLOCKED.match(line):
            # a load that a store covers in part, and has its data, is blocked here alone
            reason = f"^legal|the older store {at[it[2]]} .* has no address yet|an older store to a byte of {at[it[1]]} .* has no data yet"
            refused.append((len(events), f"load {at[it[1]]}", reason))
        elif re.match(r"[a-z]", line):
            command = line.split("#")[0].strip()
    if sys.argv[1] == "events":
        print("\n".join(events))
        return
    for number, (count, event, reason) in enumerate(refused):
        with open(os.path.join(sys.argv[2], f"{number}.log"), "w", encoding="ascii") as log:
            log.write("\n".join([*events[:count], event]) + "\n")
        with open(os.path.join(sys.argv[2], f"{number}.reason"), "w", encoding="ascii") as it:
            it.write(reason + "\n")


main()
