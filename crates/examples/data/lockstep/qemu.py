#!/usr/bin/env python3
"""Runs an executable beside a real MIPS, which is qemu-mipsel: qemu.py FILE.elf compares all registers before each instruction
with those that `./ruu commits` tells for its listing. FILE.elf is one that examples/c/compile.sh made.

A listing has no delay slots, so each `nop` is passed over on both sides; and an address that a call leaves is that of the slot,
where a MIPS leaves the one after it: a register may be 4 less where both are addresses of the text. A register is compared
once the program has written it. Debian's qemu-mipsel: apt-get install qemu-user."""
import os
import re
import shutil
import signal
import struct
import subprocess
import sys
import tempfile

from ending import run
from simulator import START, load

PAGE, HEADER = 0x10000, 52
RUU = os.path.join(os.path.dirname(os.path.dirname(os.path.dirname(os.path.abspath(__file__)))), "ruu")
NAMES = [*(f"${n}" for n in range(32)), "LO", "HI"]
STATE = re.compile(r"pc=0x(\w+) HI=0x(\w+) LO=0x(\w+)")
LINE = re.compile(r"core   0: 3 0x(\w{8}) (?:\(0x(\w{8})\)(.*)|stop|limit)")
WRITTEN = re.compile(r" [xc](\d+)(?:_lo|_hi)? +0x(\w{8})")


def aligned(text, memory):
    """An executable of the same text and data, whose segments begin at pages, as qemu wants them."""
    words = struct.pack(f"<{len(text)}I", *text)
    behind = PAGE + len(words) + -len(words) % PAGE
    header = b"\x7fELF\1\1\1" + bytes(9) + struct.pack("<HHIIIIIHHHHHH", 2, 8, 1, START, HEADER, 0, 0x1000, HEADER, 32, 2, 0, 0, 0)
    segments = [(1, PAGE, START, START, len(words), len(words), 5, PAGE), (1, behind, 0, 0, len(memory), len(memory), 6, PAGE)]
    table = b"".join(struct.pack("<8I", *segment) for segment in segments)
    return (header + table).ljust(PAGE, b"\0") + words.ljust(behind - PAGE, b"\0") + bytes(memory)


def machine(executable, folder):
    """The states of this machine: each pc with the registers before it, those that were written, and whether it is a nop."""
    listing = os.path.join(folder, "listing.s")
    with open(listing, "wb") as it:
        subprocess.run([RUU, "listing", executable], stdout=it, check=True)
    registers, written = [0] * 34, set()
    with subprocess.Popen([RUU, "commits", listing, "--limit", "4000000"], stdout=subprocess.PIPE, encoding="ascii") as log:
        for line in log.stdout:
            pc, word, change = LINE.match(line).groups()
            yield int(pc, 16), registers, written, word == "00000000"
            for number, value in WRITTEN.findall(change or ""):
                registers[int(number)] = int(value, 16)
                written.add(int(number))


def qemu(executable, text, memory, folder):
    """The states of qemu-mipsel, in the same form; it ends by a signal at `break`."""
    program, log = os.path.join(folder, "aligned.elf"), os.path.join(folder, "log")
    with open(program, "wb") as it:
        it.write(aligned(text, memory))
    os.chmod(program, 0o755)
    done = subprocess.run(["qemu-mipsel", "-singlestep", "-d", "cpu,nochain", "-D", log, program], stderr=subprocess.DEVNULL, cwd=folder)
    if -done.returncode != signal.SIGTRAP:
        print(f"qemu-mipsel ends with {done.returncode}, and not at a break")
    with open(log, encoding="ascii") as it:
        pc, registers = None, []
        for line in it:
            if found := STATE.match(line):
                pc, high, low = (int(n, 16) for n in found.groups())
                registers = []
            elif line.startswith("GPR"):
                registers += [int(n, 16) for n in line.split(":", 1)[1].split()[1::2]]
                if len(registers) == 32:
                    place = (pc - START) // 4
                    yield pc, [*registers, low, high], 0 <= place < len(text) and text[place] == 0


def is_near(ours, theirs):
    """The same value, or the address that a call leaves."""
    return ours == theirs or (theirs - ours == 4 and START <= ours < START + PAGE)


def main(words):
    if not shutil.which("qemu-mipsel"):
        print("skipped: no qemu")
        return 0
    text, memory = load(words[0])
    count = 0
    with tempfile.TemporaryDirectory() as folder:
        others = (state for state in qemu(words[0], text, memory, folder) if not state[2])
        for pc, registers, written, is_nop in machine(words[0], folder):
            if is_nop:
                continue
            their_pc, theirs, _ = next(others, (None, [0] * 34, False))
            found = [] if pc == their_pc else [("pc", pc, their_pc or 0)]
            found += [(NAMES[r], registers[r], theirs[r]) for r in sorted(written) if not is_near(registers[r], theirs[r])]
            if found:
                what, ours, other = found[0]
                print(f"instruction {count} at 0x{pc:08x}: {what} is 0x{ours:08x}, and 0x{other:08x} in qemu-mipsel")
                return 1
            count += 1
    print(f"{count} instructions agree with qemu-mipsel")
    return 0


if __name__ == "__main__":
    run(main, "FILE.elf")
