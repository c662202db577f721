#!/usr/bin/env python3
"""Runs a listing out of order, by a seed, and writes what it does: one event a line, as `./ruu judge LISTING LOG` reads them.

usage: simulator.py LISTING [--seed N] [--bug N] [--ring N] [--queue N] [--from] [--silent]

--bug N     makes one of twelve mistakes (BUGS, below)
--from      says from which producers the sources of each instruction come
--silent    says no value, no address and no prediction: the order of the events alone"""
import argparse
import random
import re
import sys

START, M, LO, HI = 0x400000, 0xFFFFFFFF, 32, 33
BUGS = """1 a recovery does not restore the create vector
2 begins while a source has no value, and takes 0 for it
3 a load passes older stores that have no address
4 a load takes its bytes from the oldest store to them, not from the youngest
5 a load does not look at the stores that have not retired
6 the youngest that is done retires, and not the oldest
7 a misprediction retires without a recovery
8 a recovery leaves the oldest of the wrong path
9 a store writes memory when it has its data, before it retires
10 one more is let than there are stations
11 sltiu and sltu compare with a sign
12 an instruction waits for the last writer of every register that its number fields could name"""
WIDTH = {"lb": 1, "lbu": 1, "lh": 2, "lhu": 2, "lw": 4, "sb": 1, "sh": 2, "sw": 4}
PAIRS, BRANCHES = "mult multu div divu".split(), "beq bne blez bgtz bltz bgez".split()


def signed(x):
    return x - (1 << 32) if x >> 31 else x


def pair(op, a, b):
    """LO and HI after a multiplication or division."""
    if op in ("mult", "multu"):
        product = a * b if op == "multu" else signed(a) * signed(b)
        return product & M, product >> 32 & M
    if b == 0:
        return 0, a
    if op == "divu":
        return a // b, a % b
    x, y = signed(a), signed(b)
    q = abs(x) // abs(y) * (1 if (x < 0) == (y < 0) else -1)
    return q & M, x - q * y & M


class Instr:
    """An instruction: its destination, its two sources, its number, and where it branches to."""

    def __init__(self, op, operands, labels, pc):
        self.op, self.to, self.sources, self.number = op, 0, (0, 0), 0
        regs = [int(r) for o in operands for r in re.findall(r"\$(\d+)", o)]
        numbers = [int(n, 0) for o in operands for n in re.findall(r"^(-?\w+)", o.strip()) if n not in labels]
        self.number = numbers[-1] if numbers else 0
        self.target = labels.get(operands[-1].strip()) if operands else None
        if op in WIDTH:
            self.sources, self.to = ((regs[1], 0), regs[0]) if op[0] == "l" else ((regs[1], regs[0]), 0)
        elif op in BRANCHES or op in PAIRS:
            self.sources = (regs + [0])[0], (regs + [0, 0])[1]
        elif op in ("mflo", "mfhi"):
            self.to, self.sources = regs[0], (LO if op == "mflo" else HI, 0)
        elif op in ("mtlo", "mthi"):
            self.to, self.sources = LO if op == "mtlo" else HI, (regs[0], 0)
        elif op in ("jr", "jalr"):
            self.to, self.sources = (0 if op == "jr" else regs[0] if len(regs) > 1 else 31), (regs[-1], 0)
        elif op in ("j", "jal"):
            self.to = 31 if op == "jal" else 0
        elif op != "break":
            self.to, self.sources = regs[0], (regs[1:] + [0, 0])[0:2]

    def result(self, a, b, pc, bug):
        """Its value, or the address of an access, or where a branch goes on; `break` has none."""
        op, n = self.op.rstrip("v"), self.number
        if self.op[-1] == "v" or self.op in ("sll", "srl", "sra"):
            shift = b & 31 if self.op[-1] == "v" else n
            return {"sll": a << shift, "srl": a >> shift, "sra": signed(a) >> shift}[op] & M
        if op in WIDTH:
            return a + n & M
        if op in BRANCHES:
            x = signed(a)
            taken = {"beq": a == b, "bne": a != b, "blez": x <= 0, "bgtz": x > 0, "bltz": x < 0, "bgez": x >= 0}[op]
            return self.target if taken else pc + 4
        if op in ("j", "jal", "jr", "jalr"):
            return a if op in ("jr", "jalr") else self.target
        if op in ("mflo", "mfhi", "mtlo", "mthi"):
            return a
        if op == "lui":
            return n << 16
        if op[-1] == "i" or op[-2:] == "iu":
            b, op = n & M, {"sltiu": "sltu"}.get(op, op[:-2] + "u" if op[-2:] == "iu" else op[:-1])
        less = signed(a) < signed(b)
        if op == "sltu" and bug != 11:
            less = a < b
        values = {"add": a + b, "addu": a + b, "sub": a - b, "subu": a - b, "and": a & b, "or": a | b, "xor": a ^ b, "nor": ~(a | b)}
        return values[op] & M if op in values else int(less)


def read(text):
    """The instructions and the data of a listing."""
    lines, labels, data = [], {}, bytearray()
    for line in text.splitlines():
        label, line = re.match(r"\s*(?:(\w+):)?\s*(.*?)\s*(?:#.*)?$", line).groups()
        if label:
            labels[label] = START + 4 * len(lines)
        op, _, rest = line.partition(" ")
        if op == ".word":
            data += b"".join((int(word, 0) & M).to_bytes(4, "little") for word in rest.split(","))
        elif op == ".space":
            data += bytes(int(rest, 0))
        elif op:
            lines.append((op, rest.split(",") if rest else []))
    code = [Instr(op, rest, labels, START + 4 * at) for at, (op, rest) in enumerate(lines)]
    return code, data


class Entry:
    """An instruction in flight: `state` is waits, begun, addressed or done."""

    def __init__(self, at, pc, instr, part, producers, next_pc):
        self.at, self.pc, self.instr, self.part, self.producers, self.next = at, pc, instr, part, producers, next_pc
        self.state, self.made, self.real, self.address, self.wrote = "waits", None, None, None, False


class Simulator:
    def __init__(self, code, data, asked):
        self.code, self.memory, self.asked, self.rng = code, data, asked, random.Random(asked.seed)
        self.window, self.let, self.pc, self.part, self.writer, self.registers, self.over = [], 0, START, 0, {}, [0] * 34, False

    def say(self, text, value=None):
        print(text + ("" if value is None or self.asked.silent else f" = 0x{value:08x}"))

    def value(self, entry, k):
        """The value of a source, if its producer has made it."""
        producer = entry.producers[k]
        return producer.made if isinstance(producer, Entry) else producer

    def dispatch(self):
        at = (self.pc - START) // 4
        room = len(self.window) < self.asked.ring + (self.asked.bug == 10)
        if self.pc % 4 or not 0 <= at < len(self.code) or not room:
            return False
        instr, pc = self.code[at], self.pc
        if instr.op in WIDTH and sum(e.instr.op in WIDTH for e in self.window) >= self.asked.queue:
            return False
        sources = [self.writer.get(r, self.registers[r]) if r else 0 for r in instr.sources]
        entry = Entry(self.let, pc, instr, self.part if instr.op in PAIRS else None, sources, pc + 4)
        if self.asked.bug == 12 and sources[1] == 0 and self.window:
            entry.waits_for, entry.producers[1] = self.window[-1], sources[1]
        if instr.op in PAIRS:
            to, entry.next, self.part = (LO, HI)[self.part], pc + 4 * self.part, 1 - self.part
        else:
            to = instr.to
        if instr.op in ("j", "jal"):
            entry.next = instr.target
        elif instr.op in BRANCHES and self.rng.random() < 0.5:
            entry.next = instr.target
        elif instr.op in ("jr", "jalr") and self.rng.random() < 0.5:
            entry.next = START + 4 * self.rng.randrange(len(self.code))
        if instr.op == "jal" or instr.op == "jalr":
            entry.made = pc + 4
        asked = instr.op in BRANCHES or instr.op in ("jr", "jalr")
        print(f"let 0x{pc:08x}" + (f" -> 0x{entry.next:08x}" if asked and not self.asked.silent else ""))
        if self.asked.says_from:
            names = {p.at for p in [*entry.producers, getattr(entry, "waits_for", None)] if isinstance(p, Entry)}
            for name in sorted(names):
                print(f"from {self.let} {name}")
        if to:
            self.writer[to] = entry
        self.window.append(entry)
        self.let, self.pc = self.let + 1, entry.next
        return True

    def begin(self, entry):
        needs = [0] if entry.instr.op in WIDTH else [0, 1]
        waits = getattr(entry, "waits_for", None)
        held = waits in self.window and waits.made is None and waits.state != "done"
        if any(self.value(entry, k) is None for k in needs) and self.asked.bug != 2 or held:
            return False
        self.say(f"begin {entry.at}")
        entry.state = "begun"
        return True

    def stops(self, instr, a, b):
        """It stops the program: a break, a sum that does not fit, an address that is not aligned or outside of memory."""
        if instr.op in ("add", "addi", "sub"):
            x = signed(a) + (instr.number if instr.op == "addi" else signed(b) if instr.op == "add" else -signed(b))
            return not -(1 << 31) <= x < 1 << 31
        width, address = WIDTH.get(instr.op, 0), a + instr.number & M
        return instr.op == "break" or width > 0 and (address % width > 0 or address + width > len(self.memory))

    def end(self, entry):
        a, b = self.value(entry, 0) or 0, self.value(entry, 1) or 0
        op, entry.state, real = entry.instr.op, "done", entry.pc + 4
        if self.stops(entry.instr, a, b):
            entry.state = "stops"
            return self.say(f"end {entry.at}") or True
        if op in PAIRS:
            entry.made, real = pair(op, a, b)[entry.part], entry.next
            result = entry.made
        else:
            result = entry.instr.result(a, b, entry.pc, self.asked.bug)
        if op in WIDTH:
            entry.address, entry.state = result, "addressed"
        elif op in BRANCHES or op[0] == "j":
            real = result
        elif op not in PAIRS:
            entry.made = result
        entry.real = real
        self.say(f"end {entry.at}", result)
        return True

    def load(self, entry):
        bug, width = self.asked.bug, WIDTH[entry.instr.op]
        older = [e for e in self.window[: self.window.index(entry)] if e.instr.op in WIDTH and e.instr.op[0] == "s"]
        if bug != 3 and any(e.address is None for e in older):
            return False
        raw = []
        for x in range(entry.address, entry.address + width):
            byte = self.memory[x] if x < len(self.memory) else 0
            if bug == 5:
                older = []
            for e in older if bug != 4 else reversed(older):
                if e.address is not None and e.address <= x < e.address + WIDTH[e.instr.op]:
                    data = self.value(e, 1)
                    byte = None if data is None else data >> 8 * (x - e.address) & 255
            if byte is None:
                return False
            raw.append(byte)
        entry.made = int.from_bytes(bytes(raw), "little")
        if entry.instr.op in ("lb", "lh") and entry.made >> 8 * width - 1:
            entry.made = entry.made - (1 << 8 * width) & M
        entry.state = "done"
        self.say(f"load {entry.at}", entry.made)
        return True

    def store(self, entry):
        data, width = self.value(entry, 1), WIDTH[entry.instr.op]
        self.memory[entry.address : entry.address + width] = (data & (1 << 8 * width) - 1).to_bytes(width, "little")
        entry.wrote = True

    def can_retire(self, entry):
        stored = entry.state == "addressed" and entry.instr.op[0] == "s" and self.value(entry, 1) is not None
        missed = entry.state == "done" and entry.real not in (None, entry.next)
        return (entry.state in ("done", "stops") or stored) and (not missed or self.asked.bug == 7)

    def retire(self, entry):
        op = entry.instr.op
        self.say(f"retire {entry.at}", self.value(entry, 1) if entry.address is not None and op[0] == "s" else entry.made)
        if op in WIDTH and op[0] == "s" and not entry.wrote:
            self.store(entry)
        to = (LO, HI)[entry.part] if op in PAIRS else entry.instr.to
        if to and entry.made is not None:
            self.registers[to] = entry.made
            if self.writer.get(to) is entry:
                del self.writer[to]
        self.window.remove(entry)
        self.over = entry.state == "stops"

    def recover(self, entry):
        after = self.window[self.window.index(entry) + 1 :]
        for younger in reversed(after[1:] if self.asked.bug == 8 else after):
            print(f"squash {younger.at}")
            self.window.remove(younger)
        if self.asked.bug != 1:
            self.writer = {}
            for e in self.window:
                to = (LO, HI)[e.part] if e.instr.op in PAIRS else e.instr.to
                if to:
                    self.writer[to] = e
        entry.next = self.pc = entry.real
        self.part = 0

    def turn(self):
        """One thing that can be done now, drawn by the seed; whether there was one."""
        doings = [self.dispatch] * 3
        for entry in self.window:
            if entry.state == "waits":
                doings.append(lambda e=entry: self.begin(e))
            elif entry.state == "begun":
                doings.append(lambda e=entry: self.end(e))
            elif entry.state == "addressed" and entry.instr.op[0] == "l":
                doings.append(lambda e=entry: self.load(e))
            elif self.asked.bug == 9 and entry.state == "addressed" and not entry.wrote and self.value(entry, 1) is not None:
                self.store(entry)
            if entry.state == "done" and entry.real not in (None, entry.next) and self.asked.bug != 7:
                doings.append(lambda e=entry: self.recover(e) or True)
        done = [e for e in self.window if self.can_retire(e)]
        if done and self.asked.bug == 6:
            doings.append(lambda: self.retire(done[-1]) or True)
        elif done and done[0] is self.window[0]:
            doings.append(lambda: self.retire(done[0]) or True)
        self.rng.shuffle(doings)
        return any(doing() for doing in doings)


def main():
    parser = argparse.ArgumentParser(usage=__doc__.split("usage: ")[1], description="", add_help=True)
    parser.add_argument("listing")
    parser.add_argument("--seed", type=int, default=0)
    parser.add_argument("--bug", type=int, default=0)
    parser.add_argument("--ring", type=int, default=16)
    parser.add_argument("--queue", type=int, default=8)
    parser.add_argument("--events", type=int, default=1_000_000)
    parser.add_argument("--from", dest="says_from", action="store_true")
    parser.add_argument("--silent", action="store_true")
    asked = parser.parse_args()
    with open(asked.listing, encoding="ascii") as listing:
        simulator = Simulator(*read(listing.read()), asked)
    for _ in range(asked.events):
        if simulator.over or not simulator.turn():
            break


if __name__ == "__main__":
    sys.exit(main())
