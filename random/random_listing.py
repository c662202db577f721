#!/usr/bin/env python3
"""Writes a random listing that reaches its `break` and has every operation: `./ruu random`, whose path is the first word.

usage: ruu random [--seed N] [--kind even|dense|mixed] [--blocks N]

--seed N     one seed gives one listing (by default 0)
--kind KIND  even: each operation is as frequent as any other
             dense: most are loads and stores that meet in two words, some by addresses that come from memory
             mixed: an even block, then two dense ones, and so on (by default)
--blocks N   loops after the part that has each operation once (by default 12)

Data begins with random words. Branches go forwards, or back round a loop whose counter only falls; functions call only those
that stand after them; operands of `add`, `addi` and `sub` are cut to 15 bits, so that nothing overflows; each access is inside
data memory, at an aligned address. $26 and $27 count loops, $28 is the base of the data, $29 the stack pointer, $30 an address."""
import argparse
import os
import random
import sys
from typing import NamedTuple

START, DATA, STACK, FUNCTIONS = 0x400000, 256, 64, 4
THREE = "addu subu and or xor nor slt sltu sllv srlv srav".split()
CAREFUL = "add sub".split()
SHIFTS, SIGNED, UNSIGNED = "sll srl sra".split(), "addiu slti sltiu".split(), "andi ori xori".split()
PAIRS, FROM, TO = "mult multu div divu".split(), "mflo mfhi".split(), "mtlo mthi".split()
ACCESSES = {"lb": 1, "lbu": 1, "lh": 2, "lhu": 2, "lw": 4, "sb": 1, "sh": 2, "sw": 4}
ON_TWO, ON_ONE = "beq bne".split(), "blez bgtz bltz bgez".split()
OTHERS = [*THREE, *CAREFUL, *SHIFTS, *SIGNED, "addi", *UNSIGNED, "lui", *PAIRS, *FROM, *TO]
EDGES = [-32768, -1, 0, 1, 32767]
HALVES = [0, 1, 0x7FFF, 0x8000, 0xFFFF]


class Kind(NamedTuple):
    """How a part of a listing is drawn: of how many bytes its accesses are, how often each access is drawn for one of another
    operation, and how many of a hundred addresses come from memory."""

    data: int
    frequency: int
    from_memory: int


EVEN, DENSE = Kind(DATA, 1, 0), Kind(8, 8, 30)
KINDS = {"even": [EVEN], "dense": [DENSE], "mixed": [EVEN, DENSE, DENSE]}


class Listing:
    def __init__(self, seed, kind):
        self.rng, self.lines, self.labels, self.count, self.kind = random.Random(seed), [], {}, 0, kind

    def put(self, text):
        self.lines.append(f"        {text}")
        self.count += 1

    def label(self, name):
        self.lines.append(f"{name}:")
        self.labels[name] = START + 4 * self.count

    def register(self):
        return f"${self.rng.randrange(26)}"

    def number(self):
        return self.rng.choice(EDGES) if self.rng.random() < 0.3 else self.rng.randint(-32768, 32767)

    def half(self):
        return self.rng.choice([*HALVES, self.rng.randrange(65536)])

    def operation(self, op):
        """One operation after which the next one is run, with what it needs before it."""
        rng, d, s, t = self.rng, self.register(), self.register(), self.register()
        if op in ACCESSES:
            self.access(op)
        elif op in CAREFUL:
            self.put(f"andi $30,{s},32767")
            self.put(f"{op} {d},$30,$30")
        elif op == "addi":
            self.put(f"andi $30,{s},32767")
            self.put(f"addi {d},$30,{self.number()}")
        elif op in THREE:
            self.put(f"{op} {d},{s},{t}")
        elif op in SHIFTS:
            self.put(f"{op} {d},{s},{rng.randrange(32)}")
        elif op in SIGNED:
            self.put(f"{op} {d},{s},{self.number()}")
        elif op in UNSIGNED:
            self.put(f"{op} {d},{s},{self.number() & 0xffff}")
        elif op == "lui":
            self.put(f"lui {d},{self.number() & 0xffff}")
        elif op in PAIRS:
            self.put(f"{op} {s},{t}")
        else:
            self.put(f"{op} {d if op in FROM else s}")

    def access(self, op):
        """A load or store: at a fixed address, or at one that is computed, some of these from a word of memory."""
        rng, width, data, register = self.rng, ACCESSES[op], self.kind.data, self.register()
        if rng.random() >= 0.4:
            self.put(f"{op} {register},{rng.randrange(0, data, width)}($28)")
            return
        source, mask = self.register(), data // 2 - width
        if rng.randrange(100) < self.kind.from_memory:
            self.put(f"lw $30,{rng.randrange(0, data, 4)}($28)")
            source = "$30"
        self.put(f"andi $30,{source},{mask - mask % width}")
        self.put("addu $30,$30,$28")
        self.put(f"{op} {register},{rng.randrange(0, data // 2, width)}($30)")

    def one(self):
        often = [it for it in ACCESSES for _ in range(self.kind.frequency)]
        self.operation(self.rng.choice([*OTHERS, *often]))

    def some(self, least, most):
        for _ in range(self.rng.randint(least, most)):
            self.one()

    def branch(self, op, name):
        """A branch over some operations: with the wrong prediction they are on a wrong path."""
        registers = f"{self.register()},{self.register()}" if op in ON_TWO else self.register()
        self.put(f"{op} {registers},{name}")
        self.some(0, 5)
        self.label(name)

    def jump(self, name):
        self.put(f"j {name}")
        self.some(1, 3)
        self.label(name)

    def loop(self, counter, name, body):
        """A few rounds of a loop."""
        self.put(f"addiu {counter},$0,{self.rng.randint(1, 6)}")
        self.label(name)
        body()
        self.put(f"addiu {counter},{counter},-1")
        self.put(f"{self.rng.choice(['bgtz ' + counter, 'bne ' + counter + ',$0'])},{name}")

    def call(self, op, name):
        if op == "jal":
            self.put(f"jal {name}")
            return
        self.put(f"lui $30,{{{name}}} / 65536")
        self.put(f"ori $30,$30,{{{name}}} % 65536")
        self.put(f"jalr {'$30' if self.rng.random() < 0.5 else '$31,$30'}")

    def call_any(self, first):
        self.call(self.rng.choice(["jal", "jalr"]), f"function{self.rng.randint(first, FUNCTIONS - 1)}")

    def function(self, number):
        self.label(f"function{number}")
        self.put("addiu $29,$29,-4")
        self.put("sw $31,0($29)")
        self.some(2, 8)
        self.loop("$26", f"round{number}", lambda: self.some(1, 5))
        if number < FUNCTIONS - 1 and self.rng.random() < 0.7:
            self.call_any(number + 1)
        self.put("lw $31,0($29)")
        self.put("addiu $29,$29,4")
        self.put("jr $31")

    def begin(self):
        """The base of the data, the stack pointer, and a value in each other register."""
        self.put("addiu $28,$0,0")
        self.put(f"addiu $29,$0,{DATA + STACK}")
        for r in range(1, 26):
            self.put(f"lui ${r},{self.half()}")
            self.put(f"ori ${r},${r},{self.half()}")

    def each_operation(self):
        parts = [*OTHERS, *ACCESSES, *ON_TWO, *ON_ONE, "j", "jal", "jalr"]
        self.rng.shuffle(parts)
        for at, op in enumerate(parts):
            if op in ON_TWO + ON_ONE:
                self.branch(op, f"over{at}")
            elif op == "j":
                self.jump(f"over{at}")
            elif op in ("jal", "jalr"):
                self.call(op, f"function{self.rng.randrange(FUNCTIONS)}")
            else:
                self.operation(op)

    def block(self, number):
        self.some(1, 6)
        self.branch(self.rng.choice(ON_TWO + ON_ONE), f"inside{number}")
        if self.rng.random() < 0.5:
            self.call_any(0)

    def filled(self, line):
        """A line, with the address of a label in the place of its name in braces."""
        head, brace, rest = line.partition("{")
        name, _, tail = rest.partition("}")
        return head + str(self.labels[name] // 65536 if "/" in tail else self.labels[name] % 65536) if brace else line

    def text(self):
        words = [self.rng.choice([self.half() << 16 | self.half(), self.rng.randrange(1 << 32)]) for _ in range(DATA // 4)]
        rows = [words[at : at + 8] for at in range(0, len(words), 8)]
        data = [f"        .word {','.join(f'0x{it:08x}' for it in row)}" for row in rows]
        return "\n".join([*data, f"        .space {STACK}", *map(self.filled, self.lines)]) + "\n"


def listing(seed, kinds, blocks):
    made = Listing(seed, kinds[0])
    made.begin()
    made.each_operation()
    for number in range(blocks):
        made.kind = kinds[number % len(kinds)]
        made.loop("$27", f"block{number}", lambda number=number: made.block(number))
    made.put("break")
    for number in range(FUNCTIONS):
        made.kind = kinds[number % len(kinds)]
        made.function(number)
    return made.text()


def number(least, most):
    """Reads a number of this range, as `argparse` wants it."""
    def read(text):
        if not text.isascii() or not text.isdigit() or not least <= int(text) <= most:
            raise argparse.ArgumentTypeError(f"takes a number from {least} to {most}")
        return int(text)
    return read


def asked(words):
    """What the words ask for; a mistake ends the program with status 3."""
    class Reader(argparse.ArgumentParser):
        def error(self, message):
            self.exit(3, f"error: {message}\n\nFor more information, try 'ruu random --help'.\n")

    reader = Reader(prog="ruu random", add_help=False, allow_abbrev=False)
    reader.add_argument("--seed", type=number(0, 2**64 - 1), default=0)
    reader.add_argument("--kind", choices=sorted(KINDS), default="mixed")
    reader.add_argument("--blocks", type=number(0, 1000), default=12)
    return reader.parse_args(words)


def main(words):
    wanted = asked(words)
    try:
        sys.stdout.write(listing(wanted.seed, KINDS[wanted.kind], wanted.blocks))
        sys.stdout.flush()
    except OSError:
        # what is left in the buffer goes nowhere
        os.dup2(os.open(os.devnull, os.O_WRONLY), sys.stdout.fileno())
        return 5
    return 0


if __name__ == "__main__":
    sys.exit(main(sys.argv[2:]))
