"""An independent model of the machine against the library, through ruu.py, on random words and states: lockstep.py LIBRARY
HOW_MANY. A step in two tells what it changed, and after each some steps are made at once."""
import os
import random
import sys

sys.dont_write_bytecode = True
sys.path.insert(0, os.path.join(os.path.dirname(os.path.abspath(__file__)), "..", "crates", "ruu_step"))
import ruu

MASK, START, LO, HI = 0xFFFFFFFF, 0x400000, 32, 33
FUNCTIONS = [0, 2, 3, 4, 6, 7, 8, 9, 13, 16, 17, 18, 19, 24, 25, 26, 27, *range(32, 40), 42, 43]
OPCODES = [0] * 12 + [*range(1, 16), 32, 33, 35, 36, 37, 40, 41, 43]
EDGES = [0, 1, 2, 3, 4, 8, 60, 63, 64, MASK, MASK - 1, 0x7FFFFFFF, 0x80000000, 0x80000001, START]
WIDTHS = {32: 1, 33: 2, 35: 4, 36: 1, 37: 2, 40: 1, 41: 2, 43: 4}
NO_OPERATION, BREAK, OVERFLOW, UNALIGNED, RANGE, BADPC = -1, 1, 2, 3, 4, 5


def signed(n, bits=32):
    return n - (1 << bits) if n >> (bits - 1) else n


class Model:
    """What one step leaves of registers, memory and pc, and what it answers."""

    def __init__(self, text, memory, registers, pc):
        self.text, self.memory, self.registers, self.pc = text, bytearray(memory), list(registers), pc

    def step(self):
        # the registers that are written, and of a load or store the width, the address, whether it stores, and what
        self.written, self.touched = [], (0, 0, 0, 0)
        self.answer = self.stepped()
        return self.answer

    def stepped(self):
        place, odd = divmod((self.pc - START) & MASK, 4)
        if odd or place >= len(self.text):
            return BADPC
        word = self.text[place]
        self.next = (self.pc + 4) & MASK
        answer = self.special(word) if word >> 26 == 0 else self.other(word)
        if answer == 0:
            self.pc = self.next
        return answer

    def set(self, register, value):
        if register:
            self.registers[register] = value & MASK
            self.written.append(register)
        return 0

    def set_if_fits(self, register, value):
        return self.set(register, value) if -(1 << 31) <= value < 1 << 31 else OVERFLOW

    def set_pair(self, low, high):
        self.registers[LO], self.registers[HI] = low & MASK, high & MASK
        self.written = [LO, HI]
        return 0

    def go(self, target):
        self.next = target & MASK
        return 0

    def special(self, word):
        rd, amount, function = word >> 11 & 31, word >> 6 & 31, word & 63
        rs, rt = word >> 21 & 31, word >> 16 & 31
        a, b = self.registers[rs], self.registers[rt]
        unused = {
            **dict.fromkeys([0, 2, 3], rs), **dict.fromkeys([4, 6, 7], amount), 8: word >> 6 & 0x7FFF, 9: rt or amount, 13: word >> 6 & 0xFFFFF,
            **dict.fromkeys([16, 18], word >> 16 & 0x3FF or amount), **dict.fromkeys([17, 19], word >> 6 & 0x7FFF),
            **dict.fromkeys([24, 25, 26, 27], word >> 6 & 0x3FF), **dict.fromkeys([*range(32, 40), 42, 43], amount),
        }
        if unused.get(function, 1):
            return NO_OPERATION
        if function == 13:
            return BREAK
        if function == 8:
            return self.go(a)
        if function == 9:
            self.set(rd, self.next)
            return self.go(a)
        if function in (17, 19):
            return self.set(HI if function == 17 else LO, a)
        if function in (24, 25):
            product = signed(a) * signed(b) if function == 24 else a * b
            return self.set_pair(product, product >> 32)
        if function == 26:
            x, y = signed(a), signed(b)
            quotient = abs(x) // abs(y) * (-1 if (x < 0) != (y < 0) else 1) if y else 0
            return self.set_pair(quotient, x - quotient * y)
        if function == 27:
            return self.set_pair(a // b, a % b) if b else self.set_pair(0, a)
        if function in (32, 34):
            return self.set_if_fits(rd, signed(a) + (signed(b) if function == 32 else -signed(b)))
        n = amount if function < 4 else a & 31
        return self.set(rd, {
            0: b << n, 2: b >> n, 3: signed(b) >> n, 4: b << n, 6: b >> n, 7: signed(b) >> n, 16: self.registers[HI], 18: self.registers[LO],
            33: a + b, 35: a - b, 36: a & b, 37: a | b, 38: a ^ b, 39: ~(a | b), 42: int(signed(a) < signed(b)), 43: int(a < b),
        }[function])

    def other(self, word):
        op, rs, rt, low = word >> 26, word >> 21 & 31, word >> 16 & 31, word & 0xFFFF
        a, b, near = self.registers[rs], self.registers[rt], signed(word & 0xFFFF, 16)
        if op in (2, 3):
            if op == 3:
                self.set(31, self.next)
            return self.go(self.next & 0xF0000000 | (word & 0x3FFFFFF) << 2)
        if op == 1 and rt > 1 or op in (6, 7) and rt or op == 15 and rs:
            return NO_OPERATION
        if op in (1, 4, 5, 6, 7):
            taken = {1: (signed(a) < 0) == (rt == 0), 4: a == b, 5: a != b, 6: signed(a) <= 0, 7: signed(a) > 0}[op]
            return self.go(self.next + 4 * near) if taken else 0
        if op == 8:
            return self.set_if_fits(rt, signed(a) + near)
        if op in range(9, 16):
            values = [a + near, int(signed(a) < near), int(a < near & MASK), a & low, a | low, a ^ low, low << 16]
            return self.set(rt, values[op - 9])
        return self.access(op, rt, (a + near) & MASK, b) if op in WIDTHS else NO_OPERATION

    def access(self, op, rt, at, b):
        width = WIDTHS[op]
        if at % width:
            return UNALIGNED
        if at + width > len(self.memory):
            return RANGE
        self.touched = width, at, int(op >= 40), b & (1 << 8 * width) - 1 if op >= 40 else 0
        if op >= 40:
            self.memory[at : at + width] = (b & (1 << 8 * width) - 1).to_bytes(width, "little")
            return 0
        value = int.from_bytes(self.memory[at : at + width], "little")
        return self.set(rt, signed(value, 8 * width) if op < 35 else value)


def random_word(rng):
    word = rng.getrandbits(32)
    if rng.random() < 0.05:
        return word
    word = word & 0x3FFFFFF | rng.choice(OPCODES) << 26
    if word >> 26 == 0 and rng.random() < 0.9:
        word = word & ~63 | rng.choice(FUNCTIONS)
    for field, chance in ((6, 0.6), (21, 0.4), (16, 0.4), (11, 0.3)):
        if rng.random() < chance:
            word &= ~(31 << field)
    return word & ~0xFFC0 if word >> 26 > 31 and rng.random() < 0.6 else word


def expected_change(model, registers):
    """What the model's step changed, as the library tells it."""
    written = [r for r in model.written if r] if model.answer == 0 else []
    values = [it for r in written for it in (r, model.registers[r])] + [0] * (4 - 2 * len(written))
    return (len(written), *values, *(model.touched if model.answer == 0 else (0, 0, 0, 0)))


def told(change):
    registers = change.registers, change.first, change.first_value, change.second, change.second_value
    return *registers, change.width, change.address, change.is_store, change.stored


def refuses(call, *areas):
    try:
        call(*areas)
    except (TypeError, ValueError):
        return True
    return False


def refusals(machine):
    """Areas that are none are refused, and nothing is run."""
    text, memory, registers, pc = ruu.words([0x24010005]), ruu.data(4), ruu.words([0] * 34), ruu.word(START)
    areas = [text, memory, registers, pc]
    bad = [areas[:k] + [it] + areas[k + 1 :] for k in range(4) for it in (None, 7, ruu.data(34) if k != 1 else text)]
    bad.append([text, memory, ruu.words([0] * 33), pc])
    refused = [refuses(machine.step, *it) for it in bad] + [refuses(machine.run, *areas, it) for it in (None, -1, 1 << 64)]
    refused += [refuses(machine.step_told, *areas, it) for it in (None, 7, ruu.word(0))]
    if not all(refused) or pc.value != START:
        sys.exit("an area that is none is not refused")
    if machine.step(text, ruu.data(3), registers, pc) != ruu.SIZES or pc.value != START or machine.run(*areas, 9) != (ruu.BADPC, 1):
        sys.exit("ruu.py answers otherwise")
    if [ruu.stop_name(k) for k in (0, 5, -1, 99)] != ["went", "badpc", "no operation", "no answer"]:
        sys.exit("ruu.py names otherwise")


def many(machine, model, text, memory, registers, pc, steps):
    """So many steps at once leave what the model's leave."""
    areas = ruu.words(text), ruu.data(memory), ruu.words(registers), ruu.word(pc)
    given = machine.run(*areas, steps)
    done, answer = 0, 0
    while done < steps and (answer := model.step()) == 0:
        done += 1
    return (*given, bytes(areas[1]), list(areas[2]), areas[3].value) == (answer, done, bytes(model.memory), model.registers, model.pc)


def main():
    machine = ruu.load(sys.argv[1])
    refusals(machine)
    rng, answers = random.Random(7), {}
    for _ in range(int(sys.argv[2])):
        memory = rng.randbytes(rng.choice([0, 4, 64]))
        text = [random_word(rng) for _ in range(rng.randint(1, 3))]
        registers = [0] + [rng.choice(EDGES) if rng.random() < 0.6 else rng.getrandbits(32) for _ in range(33)]
        pc = START + 4 * rng.randrange(len(text) + (rng.random() < 0.1)) + (rng.random() < 0.03)
        model = Model(text, memory, registers, pc)
        wanted = model.step(), bytes(model.memory), model.registers, model.pc
        change, is_told = ruu.Change(9, 9, 9, 9, 9, 9, 9, 9, 9), rng.random() < 0.5
        areas = ruu.words(text), ruu.data(memory), ruu.words(registers), ruu.word(pc)
        answer = machine.step_told(*areas, change) if is_told else machine.step(*areas)
        if (answer, bytes(areas[1]), list(areas[2]), areas[3].value) != wanted:
            sys.exit(f"{[hex(it) for it in text]} at {pc:#x} with {registers}: answered {answer}, and {wanted[0]} was wanted")
        if is_told and told(change) != expected_change(model, registers):
            sys.exit(f"{[hex(it) for it in text]} at {pc:#x} with {registers}: told {told(change)}, and not {expected_change(model, registers)}")
        if not many(machine, Model(text, memory, registers, pc), text, memory, registers, pc, rng.randrange(4)):
            sys.exit(f"{[hex(it) for it in text]} at {pc:#x} with {registers}: many steps leave something else")
        answers[answer] = answers.get(answer, 0) + 1
    missing = {NO_OPERATION, 0, BREAK, OVERFLOW, UNALIGNED, RANGE, BADPC} - set(answers)
    if missing:
        sys.exit(f"no step answered {missing}")
    print(f"{sys.argv[2]} steps answer, change and leave what the model says; {answers[0]} of them went on")


main()
